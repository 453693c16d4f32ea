//! Request 2.2: jobs that end with names, and row calls on sheets at whose end names wait.
//! Answers are kept and come back as old sheets, as guests and in cells.

mod chain;
mod edges;
mod giants;

pub use chain::Chain;
pub use edges::{Edges, inputs_by_hand};

use super::spans::draw::{self, Cells, Sheet, Size};
use super::spans::{self, Call, Spans, natural_width, owned};
use super::{Set, answer, rows, with_store};
use crate::call::Finding;
use crate::checks::{Input, part_units};
use crate::format::{Contents, Rules, write_cells, write_job};
use crate::random::Rng;
use crate::record::{Kind, Record};
use crate::{damage, make};

/// One call in this many is a giant.
const GIANTS: usize = 400;

/// The longest sheet of a job that a call builds on.
const JOB_SHEET: usize = 600;

/// Jobs that end with names.
pub struct Jobs {
    rng: Rng,
}

impl Jobs {
    pub fn new(seed: u64) -> Jobs {
        Jobs {
            rng: Rng::new(seed),
        }
    }
}

impl Set for Jobs {
    fn next(&mut self) -> Result<Record, Finding> {
        let units = make::size(&mut self.rng);
        let record = job(&mut self.rng, units);
        with_store(&mut self.rng, record)
    }
}

/// A job of that many units, if its ending does not have more.
fn job(rng: &mut Rng, units: usize) -> Record {
    let ending = make::ending(rng);
    let ended: usize = ending.iter().map(part_units).sum();
    let mut job = make::job(rng, units.saturating_sub(ended));
    job.parts.extend(ending);
    if rng.once_in(2) {
        job.width = rng.between(1, 4) as u8;
    }
    Record::job(write_job(&job))
}

/// The sheet of a small job that ends with names; one without lines if it is refused.
fn sheet_of_job(rng: &mut Rng) -> Sheet {
    let units = rng.below(30);
    let mut record = job(rng, units);
    record.store = JOB_SHEET;
    answer(&mut record, Rules::STORED).unwrap_or_else(|finding| panic!("FINDING: {}", finding.0));
    match record.reply {
        Some(reply) if reply.answer.number == 0 => owned(&reply.sheet),
        _ => Contents::from(Vec::new()),
    }
}

/// Puts the lines of a job's sheet into a cell.
fn job_in_cell(rng: &mut Rng, cells: &mut Cells) {
    if !cells.is_empty() {
        let place = rng.below(cells.len());
        let lines = sheet_of_job(rng).lines;
        cells[place].width = natural_width(&lines);
        cells[place].lines = lines;
    }
}

/// Row calls with names that wait, on the old sheet, on the guest or on both.
pub struct Names {
    spans: Spans,
}

impl Names {
    pub fn new(seed: u64) -> Names {
        Names {
            spans: Spans::new(seed),
        }
    }

    fn question(&mut self) -> Record {
        if self.spans.rng.once_in(GIANTS) {
            return giants::call(&mut self.spans.rng);
        }
        loop {
            let size = self.spans.rng.pick(&[Size::Tiny, Size::Tiny, Size::Usual]);
            let mut call = self.spans.call(size);
            named(&mut self.spans.rng, &mut call);
            let guest = call.kind == Kind::Subrender && !call.guest.names.is_empty();
            if guest || !call.old.names.is_empty() {
                return call.record();
            }
        }
    }
}

/// Lets names wait, and takes some of the cells that span rows away.
fn named(rng: &mut Rng, call: &mut Call) {
    if rng.once_in(3) {
        call.kind = rng.pick(&[Kind::Subrender, Kind::Subrender, Kind::Vertical]);
    }
    match rng.below(8) {
        0 => call.old = sheet_of_job(rng),
        1 => call.guest = sheet_of_job(rng),
        2 => job_in_cell(rng, &mut call.cells),
        _ => (),
    }
    if call.old.names.is_empty() && !rng.once_in(6) {
        call.old.names = make::names(rng);
    }
    if call.guest.names.is_empty() && rng.once_in(3) {
        call.guest.names = make::names(rng);
    }
    let plain = rng.once_in(2);
    if plain {
        call.old.hanging.clear();
        call.guest.hanging.clear();
    }
    if plain || (call.kind == Kind::Vertical && !rng.once_in(12)) {
        call.cells.iter_mut().for_each(|cell| cell.span = None);
    }
}

impl Set for Names {
    fn next(&mut self) -> Result<Record, Finding> {
        let record = self.question();
        with_store(&mut self.spans.rng, record)
    }

    fn learn(&mut self, answered: &Record) {
        self.spans.learn(answered);
    }
}

/// The same with damage in the inputs or the width, often an F field out of place.
pub struct Damaged {
    names: Names,
}

impl Damaged {
    pub fn new(seed: u64) -> Damaged {
        Damaged {
            names: Names::new(seed),
        }
    }
}

impl Set for Damaged {
    fn next(&mut self) -> Result<Record, Finding> {
        let mut record = self.names.question();
        let rng = &mut self.names.spans.rng;
        match rng.below(8) {
            // The calls that stay whole feed the pool.
            0 => (),
            1..5 => {
                let place = rng.below(record.inputs.len());
                damage::put_name(rng, &mut record.inputs[place]);
            }
            _ => rows::hurt(rng, Rules::Names, &mut record),
        }
        with_store(rng, record)
    }

    fn learn(&mut self, answered: &Record) {
        self.names.learn(answered);
    }
}

/// A sheet at whose end names wait, or a list of cells.
pub fn input(rng: &mut Rng, input: Input) -> Vec<u8> {
    let size = rng.pick(&[Size::Tiny, Size::Tiny, Size::Usual]);
    match input {
        Input::Cells => write_cells(&draw::crooked(rng, size)),
        _ => {
            let mut sheet = draw::sheet(rng, size);
            sheet.names = make::names(rng);
            spans::bytes(&sheet)
        }
    }
}
