//! Chains of calls, each on the sheet that the last one gave: tables drawn row by row, with
//! guests and vertical rows between.

use super::draw::{self, Cells, Sheet, Size};
use super::{Call, owned, params};
use crate::call::Finding;
use crate::format::{Cell, Contents, Rules};
use crate::make;
use crate::random::Rng;
use crate::record::{Kind, Record};
use crate::vectors::{Set, answer, rows, with_store};

/// The most calls in a chain.
const LONGEST: usize = 6;

/// A sheet longer than this ends its chain.
const LONG: usize = 4_000;

/// What the calls of a chain have in common.
struct Plan {
    size: Size,
    params: [u8; 5],
    /// The widths of the table's columns.
    columns: Vec<usize>,
    calls: usize,
    sheet: Sheet,
}

pub struct Chain {
    rng: Rng,
    plan: Plan,
}

impl Chain {
    pub fn new(seed: u64) -> Chain {
        let mut rng = Rng::new(seed);
        let plan = plan(&mut rng);
        Chain { rng, plan }
    }

    fn call(&mut self) -> Call {
        let Chain { rng, plan } = self;
        let kind = match rng.below(8) {
            0 => Kind::Subrender,
            1 => Kind::Vertical,
            _ => Kind::Columns,
        };
        let mut cells = match rng.below(6) {
            0 => draw::crooked(rng, plan.size),
            1 => draw::fitted(rng, plan.size, &plan.sheet.hanging),
            _ => grid_row(rng, plan),
        };
        if kind == Kind::Vertical {
            cells.iter_mut().for_each(|cell| cell.span = None);
        }
        let params = if rng.once_in(8) {
            params(rng, plan.size)
        } else {
            plan.params
        };
        Call {
            kind,
            params,
            old: plan.sheet.clone(),
            guest: draw::sheet(rng, plan.size),
            prefixes: rows::prefixes(rng),
            cells,
        }
    }

    /// Goes on with the sheet that a call gives, or with a new chain.
    fn go_on(&mut self, mut record: Record) -> Result<(), Finding> {
        answer(&mut record, Rules::STORED)?;
        if let Some(reply) = &record.reply {
            record.store = reply.answer.length;
        }
        answer(&mut record, Rules::STORED)?;
        let reply = record.reply.expect("an answered record");
        self.plan.calls -= 1;
        let ends = self.plan.calls == 0 || reply.sheet.len() > LONG;
        if ends || reply.answer.number != 0 {
            self.plan = plan(&mut self.rng);
        } else {
            self.plan.sheet = owned(&reply.sheet);
        }
        Ok(())
    }
}

impl Set for Chain {
    fn next(&mut self) -> Result<Record, Finding> {
        let record = self.call().record();
        self.go_on(record.clone())?;
        with_store(&mut self.rng, record)
    }
}

fn plan(rng: &mut Rng) -> Plan {
    let size = rng.pick(&[Size::Tiny, Size::Tiny, Size::Usual]);
    let widest = if size == Size::Tiny { 2 } else { 6 };
    let count = rng.between(1, 4);
    let columns: Vec<usize> = (0..count).map(|_| rng.between(1, widest)).collect();
    let width = columns.iter().map(|width| width + 1).sum::<usize>() - 1;
    let mut params = params(rng, size);
    params[0] = width as u8;
    let sheet = match rng.below(4) {
        0 => Contents::from(Vec::new()),
        1 => draw::sheet(rng, size),
        _ => Contents::from(vec![make::border(rng, width)]),
    };
    Plan {
        size,
        params,
        columns,
        calls: rng.between(2, LONGEST),
        sheet,
    }
}

/// A row of the table: a cell for each column, without lines and span under what hangs.
/// Now and then all are such, as where the crate's table ends, or the row ends early.
fn grid_row(rng: &mut Rng, plan: &Plan) -> Cells {
    let ended = rng.once_in(12);
    let mut next = 0;
    let cell = |width: &usize| {
        let position = next;
        next += width + 1;
        let hung = plan.sheet.hanging.iter();
        let covered = hung.clone().any(|hung| hung.position == position);
        if ended || covered {
            return Cell {
                width: *width as u8,
                span: None,
                lines: Vec::new(),
            };
        }
        draw::cell_of(rng, plan.size, *width)
    };
    let mut cells: Cells = plan.columns.iter().map(cell).collect();
    if rng.once_in(8) {
        cells.pop();
    }
    cells
}
