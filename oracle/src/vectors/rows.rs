//! Row calls. Answers are kept and come back as old sheets and as guests, so that
//! tables nest.

use super::{Set, answer, giants, with_store};
use crate::call::Finding;
use crate::damage;
use crate::format::{
    Cell, Line, Piece, Rules, read_sheet, write_cells, write_job, write_prefixes, write_sheet,
};
use crate::make::{self, STYLES};
use crate::random::Rng;
use crate::record::{BORDERS, Kind, PAD, Record, THIRD};

type Lines = Vec<Line<Vec<u8>>>;

/// The sheets that are kept, and their greatest length.
const KEPT_SHEETS: usize = 48;
const KEPT_BYTES: usize = 1200;

/// One call in this many is a giant.
const GIANTS: usize = 400;

/// Good row calls.
pub struct Rows {
    rng: Rng,
    kept: Vec<Lines>,
}

impl Rows {
    pub fn new(seed: u64) -> Rows {
        Rows {
            rng: Rng::new(seed),
            kept: Vec::new(),
        }
    }

    fn question(&mut self) -> Record {
        if self.rng.once_in(GIANTS) {
            return giants::call(&mut self.rng);
        }
        match self.rng.below(7) {
            0 | 1 => self.subrender(),
            2 => self.vertical(),
            _ => self.columns(),
        }
    }

    fn subrender(&mut self) -> Record {
        let old = self.old();
        let guest = self.guest();
        let prefixes = prefixes(&mut self.rng);
        let inputs = vec![sheet(&old), sheet(&guest), write_prefixes(&prefixes)];
        Record::new(Kind::Subrender, params(&mut self.rng, &old), inputs)
    }

    fn vertical(&mut self) -> Record {
        let old = self.old();
        let inputs = vec![sheet(&old), write_cells(&self.cells())];
        let mut params = params(&mut self.rng, &old);
        params[1] &= PAD | BORDERS;
        Record::new(Kind::Vertical, params, inputs)
    }

    fn columns(&mut self) -> Record {
        let mut old = self.old();
        let cells = self.cells();
        let params = params(&mut self.rng, &old);
        if params[1] & THIRD != 0 && !self.rng.once_in(3) {
            let width = cells.iter().map(|cell| usize::from(cell.width) + 1).sum();
            old.push(make::border(&mut self.rng, width));
        }
        let inputs = vec![sheet(&old), write_cells(&cells)];
        Record::new(Kind::Columns, params, inputs)
    }

    /// A sheet to add to.
    fn old(&mut self) -> Lines {
        let width = self.rng.between(1, 24);
        match self.rng.below(8) {
            0 => Vec::new(),
            1 | 2 => vec![make::border(&mut self.rng, width)],
            3 => make::lines(&mut self.rng, width, 4),
            _ => self.kept_sheet(),
        }
    }

    /// Lines to add: an earlier answer, a block's text, lines drawn here, none.
    fn guest(&mut self) -> Lines {
        let width = self.rng.between(1, 12);
        match self.rng.below(8) {
            0 => Vec::new(),
            1 | 2 => make::lines(&mut self.rng, width, 5),
            3 | 4 => block(&mut self.rng),
            _ => self.kept_sheet(),
        }
    }

    fn kept_sheet(&mut self) -> Lines {
        if self.kept.is_empty() {
            return Vec::new();
        }
        let place = self.rng.below(self.kept.len());
        self.kept[place].clone()
    }

    fn cells(&mut self) -> Vec<Cell<Vec<u8>>> {
        let count = match self.rng.below(30) {
            0 => 0,
            1 => self.rng.between(14, 17),
            2 => self.rng.between(4, 8),
            _ => self.rng.between(1, 3),
        };
        (0..count).map(|_| self.cell()).collect()
    }

    fn cell(&mut self) -> Cell<Vec<u8>> {
        let lines = self.guest();
        let natural = lines.iter().map(columns_of).max().unwrap_or(0);
        let width = match self.rng.below(12) {
            0 => self.rng.between(1, 255),
            1 | 2 => self.rng.between(1, natural.clamp(1, 255)),
            3 => natural + 1,
            4 => natural + self.rng.below(6),
            _ => natural,
        };
        Cell {
            width: width.clamp(1, 255) as u8,
            span: None,
            lines,
        }
    }
}

impl Set for Rows {
    fn next(&mut self) -> Result<Record, Finding> {
        let record = self.question();
        with_store(&mut self.rng, record)
    }

    fn learn(&mut self, answered: &Record) {
        let Some(reply) = &answered.reply else { return };
        if reply.answer.number != 0 || reply.sheet.len() > KEPT_BYTES {
            return;
        }
        let lines = owned(&reply.sheet);
        if self.kept.len() < KEPT_SHEETS {
            self.kept.push(lines);
        } else {
            let place = self.rng.below(KEPT_SHEETS);
            self.kept[place] = lines;
        }
    }
}

/// Row calls with damage in their inputs or their width.
pub struct Damaged {
    rows: Rows,
}

impl Damaged {
    pub fn new(seed: u64) -> Damaged {
        Damaged {
            rows: Rows::new(seed),
        }
    }
}

impl Set for Damaged {
    fn next(&mut self) -> Result<Record, Finding> {
        let mut record = self.rows.question();
        let rng = &mut self.rows.rng;
        // The calls that stay whole feed the pool.
        if !rng.once_in(4) {
            hurt(rng, Rules::Spans, &mut record);
        }
        with_store(rng, record)
    }

    fn learn(&mut self, answered: &Record) {
        self.rows.learn(answered);
    }
}

pub(super) fn hurt(rng: &mut Rng, rules: Rules, record: &mut Record) {
    if rng.once_in(8) {
        record.params[0] = 0;
    }
    let shape_stays = !rng.once_in(3);
    for _ in 0..rng.between(1, 3) {
        let place = rng.below(record.inputs.len());
        if shape_stays {
            damage::value(rng, rules, &mut record.inputs[place]);
        } else {
            damage::bytes(rng, rules, &mut record.inputs[place]);
        }
    }
}

fn sheet(lines: &Lines) -> Vec<u8> {
    write_sheet(lines).expect("a small sheet")
}

/// A width that goes with the old sheet or does not, flags, annotation.
fn params(rng: &mut Rng, old: &Lines) -> [u8; 5] {
    let natural = old.iter().map(columns_of).max().unwrap_or(0);
    let width = match rng.below(4) {
        0 => rng.between(1, 255),
        1 => rng.between(1, 30),
        _ => natural.clamp(1, 255),
    };
    let pad = if rng.once_in(4) { PAD } else { 0 };
    let borders = if rng.once_in(4) { 0 } else { BORDERS };
    let third = if rng.once_in(2) { THIRD } else { 0 };
    let annotation = make::annotation(rng);
    [width as u8, pad | borders | third, annotation, 0, 0]
}

pub(super) fn prefixes(rng: &mut Rng) -> Vec<Vec<u8>> {
    let count = rng.below(6);
    let style = rng.pick(&STYLES);
    let prefix = |rng: &mut Rng| {
        let bytes = rng.below(6);
        make::plain(rng, style, bytes)
    };
    (0..count).map(|_| prefix(rng)).collect()
}

pub(super) fn columns_of(line: &Line<Vec<u8>>) -> usize {
    let text_columns = |piece: &Piece<Vec<u8>>| match piece {
        Piece::Text { text, .. } => {
            let text = String::from_utf8_lossy(text);
            unicode_width::UnicodeWidthStr::width(&*text)
        }
        Piece::Name(_) => 0,
    };
    match line {
        Line::Text(pieces) => pieces.iter().map(text_columns).sum(),
        Line::Border { segments, .. } => segments.len(),
    }
}

/// The lines of a sheet that the oracle wrote.
fn owned(bytes: &[u8]) -> Lines {
    let sheet = read_sheet(bytes, Rules::STORED).expect("an answer is a sheet");
    sheet.map(<[u8]>::to_vec).lines
}

/// The lines of a small random job, if it has any.
fn block(rng: &mut Rng) -> Lines {
    let units = rng.below(40);
    let mut job = make::job(rng, units);
    job.width = rng.between(1, 12) as u8;
    job.overflow |= job.width == 1;
    let mut record = Record::job(write_job(&job));
    record.store = KEPT_BYTES;
    answer(&mut record, Rules::STORED).unwrap_or_else(|finding| panic!("FINDING: {}", finding.0));
    match record.reply {
        Some(reply) if reply.answer.number == 0 => owned(&reply.sheet),
        _ => Vec::new(),
    }
}
