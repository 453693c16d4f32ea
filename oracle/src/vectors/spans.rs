//! Row calls with K, G and V fields (request 2.1). Answers are kept and come back as old
//! sheets, as guests and in cells.

mod chain;
pub(super) mod draw;
mod edges;
mod giants;

pub use chain::Chain;
pub use edges::Edges;

pub use edges::inputs_by_hand;
pub(super) use edges::{changed, known, passes};

use super::{Set, rows, with_store};
use crate::call::Finding;
use crate::checks::Input;
use crate::format::{Cell, Line, Rules, read_sheet, write_cells, write_contents, write_prefixes};
use crate::random::Rng;
use crate::record::{BORDERS, Kind, PAD, Record, THIRD};
use draw::{Cells, Lines, Sheet, Size};

/// The sheets that are kept, and their greatest length.
const KEPT_SHEETS: usize = 48;
const KEPT_BYTES: usize = 600;

/// One call in this many is a giant.
const GIANTS: usize = 400;

/// Row calls that pass refusals 1 to 3, but for 17 cells and a K in `append_vert_row`.
pub struct Spans {
    pub(super) rng: Rng,
    kept: Vec<Sheet>,
}

impl Spans {
    pub fn new(seed: u64) -> Spans {
        Spans {
            rng: Rng::new(seed),
            kept: Vec::new(),
        }
    }

    /// A call in which there is a K, G or V field.
    fn question(&mut self) -> Record {
        if self.rng.once_in(GIANTS) {
            return giants::call(&mut self.rng);
        }
        loop {
            let size = self.rng.pick(&[Size::Tiny, Size::Tiny, Size::Usual]);
            let call = self.call(size);
            if call.has_spans() {
                return call.record();
            }
        }
    }

    pub(super) fn call(&mut self, size: Size) -> Call {
        let old = self.sheet(size);
        let kind = match self.rng.below(12) {
            0 | 1 => Kind::Subrender,
            2 => Kind::Vertical,
            _ => Kind::Columns,
        };
        let cells = match kind {
            Kind::Columns if self.rng.once_in(3) => draw::fitted(&mut self.rng, size, &old.hanging),
            _ => draw::crooked(&mut self.rng, size),
        };
        let mut call = Call {
            kind,
            params: params(&mut self.rng, size),
            guest: self.sheet(size),
            prefixes: rows::prefixes(&mut self.rng),
            old,
            cells,
        };
        if self.rng.once_in(6) {
            self.nest(&mut call.cells);
        }
        if self.rng.once_in(8) {
            draw::widen(&mut self.rng, &mut call.old.hanging);
        }
        if kind == Kind::Vertical && !self.rng.once_in(12) {
            call.cells.iter_mut().for_each(|cell| cell.span = None);
        }
        if kind == Kind::Columns && call.params[1] & THIRD != 0 && self.rng.once_in(2) {
            let width = call
                .cells
                .iter()
                .map(|cell| usize::from(cell.width) + 1)
                .sum();
            call.old
                .lines
                .push(crate::make::border(&mut self.rng, width));
        }
        call
    }

    /// A sheet drawn here or an earlier answer.
    fn sheet(&mut self, size: Size) -> Sheet {
        if self.kept.is_empty() || size == Size::Tiny || self.rng.once_in(3) {
            return draw::sheet(&mut self.rng, size);
        }
        let place = self.rng.below(self.kept.len());
        self.kept[place].clone()
    }

    /// Puts the lines of an earlier answer into a cell.
    fn nest(&mut self, cells: &mut [Cell<Vec<u8>>]) {
        if cells.is_empty() || self.kept.is_empty() {
            return;
        }
        let place = self.rng.below(self.kept.len());
        let lines = self.kept[place].lines.clone();
        let place = self.rng.below(cells.len());
        cells[place].width = natural_width(&lines);
        cells[place].lines = lines;
    }
}

impl Set for Spans {
    fn next(&mut self) -> Result<Record, Finding> {
        let record = self.question();
        with_store(&mut self.rng, record)
    }

    fn learn(&mut self, answered: &Record) {
        let Some(reply) = &answered.reply else { return };
        if reply.answer.number != 0 || reply.sheet.len() > KEPT_BYTES {
            return;
        }
        let sheet = owned(&reply.sheet);
        if self.kept.len() < KEPT_SHEETS {
            self.kept.push(sheet);
        } else {
            let place = self.rng.below(KEPT_SHEETS);
            self.kept[place] = sheet;
        }
    }
}

/// The same with damage in the inputs or the width.
pub struct Damaged {
    spans: Spans,
}

impl Damaged {
    pub fn new(seed: u64) -> Damaged {
        Damaged {
            spans: Spans::new(seed),
        }
    }
}

impl Set for Damaged {
    fn next(&mut self) -> Result<Record, Finding> {
        let mut record = self.spans.question();
        let rng = &mut self.spans.rng;
        // The calls that stay whole feed the pool.
        if !rng.once_in(6) {
            rows::hurt(rng, Rules::Spans, &mut record);
        }
        with_store(rng, record)
    }

    fn learn(&mut self, answered: &Record) {
        self.spans.learn(answered);
    }
}

/// A sheet or a list of cells.
pub fn input(rng: &mut Rng, input: Input) -> Vec<u8> {
    let size = rng.pick(&[Size::Tiny, Size::Tiny, Size::Usual]);
    match input {
        Input::Cells => write_cells(&draw::crooked(rng, size)),
        _ => bytes(&draw::sheet(rng, size)),
    }
}

/// A call whose inputs are not bytes yet; a kind leaves out what it does not take.
pub(super) struct Call {
    pub(super) kind: Kind,
    pub(super) params: [u8; 5],
    pub(super) old: Sheet,
    pub(super) guest: Sheet,
    pub(super) prefixes: Vec<Vec<u8>>,
    pub(super) cells: Cells,
}

impl Call {
    /// Does a K, G or V field occur?
    fn has_spans(&self) -> bool {
        let in_sheet = |sheet: &Sheet| !sheet.hanging.is_empty() || has_holes(&sheet.lines);
        let in_cell = |cell: &Cell<Vec<u8>>| cell.span.is_some() || has_holes(&cell.lines);
        in_sheet(&self.old)
            || match self.kind {
                Kind::Subrender => in_sheet(&self.guest),
                _ => self.cells.iter().any(in_cell),
            }
    }

    pub(super) fn record(&self) -> Record {
        let old = bytes(&self.old);
        let mut params = self.params;
        let inputs = match self.kind {
            Kind::Subrender => vec![old, bytes(&self.guest), write_prefixes(&self.prefixes)],
            _ => vec![old, write_cells(&self.cells)],
        };
        if self.kind == Kind::Vertical {
            params[1] &= PAD | BORDERS;
        }
        Record::new(self.kind, params, inputs)
    }
}

fn has_holes(lines: &Lines) -> bool {
    let holed = |line: &Line<Vec<u8>>| match line {
        Line::Border { holes, .. } => !holes.is_empty(),
        Line::Text(_) => false,
    };
    lines.iter().any(holed)
}

pub(super) fn bytes(sheet: &Sheet) -> Vec<u8> {
    write_contents(sheet).expect("a small sheet")
}

/// A sheet that the oracle wrote.
pub(super) fn owned(bytes: &[u8]) -> Sheet {
    let sheet = read_sheet(bytes, Rules::STORED).expect("an answer is a sheet");
    sheet.map(<[u8]>::to_vec)
}

/// The width of a cell that holds these lines.
pub(super) fn natural_width(lines: &Lines) -> u8 {
    let natural = lines.iter().map(rows::columns_of).max().unwrap_or(0);
    natural.clamp(1, 255) as u8
}

/// A width, flags, annotation.
pub(super) fn params(rng: &mut Rng, size: Size) -> [u8; 5] {
    let width = match size {
        Size::Tiny => rng.between(1, 9),
        Size::Usual if rng.once_in(20) => rng.between(1, 255),
        Size::Usual => rng.between(1, 40),
    };
    let pad = if rng.once_in(5) { PAD } else { 0 };
    let borders = if rng.once_in(6) { 0 } else { BORDERS };
    let third = if rng.once_in(2) { THIRD } else { 0 };
    let annotation = crate::make::annotation(rng);
    [width as u8, pad | borders | third, annotation, 0, 0]
}
