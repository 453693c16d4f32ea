//! Calls at the limits of refusals 7 and 9 for G and V fields, alone and beside others.

use super::draw::Lines;
use crate::format::{
    Cell, Contents, Hanging, Hole, Line, MOST, Piece, push_field, write_cells, write_contents,
    write_prefixes,
};
use crate::random::Rng;
use crate::record::{BORDERS, Kind, PAD, Record, THIRD};

const EMPTY: &[u8] = b"H\0\x02\0\0";

/// What comes with the call, and how far past a limit it goes.
#[derive(Clone, Copy)]
pub struct Plan {
    params: [u8; 5],
    past: usize,
    /// A width, or another number that is free.
    free: usize,
}

impl Plan {
    fn draw(rng: &mut Rng) -> Plan {
        let pad = rng.pick(&[0, 0, 0, PAD]);
        let borders = rng.pick(&[0, BORDERS, BORDERS, BORDERS]);
        let third = rng.pick(&[0, THIRD]);
        Plan {
            params: [
                rng.byte().max(1),
                pad | borders | third,
                rng.pick(&[0, 1]),
                0,
                0,
            ],
            past: rng.below(3),
            free: rng.between(12, 255),
        }
    }

    fn borders(self) -> bool {
        self.params[1] & BORDERS != 0
    }

    fn columns(self, old: Vec<u8>, cells: &[Cell<Vec<u8>>]) -> Record {
        Record::new(Kind::Columns, self.params, vec![old, write_cells(cells)])
    }
}

/// Each giant, by its plan.
const GIANTS: [fn(Plan) -> Record; 9] = [
    long_new_border,
    long_hanging_cell,
    long_old_border,
    far_line,
    far_border,
    far_hole,
    drawn_guest,
    full_sheet,
    full_with_long_cell,
];

pub fn call(rng: &mut Rng) -> Record {
    let giant = rng.pick(&GIANTS);
    giant(Plan::draw(rng))
}

/// Each giant just at its limit and one past it, with borders and pad on and off.
pub fn all() -> Vec<Record> {
    let mut found = Vec::new();
    for giant in GIANTS {
        for past in 0..2 {
            for flags in 0..4 {
                let params = [9, flags, 0, 0, 0];
                let free = 20;
                found.push(giant(Plan { params, past, free }));
            }
        }
    }
    found
}

/// A new G of 65,535 bytes or more: its hole is a long name.
fn long_new_border(plan: Plan) -> Record {
    let width = plan.free;
    let blanks = 2 + 4 + width;
    let name = MOST + plan.past - 3 - width - blanks - 5;
    plan.columns(EMPTY.to_vec(), &[spanned(width, vec![named(name)])])
}

/// A V of 65,535 bytes or more: its line is filled.
fn long_hanging_cell(plan: Plan) -> Record {
    let width = plan.free;
    let name = MOST + plan.past - 4 - 3 - 3 - 4 - width;
    let lines = vec![text_line(1), text_line(1), named(name)];
    plan.columns(EMPTY.to_vec(), &[spanned(width, lines)])
}

/// An old G of 65,535 bytes or more, once it reaches over the row.
fn long_old_border(plan: Plan) -> Record {
    let name = Piece::Name(vec![b'n'; MOST + plan.past - 3 - plan.free - 5]);
    let old = [holed(1, 0, name)];
    let cell = Cell {
        width: plan.free as u8,
        span: None,
        lines: Vec::new(),
    };
    plan.columns(sheet(old.into(), Vec::new()), &[cell])
}

/// A row line of 65,535 bytes or more: its V stands that far to the right.
fn far_line(plan: Plan) -> Record {
    let edge = if plan.borders() { "│".len() } else { 1 };
    let position = MOST + plan.past - 4 - edge;
    plan.columns(hung(position, 1, 1, vec![text_line(1)]), &[])
}

/// A new B of 65,535 bytes or more.
fn far_border(plan: Plan) -> Record {
    let position = MOST + plan.past - 1 - plan.free;
    plan.columns(hung(position, plan.free, 1, Vec::new()), &[])
}

/// A new G of 65,535 bytes or more: its one hole stands at its end.
fn far_hole(plan: Plan) -> Record {
    let position = MOST + plan.past - 3 - plan.free - 2 - 4 - plan.free;
    plan.columns(hung(position, plan.free, 2, Vec::new()), &[])
}

/// A guest's G that is a text of 65,535 bytes or more, behind its prefix.
fn drawn_guest(plan: Plan) -> Record {
    let hole = Piece::Text {
        tag: 3,
        text: b"a".to_vec(),
    };
    let segments = 21_700;
    let prefix = MOST + plan.past - 4 - 1 - 3 * (segments - 1);
    let guest = sheet(vec![holed(segments, 7, hole)], Vec::new());
    let prefixes = write_prefixes(&[vec![b'p'; prefix]]);
    let inputs = vec![hung(0, 1, 1, Vec::new()), guest, prefixes];
    Record::new(Kind::Subrender, plan.params, inputs)
}

/// A sheet of 65,535 lines or more, on which a cell hangs.
fn full_sheet(plan: Plan) -> Record {
    let more = 1 + usize::from(plan.borders());
    let mut old = empty_lines((MOST - more + plan.past).min(MOST));
    old.extend(&hung(0, 1, 2, vec![text_line(1); 3])[EMPTY.len()..]);
    plan.columns(old, &[])
}

/// A full sheet and a V that is too long or not; some with a hole past its border.
fn full_with_long_cell(plan: Plan) -> Record {
    let mut record = long_hanging_cell(plan);
    record.inputs[0] = empty_lines(MOST);
    if plan.free > 128 {
        record.inputs[0].extend(b"V\0\x04\0\x01\x05\x02");
    }
    record
}

fn spanned(width: usize, lines: Lines) -> Cell<Vec<u8>> {
    Cell {
        width: width as u8,
        span: Some(2),
        lines,
    }
}

/// A sheet without lines on which one cell hangs.
fn hung(position: usize, width: usize, rows: u8, lines: Lines) -> Vec<u8> {
    let cell = Hanging {
        position: position.min(MOST),
        width: width as u8,
        rows,
        lines,
    };
    sheet(Vec::new(), vec![cell])
}

fn sheet(lines: Lines, hanging: Vec<Hanging<Vec<u8>>>) -> Vec<u8> {
    let names = Vec::new();
    let sheet = Contents {
        lines,
        names,
        hanging,
    };
    write_contents(&sheet).expect("an input is a good sheet")
}

fn text_line(length: usize) -> Line<Vec<u8>> {
    let text = vec![b'a'; length];
    Line::Text(vec![Piece::Text { tag: 0, text }])
}

/// A line of one name.
fn named(length: usize) -> Line<Vec<u8>> {
    Line::Text(vec![Piece::Name(vec![b'n'; length])])
}

/// A border with one hole.
fn holed(segments: usize, place: usize, piece: Piece<Vec<u8>>) -> Line<Vec<u8>> {
    Line::Border {
        tag: 0,
        segments: vec![0; segments],
        holes: vec![Hole { place, piece }],
    }
}

fn empty_lines(count: usize) -> Vec<u8> {
    let mut out = Vec::new();
    push_field(&mut out, b'H', &(count as u16).to_be_bytes());
    out.extend(b"L\0\0".repeat(count));
    out
}
