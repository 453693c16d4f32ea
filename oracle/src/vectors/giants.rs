//! Row calls at the limits of refusals 7 and 9, alone and beside 6 and each other.

use crate::format::{
    Cell, Line, MOST, Piece, push_field, write_cells, write_prefixes, write_sheet,
};
use crate::random::Rng;
use crate::record::{BORDERS, Kind, PAD, Record, THIRD};

type Lines = Vec<Line<Vec<u8>>>;

/// What comes with the call, and how far past a limit it goes.
struct Plan {
    params: [u8; 5],
    past: usize,
}

impl Plan {
    fn draw(rng: &mut Rng) -> Plan {
        let pad = rng.pick(&[0, 0, PAD]);
        let borders = rng.pick(&[0, BORDERS, BORDERS]);
        let flags = pad | borders | THIRD;
        Plan {
            params: [rng.byte().max(1), flags, rng.pick(&[0, 1]), 0, 0],
            past: rng.below(3),
        }
    }

    fn borders(&self) -> bool {
        self.params[1] & BORDERS != 0
    }

    /// Do pieces of annotation 0 join with the call's?
    fn joins(&self) -> bool {
        self.params[2] == 0
    }

    /// An old sheet of empty lines, full once `more` lines are added, or past that.
    fn nearly_full(&self, more: usize) -> Vec<u8> {
        empty_lines((MOST - more + self.past).min(MOST))
    }
}

pub fn call(rng: &mut Rng) -> Record {
    let plan = Plan::draw(rng);
    match rng.below(6) {
        0 => long_prefixed_line(rng, &plan),
        1 => long_row(rng, &plan),
        2 => long_border(rng, &plan),
        3 => full_with_vertical(rng, &plan),
        4 => full_with_columns(&plan),
        _ => full_with_guest(rng, &plan),
    }
}

/// A guest's line that its prefix makes too long or not.
fn long_prefixed_line(rng: &mut Rng, plan: &Plan) -> Record {
    let prefix = rng.between(2, 9);
    let heads = if plan.joins() { 4 } else { 8 };
    let guest = vec![text_line(MOST + plan.past - heads - prefix)];
    let inputs = vec![sheet(&[]), sheet(&guest), prefixes(prefix)];
    Record::new(Kind::Subrender, plan.params, inputs)
}

/// A row's line of two long cells and the edge between them.
fn long_row(rng: &mut Rng, plan: &Plan) -> Record {
    let first = rng.between(500, 65_000);
    let edge = if plan.borders() { "│".len() } else { 1 };
    let heads = if plan.joins() { 4 } else { 12 };
    let second = MOST + plan.past - heads - edge - first;
    let cells = [first, second].map(|length| cell(1, vec![text_line(length)]));
    let inputs = vec![sheet(&[]), write_cells(&cells)];
    Record::new(Kind::Columns, plan.params, inputs)
}

/// A border merged into the one above, if there is one, or into the new one.
fn long_border(rng: &mut Rng, plan: &Plan) -> Record {
    let old = if rng.once_in(3) {
        vec![text_line(1)]
    } else {
        vec![border(1)]
    };
    let width = rng.between(16, 255);
    let border = border(MOST + plan.past - 2 - width);
    let lines = if rng.once_in(2) {
        vec![border]
    } else {
        vec![text_line(1), border]
    };
    let cells = [cell(width as u8, Vec::new()), cell(1, lines)];
    let inputs = vec![sheet(&old), write_cells(&cells)];
    Record::new(Kind::Columns, plan.params, inputs)
}

fn full_with_vertical(rng: &mut Rng, plan: &Plan) -> Record {
    let count = rng.below(3);
    let cells = [cell(1, vec![text_line(1); count])];
    let old = plan.nearly_full(count + usize::from(plan.borders()));
    let mut params = plan.params;
    params[1] &= PAD | BORDERS;
    Record::new(Kind::Vertical, params, vec![old, write_cells(&cells)])
}

fn full_with_columns(plan: &Plan) -> Record {
    let cells = [cell(1, vec![text_line(1)])];
    let old = plan.nearly_full(1 + usize::from(plan.borders()));
    Record::new(Kind::Columns, plan.params, vec![old, write_cells(&cells)])
}

/// The long line, if it is too long, comes after the last line that a sheet can have.
fn full_with_guest(rng: &mut Rng, plan: &Plan) -> Record {
    let guest = [text_line(1), text_line(MOST - 20)];
    let prefix = rng.pick(&[2, 40]);
    let inputs = vec![plan.nearly_full(2), sheet(&guest), prefixes(prefix)];
    Record::new(Kind::Subrender, plan.params, inputs)
}

fn cell(width: u8, lines: Lines) -> Cell<Vec<u8>> {
    Cell {
        width,
        span: None,
        lines,
    }
}

fn sheet(lines: &[Line<Vec<u8>>]) -> Vec<u8> {
    write_sheet(lines).expect("an input is a good sheet")
}

fn prefixes(length: usize) -> Vec<u8> {
    write_prefixes(&[vec![b'p'; length]])
}

fn text_line(length: usize) -> Line<Vec<u8>> {
    let text = vec![b'a'; length];
    Line::Text(vec![Piece::Text { tag: 0, text }])
}

/// A border whose last segment joins.
fn border(length: usize) -> Line<Vec<u8>> {
    let mut segments = vec![0; length];
    segments[length - 1] = 3;
    Line::Border {
        tag: 0,
        segments,
        holes: Vec::new(),
    }
}

fn empty_lines(count: usize) -> Vec<u8> {
    let mut out = Vec::new();
    push_field(&mut out, b'H', &(count as u16).to_be_bytes());
    out.extend(b"L\0\0".repeat(count));
    out
}
