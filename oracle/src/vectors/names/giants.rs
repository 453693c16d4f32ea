//! Calls on names that are many or long: the first text line just at the limit of refusal 7 and
//! past it, calls without one, and 6, 10 and 9 beside 7.

use crate::format::{MOST, push_field};
use crate::random::Rng;
use crate::record::{BORDERS, Kind, PAD, Record};

const EMPTY: &[u8] = b"H\0\x02\0\0";
const HUNG: &[u8] = b"V\0\x04\0\0\x01\x01";
const HUNG_LINE: &[u8] = b"V\0\x0C\0\0\x01\x01L\0\x05S\0\x02\0a";

/// "a" in a line, a sheet and a cell.
const LINE: &[u8] = b"L\0\x05S\0\x02\0a";
const SHEET: &[u8] = b"H\0\x02\0\x01L\0\x05S\0\x02\0a";
const CELL: &[u8] = b"C\0\x09\x01L\0\x05S\0\x02\0a";

/// The bytes of its S field.
const PIECE: usize = 5;

/// What comes with the call, and how far past a limit it goes.
#[derive(Clone, Copy)]
struct Plan {
    flags: u8,
    past: usize,
}

impl Plan {
    /// The width is 1, so that no line is filled.
    fn params(self) -> [u8; 5] {
        [1, self.flags, 0, 0, 0]
    }

    fn columns(self, old: &[u8], cells: &[u8]) -> Record {
        let inputs = vec![old.to_vec(), cells.to_vec()];
        Record::new(Kind::Columns, self.params(), inputs)
    }

    fn vertical(self, old: &[u8], cells: &[u8]) -> Record {
        let mut params = self.params();
        params[1] &= PAD | BORDERS;
        Record::new(Kind::Vertical, params, vec![old.to_vec(), cells.to_vec()])
    }

    fn subrender(self, old: &[u8], guest: &[u8], prefix: &[u8]) -> Record {
        let inputs = vec![old.to_vec(), guest.to_vec(), field(b'P', prefix)];
        Record::new(Kind::Subrender, self.params(), inputs)
    }
}

/// Each giant, by its plan.
const GIANTS: [fn(Plan) -> Record; 19] = [
    // A name fills the line.
    |plan| plan.columns(&waiting(filling(plan, PIECE)), CELL),
    |plan| plan.vertical(&waiting(filling(plan, PIECE)), CELL),
    |plan| plan.subrender(&waiting(filling(plan, PIECE)), SHEET, b""),
    |plan| plan.subrender(&waiting(filling(plan, PIECE + 2)), SHEET, b"> "),
    |plan| plan.columns(&all(&[&waiting(filling(plan, PIECE)), HUNG_LINE]), b""),
    // Two pieces that join once names stand before them.
    |plan| {
        let guest = all(&[b"H\0\x02\0\x01", &field(b'L', b"S\0\x02\0aS\0\x02\0b")]);
        plan.subrender(&waiting(filling(plan, PIECE + 1)), &guest, b"")
    },
    // A border that becomes text, behind a border of the call.
    |plan| {
        let cells = [b"C\0\x01\x01", &b"C\0\x06\x01B\0\x02\0\0"[..]].concat();
        plan.vertical(&waiting(filling(plan, 3 + 1 + "─".len())), &cells)
    },
    // Names of no bytes: 21,845 of them are a line of 65,535.
    |plan| {
        let old = all(&[EMPTY, &field(b'F', b"").repeat(MOST / 3 + plan.past)]);
        plan.subrender(&old, b"H\0\x02\0\x01L\0\0", b"")
    },
    // No text line: a name of 65,535 bytes is handed on.
    |plan| plan.columns(&waiting(MOST), b"C\0\x01\x01"),
    |plan| plan.vertical(&all(&[&waiting(MOST), HUNG]), b""),
    |plan| plan.subrender(&waiting(MOST), EMPTY, b""),
    // Names that together pass 65,535 bytes.
    |plan| plan.vertical(&many(2, MOST / 2), b""),
    |plan| plan.columns(&many(2, MOST / 2), CELL),
    // A guest's are dropped, however long.
    |plan| plan.subrender(EMPTY, &all(&[SHEET, &name(MOST)]), b""),
    // Hundreds of names.
    |plan| plan.columns(&many(400, 3), CELL),
    |plan| plan.subrender(&many(400, 0), SHEET, b">"),
    // A full sheet: 7 before 9.
    |plan| plan.subrender(&full(plan, 1, filling(plan, PIECE)), SHEET, b""),
    // 6 and 10 before 7.
    |plan| {
        let cells = [b"C\0\x06\x01B\0\x02\0\0", CELL].concat();
        plan.columns(&waiting(MOST), &cells)
    },
    |plan| {
        let overlap = field(b'G', b"\0\0\x01\0\0\x01F\0\0\0\0F\0\0");
        let guest = all(&[b"H\0\x02\0\x02", LINE, &overlap]);
        plan.subrender(&waiting(MOST), &guest, b"")
    },
];

pub fn call(rng: &mut Rng) -> Record {
    let giant = rng.pick(&GIANTS);
    giant(Plan {
        flags: rng.below(8) as u8,
        past: rng.below(3),
    })
}

/// Each giant just at its limit and one past it, with every flag on and off.
pub fn all_of_them() -> Vec<Record> {
    let plans = (0..2).flat_map(|past| (0..8).map(move |flags| Plan { flags, past }));
    let of_plan = |plan| GIANTS.map(|giant| giant(plan));
    plans.flat_map(of_plan).collect()
}

/// The length of a name that fills a line of other bytes.
fn filling(plan: Plan, other: usize) -> usize {
    MOST + plan.past - 3 - other
}

fn field(letter: u8, content: &[u8]) -> Vec<u8> {
    let mut out = Vec::new();
    push_field(&mut out, letter, content);
    out
}

fn all(parts: &[&[u8]]) -> Vec<u8> {
    parts.concat()
}

fn name(length: usize) -> Vec<u8> {
    field(b'F', &vec![b'n'; length])
}

/// A sheet without lines at whose end a name waits.
fn waiting(length: usize) -> Vec<u8> {
    all(&[EMPTY, &name(length)])
}

/// The same with many such names.
fn many(count: usize, length: usize) -> Vec<u8> {
    all(&[EMPTY, &name(length).repeat(count)])
}

/// A sheet that is full once `more` lines are added, or past that, at whose end a name waits.
fn full(plan: Plan, more: usize, length: usize) -> Vec<u8> {
    let count = (MOST - more + plan.past).min(MOST);
    let head = field(b'H', &(count as u16).to_be_bytes());
    // Of the calls past the limit, those that pad have a short name: 9 and not 7.
    let length = if plan.flags & PAD != 0 { 1 } else { length };
    all(&[&head, &b"L\0\0".repeat(count), &name(length)])
}
