//! Calls made by hand on sheets at whose end names wait; then the same calls with a small change.

use super::giants;
use crate::call::Finding;
use crate::checks::Input;
use crate::damage;
use crate::format::{Rules, push_field};
use crate::known::{NAMED_CALLS, NAMED_JOBS};
use crate::random::Rng;
use crate::record::{BORDERS, Kind, PAD, Record, THIRD};
use crate::show;
use crate::vectors::spans::{changed, known, passes};
use crate::vectors::{Set, with_store};

const EMPTY: &[u8] = b"H\0\x02\0\0";
const LINE: &[u8] = b"L\0\x05S\0\x02\0a";
const BARE: &[u8] = b"L\0\0";
const BORDER: &[u8] = b"B\0\x02\0\0";
const HOLED: &[u8] = b"G\0\x0B\0\0\x01\0\0\0S\0\x02\x01h";
const HUNG: &[u8] = b"V\0\x0C\0\0\x01\x02L\0\x05S\0\x02\0v";
const NAME: &[u8] = b"F\0\x01n";

/// A line whose neighbours have equal annotations, and a name among them.
const SPLIT: &[u8] = b"L\0\x13S\0\x02\0aS\0\x02\0bF\0\x01iS\0\x02\x01c";

/// The calls made by hand in turn, then each time one of them with a small change.
pub struct Edges {
    rng: Rng,
    calls: Vec<Record>,
    next: usize,
    /// The calls to change: short ones that pass refusals 1 to 3.
    good: Vec<usize>,
}

impl Edges {
    pub fn new(seed: u64) -> Edges {
        let calls = calls();
        let is_good = |place: &usize| passes(calls[*place].clone());
        let good = (0..calls.len()).filter(is_good).collect();
        Edges {
            rng: Rng::new(seed),
            calls,
            next: 0,
            good,
        }
    }
}

impl Set for Edges {
    fn next(&mut self) -> Result<Record, Finding> {
        let rng = &mut self.rng;
        self.next += 1;
        let record = match self.calls.get(self.next - 1) {
            Some(record) => record.clone(),
            None => {
                let place = rng.pick(&self.good);
                varied(rng, self.calls[place].clone())
            }
        };
        with_store(rng, record)
    }

    fn by_hand(&self) -> bool {
        self.next <= self.calls.len()
    }
}

/// A small change, or an F field more.
fn varied(rng: &mut Rng, mut record: Record) -> Record {
    if record.kind != Kind::Job && !rng.once_in(3) {
        return changed(rng, Rules::Names, record);
    }
    let place = rng.below(record.inputs.len());
    damage::put_name(rng, &mut record.inputs[place]);
    record
}

fn calls() -> Vec<Record> {
    let jobs = NAMED_JOBS.iter().flat_map(|(_, job, _)| widths(job));
    let mut found: Vec<Record> = jobs.collect();
    found.extend(NAMED_CALLS.iter().flat_map(known));
    for sheet in bad_sheets() {
        found.push(columns(BORDERS, &sheet, b"C\0\x01\x01"));
        found.push(vertical(BORDERS, &sheet, b""));
        found.push(subrender(BORDERS, &sheet, EMPTY, b""));
        found.push(subrender(BORDERS, EMPTY, &sheet, b""));
    }
    for cells in bad_cells() {
        found.push(columns(BORDERS, &waiting(NAME), &cells));
        found.push(vertical(BORDERS, &waiting(NAME), &cells));
    }
    found.extend(giants::all_of_them());
    let sheets = good_sheets().into_iter();
    found.extend(strewn(sheets.flat_map(|sheet| on_sheet(&sheet)).collect()));
    found
}

/// The same calls in steps, so that the first of them are of all kinds.
fn strewn(calls: Vec<Record>) -> Vec<Record> {
    const STEP: usize = 7_919;
    assert!(!calls.len().is_multiple_of(STEP), "the step is a prime");
    let place = |turn| turn * STEP % calls.len();
    (0..calls.len())
        .map(|turn| calls[place(turn)].clone())
        .collect()
}

/// A known job at each width up to 4, padded and not.
fn widths(job: &str) -> Vec<Record> {
    let job = show::unhex(job).expect("hexadecimal");
    let with = |width: u8, flags: u8| {
        let mut job = job.clone();
        job[3..5].copy_from_slice(&[width, flags]);
        Record::job(job)
    };
    let flags = |width| (0..4).map(move |flags| with(width, flags));
    (1..5).flat_map(flags).collect()
}

/// Sheets or lists of cells alone.
pub fn inputs_by_hand(input: Input) -> Vec<Vec<u8>> {
    match input {
        Input::Sheet => [good_sheets(), bad_sheets(), bytes_as_names()].concat(),
        Input::Cells => bad_cells(),
        Input::Job | Input::Prefixes => Vec::new(),
    }
}

fn field(letter: u8, content: &[u8]) -> Vec<u8> {
    let mut out = Vec::new();
    push_field(&mut out, letter, content);
    out
}

/// Runs of bytes, put together.
fn all(parts: &[&[u8]]) -> Vec<u8> {
    parts.concat()
}

/// A sheet without lines and these fields.
fn waiting(tail: &[u8]) -> Vec<u8> {
    all(&[EMPTY, tail])
}

fn names_of(names: &[&str]) -> Vec<u8> {
    let fields = names.iter().map(|name| field(b'F', name.as_bytes()));
    fields.collect::<Vec<_>>().concat()
}

fn columns(flags: u8, old: &[u8], cells: &[u8]) -> Record {
    let inputs = vec![old.to_vec(), cells.to_vec()];
    Record::new(Kind::Columns, [3, flags, 0, 0, 0], inputs)
}

fn vertical(flags: u8, old: &[u8], cells: &[u8]) -> Record {
    let inputs = vec![old.to_vec(), cells.to_vec()];
    Record::new(Kind::Vertical, [3, flags, 0, 0, 0], inputs)
}

fn subrender(flags: u8, old: &[u8], guest: &[u8], prefix: &[u8]) -> Record {
    let inputs = vec![old.to_vec(), guest.to_vec(), field(b'P', prefix)];
    Record::new(Kind::Subrender, [3, flags | THIRD, 0, 0, 0], inputs)
}

fn cell(lines: &[&[u8]]) -> Vec<u8> {
    field(b'C', &all(&[b"\x01", &lines.concat()]))
}

fn spanned(lines: &[&[u8]]) -> Vec<u8> {
    field(b'K', &all(&[b"\x01\x02", &lines.concat()]))
}

fn sheet(lines: &[&[u8]], tail: &[u8]) -> Vec<u8> {
    let head = field(b'H', &(lines.len() as u16).to_be_bytes());
    all(&[&head, &lines.concat(), tail])
}

/// Lists of names: each kind of name alone, several, many.
fn lists_of_names() -> Vec<Vec<u8>> {
    let long = "n".repeat(100);
    let lists: [&[&str]; 10] = [
        &[],
        &["n"],
        &[""],
        &["", ""],
        &["n", "n"],
        &["漢"],
        &["é", "", "棚 07"],
        &["a", "b", "c", "d", "e"],
        &[" "],
        &[&long],
    ];
    let mut found: Vec<Vec<u8>> = lists.iter().map(|list| names_of(list)).collect();
    found.push(NAME.repeat(40));
    found
}

/// Sheets at whose end names wait, with and without lines, borders and hanging cells.
fn good_sheets() -> Vec<Vec<u8>> {
    let mut found = Vec::new();
    for names in lists_of_names() {
        for tail in [
            names.clone(),
            all(&[&names, HUNG]),
            all(&[&names, HUNG, HUNG]),
        ] {
            let lines: [&[&[u8]]; 5] = [&[], &[LINE], &[BORDER], &[HOLED], &[BORDER, BARE]];
            found.extend(lines.map(|lines| sheet(lines, &tail)));
        }
    }
    found
}

/// Calls that add a text line first, a border first, borders alone, nothing.
fn on_sheet(old: &[u8]) -> Vec<Record> {
    let mut found = Vec::new();
    let in_columns = [
        Vec::new(),
        cell(&[]),
        cell(&[LINE]),
        cell(&[BARE]),
        cell(&[BORDER]),
        cell(&[SPLIT, LINE]),
        all(&[&cell(&[LINE]), &spanned(&[LINE, LINE, LINE])]),
        spanned(&[LINE]),
    ];
    for cells in in_columns {
        for flags in [0, BORDERS, BORDERS | PAD, BORDERS | THIRD] {
            found.push(columns(flags, old, &cells));
        }
    }
    let in_rows = [
        Vec::new(),
        cell(&[]),
        cell(&[]).repeat(2),
        all(&[&cell(&[]), &cell(&[LINE])]),
        cell(&[BORDER]),
        cell(&[SPLIT, SPLIT]),
    ];
    for cells in in_rows {
        for flags in [0, BORDERS, BORDERS | PAD] {
            found.push(vertical(flags, old, &cells));
        }
    }
    let guests = [
        sheet(&[], b""),
        sheet(&[], NAME),
        sheet(&[LINE], NAME),
        sheet(&[BARE], b""),
        sheet(&[SPLIT, SPLIT], b""),
        sheet(&[BORDER], HUNG),
        sheet(&[HOLED, LINE], &all(&[NAME, HUNG])),
        old.to_vec(),
    ];
    for guest in guests {
        for (flags, prefix) in [(0, ""), (BORDERS, ">"), (PAD, "")] {
            found.push(subrender(flags, old, &guest, prefix.as_bytes()));
        }
    }
    found
}

/// Sheets with an F field out of place or broken, or with a bad name.
fn bad_sheets() -> Vec<Vec<u8>> {
    let strange = field(b'F', b"\n");
    let bad_line = field(b'L', &field(b'S', b"\0\n"));
    let no_width = field(b'V', b"\0\0\0\x01");
    let mut found = vec![
        // Before, between and in the place of lines; among and after hanging cells.
        all(&[NAME, EMPTY]),
        all(&[b"H\0\x02\0\x01", NAME, LINE]),
        all(&[b"H\0\x02\0\x02", LINE, NAME, LINE]),
        all(&[b"H\0\x02\0\x01", NAME]),
        all(&[b"H\0\x02\0\x02", LINE, NAME]),
        all(&[EMPTY, NAME, LINE]),
        all(&[EMPTY, HUNG, NAME]),
        all(&[EMPTY, NAME, HUNG, NAME]),
        all(&[EMPTY, HUNG, NAME, HUNG]),
        all(&[EMPTY, NAME, BORDER]),
        all(&[EMPTY, NAME, EMPTY]),
        // What is not a name.
        all(&[EMPTY, b"S\0\x02\0a"]),
        all(&[EMPTY, NAME, b"S\0\x02\0a"]),
        all(&[EMPTY, b"f\0\x01n"]),
        all(&[EMPTY, &field(b'T', b"\0\0\0a")]),
        all(&[EMPTY, &field(b'P', b"n")]),
        // Broken fields.
        all(&[EMPTY, b"F"]),
        all(&[EMPTY, b"F\0"]),
        all(&[EMPTY, b"F\0\x01"]),
        all(&[EMPTY, b"F\0\x02n"]),
        all(&[EMPTY, b"F\xFF\xFFn"]),
        all(&[EMPTY, NAME, b"\0"]),
        all(&[EMPTY, NAME, b"F"]),
        // In a hanging cell, good and strange.
        all(&[EMPTY, &field(b'V', &all(&[b"\0\0\x01\x01", NAME]))]),
        all(&[EMPTY, &field(b'V', &all(&[b"\0\0\x01\x01", &strange]))]),
        // The order of 1, 2 and 3.
        all(&[EMPTY, &strange]),
        all(&[EMPTY, NAME, &strange]),
        all(&[EMPTY, &strange, HUNG]),
        all(&[EMPTY, &strange, b"F"]),
        all(&[EMPTY, HUNG, &strange]),
        all(&[EMPTY, &strange, &no_width]),
        all(&[EMPTY, NAME, &no_width]),
        all(&[EMPTY, NAME, &no_width, &strange]),
        all(&[b"H\0\x02\0\x01", &bad_line, NAME]),
        all(&[b"H\0\x02\0\x01", LINE, &strange]),
        all(&[b"H\0\x02\0\x01", &strange, LINE]),
    ];
    let broken: [&[u8]; 7] = [
        b"\xC0\x80",
        b"\xED\xA0\x80",
        b"\xE6\xBC",
        b"n\xFF",
        "n\u{338}".as_bytes(),
        "\u{ad}".as_bytes(),
        "\u{1f600}".as_bytes(),
    ];
    found.extend(broken.map(|name| all(&[EMPTY, &field(b'F', name)])));
    found
}

/// Every byte as a name that waits.
fn bytes_as_names() -> Vec<Vec<u8>> {
    let with = |byte| all(&[EMPTY, NAME, &field(b'F', &[byte])]);
    (0..=255).map(with).collect()
}

/// Cells with an F field, before, between and after their lines.
fn bad_cells() -> Vec<Vec<u8>> {
    let strange = field(b'F', b"\n");
    let mut found = vec![
        NAME.to_vec(),
        all(&[NAME, &cell(&[LINE])]),
        all(&[&cell(&[LINE]), NAME]),
        all(&[&cell(&[LINE]), &strange]),
    ];
    for name in [NAME, &strange] {
        let lines: [&[&[u8]]; 5] = [
            &[name],
            &[name, LINE],
            &[LINE, name],
            &[LINE, name, LINE],
            &[LINE, name, HUNG],
        ];
        for lines in lines {
            found.extend([cell(lines), spanned(lines)]);
        }
    }
    found
}
