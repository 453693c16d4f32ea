//! Calls made by hand, at the edges of what request 2.1 adds; then the same calls with a
//! small change.

use super::giants;
use crate::call::Finding;
use crate::checks::Input;
use crate::damage;
use crate::format::{MOST, Rules, push_field};
use crate::known::CALLS;
use crate::random::Rng;
use crate::record::{BORDERS, Kind, PAD, Record, THIRD};
use crate::show;
use crate::vectors::{Set, answer, with_store};

const EMPTY: &[u8] = b"H\0\x02\0\0";
const UNDER_BORDER: &[u8] = b"H\0\x02\0\x01B\0\x03\0\0\0";
const GOOD: &[u8] = b"S\0\x02\0a";
const WIDE: &[u8] = b"S\0\x04\0\xE6\xBC\xA2";
const NARROW: &[u8] = b"S\0\x03\0\xCC\x81";
const STRANGE: &[u8] = b"S\0\x02\0\n";
const NAME: &[u8] = b"F\0\0";
const STRANGE_NAME: &[u8] = b"F\0\x01\n";

/// The calls made by hand in turn, then each time one of them with a small change.
pub struct Edges {
    rng: Rng,
    calls: Vec<Record>,
    next: usize,
    /// The calls to change: short ones that pass refusals 1 to 3.
    good: Vec<usize>,
}

/// The longest inputs of a call that is changed.
const SHORT: usize = 100;

impl Edges {
    pub fn new(seed: u64) -> Edges {
        let calls = calls();
        let is_good = |place: &usize| passes(calls[*place].clone());
        let good = (0..calls.len()).filter(is_good).collect();
        Edges {
            rng: Rng::new(seed),
            calls,
            next: 0,
            good,
        }
    }
}

/// Is a call short, and does it pass refusals 1 to 3?
pub fn passes(mut record: Record) -> bool {
    record.weight() <= SHORT && answer(&mut record, Rules::STORED).is_ok_and(|number| number > 3)
}

impl Set for Edges {
    fn next(&mut self) -> Result<Record, Finding> {
        let rng = &mut self.rng;
        self.next += 1;
        let record = match self.calls.get(self.next - 1) {
            Some(record) => record.clone(),
            None => {
                let place = rng.pick(&self.good);
                changed(rng, Rules::Spans, self.calls[place].clone())
            }
        };
        with_store(rng, record)
    }

    fn by_hand(&self) -> bool {
        self.next <= self.calls.len()
    }
}

/// Other flags, another width or annotation, or damage in one place with letters of these rules.
pub fn changed(rng: &mut Rng, rules: Rules, mut record: Record) -> Record {
    match rng.below(8) {
        0..4 => record.params[1] ^= rng.pick(&[PAD, BORDERS, THIRD]),
        4 => record.params[rng.pick(&[0, 2])] = rng.pick(&[0, 1, 2, 3, 255]),
        _ => {
            let place = rng.below(record.inputs.len());
            damage::bytes(rng, rules, &mut record.inputs[place]);
        }
    }
    if record.kind == Kind::Vertical {
        record.params[1] &= PAD | BORDERS;
    }
    record
}

fn calls() -> Vec<Record> {
    let mut found: Vec<Record> = CALLS.iter().flat_map(known).collect();
    for cells in lists_of_cells() {
        found.extend([0, THIRD].map(|third| columns(BORDERS | third, UNDER_BORDER, &cells)));
        found.push(columns(BORDERS, EMPTY, &cells));
        found.push(vertical(EMPTY, &cells));
    }
    for sheet in sheets() {
        found.push(columns(BORDERS, &sheet, b"C\0\x01\x01"));
        found.push(columns(BORDERS | THIRD, &sheet, b""));
        found.push(vertical(&sheet, b""));
        found.push(subrender(&sheet, EMPTY));
        found.push(subrender(EMPTY, &sheet));
    }
    found.extend(giants::all());
    for line in holed_lines() {
        found.extend(around_line(&line));
    }
    found
}

/// Sheets or lists of cells alone.
pub fn inputs_by_hand(input: Input) -> Vec<Vec<u8>> {
    let with_lines = |around: fn(&[u8]) -> Vec<u8>| {
        let lines = holed_lines().into_iter();
        let short = lines.filter(|line| line.len() <= MOST / 2);
        short.map(|line| around(&line)).collect::<Vec<_>>()
    };
    match input {
        Input::Sheet => {
            let in_hanging = with_lines(|line| all(&[EMPTY, &hung(0, 1, 1, line)]));
            [sheets(), with_lines(one_line), in_hanging].concat()
        }
        Input::Cells => {
            let in_cell = with_lines(|line| cell(1, line));
            let in_spanned = with_lines(|line| spanned(1, 2, line));
            [lists_of_cells(), in_cell, in_spanned].concat()
        }
        Input::Job | Input::Prefixes => Vec::new(),
    }
}

/// A known call, and the same with each flag changed.
pub fn known(
    (_, kind, [width, flags, annotation], inputs, _): &crate::known::Known,
) -> Vec<Record> {
    let bytes = |input: &&str| show::unhex(input).expect("hexadecimal");
    let inputs: Vec<Vec<u8>> = inputs.iter().map(bytes).collect();
    let third = if *kind == Kind::Vertical { 0 } else { THIRD };
    let changes = [0, PAD, BORDERS, third];
    let with = |change: u8| {
        let params = [*width, flags ^ change, *annotation, 0, 0];
        Record::new(*kind, params, inputs.clone())
    };
    changes.map(with).into()
}

fn field(letter: u8, content: &[u8]) -> Vec<u8> {
    let mut out = Vec::new();
    push_field(&mut out, letter, content);
    out
}

/// Runs of bytes, put together.
fn all(parts: &[&[u8]]) -> Vec<u8> {
    parts.concat()
}

fn cell(width: u8, lines: &[u8]) -> Vec<u8> {
    field(b'C', &all(&[&[width], lines]))
}

fn spanned(width: u8, span: u8, lines: &[u8]) -> Vec<u8> {
    field(b'K', &all(&[&[width, span], lines]))
}

fn hung(position: u16, width: u8, rows: u8, lines: &[u8]) -> Vec<u8> {
    let [high, low] = position.to_be_bytes();
    field(b'V', &all(&[&[high, low, width, rows], lines]))
}

fn holed(segments: &[u8], holes: &[u8]) -> Vec<u8> {
    let count = segments.len() as u16;
    field(b'G', &all(&[&[0], &count.to_be_bytes(), segments, holes]))
}

fn hole(place: u16, piece: &[u8]) -> Vec<u8> {
    all(&[&place.to_be_bytes(), piece])
}

fn one_line(line: &[u8]) -> Vec<u8> {
    all(&[b"H\0\x02\0\x01", line])
}

fn columns(flags: u8, old: &[u8], cells: &[u8]) -> Record {
    let inputs = vec![old.to_vec(), cells.to_vec()];
    Record::new(Kind::Columns, [5, flags, 0, 0, 0], inputs)
}

fn vertical(old: &[u8], cells: &[u8]) -> Record {
    let inputs = vec![old.to_vec(), cells.to_vec()];
    Record::new(Kind::Vertical, [5, BORDERS, 0, 0, 0], inputs)
}

fn subrender(old: &[u8], guest: &[u8]) -> Record {
    let inputs = vec![old.to_vec(), guest.to_vec(), field(b'P', b">")];
    Record::new(Kind::Subrender, [5, BORDERS | THIRD, 0, 0, 0], inputs)
}

/// A line in each place where a B may stand; a long one in sheets alone.
fn around_line(line: &[u8]) -> Vec<Record> {
    let old = one_line(line);
    let mut found = vec![
        columns(BORDERS, &old, &cell(1, b"")),
        columns(BORDERS | PAD, &old, b""),
        vertical(&old, b""),
        subrender(&old, EMPTY),
        subrender(EMPTY, &old),
    ];
    if line.len() > MOST / 2 {
        return found;
    }
    found.push(vertical(EMPTY, &cell(2, line)));
    for flags in [BORDERS, BORDERS | THIRD, BORDERS | PAD] {
        found.push(columns(flags, UNDER_BORDER, &cell(2, line)));
        found.push(columns(flags, UNDER_BORDER, &spanned(2, 2, line)));
        let hung = all(&[UNDER_BORDER, &hung(0, 2, 2, line)]);
        found.push(columns(flags, &hung, b"C\0\x01\x02"));
    }
    found
}

/// Good and bad G fields.
fn holed_lines() -> Vec<Vec<u8>> {
    let mut found = vec![
        field(b'G', b""),
        field(b'G', b"\0"),
        field(b'G', b"\0\0"),
        field(b'G', b"\0\0\0"),
        field(b'G', b"\0\0\x01\0"),
        field(b'G', b"\0\0\x01"),
        field(b'G', b"\0\xFF\xFF\0\0\0S\0\x02\0a"),
        field(b'G', b"\0\0\x01\0\0"),
        field(b'G', b"\0\0\x01\0\0\0"),
        field(b'G', b"\0\0\x01\0\0\0S"),
        field(b'G', b"\0\0\x01\0\0\0S\0\x03\0a"),
        field(b'G', b"\0\0\x01\0\0\0S\xFF\xFF\0a"),
        field(b'G', b"\0\0\x01\0\0\0S\0\0"),
        field(b'G', b"\0\0\x01\0\0\0S\0\x01\0"),
        field(b'G', b"\0\0\x01\0\0\0L\0\0"),
        field(b'G', b"\0\0\x01\0\0\0B\0\x01\0"),
        field(b'G', b"\0\0\x01\0\0\0P\0\x01a"),
        field(b'G', b"\0\0\x01\0S\0\x02\0a"),
        field(b'g', b"\0\0\0\x01\0\0\0F\0\0"),
        b"G\xFF\xFF\0".to_vec(),
        holed(&[11], &hole(0, GOOD)),
        holed(&[12], &hole(0, GOOD)),
        holed(&[12], &hole(0, STRANGE)),
        holed(&[0], &all(&[&hole(0, GOOD), b"\0"])),
        holed(&[0], &all(&[&hole(0, GOOD), b"\0\0"])),
        holed(&[0], &all(&[&hole(0, STRANGE), b"\0"])),
        holed(&[1, 2, 3], &all(&[&hole(0, GOOD), &hole(2, GOOD)])),
        holed(&[3, 3], &all(&[&hole(0, WIDE), &hole(1, NAME)])),
        holed(&[3, 3], &all(&[&hole(0, WIDE), &hole(2, NAME)])),
        holed(&[3, 3], &all(&[&hole(1, NAME), &hole(0, NAME)])),
        holed(&[3, 3], &all(&[&hole(1, GOOD), &hole(1, NAME)])),
        holed(&[3, 3], &all(&[&hole(0, GOOD), &hole(0, NARROW)])),
        holed(&[0; 65_527], &hole(65_527, NAME)),
        holed(&[0; 65_527], &hole(65_528, NAME)),
        holed(&[], &all(&[&hole(0, NAME)]).repeat(13_106)),
    ];
    for piece in [GOOD, WIDE, NARROW, STRANGE, NAME, STRANGE_NAME] {
        for count in [0, 1, 2] {
            let places = [0, 1, 2, 3].map(|place| hole(place, piece));
            found.extend(places.map(|hole| holed(&vec![3; count], &hole)));
        }
        found.push(holed(&[1], &hole(65_535, piece)));
        // Beside a strange one: a good hole past the end is still refusal 1.
        found.push(holed(&[1, 1], &all(&[&hole(0, STRANGE), &hole(2, piece)])));
        found.push(holed(
            &[1, 1],
            &all(&[&hole(3, piece), &hole(9, STRANGE_NAME)]),
        ));
    }
    found
}

/// Good and bad lists of C and K fields.
fn lists_of_cells() -> Vec<Vec<u8>> {
    let line = field(b'L', GOOD);
    let strange = field(b'L', STRANGE);
    let plain = cell(1, &line);
    let good = spanned(1, 2, &line);
    let mut found = vec![
        field(b'K', b""),
        field(b'K', b"\x01"),
        field(b'K', b"\0"),
        field(b'k', b"\x01\x01"),
        b"K".to_vec(),
        b"K\0\x03\x01\x01".to_vec(),
        spanned(0, 0, b""),
        spanned(0, 1, b""),
        spanned(0, 2, &strange),
        spanned(0, 17, &strange),
        spanned(255, 16, b""),
        spanned(1, 2, &strange),
        all(&[&spanned(0, 2, b""), b"K"]),
        all(&[&spanned(1, 2, &strange), b"\0"]),
        all(&[&plain, &spanned(0, 2, b"")]),
        all(&[&spanned(1, 2, &strange), &cell(0, b"")]),
        spanned(1, 2, &good),
        cell(1, &good),
        spanned(1, 2, &hung(0, 1, 1, b"")),
        cell(1, &hung(0, 1, 1, b"")),
        spanned(1, 2, NAME),
        spanned(1, 2, b"L"),
        spanned(1, 2, &field(b'B', b"\0\x0C")),
        hung(0, 1, 1, b""),
        holed(&[0], &hole(0, GOOD)),
    ];
    for count in [15, 16, 17] {
        found.push(good.repeat(count));
        found.push(spanned(0, 2, b"").repeat(count));
        found.push(all(&[&plain.repeat(count - 1), &good]));
        found.push(all(&[&good.repeat(count - 2), &plain.repeat(2)]));
        found.push(spanned(255, 2, b"").repeat(count));
    }
    for span in [0, 1, 2, 3, 15, 16, 17, 255] {
        found.push(spanned(1, span, b""));
        found.push(all(&[&spanned(1, span, &line.repeat(3)), &plain]));
        found.push(spanned(2, span, &line.repeat(usize::from(span).min(33))));
    }
    found
}

/// Good and bad sheets with V fields.
fn sheets() -> Vec<Vec<u8>> {
    let line = field(b'L', GOOD);
    let strange = field(b'L', STRANGE);
    let good = hung(0, 1, 2, &line);
    let mut found = vec![
        all(&[EMPTY, b"V"]),
        all(&[EMPTY, b"V\0\x05\0\0\x01\x01"]),
        all(&[EMPTY, &good, &line]),
        all(&[EMPTY, &good, UNDER_BORDER]),
        all(&[EMPTY, &good, b"\0"]),
        all(&[b"H\0\x02\0\x01", &good]),
        all(&[b"H\0\x02\0\x02", &line, &good]),
        all(&[b"H\0\x02\0\x01", &good, &line]),
        all(&[b"H\0\x02\0\x01", &line, &good, &good]),
        all(&[EMPTY, NAME]),
        all(&[EMPTY, NAME, &good]),
        all(&[EMPTY, &good, NAME]),
        all(&[EMPTY, GOOD]),
        all(&[EMPTY, &spanned(1, 2, b"")]),
        all(&[EMPTY, &field(b'v', b"\0\0\x01\x01")]),
        all(&[EMPTY, &hung(0, 1, 1, &good)]),
        all(&[EMPTY, &hung(0, 1, 1, &cell(1, b""))]),
        all(&[EMPTY, &hung(0, 1, 1, NAME)]),
        all(&[EMPTY, &hung(0, 1, 1, b"L")]),
        all(&[EMPTY, &hung(0, 0, 1, b"")]),
        all(&[EMPTY, &hung(0, 0, 0, b"")]),
        all(&[EMPTY, &hung(0, 0, 1, &strange)]),
        all(&[EMPTY, &hung(0, 1, 1, &strange)]),
        all(&[EMPTY, &hung(0, 1, 17, &strange)]),
        all(&[EMPTY, &hung(0, 1, 1, &strange), &hung(0, 0, 1, b"")]),
        all(&[EMPTY, &hung(0, 0, 1, b""), &hung(0, 1, 0, b"")]),
    ];
    found.extend((0..5).map(|length| all(&[EMPTY, &field(b'V', &b"\0\0\x01\x01\0"[..length])])));
    for rows in [0, 1, 2, 3, 15, 16, 17, 255] {
        found.push(all(&[EMPTY, &hung(0, 1, rows, b"")]));
        found.push(all(&[UNDER_BORDER, &hung(2, 1, rows, &line.repeat(5))]));
    }
    for position in [0, 1, 2, 3, 255, 256, 32_768, 65_533, 65_534, 65_535] {
        for rows in [1, 2] {
            found.push(all(&[EMPTY, &hung(position, 1, rows, b"")]));
            found.push(all(&[EMPTY, &hung(position, 255, rows, b"")]));
            found.push(all(&[UNDER_BORDER, &hung(position, 2, rows, &line)]));
        }
    }
    found.extend(many_hung());
    found
}

/// Sheets with many V fields, in orders that make few or many seats.
fn many_hung() -> Vec<Vec<u8>> {
    let orders: [fn(u16) -> u16; 5] = [|_| 0, |n| 2 * n, |n| 3 * n, |n| n % 2, |n| 600 - 2 * n];
    let line = field(b'L', GOOD);
    let mut found: Vec<Vec<u8>> = Vec::new();
    for order in orders {
        found.push((0..17).flat_map(|n| hung(order(n), 1, 1, &line)).collect());
        found.push((0..17).flat_map(|n| hung(order(n), 1, 2, b"")).collect());
        found.push((0..300).flat_map(|n| hung(order(n), 1, 1, b"")).collect());
        found.push((0..300).flat_map(|n| hung(order(n), 1, 2, b"")).collect());
    }
    let far = [65_535, 3, 0].map(|position| hung(position, 1, 1, b""));
    found.push(far.concat().repeat(10));
    let on = |old: &[u8]| {
        let sheets = found.iter().map(|hung| all(&[old, hung]));
        sheets.collect::<Vec<_>>()
    };
    [on(EMPTY), on(UNDER_BORDER)].concat()
}
