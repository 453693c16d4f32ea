//! Inputs made by hand, at the edges of refusals 1 to 4.

use crate::checks::Input;
use crate::format::push_field;

const W: &[u8] = b"W\0\x03\x08\0\0";
const ONE_LINE: &[u8] = b"H\0\x02\0\x01";

/// The inputs of a kind.
pub fn of(input: Input) -> Vec<Vec<u8>> {
    match input {
        Input::Job => jobs(),
        Input::Sheet => sheets(),
        Input::Cells => cells(),
        Input::Prefixes => prefixes(),
    }
}

fn field(letter: u8, content: &[u8]) -> Vec<u8> {
    let mut out = Vec::new();
    push_field(&mut out, letter, content);
    out
}

/// Runs of bytes, put together.
fn all(parts: &[&[u8]]) -> Vec<u8> {
    parts.concat()
}

fn text(content: &[u8]) -> Vec<u8> {
    field(b'T', &all(&[&[0, 0, 0], content]))
}

fn job_of(text_bytes: &[u8]) -> Vec<u8> {
    all(&[W, &text(text_bytes)])
}

fn jobs() -> Vec<Vec<u8>> {
    let mut found = vec![
        Vec::new(),
        W.to_vec(),
        all(&[W, W]),
        all(&[&text(b"a"), W]),
        field(b'W', &[8, 0]),
        field(b'W', &[8, 0, 0, 0]),
        field(b'W', &[]),
        all(&[W, &field(b'F', b"")]),
        field(b'F', b""),
        all(&[W, &field(b'T', &[0, 0])]),
        job_of(b""),
        all(&[W, b"T"]),
        all(&[W, b"T\0"]),
        all(&[W, b"T\0\x05\0\0\0a"]),
        all(&[W, b"T\xFF\xFF\0\0\0a"]),
        all(&[W, b"F\xFF\xFF"]),
        b"W\xFF\xFF\x08\0\0".to_vec(),
        job_of(&[b'a'; 65_532]),
        all(&[W, &field(b'F', &[b'a'; 65_535])]),
    ];
    found.extend([1, 2, 3, 4, 5, 0x80, 0xFF].map(|flags| field(b'W', &[8, flags, 0])));
    found.extend([1, 2, 3, 255].map(|mode| all(&[W, &field(b'T', &[mode, 0, 0, b'a'])])));
    found.extend(b"HLSBCWPwtfX".map(|letter| all(&[W, &field(letter, b"\0\0\0a")])));
    found.extend((0..=255).map(|byte| job_of(&[byte])));
    found.extend((0..=255).map(|byte| all(&[W, &field(b'F', &[byte])])));
    found.extend(full_jobs());
    found.extend(jobs_with_many_faults());
    found
}

/// 4,095 to 4,098 units: in one text, in one name, in empty names, in both.
fn full_jobs() -> Vec<Vec<u8>> {
    let of_units = |units: usize| {
        let letters = vec![b'a'; units];
        let name = field(b'F', &letters[1..]);
        let names = field(b'F', b"").repeat(units);
        let half = text(&letters[..2000]);
        let other_half = field(b'F', &letters[2001..]);
        [
            job_of(&letters),
            all(&[W, &name]),
            all(&[W, &names]),
            all(&[W, &half, &other_half]),
        ]
    };
    (4095..=4098).flat_map(of_units).collect()
}

/// Every set of faults, so that the order of refusals shows.
fn jobs_with_many_faults() -> Vec<Vec<u8>> {
    let job = |faults: usize| {
        let width = if faults & 2 == 0 { 8 } else { 0 };
        let mut out = field(b'W', &[width, 0, 0]);
        if faults & 8 != 0 {
            out.extend(text(&[b'a'; 4097]));
        }
        if faults & 4 != 0 {
            out.extend(text("\u{338}".as_bytes()));
        }
        if faults & 1 != 0 {
            out.push(b'T');
        }
        out
    };
    (0..16).map(job).collect()
}

fn line_of(piece: &[u8]) -> Vec<u8> {
    field(b'L', piece)
}

/// Lines, good and bad, that a sheet or cell can hold.
fn lines() -> Vec<Vec<u8>> {
    let mut found = vec![
        line_of(b""),
        line_of(&field(b'S', b"\0a")),
        line_of(&field(b'S', b"\0")),
        line_of(&field(b'S', b"")),
        line_of(&field(b'F', b"")),
        line_of(&field(b'F', b"a")),
        line_of(&line_of(b"")),
        line_of(&field(b'B', b"\0")),
        line_of(b"S"),
        line_of(b"S\0\x03\0a"),
        line_of(b"S\xFF\xFF\0a"),
        line_of(&all(&[&field(b'S', b"\0a"), b"F"])),
        field(b'B', b""),
        field(b'B', b"\0"),
        field(b'B', b"\xFF\x0B"),
        field(b'B', b"\x0C\0"),
        field(b'B', b"\0\0\x0C"),
        field(b'B', b"\0\xFF\0"),
        field(b'S', b"\0a"),
        field(b'F', b""),
        field(b'C', b"\x01"),
        field(b'T', b"\0\0\0a"),
        field(b'P', b"a"),
        field(b'H', b"\0\0"),
        field(b'b', b"\0\0\0"),
        b"L\xFF\xFF".to_vec(),
        b"B\0\x02\0".to_vec(),
    ];
    found.extend((0..=255).map(|byte| line_of(&field(b'S', &[0, byte]))));
    found.extend((0..=255).map(|byte| line_of(&field(b'F', &[byte]))));
    found
}

fn sheets() -> Vec<Vec<u8>> {
    let line = line_of(b"");
    let head = |count: u16| field(b'H', &count.to_be_bytes());
    let mut found = vec![
        Vec::new(),
        b"H".to_vec(),
        head(0),
        head(1),
        field(b'H', b""),
        field(b'H', b"\0"),
        field(b'H', b"\0\0\0"),
        all(&[&head(0), &head(0)]),
        line.clone(),
        all(&[&line, ONE_LINE]),
        all(&[&head(0), &line]),
        all(&[&head(1), &line, &line]),
        all(&[&head(2), &line, &line]),
        all(&[&head(3), &line, &line]),
        all(&[&head(256), &line]),
        all(&[ONE_LINE, &line, b"\0"]),
        all(&[ONE_LINE, &line, b"L\0"]),
        all(&[&head(65_535), &line.repeat(65_535)]),
        all(&[&head(65_535), &line.repeat(65_534)]),
        all(&[&head(0), &line.repeat(65_536)]),
        all(&[ONE_LINE, &line_of(&field(b'S', &[b'a'; 65_532]))]),
        all(&[ONE_LINE, &field(b'B', &[11; 65_535])]),
    ];
    found.extend(lines().iter().map(|line| all(&[ONE_LINE, line])));
    found
}

fn cells() -> Vec<Vec<u8>> {
    let cell = |width: u8, lines: &[u8]| field(b'C', &all(&[&[width], lines]));
    let good = cell(2, &line_of(&field(b'S', b"\0ab")));
    let no_width = cell(0, &[]);
    let strange = cell(1, &line_of(&field(b'S', b"\0\n")));
    let mut found = vec![
        Vec::new(),
        b"C".to_vec(),
        field(b'C', b""),
        cell(1, b""),
        cell(255, b""),
        no_width.clone(),
        all(&[&good, &no_width]),
        all(&[&good, b"\0"]),
        all(&[&no_width, &strange]),
        all(&[&strange, &no_width]),
        all(&[&strange, b"C"]),
        good.repeat(15),
        good.repeat(16),
        good.repeat(17),
        no_width.repeat(16),
        no_width.repeat(17),
        strange.repeat(16),
        strange.repeat(17),
        cell(1, &cell(1, b"")),
        line_of(b""),
        b"C\xFF\xFF\x01".to_vec(),
        cell(1, &field(b'B', &[0; 65_531])),
        b"K\0\x02\x01\x01".to_vec(),
    ];
    found.extend(lines().iter().map(|line| cell(3, line)));
    found
}

fn prefixes() -> Vec<Vec<u8>> {
    let mut found = vec![
        Vec::new(),
        b"P".to_vec(),
        b"P\0".to_vec(),
        b"P\0\x01".to_vec(),
        b"P\xFF\xFFa".to_vec(),
        field(b'P', b""),
        field(b'P', b"").repeat(100),
        field(b'P', &[b'a'; 65_535]),
        all(&[&field(b'P', b"\n"), b"P"]),
        all(&[&field(b'P', b"a"), &field(b'F', b"a")]),
    ];
    found.extend(b"HLSFBCWTpX".map(|letter| field(letter, b"a")));
    found.extend((0..=255).map(|byte| field(b'P', &[byte])));
    found
}
