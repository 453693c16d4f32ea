//! Damage to good inputs.

use crate::format::{Job, Line, Part, Piece, Rules, push_field};
use crate::make;
use crate::random::Rng;

/// Text that refusal 3 is for: overlong forms, surrogates, cut characters, bytes that
/// are never UTF-8, characters off the list; the last four are controls.
const BAD_TEXTS: [&[u8]; 28] = [
    b"\xC0\x80",
    b"\xC1\xBF",
    b"\xE0\x80\x80",
    b"\xE0\x9F\xBF",
    b"\xF0\x80\x80\x80",
    b"\xF0\x8F\xBF\xBF",
    b"\xED\xA0\x80",
    b"\xED\xBF\xBF",
    b"\xF4\x90\x80\x80",
    b"\xF5\x80\x80\x80",
    b"\x80",
    b"\xBF",
    b"\xC3",
    b"\xE6\xBC",
    b"\xFE",
    b"\xFF",
    b"\0",
    "\u{ad}".as_bytes(),
    "\u{180}".as_bytes(),
    "\u{338}".as_bytes(),
    "\u{3a2}".as_bytes(),
    "\u{2028}".as_bytes(),
    "\u{d7a4}".as_bytes(),
    "\u{1f600}".as_bytes(),
    "\n".as_bytes(),
    "\u{7f}".as_bytes(),
    "\u{85}".as_bytes(),
    "\u{9f}".as_bytes(),
];

/// Bytes that mean something somewhere: flags, modes, segments, letters, ends of ranges.
const TELLING_BYTES: [u8; 20] = [
    0, 1, 2, 3, 4, 7, 9, 10, 11, 12, 0x1F, 0x7F, 0x80, 0xBF, 0xC0, 0xE0, 0xED, 0xF0, 0xF4, 0xFF,
];

/// The letters that damage writes.
fn letters(rules: Rules) -> &'static [u8] {
    match rules {
        Rules::Base => b"HLSFBCWTPwtX",
        Rules::Spans => b"HLSFBCGKVGKVPgX",
        Rules::Names => b"HLSFFFBCGKVPgX",
    }
}

/// Damages bytes in one place.
pub fn bytes(rng: &mut Rng, rules: Rules, bytes: &mut Vec<u8>) {
    if bytes.is_empty() {
        bytes.push(rng.byte());
        return;
    }
    let at = rng.below(bytes.len());
    match rng.below(12) {
        0 => bytes[at] ^= 1 << rng.below(8),
        1 => bytes[at] = rng.byte(),
        2 => bytes.insert(at, rng.byte()),
        3 => drop(bytes.remove(at)),
        4 => bytes.truncate(at),
        5 => bytes.push(rng.pick(letters(rules))),
        6 => insert_all(bytes, at, rng.pick(&BAD_TEXTS)),
        7 => letter(rng, rules, bytes),
        8 => length(rng, rules, bytes),
        9 => repeat_field(rng, rules, bytes),
        10 if rules.spans() => number(rng, bytes),
        _ => content(rng, rules, bytes),
    }
}

fn insert_all(bytes: &mut Vec<u8>, at: usize, more: &[u8]) {
    bytes.splice(at..at, more.iter().copied());
}

/// Another letter.
fn letter(rng: &mut Rng, rules: Rules, bytes: &mut [u8]) {
    if let Some((start, _)) = a_field(rng, rules, bytes) {
        bytes[start] = rng.pick(letters(rules));
    }
}

/// Another length: one more, one less, none, the greatest.
fn length(rng: &mut Rng, rules: Rules, bytes: &mut [u8]) {
    if let Some((start, _)) = a_field(rng, rules, bytes) {
        let old = u16::from_be_bytes([bytes[start + 1], bytes[start + 2]]);
        let new = rng.pick(&[old.wrapping_add(1), old.wrapping_sub(1), 0, u16::MAX]);
        bytes[start + 1..start + 3].copy_from_slice(&new.to_be_bytes());
    }
}

/// A field twice, or moved to another field's place.
fn repeat_field(rng: &mut Rng, rules: Rules, bytes: &mut Vec<u8>) {
    if let (Some((start, end)), Some((other, _))) =
        (a_field(rng, rules, bytes), a_field(rng, rules, bytes))
    {
        let field = bytes[start..end].to_vec();
        insert_all(bytes, other, &field);
    }
}

/// Another byte inside a field: the shape stays.
fn content(rng: &mut Rng, rules: Rules, bytes: &mut [u8]) {
    if let Some((start, end)) = a_field(rng, rules, bytes)
        && start + 3 < end
    {
        let at = if rng.once_in(2) {
            start + 3
        } else {
            rng.between(start + 3, end - 1)
        };
        bytes[at] = rng.pick(&TELLING_BYTES);
    }
}

/// Another span, rows left, position, segment count or place of a hole.
fn number(rng: &mut Rng, bytes: &mut [u8]) {
    let Some((start, end)) = a_field(rng, Rules::Spans, bytes) else {
        return;
    };
    let (at, size) = match bytes[start] {
        b'K' => (start + 4, 1),
        b'V' if rng.once_in(2) => (start + 3, 2),
        b'V' => (start + 6, 1),
        b'G' => (start + 4, 2),
        // Before a hole's field stands its place.
        b'S' | b'F' if start >= 2 => (start - 2, 2),
        _ => return,
    };
    if at + size > end {
        return;
    }
    if size == 1 {
        bytes[at] = rng.pick(&[0, 1, 2, 3, 15, 16, 17, 255]);
    } else {
        let number: u16 = rng.pick(&[0, 1, 2, 3, 4, 5, 6, 256, u16::MAX]);
        bytes[at..at + 2].copy_from_slice(&number.to_be_bytes());
    }
}

/// Another byte where the shape of a sheet, of cells or of prefixes does not see it: in
/// a text, a name or a prefix, or a cell's width. Refusal 2 or 3, if any.
pub fn value(rng: &mut Rng, rules: Rules, bytes: &mut [u8]) {
    let Some((start, end)) = a_field(rng, rules, bytes) else {
        return;
    };
    let width = match bytes[start] {
        b'C' => Some(start + 3),
        b'K' if rules.spans() => Some(start + 3),
        b'V' if rules.spans() => Some(start + 5),
        _ => None,
    };
    let at = match bytes[start] {
        b'S' if start + 4 < end => rng.between(start + 4, end - 1),
        b'F' | b'P' if start + 3 < end => rng.between(start + 3, end - 1),
        _ => match width {
            Some(at) if at < end => at,
            _ => return,
        },
    };
    bytes[at] = rng.pick(&TELLING_BYTES);
    if width.is_some() && rng.once_in(2) {
        bytes[at] = 0;
    }
}

/// A field's start and end, inner fields included.
fn a_field(rng: &mut Rng, rules: Rules, bytes: &[u8]) -> Option<(usize, usize)> {
    let mut found = Vec::new();
    find_fields(rules, bytes, 0, &mut found);
    if found.is_empty() {
        None
    } else {
        Some(rng.pick(&found))
    }
}

fn find_fields(rules: Rules, mut bytes: &[u8], mut start: usize, found: &mut Vec<(usize, usize)>) {
    while let [letter, high, low, rest @ ..] = bytes {
        let length = usize::from(u16::from_be_bytes([*high, *low]));
        let Some((content, after)) = rest.split_at_checked(length) else {
            return;
        };
        let end = start + 3 + length;
        found.push((start, end));
        let head = match letter {
            b'L' => 0,
            b'C' => 1,
            b'K' if rules.spans() => 2,
            b'V' if rules.spans() => 4,
            _ => length,
        };
        if let Some(inner) = content.get(head..) {
            find_fields(rules, inner, start + 3 + head, found);
        }
        if rules.spans() && *letter == b'G' {
            find_holes(content, start + 3, found);
        }
        bytes = after;
        start = end;
    }
}

/// The S and F fields of a G field.
fn find_holes(content: &[u8], start: usize, found: &mut Vec<(usize, usize)>) {
    let Some(&[_, high, low]) = content.first_chunk() else {
        return;
    };
    let mut at = 3 + usize::from(u16::from_be_bytes([high, low])) + 2;
    while let Some(&[_, high, low]) = content.get(at..).and_then(<[u8]>::first_chunk) {
        let end = at + 3 + usize::from(u16::from_be_bytes([high, low]));
        if end > content.len() {
            return;
        }
        found.push((start + at, start + end));
        at = end + 2;
    }
}

/// Puts an F field before or after some field, inside what that one is in: where names may
/// stand, between lines, after what hangs, in a cell, in a line. Its name can be bad, or the field
/// broken.
pub fn put_name(rng: &mut Rng, bytes: &mut Vec<u8>) {
    let mut found = Vec::new();
    find_fields(Rules::Names, bytes, 0, &mut found);
    if found.is_empty() {
        return bytes.push(b'F');
    }
    let (start, end) = rng.pick(&found);
    let mut name: Vec<u8> = rng.pick(&["", "n", "n", "漢", "bin-07"]).into();
    if rng.once_in(6) {
        spoil(rng, &mut name);
    }
    let mut field = Vec::new();
    push_field(&mut field, b'F', &name);
    if rng.once_in(8) {
        field[2] = rng.pick(&[0, 1, 2, 3, 255]);
    }
    let around = found.iter().filter(|(s, e)| *s < start && *e >= end);
    for (outer, _) in around {
        let length = u16::from_be_bytes([bytes[outer + 1], bytes[outer + 2]]);
        let length = length.saturating_add(field.len() as u16);
        bytes[outer + 1..outer + 3].copy_from_slice(&length.to_be_bytes());
    }
    let at = rng.pick(&[start, end, end]);
    insert_all(bytes, at, &field);
}

/// Puts a bad text into a text, before one of its bytes or at the end.
pub fn spoil(rng: &mut Rng, text: &mut Vec<u8>) {
    let at = rng.between(0, text.len());
    insert_all(text, at, rng.pick(&BAD_TEXTS));
}

/// Spoils a part of a job, making one if there is none.
pub fn spoil_job(rng: &mut Rng, job: &mut Job<Vec<u8>>) {
    if job.parts.is_empty() {
        job.parts.push(Part::Name(Vec::new()));
    }
    let place = rng.below(job.parts.len());
    let (Part::Text { text, .. } | Part::Name(text)) = &mut job.parts[place];
    spoil(rng, text);
}

/// Puts a line with a spoiled piece among the lines.
pub fn spoil_lines(rng: &mut Rng, lines: &mut Vec<Line<Vec<u8>>>) {
    let mut text = make::plain(rng, make::Style::Mixed, 6);
    spoil(rng, &mut text);
    let piece = if rng.once_in(2) {
        Piece::Name(text)
    } else {
        Piece::Text { tag: 0, text }
    };
    let place = rng.between(0, lines.len());
    lines.insert(place, Line::Text(vec![piece]));
}
