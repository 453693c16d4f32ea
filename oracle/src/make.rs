//! Good inputs, drawn at random: texts, jobs, lines, sheets.

use crate::checks::{MOST_UNITS, is_control, part_units};
use crate::format::{Job, Line, Part, Piece};
use crate::random::Rng;

/// How the characters of a text are drawn.
#[derive(Clone, Copy)]
pub enum Style {
    /// Short words of letters.
    Prose,
    /// Every kind of character that the block treats in its own way.
    Mixed,
    /// Anything on the list.
    Any,
    /// Many tabs, line feeds and blanks.
    Stops,
    /// Words that are longer than a line.
    LongWords,
    /// Many characters of two columns and of none.
    Wide,
}

pub const STYLES: [Style; 6] = [
    Style::Prose,
    Style::Mixed,
    Style::Any,
    Style::Stops,
    Style::LongWords,
    Style::Wide,
];

const MIXED: [char; 18] = [
    'a', 'b', 'c', ' ', ' ', ' ', '\u{a0}', '\u{200b}', '\u{3000}', '\u{6f22}', '\u{301}', '\t',
    '\n', '\u{b}', '\u{7}', '\u{85}', '\u{2007}', '\u{ff76}',
];
const STOPS: [char; 9] = ['\t', '\t', '\n', ' ', ' ', 'a', 'b', '\u{3000}', '\u{6f22}'];
const WIDE: [char; 10] = [
    'a', 'b', ' ', ' ', '\u{6f22}', '\u{3042}', '\u{ac00}', '\u{301}', '\u{336}', '\u{200b}',
];

fn letter(rng: &mut Rng) -> char {
    char::from(b'a' + rng.below(26) as u8)
}

fn character(rng: &mut Rng, style: Style) -> char {
    match style {
        Style::Prose if rng.once_in(5) => ' ',
        Style::LongWords if rng.once_in(60) => ' ',
        Style::LongWords if rng.once_in(8) => rng.pick(&['\u{6f22}', '\u{301}', '\u{a0}']),
        Style::Prose | Style::LongWords => letter(rng),
        Style::Mixed => rng.pick(&MIXED),
        Style::Any => listed(rng),
        Style::Stops => rng.pick(&STOPS),
        Style::Wide => rng.pick(&WIDE),
    }
}

/// A character of the list, the ends of its ranges more often than the rest.
fn listed(rng: &mut Rng) -> char {
    const CONTROLS: [(u32, u32, usize); 2] = [(0x01, 0x1F, 0), (0x7F, 0x9F, 0)];
    let ranges = unicode_width::TABLE.len();
    let place = rng.below(ranges + CONTROLS.len());
    let (first, last, _) = match place.checked_sub(ranges) {
        None => unicode_width::TABLE[place],
        Some(control) => CONTROLS[control],
    };
    let between = rng.between(first as usize, last as usize) as u32;
    let code = rng.pick(&[first, last, between, between]);
    char::from_u32(code).expect("the list has no surrogates")
}

/// A text of at most that many bytes, controls included.
pub fn text(rng: &mut Rng, style: Style, bytes: usize) -> Vec<u8> {
    draw(rng, style, bytes, |_| true)
}

/// A text of at most that many bytes, without controls.
pub fn plain(rng: &mut Rng, style: Style, bytes: usize) -> Vec<u8> {
    draw(rng, style, bytes, |c| !is_control(c))
}

fn draw(rng: &mut Rng, style: Style, bytes: usize, wanted: impl Fn(char) -> bool) -> Vec<u8> {
    let mut text = String::new();
    loop {
        let c = character(rng, style);
        if text.len() + c.len_utf8() > bytes {
            return text.into_bytes();
        }
        if wanted(c) {
            text.push(c);
        }
    }
}

pub fn annotation(rng: &mut Rng) -> u8 {
    rng.pick(&[0, 0, 0, 0, 1, 1, 2, 255])
}

pub fn width(rng: &mut Rng) -> u8 {
    const WIDTHS: [u8; 20] = [
        1, 1, 2, 2, 3, 3, 4, 5, 6, 7, 8, 9, 10, 12, 16, 20, 79, 80, 254, 255,
    ];
    if rng.once_in(8) {
        rng.byte().max(1)
    } else {
        rng.pick(&WIDTHS)
    }
}

/// The units of a job: mostly few, now and then just at the limit.
pub fn size(rng: &mut Rng) -> usize {
    match rng.below(100) {
        0..70 => rng.below(40),
        70..93 => rng.below(200),
        93..98 => rng.below(1500),
        _ => rng.between(MOST_UNITS - 2, MOST_UNITS + 2),
    }
}

/// A job of exactly that many units.
pub fn job(rng: &mut Rng, units: usize) -> Job<Vec<u8>> {
    let width = width(rng);
    let mut job = Job {
        width,
        pad: rng.once_in(4),
        overflow: rng.once_in(if width == 1 { 2 } else { 4 }),
        annotation: annotation(rng),
        parts: Vec::new(),
    };
    let style = rng.pick(&STYLES);
    let mode = rng.below(3) as u8;
    let longest = rng.pick(&[4, 12, 60, 6000]);
    let mut left = units;
    while left > 0 {
        let part = part(rng, style, mode, left.min(longest), left);
        left -= part_units(&part);
        job.parts.push(part);
    }
    while rng.once_in(6) {
        cut(rng, &mut job);
    }
    job
}

/// A part of `bytes` bytes or fewer; it has at least one unit and at most `left`.
fn part(rng: &mut Rng, style: Style, mode: u8, bytes: usize, left: usize) -> Part<Vec<u8>> {
    if rng.once_in(6) {
        let style = rng.pick(&STYLES);
        let bytes = rng.below(left.min(7));
        return Part::Name(plain(rng, style, bytes));
    }
    let style = if rng.once_in(4) {
        rng.pick(&STYLES)
    } else {
        style
    };
    let bytes = rng.between(1, bytes);
    let mut text = text(rng, style, bytes);
    if text.is_empty() {
        text.push(b'a');
    }
    let first = annotation(rng);
    Part::Text {
        mode: if rng.once_in(6) {
            rng.below(3) as u8
        } else {
            mode
        },
        first,
        continued: if rng.once_in(2) {
            first
        } else {
            annotation(rng)
        },
        text,
    }
}

/// Puts two T fields in the place of one, or a T without text beside a field.
fn cut(rng: &mut Rng, job: &mut Job<Vec<u8>>) {
    if job.parts.is_empty() {
        return;
    }
    let place = rng.below(job.parts.len());
    let Part::Text { text, .. } = &mut job.parts[place] else {
        return;
    };
    let ends: Vec<usize> = (0..=text.len())
        .filter(|at| *at == text.len() || text[*at] & 0xC0 != 0x80)
        .collect();
    let rest = text.split_off(rng.pick(&ends));
    let mut second = job.parts[place].clone();
    if let Part::Text { text, .. } = &mut second {
        *text = rest;
    }
    job.parts.insert(place + 1, second);
}

/// Texts that close a word, leave it open, or have none: before a name at a job's end.
const ENDS: [&str; 18] = [
    "", " ", "  ", "a", "a ", "ab ", "abcdefgh", "a\u{a0}", " \u{a0}", "\u{301}", "\u{301} ",
    "\u{200b}", "\u{3000}", "\u{6f22}", "\n", "\t", "a\t", "\u{7}",
];

/// The last parts of a job: names, and texts that let them wait, take them along or lose them.
pub fn ending(rng: &mut Rng) -> Vec<Part<Vec<u8>>> {
    let mut parts = Vec::new();
    for _ in 0..rng.between(1, 3) {
        if !rng.once_in(5) {
            parts.push(end(rng));
        }
        parts.extend(names(rng).into_iter().map(Part::Name));
    }
    if rng.once_in(5) {
        parts.push(end(rng));
    }
    parts
}

fn end(rng: &mut Rng) -> Part<Vec<u8>> {
    let first = annotation(rng);
    Part::Text {
        mode: rng.below(3) as u8,
        first,
        continued: rng.pick(&[first, 3]),
        text: rng.pick(&ENDS).into(),
    }
}

/// A few names: short, empty, long, of wide characters; perhaps none.
pub fn names(rng: &mut Rng) -> Vec<Vec<u8>> {
    let count = rng.pick(&[0, 1, 1, 1, 1, 2, 2, 3, 4, 5]);
    (0..count).map(|_| name(rng)).collect()
}

fn name(rng: &mut Rng) -> Vec<u8> {
    let style = rng.pick(&STYLES);
    match rng.below(24) {
        0..4 => Vec::new(),
        4..8 => rng.pick(&["漢", "棚 07", "\u{3000}", "n漢"]).into(),
        8 => {
            let bytes = rng.between(20, 120);
            plain(rng, style, bytes)
        }
        9..16 => rng.pick(&["n", "m", "é", " "]).into(),
        _ => {
            let bytes = rng.below(7);
            plain(rng, style, bytes)
        }
    }
}

/// A border of about that width.
pub fn border(rng: &mut Rng, width: usize) -> Line<Vec<u8>> {
    let length = match rng.below(6) {
        0 => rng.below(width + 4),
        _ => width,
    };
    let joins = rng.pick(&[0, 0, 2, 5]);
    let segment = |rng: &mut Rng| match joins {
        0 => 0,
        _ if rng.below(6) >= joins => 0,
        _ => rng.below(12) as u8,
    };
    Line::Border {
        tag: annotation(rng),
        segments: (0..length).map(|_| segment(rng)).collect(),
        holes: Vec::new(),
    }
}

/// A text line of a few pieces, each of at most that many bytes.
pub fn text_line(rng: &mut Rng, bytes: usize) -> Line<Vec<u8>> {
    let pieces = rng.pick(&[0, 1, 1, 1, 2, 2, 3]);
    let style = rng.pick(&STYLES);
    let piece = |rng: &mut Rng| {
        let length = rng.between(0, bytes);
        let text = plain(rng, style, length);
        if text.is_empty() || rng.once_in(7) {
            return Piece::Name(text);
        }
        Piece::Text {
            tag: annotation(rng),
            text,
        }
    };
    Line::Text((0..pieces).map(|_| piece(rng)).collect())
}

/// A few lines, some of them borders.
pub fn lines(rng: &mut Rng, width: usize, most: usize) -> Vec<Line<Vec<u8>>> {
    let count = rng.between(0, most);
    let borders = rng.pick(&[2, 3, 9]);
    let line = |rng: &mut Rng| {
        if rng.once_in(borders) {
            border(rng, width)
        } else {
            text_line(rng, width)
        }
    };
    (0..count).map(|_| line(rng)).collect()
}
