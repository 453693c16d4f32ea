//! Lines, cells and sheets with K, G and V fields, drawn at random.

use crate::format::{Cell, Contents, Hanging, Hole, Line, MOST_CELLS, Piece};
use crate::make::{self, annotation, border};
use crate::random::Rng;
use unicode_width::columns;

pub type Lines = Vec<Line<Vec<u8>>>;
pub type Cells = Vec<Cell<Vec<u8>>>;
pub type Sheet = Contents<Vec<u8>>;

/// How large cells are: a column or two, so that inputs have few bytes, or as they come.
#[derive(Clone, Copy, PartialEq, Eq)]
pub enum Size {
    Tiny,
    Usual,
}

const CHARACTERS: [char; 12] = [
    'a', 'a', 'b', 'c', ' ', ' ', 'é', '│', '\u{a0}', '\u{301}', '\u{6f22}', '\u{200b}',
];

/// A text of at most that many columns; perhaps none.
fn text(rng: &mut Rng, most: usize) -> Vec<u8> {
    let mut text = String::new();
    let mut left = most;
    while !rng.once_in(4) {
        let c = rng.pick(&CHARACTERS);
        let Some(rest) = left.checked_sub(columns(c).unwrap_or(0)) else {
            break;
        };
        left = rest;
        text.push(c);
    }
    text.into_bytes()
}

/// A piece of at most that many columns.
fn piece(rng: &mut Rng, most: usize) -> Piece<Vec<u8>> {
    if rng.once_in(6) {
        return Piece::Name(rng.pick(&["", "n", "é"]).into());
    }
    let text = text(rng, most);
    if text.is_empty() {
        return Piece::Name(text);
    }
    let tag = annotation(rng);
    Piece::Text { tag, text }
}

fn piece_columns(piece: &Piece<Vec<u8>>) -> usize {
    match piece {
        Piece::Text { text, .. } => {
            let text = String::from_utf8_lossy(text);
            text.chars().filter_map(columns).sum()
        }
        Piece::Name(_) => 0,
    }
}

/// A text line that goes into that width, but now and then is wider.
fn text_line(rng: &mut Rng, width: usize) -> Line<Vec<u8>> {
    let mut left = width + if rng.once_in(12) { 2 } else { 0 };
    let pieces = (0..rng.pick(&[0, 1, 1, 1, 1, 2, 3])).map(|_| {
        let piece = piece(rng, left);
        left -= piece_columns(&piece);
        piece
    });
    Line::Text(pieces.collect())
}

/// A border of about that width with holes, in order or not.
fn holed(rng: &mut Rng, width: usize) -> Line<Vec<u8>> {
    let Line::Border { tag, segments, .. } = border(rng, width) else {
        unreachable!("a border is drawn");
    };
    let in_order = !rng.once_in(3);
    let mut next = 0;
    let holes = (0..rng.pick(&[1, 1, 2, 3])).map(|_| {
        let first = if in_order { next } else { 0 };
        let piece = piece(rng, segments.len() - first);
        let columns = piece_columns(&piece);
        let last = segments.len() - columns;
        let place = if rng.once_in(2) {
            first
        } else {
            rng.between(first, last)
        };
        next = place + columns;
        Hole { place, piece }
    });
    let holes = holes.collect();
    Line::Border {
        tag,
        segments,
        holes,
    }
}

fn line(rng: &mut Rng, width: usize) -> Line<Vec<u8>> {
    match rng.below(12) {
        0 => border(rng, width),
        1 => holed(rng, width),
        _ => text_line(rng, width),
    }
}

/// A few lines. The first and the last are borders more often than the others.
fn lines(rng: &mut Rng, size: Size, width: usize) -> Lines {
    let count = match size {
        Size::Tiny => rng.pick(&[0, 0, 1, 1, 1, 2, 2, 3]),
        Size::Usual => rng.pick(&[0, 1, 1, 2, 2, 3, 4, 5]),
    };
    let mut lines: Lines = (0..count).map(|_| line(rng, width)).collect();
    if let Some(first) = lines.first_mut()
        && rng.once_in(6)
    {
        *first = border(rng, width);
    }
    if let Some(last) = lines.last_mut()
        && rng.once_in(5)
    {
        *last = border(rng, width);
    }
    lines
}

fn width(rng: &mut Rng, size: Size) -> usize {
    match size {
        Size::Tiny => rng.pick(&[1, 1, 1, 2, 2, 3]),
        Size::Usual if rng.once_in(40) => usize::from(make::width(rng)),
        Size::Usual => rng.between(1, 12),
    }
}

fn span(rng: &mut Rng) -> Option<u8> {
    let spans = [1, 2, 2, 2, 2, 3, 3, 4, 15, 16];
    (!rng.once_in(2)).then(|| rng.pick(&spans))
}

pub fn cell(rng: &mut Rng, size: Size) -> Cell<Vec<u8>> {
    let width = width(rng, size);
    cell_of(rng, size, width)
}

/// A cell of that width.
pub fn cell_of(rng: &mut Rng, size: Size, width: usize) -> Cell<Vec<u8>> {
    Cell {
        width: width.clamp(1, 255) as u8,
        span: span(rng),
        lines: lines(rng, size, width),
    }
}

/// A cell that holds a place under a hanging one.
fn stand_in(width: u8) -> Cell<Vec<u8>> {
    Cell {
        width,
        span: None,
        lines: Vec::new(),
    }
}

/// Cells that know nothing of what hangs.
pub fn crooked(rng: &mut Rng, size: Size) -> Cells {
    let count = match rng.below(40) {
        0 => rng.between(MOST_CELLS - 1, MOST_CELLS + 1),
        1..4 => rng.between(4, 6),
        4..8 => 0,
        _ if size == Size::Tiny => rng.between(1, 2),
        _ => rng.between(1, 3),
    };
    (0..count).map(|_| cell(rng, size)).collect()
}

/// Cells as in the crate's own tables: a stand-in under each hanging cell, cells of the
/// widths between, perhaps more behind. The row may end early.
pub fn fitted(rng: &mut Rng, size: Size, hanging: &[Hanging<Vec<u8>>]) -> Cells {
    let mut cells = Vec::new();
    let mut next = 0;
    for hung in hanging {
        while next + 1 < hung.position && cells.len() < MOST_CELLS {
            let gap = hung.position - next - 1;
            let width = if gap > 2 && rng.once_in(3) {
                rng.between(1, gap - 2)
            } else {
                gap
            };
            cells.push(cell_of(rng, size, width.min(255)));
            next += width.min(255) + 1;
        }
        cells.push(stand_in(hung.width));
        next = hung.position + usize::from(hung.width) + 1;
    }
    let more = rng.pick(&[0, 0, 1, 1, 2]);
    cells.extend((0..more).map(|_| cell(rng, size)));
    cells.truncate(MOST_CELLS);
    if rng.once_in(6) {
        cells.pop();
    }
    if rng.once_in(8) && !cells.is_empty() {
        let place = rng.below(cells.len());
        cells[place] = cell(rng, size);
    }
    cells
}

/// Hanging cells, from left to right or in no order.
fn hanging(rng: &mut Rng, size: Size) -> Vec<Hanging<Vec<u8>>> {
    let count = match rng.below(12) {
        0 => rng.between(4, 9),
        _ if size == Size::Tiny => rng.between(1, 2),
        _ => rng.between(1, 3),
    };
    let wild = rng.once_in(4);
    let mut next = 0;
    let mut hung = |rng: &mut Rng| {
        let width = width(rng, size);
        let position = match rng.below(200) {
            0 => rng.pick(&[255, 256, 3_841, 65_534, 65_535]),
            _ if wild => rng.below(8),
            _ => next + rng.pick(&[0, 0, 0, 1, 2, 2, 3, 4]),
        };
        next = (position + width + 1).min(300);
        Hanging {
            position,
            width: width as u8,
            rows: rng.pick(&[1, 1, 1, 2, 2, 2, 3, 3, 4, 16]),
            lines: lines(rng, size, width),
        }
    };
    (0..count).map(|_| hung(rng)).collect()
}

/// Makes one of the hanging cells wide and short of lines.
pub fn widen(rng: &mut Rng, hanging: &mut [Hanging<Vec<u8>>]) {
    if hanging.is_empty() {
        return;
    }
    let place = rng.below(hanging.len());
    hanging[place].width = rng.pick(&[3, 4, 5, 6, 8, 12, 255]);
    hanging[place].lines.truncate(rng.pick(&[0, 0, 1]));
}

/// A sheet of a few lines, ended by a border more often than not, on which cells hang.
pub fn sheet(rng: &mut Rng, size: Size) -> Sheet {
    let width = match size {
        Size::Tiny => rng.between(1, 3),
        Size::Usual => rng.between(1, 24),
    };
    let mut lines = match size {
        Size::Tiny if !rng.once_in(3) => Vec::new(),
        _ => lines(rng, size, width),
    };
    match rng.below(5) {
        0 | 1 => lines.push(border(rng, width)),
        2 => lines.push(holed(rng, width)),
        _ => (),
    }
    let hanging = if rng.once_in(3) {
        Vec::new()
    } else {
        hanging(rng, size)
    };
    Contents {
        lines,
        names: Vec::new(),
        hanging,
    }
}
