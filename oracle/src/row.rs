//! The row of `append_columns_with_borders` in our own words: which cells stand in it, how
//! high it is, and where refusals 6 and 10 are given. The crate's panics are held against
//! this, and it alone measures a new hole against its border.

use crate::checks;
use crate::format::{Cell, Contents, Hanging, Line, Piece};
use crate::guard::Place;
use std::collections::VecDeque;

type Lines<'a> = &'a [Line<&'a [u8]>];

/// A cell that stands in the row.
struct Seat<'a> {
    position: usize,
    width: usize,
    rows: usize,
    lines: Lines<'a>,
    /// The width that its lines are filled and stretched to.
    filled: usize,
    /// Did collapsing take off a last border, which leaves a padding pattern?
    pattern: bool,
}

impl<'a> Seat<'a> {
    fn of_cell(cell: &'a Cell<&[u8]>, position: usize) -> Seat<'a> {
        let width = usize::from(cell.width);
        Seat {
            position,
            width,
            rows: usize::from(cell.span.unwrap_or(1)),
            lines: &cell.lines,
            filled: width,
            pattern: false,
        }
    }

    fn of_hanging(cell: &'a Hanging<&[u8]>) -> Seat<'a> {
        Seat {
            position: cell.position,
            width: usize::from(cell.width),
            rows: usize::from(cell.rows),
            lines: &cell.lines,
            filled: 0,
            pattern: false,
        }
    }

    /// An empty seat from an edge up to the place of the next one.
    fn filling(edge: usize, next: usize) -> Seat<'a> {
        Seat {
            position: edge,
            width: next - edge - 1,
            rows: 1,
            lines: &[],
            filled: 0,
            pattern: false,
        }
    }

    fn share(&self) -> usize {
        self.lines.len() / self.rows
    }

    /// The columns from the seat's place to the end of its last hole, if it makes one of
    /// its line of that number.
    fn hole_end(&self, line: usize) -> Option<usize> {
        match self.lines.get(line) {
            None => Some(self.width),
            Some(line) if self.filled == 0 && is_blank(line) => None,
            Some(line) => Some(columns(line).max(self.filled)),
        }
    }
}

/// A row whose cells are seated and, if asked, collapsed.
pub struct SeatedRow<'a> {
    seats: Vec<Seat<'a>>,
    total: usize,
    height: usize,
    /// The new border's length before it has holes.
    border: usize,
    /// Does collapsing meet a first border without a border above?
    no_border_above: bool,
}

impl<'a> SeatedRow<'a> {
    /// Seats cells and hanging cells on a sheet.
    pub fn new(
        old: &'a Contents<&[u8]>,
        cells: &'a [Cell<&[u8]>],
        collapse: bool,
    ) -> SeatedRow<'a> {
        let (seats, total) = seated(cells, &old.hanging);
        let mut row = SeatedRow {
            seats,
            total,
            height: 0,
            border: total,
            no_border_above: false,
        };
        let under_border = is_border(old.lines.last());
        if under_border {
            row.join_edges();
        }
        if collapse {
            row.collapse(under_border);
        }
        row.height = row.seats.iter().map(Seat::share).max().unwrap_or(0);
        row
    }

    /// Each seat with its place.
    fn places(&self) -> impl Iterator<Item = (usize, &Seat<'a>)> {
        self.seats.iter().scan(0, |next, seat| {
            let place = *next;
            *next += seat.width + 1;
            Some((place, seat))
        })
    }

    /// Joins reach as far as the edge before the last seat.
    fn join_edges(&mut self) {
        let last = self.places().last().map_or(0, |(place, _)| place);
        self.border = self.border.max(last);
    }

    fn collapse(&mut self, under_border: bool) {
        let mut place = 0;
        for seat in &mut self.seats {
            if let [Line::Border { .. }, rest @ ..] = seat.lines {
                self.no_border_above |= !under_border;
                seat.lines = rest;
            }
            if let [rest @ .., Line::Border { segments, .. }] = seat.lines {
                let joined = segments.iter().rposition(|s| joins_above(*s));
                let reach = joined.map_or(0, |last| place + last + 1);
                self.border = self.border.max(reach);
                seat.lines = rest;
                seat.pattern = true;
            }
            place += seat.width + 1;
        }
    }

    /// Where the crate must panic, if it must.
    pub fn panics(&self) -> Option<Place> {
        if self.no_border_above {
            return Some(Place::NoBorderAbove);
        }
        let shown = |line| {
            self.seats
                .iter()
                .find_map(move |seat| self.shows(seat, line))
        };
        (0..self.height).find_map(shown)
    }

    /// Where the crate must panic when it shows a line of a seat.
    fn shows(&self, seat: &Seat, line: usize) -> Option<Place> {
        match seat.lines.get(line) {
            Some(line) => overlaps(line).then_some(Place::HoleOrder),
            None => (!seat.pattern && seat.width > self.total).then_some(Place::Blanks),
        }
    }

    /// How far the new holes reach, 0 without any.
    fn holes_end(&self) -> usize {
        let hang_on = self.places().filter(|(_, seat)| seat.rows > 1);
        let ends = hang_on.filter_map(|(x, seat)| Some(x + seat.hole_end(self.height)?));
        ends.max().unwrap_or(0)
    }

    /// Does a new hole end past its border?
    pub fn hole_past_border(&self) -> bool {
        self.holes_end() > self.border
    }

    /// The new border's length once the crate has stretched it.
    pub fn stretched(&self) -> usize {
        self.holes_end().max(self.border)
    }
}

/// The seats of a row and its width: the cells, with hanging cells in the place of some.
fn seated<'a>(cells: &'a [Cell<&[u8]>], hanging: &'a [Hanging<&[u8]>]) -> (Vec<Seat<'a>>, usize) {
    let mut reach = 0;
    let mut ahead: VecDeque<Seat> = VecDeque::new();
    for cell in cells {
        ahead.push_back(Seat::of_cell(cell, reach));
        reach += usize::from(cell.width) + 1;
    }
    let mut passed: Vec<Seat> = Vec::new();
    let mut edge = 0;
    for cell in hanging {
        let new = Seat::of_hanging(cell);
        while ahead
            .front()
            .is_some_and(|seat| seat.position < new.position)
        {
            let seat = ahead.pop_front().expect("a seat is ahead");
            edge = seat.position + seat.width + 1;
            passed.push(seat);
        }
        if let Some(front) = ahead.front_mut() {
            *front = new;
            continue;
        }
        if edge < new.position {
            ahead.push_back(Seat::filling(edge, new.position));
        }
        if new.position + new.width > reach {
            reach = new.position + new.width + 1;
        }
        ahead.push_back(new);
    }
    passed.extend(ahead);
    (passed, reach.saturating_sub(1))
}

/// Does drawing the line as a text meet a hole that begins before the one ahead of it ends?
pub fn overlaps(line: &Line<&[u8]>) -> bool {
    let Line::Border { holes, .. } = line else {
        return false;
    };
    let pairs = holes.windows(2);
    let mut ends = pairs.map(|pair| (pair[0].place + piece_columns(&pair[0].piece), &pair[1]));
    ends.any(|(end, next)| next.place < end)
}

fn is_border<T>(line: Option<&Line<T>>) -> bool {
    matches!(line, Some(Line::Border { .. }))
}

/// Does `merge_from_above` join at this segment?
fn joins_above(segment: u8) -> bool {
    matches!(segment, 1 | 2 | 3 | 8 | 9)
}

/// Has the line no pieces, once it is text?
fn is_blank(line: &Line<&[u8]>) -> bool {
    match line {
        Line::Text(pieces) => pieces.is_empty(),
        Line::Border {
            segments, holes, ..
        } => segments.is_empty() && holes.is_empty(),
    }
}

/// The columns of a line, once it is text.
fn columns(line: &Line<&[u8]>) -> usize {
    match line {
        Line::Text(pieces) => pieces.iter().map(piece_columns).sum(),
        Line::Border {
            segments, holes, ..
        } => {
            let drawn = holes.iter().fold(0, |drawn: usize, hole| {
                drawn.max(hole.place) + piece_columns(&hole.piece)
            });
            drawn.max(segments.len())
        }
    }
}

fn piece_columns(piece: &Piece<&[u8]>) -> usize {
    checks::piece_columns(piece).expect("refusal 3 came before")
}
