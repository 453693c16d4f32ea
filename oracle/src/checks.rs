//! Refusals 1 to 4: what an input is refused for before any work is done.

use crate::format::{self, Cell, Contents, Hole, Job, Line, Part, Piece, Refusal, Rules};
use std::str;
use unicode_width::UnicodeWidthStr;

/// The most units of a job.
pub const MOST_UNITS: usize = 4096;

/// A control on document 01's list.
pub fn is_control(c: char) -> bool {
    matches!(c, '\u{1}'..='\u{1f}' | '\u{7f}'..='\u{9f}')
}

/// Is this well-formed UTF-8 with characters of the list alone?
fn on_the_list(bytes: &[u8], controls: bool) -> bool {
    let allowed = |c| unicode_width::columns(c).is_some() || (controls && is_control(c));
    str::from_utf8(bytes).is_ok_and(|text| text.chars().all(allowed))
}

/// Text of a T field: controls may stand there.
fn is_text(bytes: &[u8]) -> bool {
    on_the_list(bytes, true)
}

/// Text of an S field, a name or a prefix: no controls.
fn is_plain(bytes: &[u8]) -> bool {
    on_the_list(bytes, false)
}

/// The columns of a piece that passes refusal 3; a name has none.
pub fn piece_columns(piece: &Piece<&[u8]>) -> Option<usize> {
    let (Piece::Text { text, .. } | Piece::Name(text)) = piece;
    if !is_plain(text) {
        return None;
    }
    match piece {
        Piece::Text { text, .. } => str::from_utf8(text).ok().map(UnicodeWidthStr::width),
        Piece::Name(_) => Some(0),
    }
}

fn refuse(when: bool, refusal: Refusal) -> Result<(), Refusal> {
    if when { Err(refusal) } else { Ok(()) }
}

/// A job that passes 1, 2, 3 and 4.
pub fn job(bytes: &[u8]) -> Result<Job<&[u8]>, Refusal> {
    let job = format::read_job(bytes)?;
    refuse(job.width == 0, Refusal::NoWidth)?;
    let passes = |part: &Part<&[u8]>| match part {
        Part::Text { text, .. } => is_text(text),
        Part::Name(name) => is_plain(name),
    };
    refuse(!job.parts.iter().all(passes), Refusal::StrangeCharacter)?;
    refuse(units(&job) > MOST_UNITS, Refusal::OverfullJob)?;
    Ok(job)
}

/// Text bytes, name bytes, and one for each F field.
fn units(job: &Job<&[u8]>) -> usize {
    job.parts.iter().map(part_units).sum()
}

/// The units of one part.
pub fn part_units<T: AsRef<[u8]>>(part: &Part<T>) -> usize {
    match part {
        Part::Text { text, .. } => text.as_ref().len(),
        Part::Name(name) => name.as_ref().len() + 1,
    }
}

/// Refusal 2 over cells.
pub fn widths(cells: &[Cell<&[u8]>]) -> Result<(), Refusal> {
    refuse(cells.iter().any(|cell| cell.width == 0), Refusal::NoWidth)
}

/// Refusal 2 over a sheet's hanging cells.
pub fn hanging_widths(sheet: &Contents<&[u8]>) -> Result<(), Refusal> {
    let no_width = sheet.hanging.iter().any(|cell| cell.width == 0);
    refuse(no_width, Refusal::NoWidth)
}

/// Refusal 3 over a sheet.
pub fn sheet(sheet: &Contents<&[u8]>) -> Result<(), Refusal> {
    lines(&sheet.lines)?;
    let names = sheet.names.iter().all(|name| is_plain(name));
    refuse(!names, Refusal::StrangeCharacter)?;
    sheet.hanging.iter().try_for_each(|cell| lines(&cell.lines))
}

/// Refusal 3 over lines.
fn lines(lines: &[Line<&[u8]>]) -> Result<(), Refusal> {
    let passes = |piece: &Piece<&[u8]>| piece_columns(piece).is_some();
    let hole_passes = |hole: &Hole<&[u8]>| passes(&hole.piece);
    let line_passes = |line: &Line<&[u8]>| match line {
        Line::Text(pieces) => pieces.iter().all(passes),
        Line::Border { holes, .. } => holes.iter().all(hole_passes),
    };
    refuse(!lines.iter().all(line_passes), Refusal::StrangeCharacter)
}

/// Refusal 3 over cells.
pub fn cell_lines(cells: &[Cell<&[u8]>]) -> Result<(), Refusal> {
    cells.iter().try_for_each(|cell| lines(&cell.lines))
}

/// Refusal 3 over prefixes.
pub fn prefixes(prefixes: &[&[u8]]) -> Result<(), Refusal> {
    let passes = prefixes.iter().all(|prefix| is_plain(prefix));
    refuse(!passes, Refusal::StrangeCharacter)
}

/// What kind of input stands alone in a check.
#[derive(Clone, Copy, Debug, PartialEq, Eq)]
pub enum Input {
    Job = 0,
    Sheet = 1,
    Cells = 2,
    Prefixes = 3,
}

impl Input {
    /// The numbers that an input of this kind can get without K, G and V fields.
    pub fn numbers(self) -> &'static [u8] {
        match self {
            Input::Job => &[0, 1, 2, 3, 4],
            Input::Sheet | Input::Prefixes => &[0, 1, 3],
            Input::Cells => &[0, 1, 2, 3],
        }
    }
}

/// The number that an input alone gets: 0, or its refusal.
pub fn number(input: Input, bytes: &[u8]) -> u8 {
    number_by(Rules::STORED, input, bytes)
}

/// The same by other rules.
pub fn number_by(rules: Rules, input: Input, bytes: &[u8]) -> u8 {
    let outcome = match input {
        Input::Job => job(bytes).map(|_| ()),
        Input::Sheet => format::read_sheet(bytes, rules)
            .and_then(|found| hanging_widths(&found).and(sheet(&found))),
        Input::Cells => format::read_cells(bytes, rules)
            .and_then(|cells| widths(&cells).and(cell_lines(&cells))),
        Input::Prefixes => format::read_prefixes(bytes).and_then(|list| prefixes(&list)),
    };
    outcome.map_or_else(|refusal| refusal as u8, |()| 0)
}

#[cfg(test)]
mod tests {
    use super::is_control;
    use crate::WhitespaceExt as _;

    fn is_blank(c: char) -> bool {
        matches!(c, '\u{9}'..='\u{d}' | ' ' | '\u{85}' | '\u{a0}' | '\u{2000}'..='\u{200a}' | '\u{3000}')
    }

    /// Document 01's white space is the crate's, over the whole list.
    #[test]
    fn white_space() {
        let listed = |c: &char| is_control(*c) || unicode_width::columns(*c).is_some();
        for c in ('\u{1}'..='\u{10ffff}').filter(listed) {
            let no_break = c == '\u{a0}';
            assert_eq!(c.is_whitespace(), is_blank(c), "{c:?}");
            assert_eq!(c.always_takes_space(), !is_blank(c) || no_break, "{c:?}");
            let breaks = (is_blank(c) && !no_break) || c == '\u{200b}';
            assert_eq!(c.is_wordbreak_point(), breaks, "{c:?}");
        }
    }
}
