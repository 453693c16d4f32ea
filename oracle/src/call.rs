//! The calls of document 01 with requests 2.1 and 2.2: from the bytes of the inputs and a target
//! store to a number, a length and the store's bytes.

use crate::checks;
use crate::format::{self, Contents, Line, Refusal, Rules};
use crate::guard::{self, Panic, Place};
use crate::render::text_renderer::door;
use crate::row::{self, SeatedRow};

/// What a call returns; the store's bytes stand in the store.
#[derive(Clone, Copy, Debug, PartialEq, Eq)]
pub struct Answer {
    pub number: u8,
    pub length: usize,
}

/// The crate's code did what document 01 does not foresee; the text says what.
#[derive(Debug)]
pub struct Finding(pub String);

/// What comes with a row call.
#[derive(Clone, Copy, Debug)]
pub struct Sheet {
    pub width: u8,
    pub pad: bool,
    pub borders: bool,
    pub annotation: u8,
}

/// A row call's other inputs.
#[derive(Clone, Copy, Debug)]
pub enum Row<'a> {
    Subrender {
        guest: &'a [u8],
        prefixes: &'a [u8],
        repeat_last: bool,
    },
    Columns {
        cells: &'a [u8],
        collapse: bool,
    },
    Vertical {
        cells: &'a [u8],
    },
}

type Laid = Result<Contents<String>, Refusal>;

/// The call from a job to its sheet.
pub fn job(bytes: &[u8], store: &mut [u8]) -> Result<Answer, Finding> {
    job_by(Rules::STORED, bytes, store)
}

/// The same by other rules: without request 2.2 the names that would wait are lost.
pub fn job_by(rules: Rules, bytes: &[u8], store: &mut [u8]) -> Result<Answer, Finding> {
    let mut laid = block(bytes)?;
    if let Ok(sheet) = &mut laid
        && !rules.names()
    {
        sheet.names.clear();
    }
    Ok(settle(laid, store))
}

fn block(bytes: &[u8]) -> Result<Laid, Finding> {
    let job = match checks::job(bytes) {
        Ok(job) => job,
        Err(refusal) => return Ok(Err(refusal)),
    };
    let sheet = guard::run(|| door::block(&job)).map_err(|panic| Finding(panic.message))?;
    Ok(sheet.map_err(|_| Refusal::TooNarrow))
}

/// A row call.
pub fn row(sheet: &Sheet, old: &[u8], row: Row, store: &mut [u8]) -> Result<Answer, Finding> {
    row_by(Rules::STORED, sheet, old, row, store)
}

/// A row call by other rules.
pub fn row_by(
    rules: Rules,
    sheet: &Sheet,
    old: &[u8],
    row: Row,
    store: &mut [u8],
) -> Result<Answer, Finding> {
    let laid = match row {
        Row::Subrender {
            guest,
            prefixes,
            repeat_last,
        } => subrender(rules, sheet, old, guest, prefixes, repeat_last),
        Row::Columns { cells, collapse } => columns(rules, sheet, old, cells, collapse),
        Row::Vertical { cells } => vertical(rules, sheet, old, cells),
    };
    match laid {
        Ok(laid) => Ok(settle(Ok(laid), store)),
        Err(Stop::Refused(refusal)) => Ok(settle(Err(refusal), store)),
        Err(Stop::Found(finding)) => Err(finding),
    }
}

/// Why a row call has no sheet.
enum Stop {
    Refused(Refusal),
    Found(Finding),
}

impl From<Refusal> for Stop {
    fn from(refusal: Refusal) -> Stop {
        Stop::Refused(refusal)
    }
}

fn found(message: String) -> Stop {
    Stop::Found(Finding(message))
}

type RowLaid = Result<Contents<String>, Stop>;

fn subrender(
    rules: Rules,
    sheet: &Sheet,
    old: &[u8],
    guest: &[u8],
    prefixes: &[u8],
    repeat_last: bool,
) -> RowLaid {
    let old = format::read_sheet(old, rules)?;
    let guest = format::read_sheet(guest, rules)?;
    let prefixes = format::read_prefixes(prefixes)?;
    has_width(sheet)?;
    checks::hanging_widths(&old)?;
    checks::hanging_widths(&guest)?;
    checks::sheet(&old)?;
    checks::sheet(&guest)?;
    checks::prefixes(&prefixes)?;
    let ran = guard::run(|| door::subrender(sheet, &old, &guest, &prefixes, repeat_last));
    let drawn = match prefixes.len() {
        1.. if repeat_last => usize::MAX,
        count => count,
    };
    as_foreseen(ran, drawing(guest.lines.iter().take(drawn)))
}

fn columns(rules: Rules, sheet: &Sheet, old: &[u8], cells: &[u8], collapse: bool) -> RowLaid {
    let old = format::read_sheet(old, rules)?;
    let cells = format::read_cells(cells, rules)?;
    has_width(sheet)?;
    checks::hanging_widths(&old)?;
    checks::widths(&cells)?;
    checks::sheet(&old)?;
    checks::cell_lines(&cells)?;
    let run = |sheet: &Sheet| guard::run(|| door::columns(sheet, &old, &cells, collapse));
    let row = SeatedRow::new(&old, &cells, collapse);
    let laid = as_foreseen(run(sheet), row.panics())?;
    let shown = if sheet.borders && !sheet.pad {
        last_border(&laid)
    } else {
        last_border(&as_foreseen(run(&with_border(sheet)), None)?)
    };
    if shown != Some(row.stretched()) {
        return Err(found(format!("a new border of length {shown:?}")));
    }
    if row.hole_past_border() {
        return Err(Refusal::OverhangMisfit.into());
    }
    Ok(laid)
}

/// The same, but the new border is added and stays one, so that its length shows.
fn with_border(sheet: &Sheet) -> Sheet {
    Sheet {
        borders: true,
        pad: false,
        ..*sheet
    }
}

fn vertical(rules: Rules, sheet: &Sheet, old: &[u8], cells: &[u8]) -> RowLaid {
    let old = format::read_sheet(old, rules)?;
    let cells = format::read_plain_cells(cells, rules)?;
    has_width(sheet)?;
    checks::hanging_widths(&old)?;
    checks::widths(&cells)?;
    checks::sheet(&old)?;
    checks::cell_lines(&cells)?;
    let ran = guard::run(|| door::vert_row(sheet, &old, &cells));
    as_foreseen(ran, drawing(cells.iter().flat_map(|cell| &cell.lines)))
}

/// Where the crate must panic when it draws these lines as texts.
fn drawing<'a>(mut lines: impl Iterator<Item = &'a Line<&'a [u8]>>) -> Option<Place> {
    lines.any(row::overlaps).then_some(Place::HoleOrder)
}

/// The crate must panic where our own words say, and only there.
fn as_foreseen(ran: Result<Contents<String>, Panic>, foreseen: Option<Place>) -> RowLaid {
    match (ran, foreseen) {
        (Ok(laid), None) => Ok(laid),
        (Err(panic), Some(place)) if panic.place == Some(place) => Err(match place {
            Place::NoBorderAbove => Refusal::NoBorderAbove.into(),
            Place::Blanks | Place::HoleOrder => Refusal::OverhangMisfit.into(),
        }),
        (Ok(_), Some(place)) => Err(found(format!("{place:?}, but the crate did not panic"))),
        (Err(panic), _) => Err(found(format!(
            "{foreseen:?} foreseen, {:?}: {}",
            panic.place, panic.message
        ))),
    }
}

/// The length of the border that ends a sheet.
fn last_border(sheet: &Contents<String>) -> Option<usize> {
    match sheet.lines.last() {
        Some(Line::Border { segments, .. }) => Some(segments.len()),
        _ => None,
    }
}

fn has_width(sheet: &Sheet) -> Result<(), Refusal> {
    if sheet.width == 0 {
        Err(Refusal::NoWidth)
    } else {
        Ok(())
    }
}

/// Writes the sheet into the store, or zeroes the store: refusals 7, 9 and 8.
fn settle(laid: Laid, store: &mut [u8]) -> Answer {
    let sheet = laid.and_then(|laid| format::write_contents(&laid));
    match sheet {
        Ok(sheet) if sheet.len() <= store.len() => {
            store[..sheet.len()].copy_from_slice(&sheet);
            answer(0, sheet.len())
        }
        Ok(sheet) => refused(Refusal::StoreShort, sheet.len(), store),
        Err(refusal) => refused(refusal, 0, store),
    }
}

fn refused(refusal: Refusal, length: usize, store: &mut [u8]) -> Answer {
    store.fill(0);
    answer(refusal as u8, length)
}

fn answer(number: u8, length: usize) -> Answer {
    Answer { number, length }
}
