//! Text wrapped into the lines of a *sheet*, and tables laid onto it.
//!
//! These are safe functions over the archive `libsheet_c.a`. For every input, however
//! damaged, the archive's calls are proved to give the number, the length and every byte of
//! the store that a definition gives.
//!
//! A job, a sheet, cells and prefixes are bytes in the house format: a field is a letter, a
//! length of two bytes, high byte first, and that many bytes.
//!
//! | input | fields |
//! |---|---|
//! | job | `W` (width, flags: 1 pad, 2 allow overflow; annotation of padding), then `T` (mode: 0 Normal, 1 Pre, 2 PreWrap; annotation, annotation of what wraps in Pre, UTF-8 text) and `F` (name) |
//! | sheet | `H` (number of lines, two bytes), then so many lines, then any number of `F`, names that wait, then any number of `V`; `H` counts the lines alone |
//! | lines | `L` (`S`: annotation, text; `F`: name), `B` (annotation, a segment for each column, 0 to 11) and `G`, a border with holes (annotation, number of segments in two bytes, the segments, then for each hole its column in two bytes and an `S` or `F`) |
//! | hanging cell | `V` (position in two bytes, width, rows left, then lines) |
//! | cells | `C` (width, then lines) and `K`, a cell that spans rows (width, number of rows, 1 to 16, then lines); a cell's lines are a sheet's without the `H` and without the `F` and `V` behind them |
//! | prefixes | `P` (text) |
//!
//! The repository's README.md says more, and which characters a text may hold. Each call writes a sheet into a
//! store that the caller lends and gives its length, or a [`Refusal`]. On success the store's
//! bytes past the sheet are as they were; on a refusal the whole store is zeroed. Nothing is
//! allocated, and a call uses at most 160 KB of stack.
//!
//! ```
//! // Width 8, then the text "bolt M8 zinc" in Normal.
//! let job = b"W\0\x03\x08\0\0T\0\x0f\0\0\0bolt M8 zinc";
//! let mut store = [0; 64];
//! let length = sheet::render(job, &mut store)?;
//! // Two lines, each with one piece of annotation 0.
//! assert_eq!(&store[..length], b"H\0\x02\0\x02L\0\x0bS\0\x08\0bolt M8L\0\x08S\0\x05\0zinc");
//! # Ok::<(), sheet::Refusal>(())
//! ```
//!
//! # Names that wait
//!
//! Names that stand behind the last closed word of a job wait at the end of its sheet, as `F` fields. They
//! go to the front of the first text line that a later call adds to that sheet, before its prefix; all
//! neighbouring pieces of the line with equal annotations are then joined. A border that a call adds does
//! not take them, also where `pad` turns it into text; a border in a guest or in a line of a row is
//! text and does. A call that adds no text line hands them on, before the `V` fields, and those
//! of a guest are checked and dropped.
//!
//! ```
//! use sheet::{RenderOptions, append_subrender, render};
//!
//! // Width 3, the text "ab " and the name "n": the blank closed the word, so the name waits.
//! let job = b"W\0\x03\x03\0\0T\0\x06\0\0\0ab F\0\x01n";
//! let mut first = [0; 64];
//! let length = render(job, &mut first)?;
//! assert_eq!(&first[..length], b"H\0\x02\0\x01L\0\x06S\0\x03\0abF\0\x01n");
//! // The next line that is added takes it.
//! let options = RenderOptions { width: 3, pad: false, borders: true, annotation: 0 };
//! let guest = b"H\0\x02\0\x01L\0\x05S\0\x02\0c";
//! let mut second = [0; 64];
//! let length = append_subrender(options, &first[..length], guest, b"P\0\0", false, &mut second)?;
//! let lines = b"H\0\x02\0\x02L\0\x06S\0\x03\0abL\0\x09F\0\x01nS\0\x02\0c";
//! assert_eq!(&second[..length], lines);
//! # Ok::<(), sheet::Refusal>(())
//! ```

#![no_std]
#![deny(missing_docs)]

mod archive;
mod refusal;

pub use refusal::Refusal;

/// The length of the sheet that a call wrote, or why it wrote none.
pub type Answer = Result<usize, Refusal>;

/// What comes with each call that lays lines onto a sheet.
#[derive(Clone, Copy, Debug, PartialEq, Eq)]
pub struct RenderOptions {
    /// The sheet's width in columns. It counts for padding and for the borders of
    /// [`append_vert_row`]; a row of cells is as wide as the cells and the edges between them.
    pub width: u8,
    /// Are added lines filled with spaces to the width? An added border then becomes text, which
    /// a later row does not join: build tables without it.
    pub pad: bool,
    /// Are borders and the edges of cells drawn? If not, edges are spaces and no border is added,
    /// but a border above is joined all the same.
    pub borders: bool,
    /// The annotation of what the call itself writes.
    pub annotation: u8,
}

/// The sheet of a job: its texts wrapped to the block's width.
///
/// Names behind its last closed word wait at the sheet's end, as F fields; names lost in a hard wrap
/// stay lost. Refusals: 1 to 5 and 8.
///
/// ```
/// use sheet::{Refusal, render};
///
/// let mut store = [0; 64];
/// // A job of width 1 whose text is a sign of two columns.
/// let job = b"W\0\x03\x01\0\0T\0\x06\0\0\0\xe6\xbc\xa2";
/// assert_eq!(render(job, &mut store), Err(Refusal::TooNarrow));
/// // With overflow allowed it stands on a line of its own.
/// let job = b"W\0\x03\x01\x02\0T\0\x06\0\0\0\xe6\xbc\xa2";
/// assert_eq!(render(job, &mut store), Ok(15));
/// // A store that is too short: the length needed comes back.
/// assert_eq!(render(job, &mut store[..10]), Err(Refusal::StoreShort(15)));
/// ```
pub fn render(job: &[u8], store: &mut [u8]) -> Answer {
    let mut length = 0;
    let number = archive::render(job, store, &mut length);
    answer(number, length)
}

/// The sheet with the guest sheet's lines added, each behind a prefix.
///
/// Lines and prefixes (P fields) go in pairs, which end with the shorter list; with
/// `repeat_last` the last prefix repeats. A border, with holes or without, becomes text of the
/// call's annotation. The first added line takes the sheet's waiting names, the sheet's V fields are
/// handed on as they are, and those of the guest, names and V fields, are dropped. Refusals: 1, 2, 3, 7, 8, 9 and 10.
///
/// ```
/// use sheet::{RenderOptions, append_subrender};
///
/// let options = RenderOptions { width: 9, pad: false, borders: true, annotation: 0 };
/// let empty = b"H\0\x02\0\0";
/// let guest = b"H\0\x02\0\x01L\0\x06S\0\x03\0ab";
/// let mut store = [0; 32];
/// let length = append_subrender(options, empty, guest, b"P\0\x02* ", false, &mut store)?;
/// assert_eq!(&store[..length], b"H\0\x02\0\x01L\0\x08S\0\x05\0* ab");
/// # Ok::<(), sheet::Refusal>(())
/// ```
pub fn append_subrender(
    options: RenderOptions,
    sheet: &[u8],
    guest: &[u8],
    prefixes: &[u8],
    repeat_last: bool,
    store: &mut [u8],
) -> Answer {
    let mut length = 0;
    let guests = (guest, prefixes, repeat_last);
    let number = archive::append_subrender(options, sheet, guests, store, &mut length);
    answer(number, length)
}

/// The sheet with a row of cells beside each other (at most 16 C and K fields).
///
/// The cells' inner edges are joined to the border above, if the sheet ends in one, and to a
/// new border below. With `collapse` the cells' own first and last borders are merged into
/// these two. The row's first line takes the sheet's waiting names; the new border does not. Refusals: 1, 2, 3, 6, 7, 8, 9 and 10.
///
/// ```
/// use sheet::{RenderOptions, append_columns_with_borders};
///
/// let options = RenderOptions { width: 3, pad: false, borders: true, annotation: 0 };
/// // ───, and the cells "a" and "b", each of width 1.
/// let under = b"H\0\x02\0\x01B\0\x04\0\0\0\0";
/// let cells = b"C\0\x09\x01L\0\x05S\0\x02\0aC\0\x09\x01L\0\x05S\0\x02\0b";
/// let mut store = [0; 64];
/// let length = append_columns_with_borders(options, under, cells, false, &mut store)?;
/// // ─┬─, a│b, ─┴─
/// let joined = b"H\0\x02\0\x03B\0\x04\0\0\x02\0L\0\x09S\0\x06\0a\xe2\x94\x82bB\0\x04\0\0\x01\0";
/// assert_eq!(&store[..length], joined);
/// # Ok::<(), sheet::Refusal>(())
/// ```
///
/// # Cells that span rows
///
/// A K cell stands in its own row and in those after it, as many as it says. After each row but its
/// last, what is left of it comes back as a V field at the sheet's end; the next call takes it in.
///
/// - In these rows a stand-in, a C cell of its width without lines, belongs at the place of each
///   hanging cell. A V field takes the place of the first cell that does not begin to the left of
///   its position, and that cell is lost, whatever it holds. Where there is no such cell, the V
///   field stands after all cells, behind an empty cell that fills the columns up to it.
/// - For a row's height a spanning cell counts its lines divided by its rows left, rounded down,
///   and in its last row all lines that it still has.
/// - The line after those of the row stands in the border below it, each piece a hole (a G field),
///   and is used up. With borders off it is used up too, and is not shown.
/// - V fields stay until their rows are laid, also past the end of a table. To end a table early
///   cut the sheet's bytes at the first V field; names that wait stand before it.
///
/// ```
/// use sheet::{RenderOptions, append_columns_with_borders};
///
/// let options = RenderOptions { width: 3, pad: false, borders: true, annotation: 0 };
/// // ───, and a cell of two rows with the lines "a", "b" and "c", beside the cell "x".
/// let under = b"H\0\x02\0\x01B\0\x04\0\0\0\0";
/// let cells = b"K\0\x1a\x01\x02L\0\x05S\0\x02\0aL\0\x05S\0\x02\0bL\0\x05S\0\x02\0cC\0\x09\x01L\0\x05S\0\x02\0x";
/// let mut first = [0; 128];
/// let length = append_columns_with_borders(options, under, cells, false, &mut first)?;
/// // ─┬─, a│x, b└─, and "c" hangs on at column 0, one column wide, for one row more.
/// assert!(first[..length].ends_with(b"V\0\x0c\0\0\x01\x01L\0\x05S\0\x02\0c"));
/// // Its stand-in beside the cell "y".
/// let cells = b"C\0\x01\x01C\0\x09\x01L\0\x05S\0\x02\0y";
/// let mut second = [0; 128];
/// let length = append_columns_with_borders(options, &first[..length], cells, false, &mut second)?;
/// // ─┬─, a│x, b├─, c│y, ─┴─, and nothing hangs.
/// assert!(second[..length].ends_with(b"L\0\x09S\0\x06\0c\xe2\x94\x82yB\0\x04\0\0\x01\0"));
/// # Ok::<(), sheet::Refusal>(())
/// ```
pub fn append_columns_with_borders(
    options: RenderOptions,
    sheet: &[u8],
    cells: &[u8],
    collapse: bool,
    store: &mut [u8],
) -> Answer {
    let mut length = 0;
    let number = archive::append_columns(options, sheet, (cells, collapse), store, &mut length);
    answer(number, length)
}

/// The sheet with cells below each other (at most 16 C fields; a K is refusal 1).
///
/// With borders on, a border stands between two cells and one at the end. The first text line takes
/// the sheet's waiting names; these borders do not. The sheet's V fields are handed on as they are.
/// Refusals: 1, 2, 3, 7, 8, 9 and 10.
///
/// ```
/// use sheet::{RenderOptions, append_vert_row};
///
/// let options = RenderOptions { width: 2, pad: false, borders: true, annotation: 0 };
/// let empty = b"H\0\x02\0\0";
/// let cells = b"C\0\x09\x01L\0\x05S\0\x02\0aC\0\x09\x01L\0\x05S\0\x02\0b";
/// let mut store = [0; 64];
/// let length = append_vert_row(options, empty, cells, &mut store)?;
/// // a, //, b, ──
/// let below = b"H\0\x02\0\x04L\0\x05S\0\x02\0aB\0\x03\0\x05\x05L\0\x05S\0\x02\0bB\0\x03\0\0\0";
/// assert_eq!(&store[..length], below);
/// # Ok::<(), sheet::Refusal>(())
/// ```
pub fn append_vert_row(
    options: RenderOptions,
    sheet: &[u8],
    cells: &[u8],
    store: &mut [u8],
) -> Answer {
    let mut length = 0;
    let number = archive::append_vert_row(options, sheet, cells, store, &mut length);
    answer(number, length)
}

/// A call's two numbers as a result. A length is that of bytes in memory or of a sheet that
/// would be, so it fits.
fn answer(number: u8, length: u64) -> Answer {
    let length = usize::try_from(length).expect("a length of at most 64 bits");
    match Refusal::of(number, length) {
        None => Ok(length),
        Some(refusal) => Err(refusal),
    }
}
