//! Bytes and sheets for the eye.

use crate::format::{self, Hanging, Hole, Line, Piece, Rules};
use crate::render::text_renderer::door;

/// Bytes in hexadecimal.
pub fn hex(bytes: &[u8]) -> String {
    bytes.iter().map(|byte| format!("{byte:02x}")).collect()
}

/// Bytes from hexadecimal; blanks are skipped.
pub fn unhex(text: &str) -> Option<Vec<u8>> {
    let digits = text.chars().filter(|c| !c.is_ascii_whitespace());
    let digits: Vec<u8> = digits
        .map(|c| c.to_digit(16).and_then(|digit| u8::try_from(digit).ok()))
        .collect::<Option<_>>()?;
    let pairs = digits.chunks(2);
    pairs
        .map(|pair| Some(16 * pair[0] + pair.get(1)?))
        .collect()
}

/// A sheet's lines, each in words: pieces as `"text"(annotation)`, names as
/// `#"name"`, a border as `border(annotation)` and its marks, then its holes as
/// `place:piece`. Below them the names that wait and the hanging cells.
pub fn sheet(bytes: &[u8]) -> Vec<String> {
    match format::read_sheet(bytes, Rules::STORED) {
        Ok(sheet) => {
            let lines = sheet.lines.iter().map(line);
            let names = sheet.names.iter().map(|name| waiting(name));
            let hanging = sheet.hanging.iter().map(hanging);
            lines.chain(names).chain(hanging).collect()
        }
        Err(refusal) => vec![format!("not a sheet: refusal {}", refusal as u8)],
    }
}

/// A name that waits as `waiting #"name"`.
fn waiting(name: &[u8]) -> String {
    format!("waiting {}", piece(&Piece::Name(name)))
}

/// A hanging cell as `hanging position width rows:` and its lines between bars.
fn hanging(cell: &Hanging<&[u8]>) -> String {
    let lines: Vec<String> = cell.lines.iter().map(line).collect();
    let head = format!("hanging {} {} {}:", cell.position, cell.width, cell.rows);
    [head, lines.join(" | ")].join(" ").trim_end().into()
}

fn line(line: &Line<&[u8]>) -> String {
    match line {
        Line::Text(pieces) if pieces.is_empty() => "empty".into(),
        Line::Text(pieces) => pieces.iter().map(piece).collect::<Vec<_>>().join(" "),
        Line::Border {
            tag,
            segments,
            holes,
        } => {
            let marks: String = segments
                .iter()
                .map(|segment| door::mark(*segment))
                .collect();
            let holes: String = holes.iter().map(hole).collect();
            format!("border({tag}) {marks}{holes}")
        }
    }
}

fn hole(hole: &Hole<&[u8]>) -> String {
    format!(" {}:{}", hole.place, piece(&hole.piece))
}

fn piece(piece: &Piece<&[u8]>) -> String {
    match piece {
        Piece::Text { tag, text } => format!("{:?}({tag})", String::from_utf8_lossy(text)),
        Piece::Name(name) => format!("#{:?}", String::from_utf8_lossy(name)),
    }
}

/// The segment table, a line a segment: number, mark, `join_above`, `join_below`, what
/// Horiz becomes by `merge_from_below` and `merge_from_above`, and the mark above it.
pub fn segments() -> Vec<String> {
    let row = |segment: u8| {
        let [above, below, from_below, from_above] = door::joins(segment);
        let mark = door::mark(segment);
        let upwards = door::mark_above(segment).replace(' ', "blank");
        format!("{segment} {mark} {above} {below} {from_below} {from_above} {upwards}")
    };
    (0..12).map(row).collect()
}
