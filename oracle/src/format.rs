//! The house format: fields, and what is built from them. Reading here is
//! refusal 1 alone; the other refusals of an input are in `checks`.

use crate::checks;

/// Document 01's refusals, and 10 of request 2.1.
#[derive(Clone, Copy, Debug, PartialEq, Eq)]
pub enum Refusal {
    CrookedRecord = 1,
    NoWidth = 2,
    StrangeCharacter = 3,
    OverfullJob = 4,
    TooNarrow = 5,
    NoBorderAbove = 6,
    LongLine = 7,
    StoreShort = 8,
    LongSheet = 9,
    OverhangMisfit = 10,
}

/// Which requests hold: none, document 01 alone; 2.1, with K, G and V fields; 2.2 too, with
/// names that wait at a sheet's end.
#[derive(Clone, Copy, Debug, PartialEq, Eq, PartialOrd, Ord)]
pub enum Rules {
    Base,
    Spans,
    Names,
}

impl Rules {
    /// The rules of whatever does not choose: of the stored files and of the calls today.
    pub const STORED: Rules = Rules::Names;

    /// Are there K, G and V fields?
    pub fn spans(self) -> bool {
        self >= Rules::Spans
    }

    /// Do names wait?
    pub fn names(self) -> bool {
        self >= Rules::Names
    }
}

use Refusal::CrookedRecord;

type Read<T> = Result<T, Refusal>;

/// The most bytes a field can hold, and the most lines a head can count.
pub const MOST: usize = 65_535;

/// The most cells in a call.
pub const MOST_CELLS: usize = 16;

/// The most rows that a cell spans.
pub const MOST_ROWS: u8 = 16;

/// The highest segment number.
const LAST_SEGMENT: u8 = 11;

/// A piece of a text line; `T` holds the bytes.
#[derive(Clone, Debug, PartialEq, Eq)]
pub enum Piece<T> {
    Text { tag: u8, text: T },
    Name(T),
}

/// A line of a sheet or cell.
#[derive(Clone, Debug, PartialEq, Eq)]
pub enum Line<T> {
    Text(Vec<Piece<T>>),
    /// A B field, or with holes a G field.
    Border {
        tag: u8,
        segments: Vec<u8>,
        holes: Vec<Hole<T>>,
    },
}

/// A hole in a border: what stands over its segments from a place on.
#[derive(Clone, Debug, PartialEq, Eq)]
pub struct Hole<T> {
    pub place: usize,
    pub piece: Piece<T>,
}

/// A cell of a row.
#[derive(Clone, Debug, PartialEq, Eq)]
pub struct Cell<T> {
    pub width: u8,
    /// The rows of a K field; a C field has none.
    pub span: Option<u8>,
    pub lines: Vec<Line<T>>,
}

/// A cell that hangs on under the last row: a V field.
#[derive(Clone, Debug, PartialEq, Eq)]
pub struct Hanging<T> {
    pub position: usize,
    pub width: u8,
    pub rows: u8,
    pub lines: Vec<Line<T>>,
}

/// What a sheet holds: its lines, then the names that wait, then the cells that hang on.
#[derive(Clone, Debug, PartialEq, Eq)]
pub struct Contents<T> {
    pub lines: Vec<Line<T>>,
    pub names: Vec<T>,
    pub hanging: Vec<Hanging<T>>,
}

impl<T> Contents<T> {
    /// The same sheet with its texts and names given otherwise.
    pub fn map<U>(self, give: impl Fn(T) -> U) -> Contents<U> {
        let hung = |cell: Hanging<T>| Hanging {
            position: cell.position,
            width: cell.width,
            rows: cell.rows,
            lines: map_lines(cell.lines, &give),
        };
        Contents {
            lines: map_lines(self.lines, &give),
            names: self.names.into_iter().map(&give).collect(),
            hanging: self.hanging.into_iter().map(hung).collect(),
        }
    }
}

fn map_lines<T, U>(lines: Vec<Line<T>>, give: &impl Fn(T) -> U) -> Vec<Line<U>> {
    lines.into_iter().map(|line| line.map(give)).collect()
}

impl<T> Line<T> {
    fn map<U>(self, give: &impl Fn(T) -> U) -> Line<U> {
        match self {
            Line::Text(pieces) => {
                Line::Text(pieces.into_iter().map(|piece| piece.map(give)).collect())
            }
            Line::Border {
                tag,
                segments,
                holes,
            } => Line::Border {
                tag,
                segments,
                holes: holes.into_iter().map(|hole| hole.map(give)).collect(),
            },
        }
    }
}

impl<T> Hole<T> {
    fn map<U>(self, give: &impl Fn(T) -> U) -> Hole<U> {
        Hole {
            place: self.place,
            piece: self.piece.map(give),
        }
    }
}

impl<T> Piece<T> {
    fn map<U>(self, give: &impl Fn(T) -> U) -> Piece<U> {
        match self {
            Piece::Text { tag, text } => Piece::Text {
                tag,
                text: give(text),
            },
            Piece::Name(name) => Piece::Name(give(name)),
        }
    }
}

impl<T> From<Vec<Line<T>>> for Contents<T> {
    /// A sheet on which nothing waits or hangs.
    fn from(lines: Vec<Line<T>>) -> Contents<T> {
        Contents {
            lines,
            names: Vec::new(),
            hanging: Vec::new(),
        }
    }
}

/// A field of a job after its W.
#[derive(Clone, Debug, PartialEq, Eq)]
pub enum Part<T> {
    Text {
        mode: u8,
        first: u8,
        continued: u8,
        text: T,
    },
    Name(T),
}

/// A job: its W, and the parts in order.
#[derive(Clone, Debug, PartialEq, Eq)]
pub struct Job<T> {
    pub width: u8,
    pub pad: bool,
    pub overflow: bool,
    pub annotation: u8,
    pub parts: Vec<Part<T>>,
}

impl<T> Job<T> {
    /// The same job with its texts and names given otherwise.
    pub fn map<'a, U>(&'a self, give: impl Fn(&'a T) -> U) -> Job<U> {
        Job {
            width: self.width,
            pad: self.pad,
            overflow: self.overflow,
            annotation: self.annotation,
            parts: self.parts.iter().map(|part| part.map(&give)).collect(),
        }
    }
}

impl<T> Part<T> {
    fn map<'a, U>(&'a self, give: impl Fn(&'a T) -> U) -> Part<U> {
        match self {
            Part::Text {
                mode,
                first,
                continued,
                text,
            } => Part::Text {
                mode: *mode,
                first: *first,
                continued: *continued,
                text: give(text),
            },
            Part::Name(name) => Part::Name(give(name)),
        }
    }
}

/// One field: a letter, a two-byte length (high byte first), the content.
#[derive(Clone, Copy)]
struct Field<'a> {
    letter: u8,
    content: &'a [u8],
}

/// Takes the field at the front of bytes.
fn take_field<'a>(bytes: &mut &'a [u8]) -> Read<Field<'a>> {
    let [letter, high, low, rest @ ..] = bytes else {
        return Err(CrookedRecord);
    };
    let length = usize::from(u16::from_be_bytes([*high, *low]));
    let (content, after) = rest.split_at_checked(length).ok_or(CrookedRecord)?;
    *bytes = after;
    Ok(Field {
        letter: *letter,
        content,
    })
}

/// Splits bytes into fields, without a byte left over.
fn fields(mut bytes: &[u8]) -> Read<Vec<Field<'_>>> {
    let mut found = Vec::new();
    while !bytes.is_empty() {
        found.push(take_field(&mut bytes)?);
    }
    Ok(found)
}

/// Reads a job: one W, then T and F fields in any number.
pub fn read_job(bytes: &[u8]) -> Read<Job<&[u8]>> {
    let fields = fields(bytes)?;
    let Some((head, rest)) = fields.split_first() else {
        return Err(CrookedRecord);
    };
    let (b'W', &[width, flags, annotation]) = (head.letter, head.content) else {
        return Err(CrookedRecord);
    };
    if flags > 3 {
        return Err(CrookedRecord);
    }
    Ok(Job {
        width,
        pad: flags & 1 != 0,
        overflow: flags & 2 != 0,
        annotation,
        parts: rest.iter().map(read_part).collect::<Read<_>>()?,
    })
}

fn read_part<'a>(field: &Field<'a>) -> Read<Part<&'a [u8]>> {
    match (field.letter, field.content) {
        (b'T', &[mode @ 0..=2, first, continued, ref text @ ..]) => Ok(Part::Text {
            mode,
            first,
            continued,
            text,
        }),
        (b'F', name) => Ok(Part::Name(name)),
        _ => Err(CrookedRecord),
    }
}

/// Reads a sheet: one H, then exactly that many L, B and G fields, then F fields, then V fields.
pub fn read_sheet(bytes: &[u8], rules: Rules) -> Read<Contents<&[u8]>> {
    let fields = fields(bytes)?;
    let Some((head, rest)) = fields.split_first() else {
        return Err(CrookedRecord);
    };
    let (b'H', &[high, low]) = (head.letter, head.content) else {
        return Err(CrookedRecord);
    };
    let count = usize::from(u16::from_be_bytes([high, low]));
    let (lines, tail) = rest.split_at_checked(count).ok_or(CrookedRecord)?;
    let waits = |field: &&Field<'_>| rules.names() && field.letter == b'F';
    let (names, hanging) = tail.split_at(tail.iter().take_while(waits).count());
    let hanging = hanging.iter().map(|field| read_hanging(field, rules));
    Ok(Contents {
        lines: read_lines(lines, rules)?,
        names: names.iter().map(|field| field.content).collect(),
        hanging: hanging.collect::<Read<_>>()?,
    })
}

fn read_hanging<'a>(field: &Field<'a>, rules: Rules) -> Read<Hanging<&'a [u8]>> {
    match (field.letter, field.content) {
        (b'V', &[high, low, width, rows @ 1..=MOST_ROWS, ref lines @ ..]) if rules.spans() => {
            Ok(Hanging {
                position: usize::from(u16::from_be_bytes([high, low])),
                width,
                rows,
                lines: read_lines(&fields(lines)?, rules)?,
            })
        }
        _ => Err(CrookedRecord),
    }
}

fn read_lines<'a>(fields: &[Field<'a>], rules: Rules) -> Read<Vec<Line<&'a [u8]>>> {
    fields.iter().map(|field| read_line(field, rules)).collect()
}

fn read_line<'a>(field: &Field<'a>, rules: Rules) -> Read<Line<&'a [u8]>> {
    match (field.letter, field.content) {
        (b'L', content) => {
            let pieces = fields(content)?;
            Ok(Line::Text(
                pieces.iter().map(read_piece).collect::<Read<_>>()?,
            ))
        }
        (b'B', &[tag, ref segments @ ..]) if are_segments(segments) => Ok(Line::Border {
            tag,
            segments: segments.to_vec(),
            holes: Vec::new(),
        }),
        (b'G', &[tag, high, low, ref rest @ ..]) if rules.spans() => {
            let count = usize::from(u16::from_be_bytes([high, low]));
            read_holed(tag, count, rest)
        }
        _ => Err(CrookedRecord),
    }
}

fn are_segments(bytes: &[u8]) -> bool {
    bytes.iter().all(|byte| *byte <= LAST_SEGMENT)
}

/// Reads a G field after its count: that many segments, then one hole or more.
fn read_holed(tag: u8, count: usize, bytes: &[u8]) -> Read<Line<&[u8]>> {
    let (segments, mut rest) = bytes.split_at_checked(count).ok_or(CrookedRecord)?;
    if !are_segments(segments) || rest.is_empty() {
        return Err(CrookedRecord);
    }
    let mut holes = Vec::new();
    while !rest.is_empty() {
        holes.push(read_hole(&mut rest, count)?);
    }
    Ok(Line::Border {
        tag,
        segments: segments.to_vec(),
        holes,
    })
}

/// Takes a hole from the front of bytes. One that passes refusal 3 ends within the
/// segments; one that does not is not measured.
fn read_hole<'a>(bytes: &mut &'a [u8], segments: usize) -> Read<Hole<&'a [u8]>> {
    let [high, low, rest @ ..] = bytes else {
        return Err(CrookedRecord);
    };
    let place = usize::from(u16::from_be_bytes([*high, *low]));
    *bytes = rest;
    let piece = read_piece(&take_field(bytes)?)?;
    match checks::piece_columns(&piece) {
        Some(columns) if place + columns > segments => Err(CrookedRecord),
        _ => Ok(Hole { place, piece }),
    }
}

fn read_piece<'a>(field: &Field<'a>) -> Read<Piece<&'a [u8]>> {
    match (field.letter, field.content) {
        (b'S', &[tag, ref text @ ..]) if !text.is_empty() => Ok(Piece::Text { tag, text }),
        (b'F', name) => Ok(Piece::Name(name)),
        _ => Err(CrookedRecord),
    }
}

/// Reads a list of cells: at most 16 C and K fields.
pub fn read_cells(bytes: &[u8], rules: Rules) -> Read<Vec<Cell<&[u8]>>> {
    let fields = fields(bytes)?;
    if fields.len() > MOST_CELLS {
        return Err(CrookedRecord);
    }
    fields.iter().map(|field| read_cell(field, rules)).collect()
}

/// Reads a list of cells of which none spans rows: at most 16 C fields.
pub fn read_plain_cells(bytes: &[u8], rules: Rules) -> Read<Vec<Cell<&[u8]>>> {
    let cells = read_cells(bytes, rules)?;
    if cells.iter().all(|cell| cell.span.is_none()) {
        Ok(cells)
    } else {
        Err(CrookedRecord)
    }
}

fn read_cell<'a>(field: &Field<'a>, rules: Rules) -> Read<Cell<&'a [u8]>> {
    let (width, span, lines) = match (field.letter, field.content) {
        (b'C', &[width, ref lines @ ..]) => (width, None, lines),
        (b'K', &[width, span @ 1..=MOST_ROWS, ref lines @ ..]) if rules.spans() => {
            (width, Some(span), lines)
        }
        _ => return Err(CrookedRecord),
    };
    Ok(Cell {
        width,
        span,
        lines: read_lines(&fields(lines)?, rules)?,
    })
}

/// Reads a list of prefixes: P fields in any number.
pub fn read_prefixes(bytes: &[u8]) -> Read<Vec<&[u8]>> {
    let prefix = |field: &Field<'_>| field.letter == b'P';
    let fields = fields(bytes)?;
    if fields.iter().all(prefix) {
        Ok(fields.iter().map(|field| field.content).collect())
    } else {
        Err(CrookedRecord)
    }
}

/// Appends a field; its content must fit.
pub fn push_field(out: &mut Vec<u8>, letter: u8, content: &[u8]) {
    let length = u16::try_from(content.len()).expect("a field holds at most 65,535 bytes");
    out.push(letter);
    out.extend(length.to_be_bytes());
    out.extend(content);
}

/// The bytes of a sheet on which nothing waits or hangs, or refusal 7 or 9.
pub fn write_sheet<T: AsRef<[u8]>>(lines: &[Line<T>]) -> Result<Vec<u8>, Refusal> {
    write_parts(lines, &[], &[])
}

/// The bytes of a sheet, or refusal 7 or 9.
pub fn write_contents<T: AsRef<[u8]>>(sheet: &Contents<T>) -> Result<Vec<u8>, Refusal> {
    write_parts(&sheet.lines, &sheet.names, &sheet.hanging)
}

fn write_parts<T: AsRef<[u8]>>(
    lines: &[Line<T>],
    names: &[T],
    hanging: &[Hanging<T>],
) -> Result<Vec<u8>, Refusal> {
    let long_line = lines.iter().any(|line| content_length(line) > MOST);
    if long_line || hanging.iter().any(is_long) {
        return Err(Refusal::LongLine);
    }
    let count = u16::try_from(lines.len()).map_err(|_| Refusal::LongSheet)?;
    let mut out = Vec::new();
    push_field(&mut out, b'H', &count.to_be_bytes());
    for line in lines {
        push_line(&mut out, line);
    }
    for name in names {
        push_field(&mut out, b'F', name.as_ref());
    }
    for cell in hanging {
        push_hanging(&mut out, cell);
    }
    Ok(out)
}

/// Is a position too high or a V content too long?
fn is_long<T: AsRef<[u8]>>(cell: &Hanging<T>) -> bool {
    let field_length = |line: &Line<T>| 3 + content_length(line);
    let length = 4 + cell.lines.iter().map(field_length).sum::<usize>();
    cell.position > MOST || length > MOST
}

/// The length of a line's L, B or G content.
fn content_length<T: AsRef<[u8]>>(line: &Line<T>) -> usize {
    match line {
        Line::Text(pieces) => pieces.iter().map(piece_length).sum(),
        Line::Border {
            segments, holes, ..
        } if holes.is_empty() => 1 + segments.len(),
        Line::Border {
            segments, holes, ..
        } => {
            let hole_length = |hole: &Hole<T>| 2 + piece_length(&hole.piece);
            3 + segments.len() + holes.iter().map(hole_length).sum::<usize>()
        }
    }
}

/// The length of a piece's S or F field.
fn piece_length<T: AsRef<[u8]>>(piece: &Piece<T>) -> usize {
    match piece {
        Piece::Text { text, .. } => 3 + 1 + text.as_ref().len(),
        Piece::Name(name) => 3 + name.as_ref().len(),
    }
}

/// Appends a line whose content fits.
pub fn push_line<T: AsRef<[u8]>>(out: &mut Vec<u8>, line: &Line<T>) {
    match line {
        Line::Text(pieces) => {
            let mut content = Vec::new();
            for piece in pieces {
                push_piece(&mut content, piece);
            }
            push_field(out, b'L', &content);
        }
        Line::Border {
            tag,
            segments,
            holes,
        } if holes.is_empty() => push_tagged(out, b'B', *tag, segments),
        Line::Border {
            tag,
            segments,
            holes,
        } => {
            let mut content = vec![*tag];
            content.extend(two_bytes(segments.len()));
            content.extend(segments);
            for hole in holes {
                content.extend(two_bytes(hole.place));
                push_piece(&mut content, &hole.piece);
            }
            push_field(out, b'G', &content);
        }
    }
}

/// Appends a V field whose position and content fit.
fn push_hanging<T: AsRef<[u8]>>(out: &mut Vec<u8>, cell: &Hanging<T>) {
    let [high, low] = two_bytes(cell.position);
    push_cell(out, b'V', &[high, low, cell.width, cell.rows], &cell.lines);
}

/// Appends a C, K or V field: its first bytes, then its lines.
fn push_cell<T: AsRef<[u8]>>(out: &mut Vec<u8>, letter: u8, head: &[u8], lines: &[Line<T>]) {
    let mut content = head.to_vec();
    for line in lines {
        push_line(&mut content, line);
    }
    push_field(out, letter, &content);
}

fn two_bytes(number: usize) -> [u8; 2] {
    let number = u16::try_from(number).expect("a number of two bytes");
    number.to_be_bytes()
}

fn push_piece<T: AsRef<[u8]>>(out: &mut Vec<u8>, piece: &Piece<T>) {
    match piece {
        Piece::Text { tag, text } => {
            assert!(!text.as_ref().is_empty(), "a piece without text");
            push_tagged(out, b'S', *tag, text.as_ref());
        }
        Piece::Name(name) => push_field(out, b'F', name.as_ref()),
    }
}

fn push_tagged(out: &mut Vec<u8>, letter: u8, tag: u8, content: &[u8]) {
    push_field(out, letter, &[&[tag], content].concat());
}

/// The bytes of a job.
pub fn write_job<T: AsRef<[u8]>>(job: &Job<T>) -> Vec<u8> {
    let flags = u8::from(job.pad) + 2 * u8::from(job.overflow);
    let mut out = Vec::new();
    push_field(&mut out, b'W', &[job.width, flags, job.annotation]);
    for part in &job.parts {
        match part {
            Part::Text {
                mode,
                first,
                continued,
                text,
            } => {
                let head: &[u8] = &[*mode, *first, *continued];
                push_field(&mut out, b'T', &[head, text.as_ref()].concat());
            }
            Part::Name(name) => push_field(&mut out, b'F', name.as_ref()),
        }
    }
    out
}

/// The bytes of a list of cells.
pub fn write_cells<T: AsRef<[u8]>>(cells: &[Cell<T>]) -> Vec<u8> {
    let mut out = Vec::new();
    for cell in cells {
        match cell.span {
            None => push_cell(&mut out, b'C', &[cell.width], &cell.lines),
            Some(span) => push_cell(&mut out, b'K', &[cell.width, span], &cell.lines),
        }
    }
    out
}

/// The bytes of a list of prefixes.
pub fn write_prefixes<T: AsRef<[u8]>>(prefixes: &[T]) -> Vec<u8> {
    let mut out = Vec::new();
    for prefix in prefixes {
        push_field(&mut out, b'P', prefix.as_ref());
    }
    out
}
