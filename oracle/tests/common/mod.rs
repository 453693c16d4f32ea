//! What the tests share.
#![allow(dead_code)]

use oracle::call::{self, Answer, Row, Sheet};
use oracle::format::{Cell, Job, Line, Part, Piece, write_cells, write_job, write_sheet};
use oracle::show;

const STORE: usize = 2 << 20;

pub fn bytes(hex: &str) -> Vec<u8> {
    show::unhex(hex).expect("hexadecimal")
}

/// Runs a job with a store of that length, filled before.
pub fn run_job(job: &[u8], store: usize) -> (Answer, Vec<u8>) {
    let mut store = vec![0xEE; store];
    let answer = call::job(job, &mut store).expect("no finding");
    (answer, store)
}

/// The number of a job.
pub fn number(job: &[u8]) -> u8 {
    run_job(job, STORE).0.number
}

/// The sheet of a good job, in words.
pub fn lines(job: &[u8]) -> Vec<String> {
    let (answer, store) = run_job(job, STORE);
    assert_eq!(answer.number, 0, "job {}", show::hex(job));
    show::sheet(&store[..answer.length])
}

/// A job of one text, pad off.
pub fn job(width: u8, overflow: bool, mode: u8, annotations: [u8; 2], text: &str) -> Vec<u8> {
    let [first, continued] = annotations;
    write_job(&Job {
        width,
        pad: false,
        overflow,
        annotation: 0,
        parts: vec![Part::Text {
            mode,
            first,
            continued,
            text,
        }],
    })
}

pub type Own = Line<&'static str>;

/// A line of one piece.
pub fn text(tag: u8, text: &'static str) -> Own {
    Line::Text(vec![Piece::Text { tag, text }])
}

pub fn border(tag: u8, segments: &[u8]) -> Own {
    Line::Border {
        tag,
        segments: segments.to_vec(),
        holes: Vec::new(),
    }
}

pub fn cell(width: u8, lines: &[Own]) -> Cell<&'static str> {
    Cell {
        width,
        span: None,
        lines: lines.to_vec(),
    }
}

/// Settings with borders on and pad off.
pub fn sheet(width: u8, annotation: u8) -> Sheet {
    Sheet {
        width,
        pad: false,
        borders: true,
        annotation,
    }
}

/// Runs a row call: number, length and the sheet in words.
pub fn run_row(sheet: &Sheet, old: &[u8], row: Row) -> (Answer, Vec<String>) {
    let mut store = vec![0xEE; STORE];
    let answer = call::row(sheet, old, row, &mut store).expect("no finding");
    if answer.number != 0 {
        assert!(store.iter().all(|byte| *byte == 0));
        return (answer, Vec::new());
    }
    assert!(store[answer.length..].iter().all(|byte| *byte == 0xEE));
    (answer, show::sheet(&store[..answer.length]))
}

/// The lines of `append_columns_with_borders`.
pub fn columns(
    sheet: &Sheet,
    old: &[Own],
    cells: &[Cell<&'static str>],
    collapse: bool,
) -> Vec<String> {
    let cells = write_cells(cells);
    let row = Row::Columns {
        cells: &cells,
        collapse,
    };
    let (answer, lines) = run_row(sheet, &write_sheet(old).unwrap(), row);
    assert_eq!(answer.number, 0);
    lines
}
