//! The workloads: for each size, the inputs of one call in the house format.

use crate::text::{self, Random};
use oracle::format::{Job, Part, push_field, write_job};
use sheet::RenderOptions;

/// The inputs of one call.
pub enum Input {
    Job(Vec<u8>),
    Columns {
        options: RenderOptions,
        sheet: Vec<u8>,
        cells: Vec<u8>,
        collapse: bool,
    },
}

impl Input {
    /// The bytes that the call reads.
    pub fn length(&self) -> usize {
        match self {
            Input::Job(job) => job.len(),
            Input::Columns { sheet, cells, .. } => sheet.len() + cells.len(),
        }
    }
}

/// A name, what it is, its sizes, how often it is timed, and the input of a size. The tables show
/// the last size, and the growth from the first.
pub struct Workload {
    pub name: &'static str,
    pub what: &'static str,
    pub sizes: &'static [usize],
    pub turns: usize,
    pub input: fn(usize) -> Input,
}

const SIZES: [usize; 4] = [500, 1000, 2000, 4000];

/// The workloads of 4,000 bytes or forty lines. The size of a text is its bytes; a row has one line
/// for each hundred of the size.
pub const SMALL: [Workload; 6] = [
    Workload {
        name: "prose",
        what: "prose in Normal, width 40",
        sizes: &SIZES,
        turns: 2000,
        input: |size| job(0, &text::prose(size)),
    },
    Workload {
        name: "japanese",
        what: "Japanese text in Normal, width 40",
        sizes: &SIZES,
        turns: 2000,
        input: |size| job(0, &text::japanese(size)),
    },
    Workload {
        name: "tabs",
        what: "preformatted text with tabs, width 40",
        sizes: &SIZES,
        turns: 2000,
        input: |size| job(1, &text::tabbed(size)),
    },
    Workload {
        name: "word",
        what: "one unbroken word in Normal, width 40",
        sizes: &SIZES,
        turns: 2000,
        input: |size| job(0, &text::word(size)),
    },
    Workload {
        name: "row",
        what: "a row of eight cells of forty lines",
        sizes: &SIZES,
        turns: 2000,
        input: |size| row(size / 100),
    },
    Workload {
        name: "nested",
        what: "four nested tables of forty lines, collapsed",
        sizes: &SIZES,
        turns: 2000,
        input: |size| nested(size / 100),
    },
];

/// Rows with cells that span rows. The size of the first is the lines of a cell, of the second the
/// cells that hang.
pub const SPANNING: [Workload; 2] = [
    Workload {
        name: "tall",
        what: "a row of sixteen cells of 4,000 lines, one over two rows",
        sizes: &[1000, 2000, 4000],
        turns: 20,
        input: tall,
    },
    Workload {
        name: "hanging",
        what: "a row over 1,000 hanging cells",
        sizes: &[250, 500, 1000],
        turns: 200,
        input: hanging,
    },
];

/// A job of one text, width 40.
fn job(mode: u8, text: &str) -> Input {
    let text = Part::Text {
        mode,
        first: 1,
        continued: 2,
        text,
    };
    Input::Job(write_job(&Job {
        width: 40,
        pad: false,
        overflow: false,
        annotation: 0,
        parts: vec![text],
    }))
}

/// Eight cells of nine columns, under a border; every third line has two pieces.
fn row(lines: usize) -> Input {
    let mut random = Random::new();
    let cells: Vec<Vec<u8>> = (0..8).map(|_| cell(&mut random, 9, lines)).collect();
    Input::Columns {
        options: options(79),
        sheet: border(79),
        cells: cells.concat(),
        collapse: false,
    }
}

/// Four cells that hold a table each, under a border, collapsed.
fn nested(lines: usize) -> Input {
    let mut random = Random::new();
    let cells: Vec<Vec<u8>> = (0..4).map(|_| table_cell(&mut random, lines)).collect();
    Input::Columns {
        options: options(83),
        sheet: border(83),
        cells: cells.concat(),
        collapse: true,
    }
}

/// Fifteen cells and a K cell of two rows, each of nine columns and so many lines, under a border. A
/// line of 16 bytes at most, so that 4,000 fit a field.
fn tall(lines: usize) -> Input {
    let mut random = Random::new();
    let mut cells = field(b'K', &[9, 2], &short_lines(&mut random, 9, lines));
    for _ in 0..15 {
        cells.extend(field(b'C', &[9], &short_lines(&mut random, 9, lines)));
    }
    Input::Columns {
        options: options(159),
        sheet: border(159),
        cells,
        collapse: false,
    }
}

/// So many hanging cells of three columns and four lines, each with two rows left, under a border; the
/// first sixteen have their stand-ins.
fn hanging(count: usize) -> Input {
    let mut random = Random::new();
    let mut sheet = border(3);
    for place in 0..count {
        let [high, low] = u16::try_from(4 * place).expect("a position").to_be_bytes();
        let lines = short_lines(&mut random, 3, 4);
        sheet.extend(field(b'V', &[high, low, 3, 2], &lines));
    }
    Input::Columns {
        options: options(255),
        sheet,
        cells: field(b'C', &[3], &[]).repeat(16),
        collapse: false,
    }
}

/// Lines of one piece, each a word.
fn short_lines(random: &mut Random, columns: usize, lines: usize) -> Vec<u8> {
    let mut content = Vec::new();
    for _ in 0..lines {
        let word = random.word();
        push_field(
            &mut content,
            b'L',
            &pieces(&word[..word.len().min(columns)], 0),
        );
    }
    content
}

/// A table of twenty columns: rows of three cells with three lines and a border each.
fn table_cell(random: &mut Random, lines: usize) -> Vec<u8> {
    let mut table = border(20);
    for _ in 0..lines.div_ceil(4) {
        let cells: Vec<Vec<u8>> = (0..3).map(|_| cell(random, 6, 3)).collect();
        table = with_row(&table, &cells.concat());
    }
    field(b'C', &[20], &table[5..])
}

fn with_row(table: &[u8], cells: &[u8]) -> Vec<u8> {
    let mut store = vec![0; 65_536];
    let done = sheet::append_columns_with_borders(options(20), table, cells, false, &mut store);
    store.truncate(done.expect("a table of twenty columns"));
    store
}

fn options(width: u8) -> RenderOptions {
    RenderOptions {
        width,
        pad: false,
        borders: true,
        annotation: 0,
    }
}

/// A sheet of one border of that many Horiz.
fn border(width: usize) -> Vec<u8> {
    let mut sheet = Vec::new();
    push_field(&mut sheet, b'H', &[0, 1]);
    push_field(&mut sheet, b'B', &vec![0; width + 1]);
    sheet
}

/// A cell of text lines; every third has two pieces.
fn cell(random: &mut Random, width: u8, lines: usize) -> Vec<u8> {
    let mut content = Vec::new();
    for place in 0..lines {
        let text = text::cell_line(random, usize::from(width));
        let cut = if place % 3 == 2 { text.len() / 2 } else { 0 };
        push_field(&mut content, b'L', &pieces(&text, cut));
    }
    field(b'C', &[width], &content)
}

/// A line's text in one piece, or cut into two of different annotations.
fn pieces(text: &str, cut: usize) -> Vec<u8> {
    let mut content = Vec::new();
    for (annotation, part) in [(2, &text[..cut]), (1, &text[cut..])] {
        if !part.is_empty() {
            push_field(
                &mut content,
                b'S',
                &[&[annotation], part.as_bytes()].concat(),
            );
        }
    }
    content
}

/// A C, K or V field: its first bytes, then its lines.
fn field(letter: u8, head: &[u8], lines: &[u8]) -> Vec<u8> {
    let mut field = Vec::new();
    push_field(&mut field, letter, &[head, lines].concat());
    field
}
