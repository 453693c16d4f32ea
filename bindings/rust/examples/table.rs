//! Lays two tables onto sheets row by row and prints them: the texts are wrapped by [`sheet::render`], the rows laid by
//! [`sheet::append_columns_with_borders`], which joins their edges to the borders, and [`sheet::append_subrender`] makes every
//! line text, so that it can be printed. In the second table the label of a pallet stands beside the rows of its four bins.

use sheet::{Refusal, RenderOptions, append_columns_with_borders, append_subrender, render};

const LIST_WIDTHS: [u8; 3] = [16, 5, 8];
const LIST: [[&str; 3]; 3] = [
    ["Bolt M8 zinc, hexagon head", "200", "棚 07"],
    ["Café chair", "4", "棚 12"],
    ["ラベル 用紙", "1,000", "棚 03, top"],
];

const LABEL_WIDTH: u8 = 12;
const LABEL: &str = "PALLET 0042 Osaka to Hamburg, upper deck, keep dry";
const BIN_WIDTHS: [u8; 2] = [6, 16];
const BINS: [[&str; 2]; 4] = [
    ["Bin 11", "Bolt M8 zinc"],
    ["Bin 12", "Café chair"],
    ["Bin 13", "ラベル 用紙"],
    ["Bin 14", "Washer M8"],
];

/// A sheet of one border without columns, which the first row makes as wide as it is.
const BORDER: &[u8] = b"H\0\x02\0\x01B\0\x01\0";

const OPTIONS: RenderOptions = RenderOptions {
    width: 36,
    pad: false,
    borders: true,
    annotation: 0,
};

/// A field: a letter, a length of two bytes, and that many bytes.
fn field(letter: u8, content: &[u8]) -> Vec<u8> {
    let length = u16::try_from(content.len()).expect("a field has at most 65,535 bytes");
    [&[letter], &length.to_be_bytes()[..], content].concat()
}

/// The fields of some bytes: their letters and contents.
fn fields(mut bytes: &[u8]) -> impl Iterator<Item = (u8, &[u8])> {
    std::iter::from_fn(move || {
        let (&[letter, high, low], rest) = bytes.split_first_chunk()?;
        let (content, next) = rest.split_at(usize::from(u16::from_be_bytes([high, low])));
        bytes = next;
        Some((letter, content))
    })
}

/// The lines that a text wraps to: a sheet's without its head and without the names that wait behind them, if it has any.
fn wrapped(width: u8, text: &str) -> Result<Vec<u8>, Refusal> {
    let text = [&[0, 0, 0], text.as_bytes()].concat();
    let job = [field(b'W', &[width, 0, 0]), field(b'T', &text)].concat();
    let mut store = [0; 4096];
    let length = render(&job, &mut store)?;
    let lines = fields(&store[5..length]).take_while(|&(letter, _)| letter != b'F');
    let end = 5 + lines.map(|(_, line)| 3 + line.len()).sum::<usize>();
    Ok(store[5..end].to_vec())
}

/// The C fields of a row: their widths and wrapped texts.
fn cells<const N: usize>(widths: [u8; N], texts: [&str; N]) -> Result<Vec<u8>, Refusal> {
    let cell = |(width, text)| {
        wrapped(width, text).map(|lines| field(b'C', &[&[width], &lines[..]].concat()))
    };
    let cells = std::iter::zip(widths, texts).map(cell);
    Ok(cells.collect::<Result<Vec<_>, _>>()?.concat())
}

/// The sheet with a row. What hangs on below it stands at the end of the sheet, as V fields, for the next row.
fn with_row(sheet: &[u8], cells: &[u8]) -> Result<Vec<u8>, Refusal> {
    let mut store = vec![0; 65_536];
    let length = append_columns_with_borders(OPTIONS, sheet, cells, false, &mut store)?;
    store.truncate(length);
    Ok(store)
}

/// The picking list.
fn list() -> Result<Vec<u8>, Refusal> {
    let mut sheet = BORDER.to_vec();
    for row in LIST {
        sheet = with_row(&sheet, &cells(LIST_WIDTHS, row)?)?;
    }
    Ok(sheet)
}

/// The pallet: a K cell of four rows beside the first bin, and under it, where it hangs, an empty C cell of its width.
fn pallet() -> Result<Vec<u8>, Refusal> {
    let rows = BINS.len() as u8;
    let label = [&[LABEL_WIDTH, rows], &wrapped(LABEL_WIDTH, LABEL)?[..]].concat();
    let mut first = field(b'K', &label);
    let mut sheet = BORDER.to_vec();
    for bin in BINS {
        let row = [first, cells(BIN_WIDTHS, bin)?].concat();
        sheet = with_row(&sheet, &row)?;
        first = field(b'C', &[LABEL_WIDTH]);
    }
    Ok(sheet)
}

/// Prints a sheet. As a guest behind an empty prefix each of its borders becomes text, with holes or without; its waiting
/// names and hanging cells are dropped, so that lines alone follow the head.
fn print(sheet: &[u8]) -> Result<(), Refusal> {
    let empty = field(b'H', &[0, 0]);
    let mut store = vec![0; 65_536];
    let length = append_subrender(OPTIONS, &empty, sheet, &field(b'P', b""), true, &mut store)?;
    for (_, line) in fields(&store[5..length]) {
        let texts = fields(line).filter(|&(letter, _)| letter == b'S');
        let shown: String = texts
            .map(|(_, s)| String::from_utf8_lossy(&s[1..]))
            .collect();
        println!("{shown}");
    }
    Ok(())
}

fn main() -> Result<(), Refusal> {
    print(&list()?)?;
    println!();
    print(&pallet()?)
}
