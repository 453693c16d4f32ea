//! Cells that span rows: a cell hangs on from call to call, other calls hand it on, and each
//! refusal that these fields add.

mod common;

use common::{FIRST, HANGING, PLAIN, bytes};
use sheet::{
    Answer, Refusal, RenderOptions, append_columns_with_borders, append_subrender, append_vert_row,
};

/// A sheet of no lines.
const EMPTY: &str = "48 00 02 00 00";

/// A border of three Horiz.
const UNDER: &str = "48 00 02 00 01 42 00 04 00 00 00 00";

/// A stand-in beside the cell "y", and what the second row makes of it: b├─, c│y, ─┴─.
const SECOND: &str = "43 00 01 01 43 00 09 01 4C 00 05 53 00 02 00 79";
const DONE: &str = "48 00 02 00 05 42 00 04 00 00 02 00 4C 00 0D 53 00 02 01 61 53 00 05 00 E2 94 \
    82 78 47 00 0D 00 00 03 00 07 00 00 00 53 00 02 01 62 4C 00 0D 53 00 02 01 63 53 00 05 00 E2 \
    94 82 79 42 00 04 00 00 01 00";

/// Two holes out of order: the second begins before the first.
const OVERLAP: &str = "47 00 0E 00 00 01 00 00 01 46 00 00 00 00 46 00 00";

/// A call's answer, and the sheet that it wrote.
fn sheet(call: impl FnOnce(&mut [u8]) -> Answer) -> Result<Vec<u8>, Refusal> {
    let mut store = vec![0xEE; 4096];
    let length = call(&mut store)?;
    store.truncate(length);
    Ok(store)
}

fn columns(
    options: RenderOptions,
    old: &str,
    cells: &str,
    collapse: bool,
) -> Result<Vec<u8>, Refusal> {
    let (old, cells) = (bytes(old), bytes(cells));
    sheet(|store| append_columns_with_borders(options, &old, &cells, collapse, store))
}

fn vert_row(old: &str, cells: &str) -> Result<Vec<u8>, Refusal> {
    let (old, cells) = (bytes(old), bytes(cells));
    sheet(|store| append_vert_row(PLAIN, &old, &cells, store))
}

fn subrender(old: &str, guest: &str) -> Result<Vec<u8>, Refusal> {
    let (old, guest) = (bytes(old), bytes(guest));
    sheet(|store| append_subrender(PLAIN, &old, &guest, b"P\0\0", true, store))
}

/// A cell of a width and rows with these lines, in hexadecimal.
fn spanning(width: u8, rows: u8, lines: &str) -> String {
    let length = 2 + bytes(lines).len();
    format!("4B 00 {length:02X} {width:02X} {rows:02X} {lines}")
}

/// A sheet of no lines from which a cell hangs.
fn hanging(position: u16, width: u8, rows: u8, lines: &str) -> String {
    let (length, [high, low]) = (4 + bytes(lines).len(), position.to_be_bytes());
    format!("{EMPTY} 56 00 {length:02X} {high:02X} {low:02X} {width:02X} {rows:02X} {lines}")
}

#[test]
fn a_cell_of_two_rows() {
    let plain = |old, cells| columns(PLAIN, old, cells, false);
    assert_eq!(plain(UNDER, FIRST), Ok(bytes(HANGING)));
    assert_eq!(plain(HANGING, SECOND), Ok(bytes(DONE)));
}

/// The line that stands in the border is used up, though no border is drawn.
#[test]
fn borders_off() {
    let off = RenderOptions {
        borders: false,
        ..PLAIN
    };
    let laid = columns(off, EMPTY, FIRST, false).unwrap();
    assert!(laid.ends_with(&bytes(&hanging(0, 1, 1, "4C 00 05 53 00 02 01 63"))[5..]));
    assert!(!laid.contains(&b'b'));
}

/// Without a stand-in the hanging cell takes the place of a cell that holds something.
#[test]
fn a_cell_is_lost_without_a_stand_in() {
    let laid = columns(PLAIN, HANGING, "43 00 09 01 4C 00 05 53 00 02 00 79", false).unwrap();
    assert!(laid.contains(&b'c') && !laid.contains(&b'y'));
}

#[test]
fn other_calls_hand_hanging_cells_on() {
    let tail = bytes(&hanging(0, 1, 1, "4C 00 05 53 00 02 01 63"))[5..].to_vec();
    assert!(vert_row(HANGING, "").unwrap().ends_with(&tail));
    assert!(subrender(HANGING, EMPTY).unwrap().ends_with(&tail));
    assert!(!subrender(EMPTY, HANGING).unwrap().ends_with(&tail));
}

#[test]
fn numbers_of_rows() {
    for rows in 0..=255 {
        let fits = (1..=16).contains(&rows);
        let cells = columns(PLAIN, EMPTY, &spanning(1, rows, ""), false);
        let hung = columns(PLAIN, &hanging(0, 1, rows, ""), "", false);
        assert_eq!(cells.is_ok(), fits);
        assert_eq!(hung.is_ok(), fits);
        if !fits {
            assert_eq!(
                (cells, hung),
                (Err(Refusal::CrookedRecord), Err(Refusal::CrookedRecord))
            );
        }
    }
}

#[test]
fn crooked_records() {
    let crooked = Err(Refusal::CrookedRecord);
    // A K in a row of cells below each other, a V in a cell, a V before a line.
    assert_eq!(vert_row(EMPTY, &spanning(1, 1, "")), crooked);
    assert_eq!(
        columns(PLAIN, EMPTY, "43 00 08 01 56 00 04 00 00 01 01", false),
        crooked
    );
    assert_eq!(
        columns(
            PLAIN,
            "48 00 02 00 01 56 00 04 00 00 01 01 4C 00 00",
            "",
            false
        ),
        crooked
    );
    // No hole, and one that ends past the last segment.
    assert_eq!(
        columns(PLAIN, "48 00 02 00 01 47 00 04 00 00 01 00", "", false),
        crooked
    );
    let past = "48 00 02 00 01 47 00 0B 00 00 01 00 00 01 53 00 02 00 61";
    assert_eq!(columns(PLAIN, past, "", false), crooked);
    // 17 cells.
    let cells = |count| vec![spanning(1, 1, ""); count].join(" ");
    assert!(columns(PLAIN, EMPTY, &cells(16), false).is_ok());
    assert_eq!(columns(PLAIN, EMPTY, &cells(17), false), crooked);
}

#[test]
fn no_width() {
    let no_width = Err(Refusal::NoWidth);
    assert_eq!(columns(PLAIN, EMPTY, &spanning(0, 1, ""), false), no_width);
    assert_eq!(columns(PLAIN, &hanging(0, 0, 1, ""), "", false), no_width);
    assert_eq!(subrender(EMPTY, &hanging(0, 0, 1, "")), no_width);
}

#[test]
fn strange_characters() {
    let strange = Err(Refusal::StrangeCharacter);
    let hole = "47 00 0B 00 00 01 00 00 00 53 00 02 00 09";
    assert_eq!(
        columns(PLAIN, &format!("48 00 02 00 01 {hole}"), "", false),
        strange
    );
    assert_eq!(columns(PLAIN, &hanging(0, 1, 1, hole), "", false), strange);
}

/// A hanging cell that starts with a border, and none is above.
#[test]
fn no_border_above() {
    let old = hanging(0, 1, 1, "42 00 01 00");
    assert_eq!(
        columns(PLAIN, &old, "43 00 01 01", true),
        Err(Refusal::NoBorderAbove)
    );
}

#[test]
fn overhang_misfits() {
    let misfit = Err(Refusal::OverhangMisfit);
    // Holes that overlap, in a cell, in a guest, in a hanging cell.
    let cell = format!("43 00 12 01 {OVERLAP}");
    assert_eq!(columns(PLAIN, EMPTY, &cell, false), misfit);
    assert_eq!(vert_row(EMPTY, &cell), misfit);
    assert_eq!(
        subrender(EMPTY, &format!("48 00 02 00 01 {OVERLAP}")),
        misfit
    );
    assert_eq!(
        columns(PLAIN, &hanging(0, 1, 1, OVERLAP), "", false),
        misfit
    );
    // A new hole that ends past its border.
    let wide = spanning(1, 2, "42 00 03 00 00 00");
    assert_eq!(columns(PLAIN, EMPTY, &wide, false), misfit);
    // A hanging cell wider than its row that lacks a line.
    let cells = "43 00 01 01 43 00 04 01 4C 00 00";
    assert_eq!(columns(PLAIN, &hanging(0, 4, 1, ""), cells, false), misfit);
}
