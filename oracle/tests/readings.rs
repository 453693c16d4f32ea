//! Places where document 01's prose can be misread, as the crate answers them.

mod common;
use common::{border, bytes, cell, columns, lines, run_row, sheet, text};
use oracle::call::{Row, Sheet};
use oracle::format::{Line, Piece, write_cells, write_prefixes, write_sheet};

#[test]
fn jobs() {
    let a = r#""a"(0)"#;
    let blank = r#"" "(0)"#;
    const EMPTY_NAME: &str = "waiting #\"\"";
    let expected: [(&str, &[&str]); 14] = [
        // A T field starts continued while a wrap of Pre text stands, in any mode.
        (
            "570003010200540006010001e6bca254000400000161",
            &[r#""漢"(1)"#, r#""a"(1)"#],
        ),
        // The first character of a hard wrap is that of the piece, not of the word.
        (
            "570003010200540008010001cc81e6bca2",
            &[r#""\u{301}"(0) "漢"(1)"#],
        ),
        (
            "570003010200540008010000cc81e6bca2",
            &[r#""\u{301}"(0)"#, r#""漢"(0)"#],
        ),
        // Pre, blanks that reach the rest of the line: the part that fits is dropped.
        ("5700030100005400050100002061", &[a]),
        // A blank that joins a word in Pre never takes the continued annotation.
        ("5700030100005400050100016120", &[a, blank]),
        // Pending blanks before an LF are dropped.
        ("570003010000540005010000200a", &["empty"]),
        // A tab leaves pending blanks pending; they come after its spaces.
        ("5700030100005400070200002009c2a0", &[blank]),
        // At the edge a tab closes only a line with text.
        ("5700030100005400050100002009", &[blank]),
        // A white-space control is dropped in PreWrap but breaks a word first.
        ("570003010000540005020000610b460000", &[a, EMPTY_NAME]),
        // The word's front is trimmed up to a name, not past it.
        ("57000301000046000054000602000020c2a0", &[r#""\u{a0}"(0)"#]),
        // U+00A0 at the front is trimmed too; a word trimmed to nothing is gone.
        ("57000301000054000602000020c2a0", &[]),
        // Normal: after a line of zero columns a blank does not pend.
        (
            "57000301020054000a000000e6bca2cc812061",
            &[r#""漢"(0)"#, r#""\u{301}a"(0)"#],
        ),
        // The last blank's mode counts.
        ("570003010000540004010000205400050200002061", &[a]),
        // Pad is of mode Normal, so it never joins Pre text.
        ("570003010100540005010000cc81", &[r#""\u{301}"(0) " "(0)"#]),
    ];
    for (job, sheet) in expected {
        assert_eq!(lines(&bytes(job)), sheet, "job {job}");
    }
}

#[test]
fn the_last_border_is_stretched_even_with_borders_off() {
    let plain = Sheet {
        borders: false,
        ..sheet(9, 0)
    };
    let cells = [cell(3, &[text(0, "abc")])];
    let expected = ["border(0) ───", r#""abc"(0)"#];
    assert_eq!(columns(&plain, &[border(0, &[0])], &cells, false), expected);
}

#[test]
fn a_new_border_under_text_has_no_joins() {
    let cells = [cell(1, &[text(0, "a")]), cell(1, &[text(0, "b")])];
    let expected = [r#""x"(0)"#, r#""a│b"(0)"#, "border(0) ───"];
    let old = [text(0, "x")];
    assert_eq!(columns(&sheet(9, 0), &old, &cells, false), expected);
}

#[test]
fn a_single_border_is_a_first_border_and_leaves_no_pattern() {
    let cells = [cell(2, &[border(0, &[10, 1])]), cell(1, &[text(0, "a")])];
    let expected = ["border(0) ┬┬┬─", r#""  │a"(0)"#, "border(0) ──┴─"];
    let old = [border(0, &[0])];
    assert_eq!(columns(&sheet(9, 0), &old, &cells, true), expected);
}

#[test]
fn a_long_border_merges_past_its_cell_and_so_does_its_pattern() {
    let nested = [text(0, "x"), border(0, &[0, 1, 1])];
    let tall = [text(0, "a"), text(0, "b")];
    let cells = [cell(1, &nested), cell(1, &tall)];
    let expected = [
        "border(0) ─┬─",
        r#""x│a"(0)"#,
        r#"" │││b"(0)"#,
        "border(0) ─┴┴",
    ];
    let old = [border(0, &[0])];
    assert_eq!(columns(&sheet(9, 0), &old, &cells, true), expected);
}

#[test]
fn prefixes_and_cell_padding_take_the_calls_annotation() {
    let cells = [cell(3, &[text(5, "a")])];
    let expected = [r#""a"(5) "  "(7)"#, "border(7) ───"];
    assert_eq!(columns(&sheet(9, 7), &[], &cells, false), expected);

    let guest = write_sheet(&[text(5, "a"), border(5, &[0, 2])]).unwrap();
    let prefixes = write_prefixes(&["> "]);
    let row = Row::Subrender {
        guest: &guest,
        prefixes: &prefixes,
        repeat_last: true,
    };
    let (_, found) = run_row(&sheet(9, 7), b"H\0\x02\0\0", row);
    assert_eq!(found, [r#""> "(7) "a"(5)"#, r#""> ─┬"(7)"#]);
}

#[test]
fn the_shorter_list_ends_a_subrender() {
    let guest = write_sheet(&[text(0, "a"), text(0, "b"), text(0, "c")]).unwrap();
    let added = |prefixes: &[&str], repeat_last| {
        let prefixes = write_prefixes(prefixes);
        let row = Row::Subrender {
            guest: &guest,
            prefixes: &prefixes,
            repeat_last,
        };
        run_row(&sheet(9, 0), b"H\0\x02\0\0", row).1.len()
    };
    assert_eq!(added(&[""], false), 1);
    assert_eq!(added(&["", "x"], true), 3);
    assert_eq!(added(&["", "x", "", ""], true), 3);
    assert_eq!(added(&[], true), 0);
}

#[test]
fn pieces_join_where_lines_are_pushed_again_and_only_there() {
    let piece = |text| Piece::Text { tag: 0, text };
    let split = Line::Text(vec![piece("a"), piece("b")]);
    let old = [split];
    let cells = [cell(2, &old)];
    let expected = [r#""a"(0) "b"(0)"#, r#""ab"(0)"#, "border(0) ──"];
    assert_eq!(columns(&sheet(9, 0), &old, &cells, false), expected);
}

#[test]
fn no_cells() {
    assert_eq!(columns(&sheet(9, 3), &[], &[], false), ["border(3) "]);
    let plain = Sheet {
        borders: false,
        ..sheet(9, 3)
    };
    assert!(columns(&plain, &[], &[], true).is_empty());
}

#[test]
fn vertical_rows() {
    let cells = [
        cell(1, &[text(0, "wide text")]),
        cell(1, &[border(4, &[8, 9])]),
    ];
    let cells = write_cells(&cells);
    let row = Row::Vertical { cells: &cells };
    let (_, found) = run_row(&sheet(3, 1), b"H\0\x02\0\0", row);
    let expected = [
        r#""wide text"(0)"#,
        "border(1) ///",
        r#""┌┐"(1)"#,
        "border(1) ───",
    ];
    assert_eq!(found, expected);

    let padded = Sheet {
        pad: true,
        ..sheet(3, 1)
    };
    let (_, found) = run_row(&padded, b"H\0\x02\0\0", row);
    let expected = [
        r#""wide text"(0)"#,
        r#""///"(1)"#,
        r#""┌┐ "(1)"#,
        r#""───"(1)"#,
    ];
    assert_eq!(found, expected);
}

#[test]
fn segments_and_marks() {
    let all: Vec<u8> = (0..12).collect();
    let cells = [cell(12, &[border(2, &all)])];
    let found = columns(&sheet(12, 2), &[border(2, &all)], &cells, false);
    assert_eq!(found[0], "border(2) ─┴┬┼│/┤├┌┐└┘");
    assert_eq!(found[1], r#""─┴┬┼│/┤├┌┐└┘"(2)"#);
}

/// Document 01's words for the twelve segments: number, mark, `join_above`, `join_below`,
/// what Horiz becomes by `merge_from_below` and by `merge_from_above`, the mark above.
#[test]
fn the_segment_table() {
    let expected = [
        "0 ─ 1 2 0 0 blank",
        "1 ┴ 1 3 2 1 │",
        "2 ┬ 3 2 2 1 blank",
        "3 ┼ 3 3 2 1 │",
        "4 │ 4 4 0 0 blank",
        "5 / 5 5 0 0 blank",
        "6 ┤ 6 6 0 0 blank",
        "7 ├ 7 7 0 0 blank",
        "8 ┌ 7 8 0 1 blank",
        "9 ┐ 6 9 0 1 blank",
        "10 └ 10 7 2 0 │",
        "11 ┘ 11 6 2 0 │",
    ];
    assert_eq!(oracle::show::segments(), expected);
}
