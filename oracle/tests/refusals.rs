//! Refusals around their limits, and their order.

mod common;
use common::{border, bytes, cell, job, number, run_job, run_row, sheet, text};
use oracle::call::{Row, Sheet};
use oracle::checks::{self, Input};
use oracle::format::{Job, Line, Part, Piece, write_cells, write_job, write_prefixes, write_sheet};

const EMPTY: &[u8] = b"H\0\x02\0\0";

#[test]
fn crooked_jobs() {
    let good = ["570003080000", "570003080300", "570003080000 46 0000"];
    for text in good {
        assert_eq!(number(&bytes(text)), 0, "{text}");
    }
    let crooked = [
        "",
        "57",
        "5700020800",
        "57000408000000",
        "570003080400",
        "570003088000",
        "570003080000 570003080000",
        "54000400000061 570003080000",
        "460000",
        "570003080000 00",
        "570003080000 540002 0000",
        "570003080000 540004 03000061",
        "570003080000 540005 00000061",
        "570003080000 4C0000",
        "570003080000 740004 00000061",
    ];
    for text in crooked {
        assert_eq!(number(&bytes(text)), 1, "{text}");
    }
}

#[test]
fn units() {
    let of = |parts| {
        write_job(&Job {
            width: 255,
            pad: false,
            overflow: false,
            annotation: 0,
            parts,
        })
    };
    let long = |length| Part::Text {
        mode: 0,
        first: 0,
        continued: 0,
        text: "a".repeat(length),
    };
    let name = |length| Part::Name("n".repeat(length));
    assert_eq!(number(&of(vec![long(4096)])), 0);
    assert_eq!(number(&of(vec![long(4097)])), 4);
    assert_eq!(number(&of(vec![name(4095)])), 0);
    assert_eq!(number(&of(vec![name(4096)])), 4);
    assert_eq!(number(&of(vec![name(0); 4096])), 0);
    assert_eq!(number(&of(vec![name(0); 4097])), 4);
    assert_eq!(number(&of(vec![long(2000), name(1000), long(1095)])), 0);
    assert_eq!(number(&of(vec![long(2000), name(1000), long(1096)])), 4);
}

#[test]
fn strange_characters() {
    let of_text = |text: &[u8]| {
        number(&one(Part::Text {
            mode: 0,
            first: 0,
            continued: 0,
            text,
        }))
    };
    let of_name = |name: &[u8]| number(&one(Part::Name(name)));
    for control in [
        "\u{1}", "\t", "\n", "\u{1f}", "\u{7f}", "\u{80}", "\u{85}", "\u{9f}",
    ] {
        assert_eq!(of_text(control.as_bytes()), 0);
        assert_eq!(of_name(control.as_bytes()), 3);
    }
    for listed in [
        " ", "~", "\u{a0}", "\u{ac}", "\u{17f}", "\u{337}", "\u{ff9d}",
    ] {
        assert_eq!(of_text(listed.as_bytes()), 0);
        assert_eq!(of_name(listed.as_bytes()), 0);
    }
    let off: [&[u8]; 12] = [
        b"\0",
        "\u{ad}".as_bytes(),
        "\u{180}".as_bytes(),
        "\u{338}".as_bytes(),
        "\u{200c}".as_bytes(),
        "\u{1f600}".as_bytes(),
        b"\xC0\x80",
        b"\xE0\x9F\xBF",
        b"\xED\xA0\x80",
        b"\xF4\x90\x80\x80",
        b"\x80",
        b"\xE6\xBC",
    ];
    for text in off {
        assert_eq!(of_text(text), 3, "{text:x?}");
        assert_eq!(of_name(text), 3, "{text:x?}");
    }
}

fn one(part: Part<&[u8]>) -> Vec<u8> {
    write_job(&Job {
        width: 8,
        pad: false,
        overflow: false,
        annotation: 0,
        parts: vec![part],
    })
}

#[test]
fn the_order_of_a_jobs_refusals() {
    let text = format!("\u{338}{}", "a".repeat(4096));
    let mut faulty = job(0, false, 0, [0, 0], &text);
    assert_eq!(number(&faulty), 2);
    faulty[3] = 1;
    assert_eq!(number(&faulty), 3);
    faulty.push(b'T');
    assert_eq!(number(&faulty), 1);
    let overfull = job(1, false, 0, [0, 0], &format!("漢{}", "a".repeat(4094)));
    assert_eq!(number(&overfull), 4);
    let narrow = job(1, false, 0, [0, 0], &format!("漢{}", "a".repeat(4093)));
    assert_eq!(number(&narrow), 5);
}

#[test]
fn stores() {
    let job = job(8, false, 0, [0, 0], "bolt M8 zinc");
    let (exact, store) = run_job(&job, 30);
    assert_eq!((exact.number, exact.length), (0, 30));
    let (longer, longer_store) = run_job(&job, 31);
    assert_eq!((longer.number, longer.length), (0, 30));
    assert_eq!(longer_store, [store, vec![0xEE]].concat());
    for short in [29, 5, 0] {
        let (answer, store) = run_job(&job, short);
        assert_eq!((answer.number, answer.length), (8, 30));
        assert!(store.iter().all(|byte| *byte == 0));
    }
    let (refused, store) = run_job(b"W", 9);
    assert_eq!((refused.number, refused.length), (1, 0));
    assert_eq!(store, [0; 9]);
}

#[test]
fn inputs_alone() {
    let cells = |count| write_cells(&vec![cell(1, &[]); count]);
    let expected: [(Input, Vec<u8>, u8); 16] = [
        (Input::Sheet, EMPTY.to_vec(), 0),
        (Input::Sheet, Vec::new(), 1),
        (Input::Sheet, bytes("4800020000 00"), 1),
        (Input::Sheet, bytes("4800020001"), 1),
        (Input::Sheet, bytes("4800020000 4C0000"), 1),
        (Input::Sheet, bytes("4800020001 4200020B0B"), 0),
        (Input::Sheet, bytes("4800020001 420002000C"), 1),
        (Input::Sheet, bytes("4800020001 4C0004 53000100"), 1),
        (Input::Sheet, bytes("4800020001 4C0005 5300020009"), 3),
        (Input::Cells, cells(16), 0),
        (Input::Cells, cells(17), 1),
        (Input::Cells, bytes("430000"), 1),
        (Input::Cells, bytes("43000100"), 2),
        (Input::Prefixes, Vec::new(), 0),
        (Input::Prefixes, write_prefixes(&["", "\n"]), 3),
        (Input::Prefixes, bytes("500001"), 1),
    ];
    for (input, bytes, number) in expected {
        assert_eq!(checks::number(input, &bytes), number, "{bytes:x?}");
    }
}

#[test]
fn no_border_above() {
    let cells = write_cells(&[cell(1, &[text(0, "a")]), cell(2, &[border(0, &[0, 0])])]);
    let number = |old: &[u8], collapse| {
        let row = Row::Columns {
            cells: &cells,
            collapse,
        };
        run_row(&sheet(4, 0), old, row).0.number
    };
    let under_text = write_sheet(&[border(0, &[]), text(0, "a")]).unwrap();
    let under_border = write_sheet(&[text(0, "a"), border(0, &[])]).unwrap();
    assert_eq!(number(EMPTY, true), 6);
    assert_eq!(number(&under_text, true), 6);
    assert_eq!(number(&under_border, true), 0);
    assert_eq!(number(EMPTY, false), 0);
}

#[test]
fn the_order_of_a_row_calls_refusals() {
    let number = |width, old: &[u8], cells: &[u8]| {
        let row = Row::Columns {
            cells,
            collapse: true,
        };
        run_row(&sheet(width, 0), old, row).0.number
    };
    let strange = write_sheet(&[text(0, "\n")]).unwrap();
    let flat = write_cells(&[cell(0, &[border(0, &[])])]);
    let good = write_cells(&[cell(1, &[border(0, &[])])]);
    assert_eq!(number(0, &strange, b"C"), 1);
    assert_eq!(number(0, &strange, &good), 2);
    assert_eq!(number(1, &strange, &flat), 2);
    assert_eq!(number(1, &strange, &good), 3);
    assert_eq!(number(1, EMPTY, &good), 6);
}

#[test]
fn a_strange_prefix_that_no_line_uses() {
    let prefixes = write_prefixes(&["a", "\n"]);
    let row = Row::Subrender {
        guest: EMPTY,
        prefixes: &prefixes,
        repeat_last: false,
    };
    assert_eq!(run_row(&sheet(1, 0), EMPTY, row).0.number, 3);
}

/// A guest whose line becomes `content` bytes long under a prefix of two bytes.
fn with_long_line(old: &[u8], content: usize) -> u8 {
    let text = "a".repeat(content - 6);
    let line = Line::Text(vec![Piece::Text { tag: 0, text }]);
    let guest = write_sheet(&[line]).unwrap();
    let prefixes = write_prefixes(&["> "]);
    let row = Row::Subrender {
        guest: &guest,
        prefixes: &prefixes,
        repeat_last: false,
    };
    run_row(&sheet(1, 0), old, row).0.number
}

#[test]
fn long_lines_and_long_sheets() {
    let empty_lines = |count: u16| {
        let mut old = bytes("480002");
        old.extend(count.to_be_bytes());
        old.extend(bytes("4C0000").repeat(count.into()));
        old
    };
    assert_eq!(with_long_line(EMPTY, 65_535), 0);
    assert_eq!(with_long_line(EMPTY, 65_536), 7);
    assert_eq!(with_long_line(&empty_lines(65_534), 65_535), 0);
    assert_eq!(with_long_line(&empty_lines(65_535), 65_535), 9);
    assert_eq!(with_long_line(&empty_lines(65_535), 65_536), 7);

    let full = empty_lines(65_535);
    let row = Row::Vertical { cells: b"" };
    let plain = Sheet {
        borders: false,
        ..sheet(1, 0)
    };
    assert_eq!(run_row(&plain, &full, row).0.number, 0);
    assert_eq!(run_row(&sheet(1, 0), &full, row).0.number, 9);
}
