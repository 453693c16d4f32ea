//! Document 01's marked table, M1 to M11.

mod common;
use common::{border, bytes, cell, columns, job, lines, number, run_job, sheet, text};

#[test]
fn m1_whole() {
    let job = "57 00 03 08 00 00 54 00 0F 00 00 00 62 6F 6C 74 20 4D 38 20 7A 69 6E 63";
    let sheet = bytes(
        "48 00 02 00 02 4C 00 0B 53 00 08 00 62 6F 6C 74 20 4D 38 \
         4C 00 08 53 00 05 00 7A 69 6E 63",
    );
    let (answer, store) = run_job(&bytes(job), 100);
    assert_eq!((answer.number, answer.length), (0, sheet.len()));
    assert_eq!(store[..sheet.len()], sheet);
    assert!(store[sheet.len()..].iter().all(|byte| *byte == 0xEE));
}

#[test]
fn m2_to_m9() {
    let normal = |width, text| lines(&job(width, false, 0, [0, 0], text));
    let pre = |width, text| lines(&job(width, false, 1, [0, 0], text));
    assert_eq!(
        normal(4, "abcdefghi"),
        [r#""abcd"(0)"#, r#""efgh"(0)"#, r#""i"(0)"#]
    );
    assert_eq!(number(&job(1, false, 0, [0, 0], "漢")), 5);
    assert_eq!(lines(&job(1, true, 0, [0, 0], "漢")), [r#""漢"(0)"#]);
    assert_eq!(pre(20, "ab\tc"), [r#""ab      c"(0)"#]);
    assert_eq!(pre(4, "\tx"), [r#""    "(0)"#, r#""x"(0)"#]);
    assert_eq!(normal(3, "ab\u{200b}cd"), [r#""ab"(0)"#, r#""cd"(0)"#]);
    assert_eq!(normal(4, "ab\u{200b}cd"), [r#""abcd"(0)"#]);
    assert_eq!(normal(2, "a\u{a0}b"), [r#""a\u{a0}"(0)"#, r#""b"(0)"#]);
    assert!(normal(8, "   ").is_empty());
    assert_eq!(pre(8, "\n"), ["empty"]);
}

#[test]
fn m10() {
    let pre = lines(&job(4, false, 1, [1, 2], "ab  cd"));
    assert_eq!(pre, [r#""ab  "(1)"#, r#""cd"(2)"#]);
    let pre_wrap = lines(&job(4, false, 2, [1, 2], "ab  cd"));
    assert_eq!(pre_wrap, [r#""ab"(1)"#, r#""cd"(1)"#]);
}

#[test]
fn m11() {
    let cells = [cell(2, &[text(0, "ab")]), cell(2, &[text(0, "cd")])];
    let old = [border(0, &[0; 5])];
    let expected = ["border(0) ──┬──", r#""ab│cd"(0)"#, "border(0) ──┴──"];
    for collapse in [false, true] {
        assert_eq!(columns(&sheet(5, 0), &old, &cells, collapse), expected);
    }
}
