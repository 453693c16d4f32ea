//! What the tests share: bytes in hexadecimal, M1 and M11 of the marked table, and a row with a cell that spans rows.

#![allow(dead_code)]

use sheet::RenderOptions;

/// M1's job: width 8, "bolt M8 zinc".
pub const M1: &str = "57 00 03 08 00 00 54 00 0F 00 00 00 62 6F 6C 74 20 4D 38 20 7A 69 6E 63";

/// M11's sheet: five Horiz.
pub const UNDER: &str = "48 00 02 00 01 42 00 06 00 00 00 00 00 00";

/// M11's cells: "ab" and "cd", width 2 each.
pub const CELLS: &str = "43 00 0A 02 4C 00 06 53 00 03 00 61 62 43 00 0A 02 4C 00 06 53 00 03 00 \
    63 64";

/// M11's answer.
pub const JOINED: &str = "48 00 02 00 03 42 00 06 00 00 00 02 00 00 4C 00 0B 53 00 08 00 61 62 E2 \
    94 82 63 64 42 00 06 00 00 00 01 00 00";

/// A cell of two rows, "a", "b" and "c", beside the cell "x".
pub const FIRST: &str = "4B 00 1A 01 02 4C 00 05 53 00 02 01 61 4C 00 05 53 00 02 01 62 4C 00 05 53 \
    00 02 01 63 43 00 09 01 4C 00 05 53 00 02 00 78";

/// What they make under a border of three Horiz: ─┬─, a│x, b└─, and "c" hangs on.
pub const HANGING: &str = "48 00 02 00 03 42 00 04 00 00 02 00 4C 00 0D 53 00 02 01 61 53 00 05 00 E2 \
    94 82 78 47 00 0D 00 00 03 00 0A 00 00 00 53 00 02 01 62 56 00 0C 00 00 01 01 4C 00 05 53 00 \
    02 01 63";

/// Width 5, pad off, borders on, annotation 0.
pub const PLAIN: RenderOptions = RenderOptions {
    width: 5,
    pad: false,
    borders: true,
    annotation: 0,
};

/// Bytes from hexadecimal with blanks between them.
pub fn bytes(text: &str) -> Vec<u8> {
    let byte = |digits| u8::from_str_radix(digits, 16).expect("two digits");
    text.split_whitespace().map(byte).collect()
}
