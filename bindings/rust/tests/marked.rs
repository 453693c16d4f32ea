//! The marked table of document 01, M1 to M11, as whole bytes: each row is a call, the number
//! that it answers and the sheet.

mod common;

use common::{CELLS, JOINED, PLAIN, UNDER, bytes};
use sheet::{Answer, append_columns_with_borders, render};

/// A job in hexadecimal, the number that it gets, and the sheet.
struct Row {
    name: &'static str,
    job: &'static str,
    number: u8,
    sheet: &'static str,
}

const JOBS: [Row; 13] = [
    Row {
        name: "M1: width 8, 'bolt M8 zinc'",
        job: "57 00 03 08 00 00 54 00 0F 00 00 00 62 6F 6C 74 20 4D 38 20 7A 69 6E 63",
        number: 0,
        sheet: "48 00 02 00 02 4C 00 0B 53 00 08 00 62 6F 6C 74 20 4D 38 4C 00 08 53 00 \
                05 00 7A 69 6E 63",
    },
    Row {
        name: "M2: width 4, 'abcdefghi'",
        job: "57 00 03 04 00 00 54 00 0C 00 00 00 61 62 63 64 65 66 67 68 69",
        number: 0,
        sheet: "48 00 02 00 03 4C 00 08 53 00 05 00 61 62 63 64 4C 00 08 53 00 05 00 65 \
                66 67 68 4C 00 05 53 00 02 00 69",
    },
    Row {
        name: "M3: width 1, U+6F22: TooNarrow",
        job: "57 00 03 01 00 00 54 00 06 00 00 00 E6 BC A2",
        number: 5,
        sheet: "",
    },
    Row {
        name: "M3 with overflow: one line",
        job: "57 00 03 01 02 00 54 00 06 00 00 00 E6 BC A2",
        number: 0,
        sheet: "48 00 02 00 01 4C 00 07 53 00 04 00 E6 BC A2",
    },
    Row {
        name: "M4: Pre, width 20, 'ab', tab, 'c': six spaces",
        job: "57 00 03 14 00 00 54 00 07 01 00 00 61 62 09 63",
        number: 0,
        sheet: "48 00 02 00 01 4C 00 0D 53 00 0A 00 61 62 20 20 20 20 20 20 63",
    },
    Row {
        name: "M5: Pre, width 4, tab, 'x': four spaces; 'x'",
        job: "57 00 03 04 00 00 54 00 05 01 00 00 09 78",
        number: 0,
        sheet: "48 00 02 00 02 4C 00 08 53 00 05 00 20 20 20 20 4C 00 05 53 00 02 00 78",
    },
    Row {
        name: "M6: 'ab', U+200B, 'cd', width 3: 'ab'; 'cd'",
        job: "57 00 03 03 00 00 54 00 0A 00 00 00 61 62 E2 80 8B 63 64",
        number: 0,
        sheet: "48 00 02 00 02 4C 00 06 53 00 03 00 61 62 4C 00 06 53 00 03 00 63 64",
    },
    Row {
        name: "M6, width 4: 'abcd'",
        job: "57 00 03 04 00 00 54 00 0A 00 00 00 61 62 E2 80 8B 63 64",
        number: 0,
        sheet: "48 00 02 00 01 4C 00 08 53 00 05 00 61 62 63 64",
    },
    Row {
        name: "M7: 'a', U+00A0, 'b', width 2: the first two; 'b'",
        job: "57 00 03 02 00 00 54 00 07 00 00 00 61 C2 A0 62",
        number: 0,
        sheet: "48 00 02 00 02 4C 00 07 53 00 04 00 61 C2 A0 4C 00 05 53 00 02 00 62",
    },
    Row {
        name: "M8: three spaces: no lines",
        job: "57 00 03 08 00 00 54 00 06 00 00 00 20 20 20",
        number: 0,
        sheet: "48 00 02 00 00",
    },
    Row {
        name: "M9: Pre, LF: one empty line",
        job: "57 00 03 08 00 00 54 00 04 01 00 00 0A",
        number: 0,
        sheet: "48 00 02 00 01 4C 00 00",
    },
    Row {
        name: "M10: Pre, 'ab  cd', width 4, annotations 1 and 2: 'ab  ' (1); 'cd' (2)",
        job: "57 00 03 04 00 00 54 00 09 01 01 02 61 62 20 20 63 64",
        number: 0,
        sheet: "48 00 02 00 02 4C 00 08 53 00 05 01 61 62 20 20 4C 00 06 53 00 03 02 63 \
                64",
    },
    Row {
        name: "M10, PreWrap: 'ab'; 'cd', both 1",
        job: "57 00 03 04 00 00 54 00 09 02 01 02 61 62 20 20 63 64",
        number: 0,
        sheet: "48 00 02 00 02 4C 00 06 53 00 03 01 61 62 4C 00 06 53 00 03 01 63 64",
    },
];

/// The store before a call: 64 bytes EE.
const BEFORE: [u8; 64] = [0xEE; 64];

/// A good call leaves the bytes past the sheet, and a refusal zeroes the whole store.
fn expect(name: &str, answer: Answer, store: &[u8; 64], number: u8, sheet: &[u8]) {
    let after = match answer {
        Ok(length) => {
            assert_eq!(0, number, "{name}");
            assert_eq!(length, sheet.len(), "{name}");
            [sheet, &BEFORE[length..]].concat()
        }
        Err(refusal) => {
            assert_eq!(refusal.number(), number, "{name}");
            vec![0; 64]
        }
    };
    assert_eq!(&store[..], after, "{name}");
}

#[test]
fn jobs() {
    for row in JOBS {
        let mut store = BEFORE;
        let answer = render(&bytes(row.job), &mut store);
        expect(row.name, answer, &store, row.number, &bytes(row.sheet));
    }
}

/// M11: ──┬──; ab│cd; ──┴──. Collapsed too: the cells have no borders.
#[test]
fn columns() {
    for collapse in [false, true] {
        let mut store = BEFORE;
        let (under, cells) = (bytes(UNDER), bytes(CELLS));
        let answer = append_columns_with_borders(PLAIN, &under, &cells, collapse, &mut store);
        expect("M11", answer, &store, 0, &bytes(JOINED));
    }
}
