//! Names that wait (request 2.2): jobs that leave them at the sheet's end, calls that take them to the front of a line, and
//! calls that hand them on.

mod common;

use common::{PLAIN, bytes};
use sheet::{
    Answer, Refusal, RenderOptions, append_columns_with_borders, append_subrender, append_vert_row,
    render,
};

/// A sheet without lines at whose end the name "n" waits, the name alone, and a cell that hangs for two rows.
const WAITING: &str = "48 00 02 00 00 46 00 01 6E";
const NAME: &str = "46 00 01 6E";
const HUNG: &str = "56 00 04 00 00 01 02";

const EMPTY: &str = "48 00 02 00 00";

/// The line "a", and it in a cell and in a sheet.
const LINE: &str = "4C 00 05 53 00 02 00 61";
const CELL: &str = "43 00 09 01 4C 00 05 53 00 02 00 61";
const GUEST: &str = "48 00 02 00 01 4C 00 05 53 00 02 00 61";

/// The line "a" behind the name.
const NAMED: &str = "4C 00 09 46 00 01 6E 53 00 02 00 61";

/// What a job shows, the job, and its sheet.
const JOBS: [(&str, &str, &str); 8] = [
    (
        "name in a word with text: on the line",
        "57 00 03 03 00 00 54 00 05 00 00 00 61 62 46 00 01 6E",
        "48 00 02 00 01 4C 00 0A 53 00 03 00 61 62 46 00 01 6E",
    ),
    (
        "after the blank that closed the word: waits",
        "57 00 03 03 00 00 54 00 06 00 00 00 61 62 20 46 00 01 6E",
        "48 00 02 00 01 4C 00 06 53 00 03 00 61 62 46 00 01 6E",
    ),
    (
        "Pre: the blank joined the word: on the line",
        "57 00 03 03 00 00 54 00 06 01 00 00 61 62 20 46 00 01 6E",
        "48 00 02 00 01 4C 00 0B 53 00 04 00 61 62 20 46 00 01 6E",
    ),
    (
        "an LF does not let a name go",
        "57 00 03 03 00 00 46 00 01 6E 54 00 04 01 00 00 0A",
        "48 00 02 00 01 4C 00 00 46 00 01 6E",
    ),
    (
        "nor does a tab; names in the order of the fields",
        "57 00 03 03 00 00 46 00 01 6E 54 00 04 01 00 00 09 46 00 01 6D",
        "48 00 02 00 01 4C 00 07 53 00 04 00 20 20 20 46 00 01 6E 46 00 01 6D",
    ),
    (
        "hard wrap: lost",
        "57 00 03 01 00 00 54 00 05 00 00 00 61 62 46 00 01 6E",
        "48 00 02 00 02 4C 00 05 53 00 02 00 61 4C 00 05 53 00 02 00 62",
    ),
    (
        "PreWrap, word trimmed to nothing: lost",
        "57 00 03 01 00 00 54 00 06 02 00 00 20 C2 A0 46 00 01 6E",
        "48 00 02 00 00",
    ),
    (
        "a word without columns stays open over a blank: on the line",
        "57 00 03 03 00 00 54 00 06 00 00 00 CC 81 20 46 00 01 6E",
        "48 00 02 00 01 4C 00 0A 53 00 03 00 CC 81 46 00 01 6E",
    ),
];

/// A call's answer, and the sheet that it wrote; what stands past it is as it was.
fn sheet(call: impl FnOnce(&mut [u8]) -> Answer) -> Result<Vec<u8>, Refusal> {
    let mut store = vec![0xEE; 70_000];
    let answer = call(&mut store);
    let (kept, rest) = match answer {
        Ok(length) => (length, 0xEE),
        Err(_) => (0, 0),
    };
    assert!(store[kept..].iter().all(|byte| *byte == rest));
    store.truncate(kept);
    answer.map(|_| store)
}

fn columns(options: RenderOptions, old: &str, cells: &str) -> Result<Vec<u8>, Refusal> {
    let (old, cells) = (bytes(old), bytes(cells));
    sheet(|store| append_columns_with_borders(options, &old, &cells, false, store))
}

fn vert_row(options: RenderOptions, old: &str, cells: &str) -> Result<Vec<u8>, Refusal> {
    let (old, cells) = (bytes(old), bytes(cells));
    sheet(|store| append_vert_row(options, &old, &cells, store))
}

fn subrender(old: &str, guest: &str, prefix: &[u8]) -> Result<Vec<u8>, Refusal> {
    let (old, guest) = (bytes(old), bytes(guest));
    let prefixes = [b"P\0", &[prefix.len() as u8][..], prefix].concat();
    sheet(|store| append_subrender(PLAIN, &old, &guest, &prefixes, true, store))
}

/// Bytes from pieces of hexadecimal.
fn all(parts: &[&str]) -> Result<Vec<u8>, Refusal> {
    Ok(bytes(&parts.join(" ")))
}

/// Options of that width.
fn wide(width: u8) -> RenderOptions {
    RenderOptions { width, ..PLAIN }
}

#[test]
fn jobs() {
    for (shows, job, expected) in JOBS {
        let job = bytes(job);
        assert_eq!(
            sheet(|store| render(&job, store)),
            Ok(bytes(expected)),
            "{shows}"
        );
    }
}

/// A store that has room for the lines and not for the name.
#[test]
fn the_length_needed_counts_the_names() {
    let (_, job, expected) = JOBS[1];
    let needed = bytes(expected).len();
    for length in 0..needed {
        let answer = render(&bytes(job), &mut vec![0xEE; length]);
        assert_eq!(answer, Err(Refusal::StoreShort(needed)));
    }
    let handed_on = vec![0xEE; bytes(WAITING).len()];
    for length in 0..handed_on.len() {
        let (old, guest) = (bytes(WAITING), bytes(EMPTY));
        let mut store = handed_on[..length].to_vec();
        let answer = append_subrender(PLAIN, &old, &guest, b"", true, &mut store);
        assert_eq!(answer, Err(Refusal::StoreShort(handed_on.len())));
        assert!(store.iter().all(|byte| *byte == 0));
    }
}

/// Names stand before the prefix, and all equal neighbours of the line join; without names they stay apart.
#[test]
fn a_guests_line() {
    let guest = "48 00 02 00 01 4C 00 0A 53 00 02 00 61 53 00 02 00 62";
    let joined = "48 00 02 00 01 4C 00 0B 46 00 01 6E 53 00 04 00 3E 61 62";
    assert_eq!(subrender(WAITING, guest, b">"), Ok(bytes(joined)));
    assert_eq!(subrender(EMPTY, guest, b""), Ok(bytes(guest)));
}

/// A guest's border is text and takes them; a border that the call adds does not, padded or not.
#[test]
fn borders() {
    let guest = "48 00 02 00 01 42 00 02 00 00";
    let taken = "48 00 02 00 01 4C 00 0B 46 00 01 6E 53 00 04 00 E2 94 80";
    assert_eq!(subrender(WAITING, guest, b""), Ok(bytes(taken)));
    let padded = RenderOptions {
        pad: true,
        ..wide(1)
    };
    let text = "48 00 02 00 01 4C 00 07 53 00 04 00 E2 94 80";
    assert_eq!(vert_row(padded, WAITING, ""), all(&[text, NAME]));
    assert_eq!(vert_row(wide(1), WAITING, ""), all(&[guest, NAME]));
    assert_eq!(columns(PLAIN, WAITING, "43 00 01 01"), all(&[guest, NAME]));
}

/// The first text line takes them, and no other.
#[test]
fn the_first_text_line() {
    let border = "42 00 02 00 00";
    let row = all(&["48 00 02 00 02", NAMED, border]);
    assert_eq!(columns(PLAIN, WAITING, CELL), row);
    let cells = [CELL, CELL].join(" ");
    let dashes = "42 00 02 00 05";
    let rows = all(&["48 00 02 00 04", NAMED, dashes, LINE, border]);
    assert_eq!(vert_row(wide(1), WAITING, &cells), rows);
    // A border comes first.
    let cells = ["43 00 01 01", CELL].join(" ");
    let rows = all(&["48 00 02 00 03", dashes, NAMED, border]);
    assert_eq!(vert_row(wide(1), WAITING, &cells), rows);
}

/// A call that adds no text line hands them on, before the V fields, which a row takes in.
#[test]
fn handed_on() {
    let old = [WAITING, HUNG].join(" ");
    assert_eq!(subrender(&old, EMPTY, b""), all(&[&old]));
    let off = RenderOptions {
        borders: false,
        ..PLAIN
    };
    assert_eq!(vert_row(off, &old, ""), all(&[&old]));
    let hole = "48 00 02 00 01 47 00 0B 00 00 01 00 00 00 53 00 02 00 20";
    let left = "56 00 04 00 00 01 01";
    assert_eq!(columns(PLAIN, &old, ""), all(&[hole, NAME, left]));
}

/// Through several calls: a job's name waits over a border and goes to the line after it.
#[test]
fn from_call_to_call() {
    let job = bytes(JOBS[1].1);
    let first = sheet(|store| render(&job, store)).unwrap();
    let second = sheet(|store| append_vert_row(wide(1), &first, b"", store)).unwrap();
    assert!(second.ends_with(&bytes(NAME)));
    let guest = bytes(GUEST);
    let third =
        sheet(|store| append_subrender(PLAIN, &second, &guest, b"P\0\0", true, store)).unwrap();
    let expected = [
        "48 00 02 00 03 4C 00 06 53 00 03 00 61 62 42 00 02 00 00",
        NAMED,
    ];
    assert_eq!(Ok(third), all(&expected));
}

/// A guest's are checked and dropped.
#[test]
fn a_guests_names() {
    let guest = [GUEST, NAME, HUNG].join(" ");
    assert_eq!(subrender(EMPTY, &guest, b""), Ok(bytes(GUEST)));
    let strange = [EMPTY, "46 00 01 0A"].join(" ");
    let refused = Err(Refusal::StrangeCharacter);
    assert_eq!(subrender(EMPTY, &strange, b""), refused);
    assert_eq!(subrender(&strange, EMPTY, b""), refused);
    assert_eq!(columns(PLAIN, &strange, CELL), refused);
    assert_eq!(vert_row(PLAIN, &strange, CELL), refused);
}

/// An F between lines, after a V, in a cell or in a hanging cell, or broken.
#[test]
fn out_of_place() {
    let crooked = Err(Refusal::CrookedRecord);
    let sheets = [
        ["48 00 02 00 02", LINE, NAME, LINE].join(" "),
        ["48 00 02 00 01", NAME, LINE].join(" "),
        [EMPTY, HUNG, NAME].join(" "),
        [EMPTY, NAME, HUNG, NAME].join(" "),
        [EMPTY, NAME, LINE].join(" "),
        [EMPTY, "56 00 08 00 00 01 01", NAME].join(" "),
        [EMPTY, "46 00 02 6E"].join(" "),
        [EMPTY, "46 00"].join(" "),
    ];
    for sheet in &sheets {
        assert_eq!(columns(PLAIN, sheet, ""), crooked, "{sheet}");
        assert_eq!(vert_row(PLAIN, sheet, ""), crooked, "{sheet}");
        assert_eq!(subrender(sheet, EMPTY, b""), crooked, "{sheet}");
        assert_eq!(subrender(EMPTY, sheet, b""), crooked, "{sheet}");
    }
    for cell in ["43 00 05 01 46 00 01 6E", "4B 00 06 01 01 46 00 01 6E"] {
        assert_eq!(columns(PLAIN, WAITING, cell), crooked, "{cell}");
        assert_eq!(vert_row(PLAIN, WAITING, cell), crooked, "{cell}");
    }
}

/// A name may have 65,535 bytes while it waits; a line with it may not have more.
#[test]
fn long_names() {
    let waiting = |length: u16| {
        let head = [&b"H\0\x02\0\0F"[..], &length.to_be_bytes()].concat();
        [head, vec![b'n'; length.into()]].concat()
    };
    let guest = bytes(GUEST);
    let with = |length: u16, guest: &[u8]| {
        let old = waiting(length);
        sheet(|store| append_subrender(PLAIN, &old, guest, b"P\0\0", true, store))
    };
    let exact = with(65_527, &guest).unwrap();
    assert_eq!(exact.len(), 5 + 3 + 65_535);
    assert!(exact.starts_with(b"H\0\x02\0\x01L\xFF\xFFF\xFF\xF7n"));
    assert_eq!(with(65_528, &guest), Err(Refusal::LongLine));
    assert_eq!(with(65_535, &guest), Err(Refusal::LongLine));
    assert_eq!(with(65_535, &bytes(EMPTY)), Ok(waiting(65_535)));
}
