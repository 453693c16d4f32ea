//! Damaged inputs: a call answers them all. A refusal zeroes the whole store, a good call
//! leaves what stands past its sheet, and nothing outside the store changes.

mod common;

use common::{CELLS, FIRST, HANGING, M1, PLAIN, UNDER, bytes};
use sheet::{
    Answer, Refusal, append_columns_with_borders, append_subrender, append_vert_row, render,
};

const FILL: u8 = 0xEE;

/// Runs a call on the middle of a larger store, and looks at every byte of it.
fn run(call: impl FnOnce(&mut [u8]) -> Answer) -> Answer {
    let mut all = [FILL; 1024];
    let answer = call(&mut all[100..900]);
    let untouched = |part: &[u8]| part.iter().all(|byte| *byte == FILL);
    assert!(untouched(&all[..100]) && untouched(&all[900..]));
    match answer {
        Ok(length) => assert!(untouched(&all[100 + length..])),
        Err(_) => assert!(all[100..900].iter().all(|byte| *byte == 0)),
    }
    answer
}

/// The call on a job.
fn render_job(job: &[u8]) -> Answer {
    run(|store| render(job, store))
}

/// The calls on a sheet: with these cells, and with the sheet as its own guest.
fn all_rows(sheet: &[u8], cells: &[u8]) -> Vec<Answer> {
    let columns =
        |collapse| run(|store| append_columns_with_borders(PLAIN, sheet, cells, collapse, store));
    let subrender =
        |prefixes: &[u8]| run(|store| append_subrender(PLAIN, sheet, sheet, prefixes, true, store));
    vec![
        columns(false),
        columns(true),
        run(|store| append_vert_row(PLAIN, sheet, cells, store)),
        subrender(b"P\0\x02* "),
        subrender(cells),
    ]
}

/// Every input that differs from this one in a single byte.
fn changed(input: &[u8]) -> impl Iterator<Item = Vec<u8>> {
    let places = 0..input.len();
    places.flat_map(move |place| {
        (1..=255).map(move |change| {
            let mut damaged = input.to_vec();
            damaged[place] ^= change;
            damaged
        })
    })
}

/// A field with another letter, at these places, is refusal 1.
fn wrong_letters(input: &[u8], places: &[usize], refused: impl Fn(&[u8])) {
    for &place in places {
        for letter in (0..=255).filter(|letter| *letter != input[place]) {
            let mut damaged = input.to_vec();
            damaged[place] = letter;
            refused(&damaged);
        }
    }
}

#[test]
fn a_truncated_job_is_crooked() {
    let job = bytes(M1);
    for length in 0..job.len() {
        let expected = match length {
            6 => Ok(5), // the W alone is a job without text
            _ => Err(Refusal::CrookedRecord),
        };
        assert_eq!(render_job(&job[..length]), expected);
    }
}

#[test]
fn truncated_rows_are_crooked() {
    let (sheet, cells) = (bytes(UNDER), bytes(CELLS));
    for length in 0..sheet.len() {
        let answers = all_rows(&sheet[..length], &cells);
        assert!(answers.iter().all(|a| *a == Err(Refusal::CrookedRecord)));
    }
    for length in (1..cells.len()).filter(|length| *length != cells.len() / 2) {
        let answers = all_rows(&sheet, &cells[..length]);
        assert!(
            answers[..3]
                .iter()
                .all(|a| *a == Err(Refusal::CrookedRecord))
        );
    }
}

#[test]
fn wrong_letters_are_crooked() {
    let (job, sheet, cells) = (bytes(M1), bytes(UNDER), bytes(CELLS));
    // W; T, for which F would do.
    wrong_letters(&job, &[0, 6], |job| {
        let expected = Err(Refusal::CrookedRecord);
        let name = job[6] == b'F'; // a name with the T's three numbers, which are no text
        assert_eq!(
            render_job(job),
            if name {
                Err(Refusal::StrangeCharacter)
            } else {
                expected
            }
        );
    });
    // H and B; with L for B the segments are no fields.
    wrong_letters(&sheet, &[0, 5], |sheet| {
        let answers = all_rows(sheet, &cells);
        assert!(answers.iter().all(|a| *a == Err(Refusal::CrookedRecord)));
    });
    // C.
    wrong_letters(&cells, &[0, 13], |cells| {
        let answers = all_rows(&sheet, cells);
        assert!(
            answers[..3]
                .iter()
                .all(|a| *a == Err(Refusal::CrookedRecord))
        );
    });
}

#[test]
fn every_byte_of_a_job_changed() {
    for job in changed(&bytes(M1)) {
        let _ = render_job(&job);
    }
}

#[test]
fn every_byte_of_a_row_changed() {
    let (sheet, cells) = (bytes(UNDER), bytes(CELLS));
    for sheet in changed(&sheet) {
        all_rows(&sheet, &cells);
    }
    for cells in changed(&cells) {
        all_rows(&sheet, &cells);
    }
}

#[test]
fn every_byte_of_a_spanning_row_changed() {
    let (sheet, cells) = (bytes(HANGING), bytes(FIRST));
    for sheet in changed(&sheet) {
        all_rows(&sheet, &cells);
    }
    for cells in changed(&cells) {
        all_rows(&sheet, &cells);
    }
}

#[test]
fn every_store_that_is_too_short() {
    let job = bytes(M1);
    for length in 0..30 {
        let mut store = vec![FILL; length];
        assert_eq!(render(&job, &mut store), Err(Refusal::StoreShort(30)));
        assert!(store.iter().all(|byte| *byte == 0));
    }
    assert_eq!(render(&job, &mut [FILL; 30]), Ok(30));
}

#[test]
fn the_other_refusals() {
    let refused = |job: &[u8], refusal| assert_eq!(render_job(job), Err(refusal));
    refused(b"W\0\x03\0\0\0", Refusal::NoWidth);
    refused(
        b"W\0\x03\x08\0\0T\0\x05\0\0\0\xC0\x80",
        Refusal::StrangeCharacter,
    );
    let mut overfull = b"W\0\x03\x08\0\0T\x10\x04\0\0\0".to_vec();
    overfull.resize(6 + 6 + 4097, b'a');
    refused(&overfull, Refusal::OverfullJob);
    let bordered = b"C\0\x06\x02B\0\x02\0\0";
    let collapsed =
        |sheet| run(|store| append_columns_with_borders(PLAIN, sheet, bordered, true, store));
    assert_eq!(collapsed(b"H\0\x02\0\0"), Err(Refusal::NoBorderAbove));
    assert!(collapsed(&bytes(UNDER)).is_ok());
}
