//! Request 2.2: jobs that end with names, and calls on sheets at whose end names wait.

mod common;
use common::bytes;
use oracle::checks::{self, Input};
use oracle::format::{Contents, Line, Piece, Rules, read_cells, read_sheet, write_contents};
use oracle::known::{NAMED_CALLS, NAMED_JOBS};
use oracle::layout::Block;
use oracle::record::{Kind, PAD, Record, read_all};
use oracle::show;
use oracle::vectors::{self, Drawn};
use std::collections::BTreeSet;

const CALLS: [&str; 4] = ["names", "names-damaged", "names-chain", "names-edges"];
const STORE: usize = 1 << 16;
const LONGEST: usize = 1_000;

/// The records of a set up to a length, answered.
fn records(set: &str, count: usize, longest: Option<usize>) -> Vec<Record> {
    let mut file = Vec::new();
    let tally = vectors::write(set, 5, count, longest, &mut file);
    assert_eq!(tally.unwrap().unwrap().findings, 0, "{set}");
    read_all(&file).unwrap()
}

/// A record answered by some rules.
fn answered(record: &Record, rules: Rules) -> Record {
    let mut record = record.clone();
    record.run(rules).expect("no finding");
    record
}

/// Accepted questions, each with its sheet.
fn accepted(sets: &[&str]) -> Vec<(Record, Vec<u8>)> {
    let all = sets
        .iter()
        .flat_map(|set| records(set, 3_000, Some(LONGEST)));
    let sheet = |record: &Record| record.reply.clone().map(|reply| reply.sheet);
    let with_sheet = all.filter_map(|record| Some((sheet(&record)?, record)));
    let good = with_sheet.filter(|(sheet, _)| !sheet.is_empty());
    good.map(|(sheet, record)| (record, sheet)).collect()
}

fn sheet(bytes: &[u8]) -> Contents<&[u8]> {
    read_sheet(bytes, Rules::Names).expect("a sheet")
}

#[test]
fn known_jobs() {
    for (shows, job, expected) in NAMED_JOBS {
        let mut record = Record::job(bytes(job));
        record.store = STORE;
        record.run(Rules::Names).expect(shows);
        assert_eq!(show::hex(&record.reply.unwrap().sheet), expected, "{shows}");
    }
}

#[test]
fn known_calls() {
    for (shows, kind, [width, flags, annotation], inputs, expected) in NAMED_CALLS {
        let inputs = inputs.iter().map(|input| bytes(input)).collect();
        let mut record = Record::new(kind, [width, flags, annotation, 0, 0], inputs);
        record.store = STORE;
        let answer = record.run(Rules::Names).expect(shows);
        let sheet = show::hex(&record.reply.unwrap().sheet);
        let found = match answer.number {
            0 => Ok(sheet.as_str()),
            number => Err(number),
        };
        assert_eq!(found, expected, "{shows}");
    }
}

#[test]
fn in_words() {
    let sheet = bytes("48000200014c00055300020061 4600016e 460000 56000400000102");
    let expected = [
        r#""a"(0)"#,
        r#"waiting #"n""#,
        r#"waiting #"""#,
        "hanging 0 1 2:",
    ];
    assert_eq!(show::sheet(&sheet), expected);
}

#[test]
fn every_number_is_reached() {
    let wanted: [(&str, &[u8]); 6] = [
        ("names-short", &[0, 5]),
        ("names-jobs", &[0, 4, 5, 8]),
        ("names", &[0, 1, 6, 7, 8, 10]),
        ("names-damaged", &[0, 1, 2, 3, 6, 8, 10]),
        ("names-chain", &[0, 5, 6, 8, 10]),
        ("names-edges", &[0, 1, 2, 3, 6, 7, 8, 9, 10]),
    ];
    for (set, wanted) in wanted {
        let count = if set == "names-edges" { 20_000 } else { 4_000 };
        let replies = records(set, count, None).into_iter();
        let numbers = replies.map(|record| record.reply.unwrap().answer.number);
        let numbers: BTreeSet<u8> = numbers.collect();
        let missing = wanted.iter().find(|number| !numbers.contains(number));
        assert_eq!(missing, None, "{set}");
    }
}

#[test]
fn checks_have_every_number() {
    let mut file = Vec::new();
    let tally = vectors::write_checks(Drawn::Names, 3, 4_000, usize::MAX, &mut file).unwrap();
    assert!((0..=3).all(|number| tally.numbers[&number] > 500));
}

/// In many jobs names wait, in many they are on the last line; the lines are those that the block
/// alone gives, and without the request nothing else differs.
#[test]
fn a_jobs_lines_stay() {
    let mut waiting = 0;
    for (record, bytes) in accepted(&["names-short", "names-jobs", "random"]) {
        let found = sheet(&bytes);
        let lines = Block::read(&record.inputs[0]).unwrap().run().unwrap();
        let before = write_contents(&Contents::from(lines)).unwrap();
        assert!(bytes.starts_with(&before), "{record:?}");
        assert_eq!(answered(&record, Rules::Base).reply.unwrap().sheet, before);
        assert!(found.hanging.is_empty());
        waiting += usize::from(!found.names.is_empty());
    }
    assert!(waiting > 1_000, "{waiting}");
}

/// What is accepted passes 1 to 3 as the next call's sheet, and reading loses nothing.
#[test]
fn an_answer_is_a_sheet() {
    for (record, bytes) in accepted(&CALLS) {
        assert_eq!(checks::number(Input::Sheet, &bytes), 0, "{record:?}");
        assert_eq!(write_contents(&sheet(&bytes)), Ok(bytes.clone()));
    }
}

fn is_border(line: &Line<&[u8]>) -> bool {
    matches!(line, Line::Border { .. })
}

/// Does a call add a text line, whatever it adds besides? Judged without looking at names, so that
/// padded borders are told from texts by a call without pad.
fn adds_text(record: &Record, old: &Contents<&[u8]>) -> bool {
    let mut plain = record.clone();
    plain.params[1] &= !PAD;
    plain.store = STORE;
    let plain = answered(&plain, Rules::Names).reply.unwrap();
    assert_eq!(plain.answer.number, 0);
    let lines = sheet(&plain.sheet).lines;
    lines[old.lines.len()..].iter().any(|line| !is_border(line))
}

/// The names wait on, or they stand at the front of a line that the call added; never both, and
/// those of the guest come nowhere.
#[test]
fn where_names_go() {
    let (mut waited, mut taken) = (0, 0);
    let calls = accepted(&CALLS).into_iter();
    for (record, bytes) in calls.filter(|(record, _)| record.kind != Kind::Job) {
        let (old, new) = (sheet(&record.inputs[0]), sheet(&bytes));
        if old.names.is_empty() {
            assert!(new.names.is_empty());
            continue;
        }
        if !adds_text(&record, &old) {
            assert_eq!(old.names, new.names, "{record:?}");
            waited += 1;
            continue;
        }
        assert!(new.names.is_empty());
        let names: Vec<_> = old.names.iter().map(|name| Piece::Name(*name)).collect();
        let begins = |line: &Line<&[u8]>| match line {
            Line::Text(pieces) => pieces.starts_with(&names),
            Line::Border { .. } => false,
        };
        let text = |line: &&Line<&[u8]>| !is_border(line);
        let padded = record.params[1] & PAD != 0;
        let mut added = new.lines[old.lines.len()..].iter().filter(text);
        assert!(added.next().is_some_and(begins) || padded && added.any(begins));
        taken += 1;
    }
    assert!(waited > 500 && taken > 500, "{waited} {taken}");
}

/// Without waiting names both requests answer alike; before 2.2 they are refused.
#[test]
fn the_spans_stay() {
    for set in ["rows", "spans", "spans-chain"] {
        for record in records(set, 1_000, Some(LONGEST)) {
            let by_names = answered(&record, Rules::Names);
            assert_eq!(by_names, answered(&record, Rules::Spans));
        }
    }
    let names = records("names", 2_000, Some(LONGEST));
    for record in names {
        let by_spans = answered(&record, Rules::Spans).reply.unwrap();
        assert_eq!(by_spans.answer.number, 1);
    }
}

/// The lines of a job's sheet, without head and names, are a cell's.
#[test]
fn a_jobs_sheet_as_a_cell() {
    for (_, bytes) in accepted(&["names-jobs"]) {
        let found = sheet(&bytes);
        let tail: usize = found.names.iter().map(|name| 3 + name.len()).sum();
        let lines = &bytes[5..bytes.len() - tail];
        let length = (1 + lines.len()) as u16;
        let cell = [b"C", &length.to_be_bytes()[..], &[9], lines].concat();
        let cells = read_cells(&cell, Rules::Names).unwrap();
        assert_eq!(cells[0].lines, found.lines);
    }
}

/// The first text line with the names has 65,535 bytes, or one more.
#[test]
fn a_line_too_long_with_its_names() {
    let number = |kind: Kind, name: usize, more: &[&str]| {
        let mut old = bytes("4800020000 46");
        old.extend((name as u16).to_be_bytes());
        old.extend(vec![b'n'; name]);
        let inputs = more.iter().map(|input| bytes(input));
        let inputs = [old].into_iter().chain(inputs).collect();
        let mut record = Record::new(kind, [1, 2, 0, 0, 0], inputs);
        record.store = 1 << 18;
        record.run(Rules::Names).unwrap().number
    };
    let cell = "430009014c00055300020061";
    let guest = "48000200014c00055300020061";
    for (name, expected) in [(65_527, 0), (65_528, 7), (65_535, 7)] {
        assert_eq!(number(Kind::Columns, name, &[cell]), expected);
        assert_eq!(number(Kind::Vertical, name, &[cell]), expected);
        assert_eq!(number(Kind::Subrender, name, &[guest, "500000"]), expected);
    }
    assert_eq!(number(Kind::Columns, 65_535, &["43000101"]), 0);
    assert_eq!(number(Kind::Vertical, 65_535, &[""]), 0);
    assert_eq!(
        number(Kind::Subrender, 65_535, &["4800020000", "500000"]),
        0
    );
}
