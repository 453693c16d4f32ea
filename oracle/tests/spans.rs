//! Request 2.1: calls with K, G and V fields.

mod common;
use common::bytes;
use oracle::checks::{self, Input};
use oracle::format::{Contents, Rules, read_cells, read_sheet, write_cells, write_contents};
use oracle::known::CALLS;
use oracle::record::{Kind, Record, read_all};
use oracle::show;
use oracle::vectors::{self, Drawn};
use std::collections::BTreeSet;

const SETS: [&str; 4] = ["spans", "spans-damaged", "spans-chain", "spans-edges"];
const STORE: usize = 1 << 16;
const LONGEST: usize = 1_000;

/// The records of a set up to a length, answered.
fn records(set: &str, count: usize, longest: Option<usize>) -> Vec<Record> {
    let mut file = Vec::new();
    let tally = vectors::write(set, 5, count, longest, &mut file);
    assert_eq!(tally.unwrap().unwrap().findings, 0, "{set}");
    read_all(&file).unwrap()
}

/// Number, length and sheet of a record by some rules.
fn answered(record: &Record, rules: Rules) -> Record {
    let mut record = record.clone();
    record.run(rules).expect("no finding");
    record
}

/// Accepted calls of all sets, each with its sheet.
fn accepted() -> Vec<(Record, Vec<u8>)> {
    let all = SETS
        .iter()
        .flat_map(|set| records(set, 2_000, Some(LONGEST)));
    let sheet = |record: &Record| record.reply.clone().map(|reply| reply.sheet);
    let with_sheet = all.filter_map(|record| Some((sheet(&record)?, record)));
    let good = with_sheet.filter(|(sheet, _)| !sheet.is_empty());
    good.map(|(sheet, record)| (record, sheet)).collect()
}

fn sheet(bytes: &[u8]) -> Contents<&[u8]> {
    read_sheet(bytes, Rules::STORED).expect("a sheet")
}

#[test]
fn known_calls() {
    for (shows, kind, [width, flags, annotation], inputs, expected) in CALLS {
        let inputs = inputs.iter().map(|input| bytes(input)).collect();
        let mut record = Record::new(kind, [width, flags, annotation, 0, 0], inputs);
        record.store = STORE;
        for rules in [Rules::Spans, Rules::Names] {
            let answer = record.run(rules).expect(shows);
            let sheet = show::hex(&record.reply.as_ref().unwrap().sheet);
            let found = match answer.number {
                0 => Ok(sheet.as_str()),
                number => Err(number),
            };
            assert_eq!(found, expected, "{shows}");
        }
    }
}

#[test]
fn every_number_is_reached() {
    let wanted: [&[u8]; 4] = [
        &[0, 1, 6, 7, 8, 10],
        &[0, 1, 2, 3, 6, 8, 10],
        &[0, 6, 8, 10],
        &[0, 1, 2, 3, 6, 7, 8, 9, 10],
    ];
    for (set, wanted) in SETS.iter().zip(wanted) {
        let replies = records(set, 3_000, None).into_iter();
        let numbers = replies.map(|record| record.reply.unwrap().answer.number);
        let numbers: BTreeSet<u8> = numbers.collect();
        let missing = wanted.iter().find(|number| !numbers.contains(number));
        assert_eq!(missing, None, "{set}");
    }
}

#[test]
fn checks_have_every_number() {
    let mut file = Vec::new();
    let tally = vectors::write_checks(Drawn::Spans, 3, 4_000, usize::MAX, &mut file).unwrap();
    assert!((0..=3).all(|number| tally.numbers[&number] > 500));
}

/// What is accepted passes 1 to 3 as the next call's sheet, and reading loses nothing.
#[test]
fn an_answer_is_a_sheet() {
    for (record, bytes) in accepted() {
        assert_eq!(checks::number(Input::Sheet, &bytes), 0, "{record:?}");
        assert_eq!(write_contents(&sheet(&bytes)), Ok(bytes.clone()));
    }
}

/// Old lines stay, but for a border that ends them and is joined in columns. Other calls hand
/// V fields on as they are; in columns at most 16 come new, and each has a row less.
#[test]
fn what_stays() {
    for (record, bytes) in accepted() {
        let (old, new) = (sheet(&record.inputs[0]), sheet(&bytes));
        let columns = record.kind == Kind::Columns;
        let kept = old.lines.len() - usize::from(columns && !old.lines.is_empty());
        assert_eq!(old.lines[..kept], new.lines[..kept]);
        if !columns {
            assert_eq!(old.hanging, new.hanging);
            continue;
        }
        assert!(new.hanging.len() <= old.hanging.len() + 16);
        let cells = read_cells(&record.inputs[1], Rules::Spans).unwrap();
        let spans = cells.iter().filter_map(|cell| cell.span);
        let most = spans.chain(old.hanging.iter().map(|hung| hung.rows)).max();
        let left = new.hanging.iter().map(|hung| hung.rows).max();
        assert!(left.is_none_or(|left| left < most.unwrap()));
    }
}

/// Calls of document 01 are answered by both rules alike; by its rules K, G and V are refused.
#[test]
fn the_base_stays() {
    let mut file = Vec::new();
    vectors::write("rows", 5, 2_000, Some(LONGEST), &mut file);
    for record in read_all(&file).unwrap() {
        assert_eq!(
            answered(&record, Rules::Base),
            answered(&record, Rules::Spans)
        );
    }
    let spans = records("spans", 2_000, Some(LONGEST));
    let by_base = spans.iter().map(|record| answered(record, Rules::Base));
    let numbers = by_base.map(|record| record.reply.unwrap().answer.number);
    assert!(
        { numbers }.all(|number| number == 1),
        "K, G and V are refused"
    );
}

/// A K field of span 1 is a C field in the columns call, and refusal 1 in a vertical row.
#[test]
fn a_span_of_one() {
    for record in records("spans", 2_000, Some(LONGEST)) {
        let Ok(mut cells) = read_cells(&record.inputs[1], Rules::Spans) else {
            continue;
        };
        let mut with = |span: Option<u8>| {
            let plain = |span: Option<u8>| span.is_none_or(|rows| rows == 1);
            for cell in cells.iter_mut().filter(|cell| plain(cell.span)) {
                cell.span = span;
            }
            let mut same = record.clone();
            same.inputs[1] = write_cells(&cells);
            answered(&same, Rules::Spans).reply.unwrap()
        };
        let (one, none) = (with(Some(1)), with(None));
        match record.kind {
            Kind::Columns => assert_eq!(one, none),
            _ => assert!(cells.is_empty() || one.answer.number == 1),
        }
    }
}
