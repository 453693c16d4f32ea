//! The file format of records, and the sets.

use oracle::format::Rules;
use oracle::record::{Kind, Record, read_all};
use oracle::vectors::{self, Drawn, SETS};

/// A set's file and its records, read back.
fn read_set(set: &str, seed: u64, count: usize) -> (Vec<u8>, Vec<Record>) {
    let mut file = Vec::new();
    let tally = vectors::write(set, seed, count, None, &mut file)
        .unwrap()
        .unwrap();
    assert_eq!(tally.findings, 0, "{set}");
    let records = read_all(&file).unwrap();
    assert_eq!(records.len(), count, "{set}");
    (file, records)
}

#[test]
fn sets_read_back_and_answer_again_alike() {
    for set in SETS {
        let (file, records) = read_set(set, 7, 300);
        let mut again = Vec::new();
        for mut record in records {
            record.run(Rules::STORED).unwrap();
            record.write(&mut again).unwrap();
        }
        assert!(file == again, "{set}");
    }
}

#[test]
fn a_seed_decides_a_set() {
    for set in SETS {
        assert!(read_set(set, 1, 50).0 == read_set(set, 1, 50).0, "{set}");
    }
}

#[test]
fn a_record_without_an_answer() {
    let record = Record::job(b"W\0\x03\x08\0\0".to_vec());
    let mut bytes = Vec::new();
    record.write(&mut bytes).unwrap();
    let head = [0; 6];
    let input = b"\0\0\x06W\0\x03\x08\0\0";
    let rest = [0, 0, 0, 0xFF, 0, 0, 0, 0];
    assert_eq!(bytes, [&head[..], input, &rest].concat());
    assert_eq!(read_all(&bytes), Some(vec![record]));
}

#[test]
fn an_answered_record() {
    let inputs = vec![b"H\0\x02\0\0".to_vec(), Vec::new()];
    let mut record = Record::new(Kind::Vertical, [2, 2, 9, 0, 0], inputs);
    record.store = 11;
    record.run(Rules::STORED).unwrap();
    let mut bytes = Vec::new();
    record.write(&mut bytes).unwrap();
    let answer = b"\0\0\0\0\x0BH\0\x02\0\x01B\0\x03\x09\0\0";
    assert!(bytes.ends_with(answer));
    assert_eq!(read_all(&bytes), Some(vec![record]));
}

#[test]
fn broken_files() {
    assert_eq!(read_all(&[4]), None);
    assert_eq!(read_all(&[0; 10]), None);
}

#[test]
fn checks_have_every_number() {
    let mut file = Vec::new();
    let tally = vectors::write_checks(Drawn::Base, 3, 4000, usize::MAX, &mut file).unwrap();
    assert_eq!(tally.numbers.values().sum::<usize>(), 4000);
    assert!((0..=4).all(|number| tally.numbers[&number] > 100));
}

/// Past the hand-made jobs, of which there are fewer than 600, no record is longer. Among
/// them are jobs of 4,096 units, and of 4,097, which alone are overfull.
#[test]
fn vectors_up_to_a_length() {
    let mut file = Vec::new();
    let tally = vectors::write("damaged", 3, 900, Some(100), &mut file)
        .unwrap()
        .unwrap();
    assert!((0..=5).all(|number| tally.numbers[&number] > 0));
    let records = read_all(&file).unwrap();
    assert_eq!(records.len(), 900);
    assert!(records.iter().all(|record| record.weight() <= 16_384));
    assert!(records[600..].iter().all(|record| record.weight() <= 100));
    for units in [4096, 4097] {
        let names = [b"W\0\x03\x08\0\0", &b"F\0\0".repeat(units)[..]].concat();
        let record = records.iter().find(|record| record.inputs[0] == names);
        let reply = record.unwrap().reply.as_ref().unwrap();
        assert_eq!(reply.answer.number == 4, units == 4097);
    }
}

/// Past the hand-made edges, of which there are fewer than 2,500, no input is longer.
#[test]
fn checks_up_to_a_length() {
    let mut file = Vec::new();
    let tally = vectors::write_checks(Drawn::Base, 3, 4000, 100, &mut file).unwrap();
    assert!((0..=4).all(|number| tally.numbers[&number] > 0));
    let mut lengths = Vec::new();
    let mut rest = &file[..];
    while let [_kind, high, middle, low, after @ ..] = rest {
        let length = u32::from_be_bytes([0, *high, *middle, *low]) as usize;
        lengths.push(length);
        rest = &after[length + 1..];
    }
    assert_eq!(lengths.len(), 4000);
    assert!(lengths.iter().all(|length| *length <= 8192));
    assert!(lengths[2500..].iter().all(|length| *length <= 100));
}
