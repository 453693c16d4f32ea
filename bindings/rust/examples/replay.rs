//! Replays what `oracle vectors` writes through these calls and compares number, length and every byte of the store.
//! The records are described in oracle/README.md. Prints how many there were, how many of them have each number, and how
//! many differ; on standard error, which they are, counted from 1:
//!
//!     oracle vectors names-chain 11 1000000 65536 | cargo run --release --example replay

use sheet::{Answer, RenderOptions};
use std::collections::BTreeMap;
use std::io::{self, BufReader, Read};
use std::process::ExitCode;

/// What fills the store before a call.
const FILL: u8 = 0xEE;

/// The next `n` bytes, or nothing where the records end.
fn bytes(from: &mut impl Read, n: usize, into: &mut Vec<u8>) -> io::Result<()> {
    into.resize(n, 0);
    from.read_exact(into)
}

/// A number of up to eight bytes, the high byte first.
fn number(from: &mut impl Read, size: usize) -> io::Result<usize> {
    let mut buffer = [0; 8];
    from.read_exact(&mut buffer[8 - size..])?;
    Ok(u64::from_be_bytes(buffer) as usize)
}

/// The call of a record: its kind, what comes with it and its inputs.
fn call(kind: u8, head: &[u8; 5], inputs: &[Vec<u8>], store: &mut [u8]) -> Answer {
    let [width, flags, annotation, ..] = *head;
    let (pad, borders, flag) = (flags & 1 != 0, flags & 2 != 0, flags & 4 != 0);
    let options = RenderOptions {
        width,
        pad,
        borders,
        annotation,
    };
    match kind {
        0 => sheet::render(&inputs[0], store),
        1 => sheet::append_subrender(options, &inputs[0], &inputs[1], &inputs[2], flag, store),
        2 => sheet::append_columns_with_borders(options, &inputs[0], &inputs[1], flag, store),
        _ => sheet::append_vert_row(options, &inputs[0], &inputs[1], store),
    }
}

/// The record's number, if the call gives its answer.
fn agreed(
    from: &mut impl Read,
    kind: u8,
    inputs: &mut [Vec<u8>; 3],
    store: &mut Vec<u8>,
) -> io::Result<Option<usize>> {
    let mut head = [0; 5];
    from.read_exact(&mut head)?;
    let count = [1, 3, 2, 2][kind as usize];
    for input in &mut inputs[..count] {
        let length = number(from, 3)?;
        bytes(from, length, input)?;
    }
    store.clear();
    store.resize(number(from, 3)?, FILL);
    let (refusal, length) = (number(from, 1)?, number(from, 4)?);
    let mut sheet = Vec::new();
    bytes(from, if refusal == 0 { length } else { 0 }, &mut sheet)?;
    let said = match call(kind, &head, &inputs[..count], store) {
        Ok(length) => (0, length),
        Err(sheet::Refusal::StoreShort(needed)) => (8, needed),
        Err(refusal) => (refusal.number() as usize, 0),
    };
    let rest = if refusal == 0 { FILL } else { 0 };
    let same = store.starts_with(&sheet) && store[sheet.len()..].iter().all(|b| *b == rest);
    Ok((said == (refusal, length) && same).then_some(refusal))
}

fn main() -> ExitCode {
    let mut from = BufReader::new(io::stdin().lock());
    let (mut records, mut differences) = (0u64, 0u64);
    let mut numbers = BTreeMap::<usize, u64>::new();
    let (mut inputs, mut store) = (<[Vec<u8>; 3]>::default(), Vec::new());
    while let Ok(kind) = number(&mut from, 1) {
        records += 1;
        match agreed(&mut from, kind as u8, &mut inputs, &mut store) {
            Ok(Some(number)) => *numbers.entry(number).or_default() += 1,
            _ => {
                differences += 1;
                eprintln!("record {records}, of kind {kind}, differs");
            }
        }
    }
    println!("records: {records}, differences: {differences}, numbers: {numbers:?}");
    if differences == 0 {
        ExitCode::SUCCESS
    } else {
        ExitCode::FAILURE
    }
}
