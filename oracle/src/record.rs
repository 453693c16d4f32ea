//! Records: a question, its inputs and its answer, in the file format that
//! README.md describes.

use crate::call::{self, Answer, Finding, Row, Sheet};
use crate::format::Rules;
use std::io::{self, Write};

/// The number byte of a record without an answer.
pub const UNANSWERED: u8 = 0xFF;

/// What fills the store before the call.
pub const FILL: u8 = 0xEE;

/// The flags of a row call: pad, borders, and collapse or repeat.
pub const PAD: u8 = 1;
pub const BORDERS: u8 = 2;
pub const THIRD: u8 = 4;

/// Which call a record asks for.
#[derive(Clone, Copy, Debug, PartialEq, Eq)]
pub enum Kind {
    Job = 0,
    Subrender = 1,
    Columns = 2,
    Vertical = 3,
}

impl Kind {
    fn from_byte(byte: u8) -> Option<Kind> {
        [Kind::Job, Kind::Subrender, Kind::Columns, Kind::Vertical]
            .into_iter()
            .find(|kind| *kind as u8 == byte)
    }

    /// How many inputs the call has.
    fn inputs(self) -> usize {
        match self {
            Kind::Job => 1,
            Kind::Subrender => 3,
            Kind::Columns | Kind::Vertical => 2,
        }
    }
}

/// An answer with the sheet, which is empty unless the number is 0.
#[derive(Clone, Debug, PartialEq, Eq)]
pub struct Reply {
    pub answer: Answer,
    pub sheet: Vec<u8>,
}

#[derive(Clone, Debug, PartialEq, Eq)]
pub struct Record {
    pub kind: Kind,
    /// Width, flags, annotation, 0, 0; all zero for a job.
    pub params: [u8; 5],
    pub inputs: Vec<Vec<u8>>,
    /// The length of the target store.
    pub store: usize,
    pub reply: Option<Reply>,
}

impl Record {
    /// A record without an answer and without a store.
    pub fn new(kind: Kind, params: [u8; 5], inputs: Vec<Vec<u8>>) -> Record {
        assert_eq!(inputs.len(), kind.inputs());
        Record {
            kind,
            params,
            inputs,
            store: 0,
            reply: None,
        }
    }

    /// A job's record.
    pub fn job(bytes: Vec<u8>) -> Record {
        Record::new(Kind::Job, [0; 5], vec![bytes])
    }

    /// Runs the call and keeps its answer.
    pub fn run(&mut self, rules: Rules) -> Result<Answer, Finding> {
        let mut store = vec![FILL; self.store];
        let answer = self.call(rules, &mut store)?;
        let sheet = if answer.number == 0 { answer.length } else { 0 };
        let rest = if answer.number == 0 { FILL } else { 0 };
        assert!(store[sheet..].iter().all(|byte| *byte == rest));
        store.truncate(sheet);
        self.reply = Some(Reply {
            answer,
            sheet: store,
        });
        Ok(answer)
    }

    fn call(&self, rules: Rules, store: &mut [u8]) -> Result<Answer, Finding> {
        let [width, flags, annotation, _, _] = self.params;
        let sheet = Sheet {
            width,
            pad: flags & PAD != 0,
            borders: flags & BORDERS != 0,
            annotation,
        };
        let third_flag = flags & THIRD != 0;
        let input = |place: usize| self.inputs[place].as_slice();
        let row = match self.kind {
            Kind::Job => return call::job_by(rules, input(0), store),
            Kind::Subrender => Row::Subrender {
                guest: input(1),
                prefixes: input(2),
                repeat_last: third_flag,
            },
            Kind::Columns => Row::Columns {
                cells: input(1),
                collapse: third_flag,
            },
            Kind::Vertical => Row::Vertical { cells: input(1) },
        };
        call::row_by(rules, &sheet, input(0), row, store)
    }

    /// How many bytes the inputs and the sheet have.
    pub fn weight(&self) -> usize {
        let inputs: usize = self.inputs.iter().map(Vec::len).sum();
        inputs + self.reply.as_ref().map_or(0, |reply| reply.sheet.len())
    }

    /// Writes the record.
    pub fn write(&self, out: &mut impl Write) -> io::Result<()> {
        out.write_all(&[self.kind as u8])?;
        out.write_all(&self.params)?;
        for input in &self.inputs {
            out.write_all(&three_bytes(input.len()))?;
            out.write_all(input)?;
        }
        out.write_all(&three_bytes(self.store))?;
        match &self.reply {
            None => out.write_all(&[UNANSWERED, 0, 0, 0, 0]),
            Some(reply) => {
                out.write_all(&[reply.answer.number])?;
                let length = u32::try_from(reply.answer.length).expect("four bytes");
                out.write_all(&length.to_be_bytes())?;
                out.write_all(&reply.sheet)
            }
        }
    }
}

/// A length in three bytes, high byte first.
pub fn three_bytes(length: usize) -> [u8; 3] {
    let [0, high, middle, low] = u32::try_from(length).unwrap_or(u32::MAX).to_be_bytes() else {
        panic!("a length of {length} does not fit three bytes");
    };
    [high, middle, low]
}

/// Reads a file of records; `None` if it is not one.
pub fn read_all(mut bytes: &[u8]) -> Option<Vec<Record>> {
    let mut records = Vec::new();
    while !bytes.is_empty() {
        records.push(read(&mut bytes)?);
    }
    Some(records)
}

fn read(bytes: &mut &[u8]) -> Option<Record> {
    let kind = Kind::from_byte(number(bytes, 1)? as u8)?;
    let params = take(bytes, 5)?.try_into().ok()?;
    let inputs = (0..kind.inputs()).map(|_| {
        let length = number(bytes, 3)?;
        Some(take(bytes, length)?.to_vec())
    });
    let inputs = inputs.collect::<Option<_>>()?;
    let store = number(bytes, 3)?;
    Some(Record {
        kind,
        params,
        inputs,
        store,
        reply: read_reply(bytes)?,
    })
}

/// The outer option is for broken bytes, the inner one for a record without an answer.
fn read_reply(bytes: &mut &[u8]) -> Option<Option<Reply>> {
    let answer = Answer {
        number: number(bytes, 1)? as u8,
        length: number(bytes, 4)?,
    };
    let sheet = if answer.number == 0 { answer.length } else { 0 };
    let sheet = take(bytes, sheet)?.to_vec();
    Some((answer.number != UNANSWERED).then_some(Reply { answer, sheet }))
}

fn take<'a>(bytes: &mut &'a [u8], length: usize) -> Option<&'a [u8]> {
    let (part, rest) = bytes.split_at_checked(length)?;
    *bytes = rest;
    Some(part)
}

/// A number of that many bytes, high byte first.
fn number(bytes: &mut &[u8], length: usize) -> Option<usize> {
    let digits = take(bytes, length)?;
    Some(
        digits
            .iter()
            .fold(0, |n, digit| 256 * n + usize::from(*digit)),
    )
}
