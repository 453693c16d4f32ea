//! Files of records for comparing another program with the crate. A set draws the
//! questions; here they are answered and written.

mod checks;
mod giants;
mod jobs;
mod names;
mod rows;
mod short;
mod spans;

pub use checks::{Drawn, write as write_checks};

use crate::call::Finding;
use crate::format::Rules;
use crate::random::Rng;
use crate::record::Record;
use crate::show;
use std::collections::BTreeMap;
use std::io::{self, Write};

/// A source of questions.
trait Set {
    /// The next question, with its store.
    fn next(&mut self) -> Result<Record, Finding>;

    /// Sees the answer, to build on it.
    fn learn(&mut self, _answered: &Record) {}

    /// Was the last question made by hand?
    fn by_hand(&self) -> bool {
        false
    }
}

/// A record made by hand is written up to this weight, whatever the longest is, so that
/// jobs of 4,096 and 4,097 units are always there.
const EDGE: usize = 16_384;

/// The longest store where a longest is given, that of the program `sheet`.
const STORE: usize = 65_536;

/// How many records got each number, and how many findings there were.
#[derive(Default)]
pub struct Tally {
    pub numbers: BTreeMap<u8, usize>,
    pub findings: usize,
}

impl Tally {
    fn total(&self) -> usize {
        self.numbers.values().sum::<usize>() + self.findings
    }
}

/// The names of the sets.
pub const SETS: [&str; 15] = [
    "short",
    "random",
    "damaged",
    "rows",
    "rows-damaged",
    "spans",
    "spans-damaged",
    "spans-chain",
    "spans-edges",
    "names-short",
    "names-jobs",
    "names",
    "names-damaged",
    "names-chain",
    "names-edges",
];

/// Writes `count` records of a set; `None` if there is no set of that name. Records whose
/// inputs and sheet are longer than `longest` are left out, if there is such a bound.
pub fn write(
    set: &str,
    seed: u64,
    count: usize,
    longest: Option<usize>,
    out: &mut impl Write,
) -> Option<io::Result<Tally>> {
    let mut set: Box<dyn Set> = match set {
        "short" => Box::new(short::Short::texts(seed, count)),
        "random" => Box::new(jobs::Random::new(seed)),
        "damaged" => Box::new(jobs::Damaged::new(seed)),
        "rows" => Box::new(rows::Rows::new(seed)),
        "rows-damaged" => Box::new(rows::Damaged::new(seed)),
        "spans" => Box::new(spans::Spans::new(seed)),
        "spans-damaged" => Box::new(spans::Damaged::new(seed)),
        "spans-chain" => Box::new(spans::Chain::new(seed)),
        "spans-edges" => Box::new(spans::Edges::new(seed)),
        "names-short" => Box::new(short::Short::names(seed, count)),
        "names-jobs" => Box::new(names::Jobs::new(seed)),
        "names" => Box::new(names::Names::new(seed)),
        "names-damaged" => Box::new(names::Damaged::new(seed)),
        "names-chain" => Box::new(names::Chain::new(seed)),
        "names-edges" => Box::new(names::Edges::new(seed)),
        _ => return None,
    };
    Some(write_set(&mut *set, count, longest, out))
}

fn write_set(
    set: &mut dyn Set,
    count: usize,
    longest: Option<usize>,
    out: &mut impl Write,
) -> io::Result<Tally> {
    let mut tally = Tally::default();
    while tally.total() < count {
        let answered = set.next().and_then(|mut record| {
            let answer = answer(&mut record, Rules::STORED)?;
            set.learn(&record);
            Ok((record, answer))
        });
        match answered {
            Ok((record, _)) if is_long(&record, set.by_hand(), longest) => (),
            Ok((record, number)) => {
                record.write(out)?;
                *tally.numbers.entry(number).or_default() += 1;
            }
            Err(finding) => {
                eprintln!("FINDING: {}", finding.0);
                tally.findings += 1;
            }
        }
    }
    Ok(tally)
}

/// Is the record to be left out for its length?
fn is_long(record: &Record, by_hand: bool, longest: Option<usize>) -> bool {
    let most = |longest: usize| if by_hand { longest.max(EDGE) } else { longest };
    longest.is_some_and(|longest| record.weight() > most(longest) || record.store > STORE)
}

/// Answers a record. A finding carries the whole record in hexadecimal.
pub fn answer(record: &mut Record, rules: Rules) -> Result<u8, Finding> {
    match record.run(rules) {
        Ok(answer) => Ok(answer.number),
        Err(finding) => Err(Finding(format!("{}; record {}", finding.0, whole(record)))),
    }
}

fn whole(record: &Record) -> String {
    let mut bytes = Vec::new();
    record.write(&mut bytes).expect("writing to memory");
    show::hex(&bytes)
}

/// Gives a record a store: around the length that its sheet needs, if it has one.
fn with_store(rng: &mut Rng, mut record: Record) -> Result<Record, Finding> {
    record.store = 0;
    answer(&mut record, Rules::STORED)?;
    let needed = record.reply.take().map_or(0, |reply| reply.answer.length);
    record.store = match rng.below(12) {
        _ if needed == 0 => rng.pick(&[0, 1, 5, 64, 300]),
        0 | 1 => needed - 1,
        2 => needed + 1,
        3 => 0,
        4 => rng.below(needed),
        5 => needed + rng.below(300),
        6 if rng.once_in(20) => needed.max(65_536),
        _ => needed,
    };
    Ok(record)
}
