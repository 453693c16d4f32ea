//! All short jobs of one T field, or of characters and names, in order; every k-th of them if
//! they are too many.

use super::Set;
use crate::call::Finding;
use crate::format::{Job, Part, write_job};
use crate::record::Record;

const TEXTS: &[char] = &[
    'a', ' ', '\u{a0}', '\u{200b}', '\u{3000}', '\u{6f22}', '\u{301}', '\t', '\n', '\u{b}', '\u{7}',
];

/// Stands for a name.
const NAME: char = '#';

const NAMES: &[char] = &[
    'a', ' ', '\u{a0}', '\u{200b}', '\u{6f22}', '\u{301}', '\t', '\n', NAME,
];

/// Settings of a text: 3 modes, 4 widths, overflow, two pairs of annotations, pad.
const SETTINGS: usize = 3 * 4 * 2 * 2 * 2;

/// Longer texts are left to the random sets.
const LONGEST: u32 = 8;

/// Every sheet of this set is shorter.
const STORE: usize = 512;

pub struct Short {
    alphabet: &'static [char],
    place: usize,
    step: usize,
    end: usize,
}

impl Short {
    /// Jobs of one T field.
    pub fn texts(seed: u64, count: usize) -> Short {
        Short::new(TEXTS, seed, count)
    }

    /// Jobs of characters and names; a T field goes from name to name.
    pub fn names(seed: u64, count: usize) -> Short {
        Short::new(NAMES, seed, count)
    }

    /// The texts are as short as can be for `count` jobs; the seed says where to start.
    fn new(alphabet: &'static [char], seed: u64, count: usize) -> Short {
        let up_to = |longest| jobs_up_to(alphabet, longest);
        let longest = (0..LONGEST).find(|longest| up_to(*longest) >= count);
        let end = up_to(longest.unwrap_or(LONGEST));
        let step = step_for(end / count.max(1));
        Short {
            alphabet,
            place: seed as usize % step,
            step,
            end,
        }
    }
}

/// The greatest step up to `most` that shares no factor with the settings and the
/// alphabets, so that all of them are met.
fn step_for(most: usize) -> usize {
    let apart = |step: &usize| {
        [2, 3, 11]
            .iter()
            .all(|factor| !step.is_multiple_of(*factor))
    };
    (1..=most.max(1)).rev().find(apart).unwrap_or(1)
}

/// How many jobs have at most that many characters and names.
fn jobs_up_to(alphabet: &[char], longest: u32) -> usize {
    let texts: usize = (0..=longest).map(|n| alphabet.len().pow(n)).sum();
    texts * SETTINGS
}

impl Set for Short {
    fn next(&mut self) -> Result<Record, Finding> {
        let place = self.place % self.end;
        self.place += self.step;
        let mut record = Record::job(write_job(&job(self.alphabet, place)));
        record.store = STORE;
        Ok(record)
    }
}

/// The job at a place of the order: shorter texts first, then by text, then by setting.
fn job(alphabet: &[char], place: usize) -> Job<String> {
    let mut setting = place % SETTINGS;
    let mut digit = |base: usize| {
        let digit = setting % base;
        setting /= base;
        digit as u8
    };
    let (mode, width, overflow) = (digit(3), digit(4) + 1, digit(2) == 1);
    let (two_annotations, pad) = (digit(2), digit(2) == 1);
    let text_of = |text: &str| Part::Text {
        mode,
        first: two_annotations,
        continued: 2 * two_annotations,
        text: text.to_string(),
    };
    let text = text(alphabet, place / SETTINGS);
    let mut runs = text.split(NAME);
    let mut parts: Vec<Part<String>> = runs.by_ref().take(1).map(text_of).collect();
    for (name, run) in ('m'..).zip(runs) {
        parts.push(Part::Name(name.to_string()));
        if !run.is_empty() {
            parts.push(text_of(run));
        }
    }
    Job {
        width,
        pad,
        overflow,
        annotation: 0,
        parts,
    }
}

/// The text of a number: shorter ones first.
fn text(alphabet: &[char], mut number: usize) -> String {
    let mut count = 1;
    let mut length = 0;
    while number >= count {
        number -= count;
        count *= alphabet.len();
        length += 1;
    }
    let mut text = Vec::new();
    for _ in 0..length {
        text.push(alphabet[number % alphabet.len()]);
        number /= alphabet.len();
    }
    text.iter().rev().collect()
}

#[cfg(test)]
mod tests {
    use super::*;
    use std::collections::BTreeSet;

    #[test]
    fn every_short_job_comes_once() {
        for (alphabet, texts) in [(TEXTS, 1 + 11 + 121), (NAMES, 1 + 9 + 81)] {
            let all = 0..jobs_up_to(alphabet, 2);
            let jobs: BTreeSet<_> = all.map(|n| write_job(&job(alphabet, n))).collect();
            assert_eq!(jobs.len(), texts * SETTINGS);
        }
    }
}
