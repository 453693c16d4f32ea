//! Random jobs, good and damaged.

use super::{Set, with_store};
use crate::call::Finding;
use crate::checks::Input;
use crate::format::{Rules, write_job};
use crate::random::Rng;
use crate::record::Record;
use crate::{damage, edges, make};

/// Jobs that pass refusals 1 to 3, around every limit.
pub struct Random {
    rng: Rng,
}

impl Random {
    pub fn new(seed: u64) -> Random {
        Random {
            rng: Rng::new(seed),
        }
    }
}

impl Set for Random {
    fn next(&mut self) -> Result<Record, Finding> {
        let units = make::size(&mut self.rng);
        let job = make::job(&mut self.rng, units);
        with_store(&mut self.rng, Record::job(write_job(&job)))
    }
}

/// The edges made by hand, then damaged jobs.
pub struct Damaged {
    rng: Rng,
    edges: Vec<Vec<u8>>,
    by_hand: bool,
}

impl Damaged {
    pub fn new(seed: u64) -> Damaged {
        let mut edges = edges::of(Input::Job);
        edges.reverse();
        Damaged {
            rng: Rng::new(seed),
            edges,
            by_hand: true,
        }
    }
}

impl Set for Damaged {
    fn next(&mut self) -> Result<Record, Finding> {
        let rng = &mut self.rng;
        let edge = self.edges.pop();
        self.by_hand = edge.is_some();
        let job = edge.unwrap_or_else(|| damaged(rng));
        with_store(rng, Record::job(job))
    }

    fn by_hand(&self) -> bool {
        self.by_hand
    }
}

/// A job with one fault or several, some of them in the values and some in the bytes.
fn damaged(rng: &mut Rng) -> Vec<u8> {
    let units = if rng.once_in(40) {
        rng.between(4090, 4110)
    } else {
        rng.below(60)
    };
    let mut job = make::job(rng, units);
    if rng.once_in(6) {
        job.width = 0;
    }
    if rng.once_in(3) {
        damage::spoil_job(rng, &mut job);
    }
    let mut bytes = write_job(&job);
    for _ in 0..rng.below(3) {
        damage::bytes(rng, Rules::Base, &mut bytes); // a job has document 01's letters
    }
    bytes
}
