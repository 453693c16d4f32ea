//! Chains that begin with a job: calls of all three kinds, each on the sheet that the last one
//! gave, so that names wait from call to call. Sheets of jobs are old sheets, guests and cells.

use super::{job, job_in_cell, sheet_of_job};
use crate::call::Finding;
use crate::format::{Contents, Rules};
use crate::make;
use crate::random::Rng;
use crate::record::{Kind, Record};
use crate::vectors::spans::draw::{self, Sheet, Size};
use crate::vectors::spans::{Call, owned, params};
use crate::vectors::{Set, answer, rows, with_store};

/// The most calls in a chain, after its job.
const LONGEST: usize = 6;

/// A sheet longer than this ends its chain.
const LONG: usize = 4_000;

pub struct Chain {
    rng: Rng,
    size: Size,
    params: [u8; 5],
    /// The calls still to come; none, and a job begins a chain.
    calls: usize,
    sheet: Sheet,
}

impl Chain {
    pub fn new(seed: u64) -> Chain {
        Chain {
            rng: Rng::new(seed),
            size: Size::Tiny,
            params: [0; 5],
            calls: 0,
            sheet: Contents::from(Vec::new()),
        }
    }

    fn question(&mut self) -> Record {
        if self.calls > 0 {
            self.calls -= 1;
            return self.call().record();
        }
        let rng = &mut self.rng;
        self.size = rng.pick(&[Size::Tiny, Size::Usual]);
        self.params = params(rng, self.size);
        self.calls = rng.between(2, LONGEST);
        let units = rng.below(30);
        job(rng, units)
    }

    fn call(&mut self) -> Call {
        let rng = &mut self.rng;
        let kind = rng.pick(&[
            Kind::Subrender,
            Kind::Vertical,
            Kind::Columns,
            Kind::Columns,
        ]);
        let mut cells = match rng.below(4) {
            // A call that adds no text line.
            0 => Vec::new(),
            1 => draw::crooked(rng, self.size),
            _ => draw::fitted(rng, self.size, &self.sheet.hanging),
        };
        if rng.once_in(3) {
            job_in_cell(rng, &mut cells);
        }
        if kind == Kind::Vertical {
            cells.iter_mut().for_each(|cell| cell.span = None);
        }
        let guest = match rng.below(5) {
            0 => Contents::from(Vec::new()),
            1 => self.sheet.clone(),
            2 => draw::sheet(rng, self.size),
            _ => sheet_of_job(rng),
        };
        let mut old = self.sheet.clone();
        if rng.once_in(8) {
            old.names.extend(make::names(rng));
        }
        let params = if rng.once_in(6) {
            params(rng, self.size)
        } else {
            self.params
        };
        Call {
            kind,
            params,
            old,
            guest,
            prefixes: rows::prefixes(rng),
            cells,
        }
    }

    /// Goes on with the sheet that a question gives, or with a new chain.
    fn go_on(&mut self, mut record: Record) -> Result<(), Finding> {
        answer(&mut record, Rules::STORED)?;
        if let Some(reply) = &record.reply {
            record.store = reply.answer.length;
        }
        answer(&mut record, Rules::STORED)?;
        let reply = record.reply.expect("an answered record");
        if reply.answer.number != 0 || reply.sheet.len() > LONG {
            self.calls = 0;
        } else {
            self.sheet = owned(&reply.sheet);
        }
        Ok(())
    }
}

impl Set for Chain {
    fn next(&mut self) -> Result<Record, Finding> {
        let record = self.question();
        self.go_on(record.clone())?;
        with_store(&mut self.rng, record)
    }
}
