//! The two sides. Ours is the whole call, from bytes to bytes. The Rust side is the crate's layout call alone, on inputs
//! that are decoded already, and its lines as strings; building the inputs and dropping the lines are not measured.

use crate::workloads::Input;
use oracle::call::{self, Row, Sheet};
use oracle::format::{Contents, Line};
use oracle::layout::{Block, Columns};
use std::hint::black_box;
use std::time::{Duration, Instant};

#[derive(Clone, Copy, PartialEq, Eq)]
pub enum Side {
    Ours,
    Rust,
}

impl Side {
    pub fn name(self) -> &'static str {
        match self {
            Side::Ours => "ours",
            Side::Rust => "rust",
        }
    }
}

/// The store that our side writes to.
pub const STORE: usize = 1 << 21;

/// Runs one call, and gives the time of what is measured.
pub fn run(side: Side, input: &Input, store: &mut [u8]) -> Duration {
    match side {
        Side::Ours => timed(|| ours(input, store)),
        Side::Rust => rust(input),
    }
}

/// The time of some work. The instructions below this function are the ones that are counted (count.rs).
#[inline(never)]
fn timed<T>(work: impl FnOnce() -> T) -> Duration {
    let start = Instant::now();
    let result = measured(work);
    let time = start.elapsed();
    drop(black_box(result));
    time
}

#[inline(never)]
fn measured<T>(work: impl FnOnce() -> T) -> T {
    black_box(work())
}

fn ours(input: &Input, store: &mut [u8]) -> usize {
    let answer = match input {
        Input::Job(job) => sheet::render(job, store),
        Input::Columns {
            options,
            sheet,
            cells,
            collapse,
        } => sheet::append_columns_with_borders(*options, sheet, cells, *collapse, store),
    };
    answer.expect("a workload is not refused")
}

fn rust(input: &Input) -> Duration {
    match input {
        Input::Job(job) => {
            let block = Block::read(job).expect("a job that passes the checks");
            timed(|| -> Vec<Line<String>> { block.run().expect("a job that is not too narrow") })
        }
        Input::Columns {
            options,
            sheet,
            cells,
            collapse,
        } => {
            let call = Columns::read(&of(options), sheet, cells, *collapse).expect("a row");
            timed(|| -> Contents<String> { call.run() })
        }
    }
}

fn of(options: &sheet::RenderOptions) -> Sheet {
    Sheet {
        width: options.width,
        pad: options.pad,
        borders: options.borders,
        annotation: options.annotation,
    }
}

/// Both sides give the same sheet, byte for byte: the crate's through the oracle.
pub fn agree(input: &Input) -> bool {
    let mut theirs = vec![0; STORE];
    let answer = match input {
        Input::Job(job) => call::job(job, &mut theirs),
        Input::Columns {
            options,
            sheet,
            cells,
            collapse,
        } => {
            let row = Row::Columns {
                cells,
                collapse: *collapse,
            };
            call::row(&of(options), sheet, row, &mut theirs)
        }
    };
    let mut store = vec![0; STORE];
    answer.is_ok_and(|a| a.number == 0 && a.length == ours(input, &mut store)) && theirs == store
}
