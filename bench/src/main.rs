//! The benchmark: the proved archive against html2text's own code, on the same inputs and in one run. docs/BENCHMARK.md
//! says what is measured.
//!
//! `bench` prints all tables. `bench one WORKLOAD SIZE SIDE REPEATS` runs one side alone, for callgrind.

mod count;
mod sides;
mod text;
mod workloads;

use sides::{STORE, Side};
use std::env;
use std::time::Duration;
use workloads::{Input, SMALL, SPANNING, Workload};

fn main() {
    let words: Vec<String> = env::args().skip(1).collect();
    let words: Vec<&str> = words.iter().map(String::as_str).collect();
    match words[..] {
        [] => all(),
        ["one", workload, size, side, repeats] => one(workload, size, side, repeats),
        _ => panic!("usage: bench, or bench one WORKLOAD SIZE ours|rust REPEATS"),
    }
}

/// Runs one side of one workload.
fn one(workload: &str, size: &str, side: &str, repeats: &str) {
    let mut workloads = SMALL.iter().chain(&SPANNING);
    let workload = workloads.find(|w| w.name == workload);
    let size = size.parse().expect("a size");
    let input = (workload.expect("a workload's name").input)(size);
    let side = if side == "ours" {
        Side::Ours
    } else {
        Side::Rust
    };
    let repeats: u32 = repeats.parse().expect("a number of repeats");
    let mut store = vec![0; STORE];
    for _ in 0..repeats {
        sides::run(side, &input, &mut store);
    }
}

fn all() {
    for workload in SMALL.iter().chain(&SPANNING) {
        for size in workload.sizes {
            let input = (workload.input)(*size);
            assert!(
                sides::agree(&input),
                "{} {size}: the sheets differ",
                workload.name
            );
        }
    }
    println!("Both sides gave the same sheet for each workload and size.\n");
    if count::possible() {
        println!("## Instructions of one call, 4,000 bytes or forty lines\n");
        instructions(&SMALL);
        println!("## Instructions of one call, cells that span rows\n");
        instructions(&SPANNING);
        println!("## Growth: instructions per input byte, by the size\n");
        growth(&SMALL);
        for workload in SPANNING.chunks(1) {
            growth(workload);
        }
    } else {
        println!("valgrind is not installed: no instructions.\n");
    }
    println!("## Time, 4,000 bytes or forty lines\n");
    times(&SMALL);
    println!("## Time, cells that span rows\n");
    times(&SPANNING);
}

fn instructions(workloads: &[Workload]) {
    println!(
        "| workload | input bytes | ours | ours per byte | Rust | Rust per byte | ours / Rust |"
    );
    println!("|---|---|---|---|---|---|---|");
    for workload in workloads {
        let size = largest(workload);
        let length = (workload.input)(size).length();
        let [ours, rust] = both(workload, size);
        let per_byte = |count: u64| count as f64 / length as f64;
        println!(
            "| {} | {} | {} | {:.1} | {} | {:.1} | {:.3} |",
            workload.what,
            grouped(length as u64),
            grouped(ours),
            per_byte(ours),
            grouped(rust),
            per_byte(rust),
            ours as f64 / rust as f64
        );
    }
    println!();
}

/// The size that the tables show.
fn largest(workload: &Workload) -> usize {
    *workload.sizes.last().expect("a workload has sizes")
}

/// A number with a comma before each three digits.
fn grouped(number: u64) -> String {
    if number < 1000 {
        return number.to_string();
    }
    format!("{},{:03}", grouped(number / 1000), number % 1000)
}

fn both(workload: &Workload, size: usize) -> [u64; 2] {
    [Side::Ours, Side::Rust].map(|side| count::instructions(workload.name, size, side))
}

/// Workloads of the same sizes.
fn growth(workloads: &[Workload]) {
    let sizes = workloads[0].sizes;
    let heads: Vec<String> = sizes.iter().map(|size| grouped(*size as u64)).collect();
    println!("| workload | side | {} |", heads.join(" | "));
    println!("|---|---{}|", "|---".repeat(sizes.len()));
    for workload in workloads {
        for side in [Side::Ours, Side::Rust] {
            let cell = |size: &usize| {
                let length = (workload.input)(*size).length();
                let count = count::instructions(workload.name, *size, side);
                format!("{:.1}", count as f64 / length as f64)
            };
            let cells: Vec<String> = sizes.iter().map(cell).collect();
            println!(
                "| {} | {} | {} |",
                workload.name,
                side.name(),
                cells.join(" | ")
            );
        }
    }
    println!();
}

fn times(workloads: &[Workload]) {
    println!("| workload | ours, ns per byte | Rust, ns per byte | ours / Rust |");
    println!("|---|---|---|---|");
    for workload in workloads {
        let input = (workload.input)(largest(workload));
        let [ours, rust] = fastest(&input, workload.turns);
        let per_byte = |time: Duration| time.as_nanos() as f64 / input.length() as f64;
        println!(
            "| {} | {:.2} | {:.2} | {:.3} |",
            workload.what,
            per_byte(ours),
            per_byte(rust),
            ours.as_secs_f64() / rust.as_secs_f64()
        );
    }
    println!();
}

/// The shortest time of a call of each side in so many; the sides take turns.
fn fastest(input: &Input, turns: usize) -> [Duration; 2] {
    let mut store = vec![0; STORE];
    let mut best = [Duration::MAX; 2];
    for _ in 0..turns {
        for (side, best) in [Side::Ours, Side::Rust].into_iter().zip(&mut best) {
            *best = (*best).min(sides::run(side, input, &mut store));
        }
    }
    best
}
