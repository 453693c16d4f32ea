//! Counting instructions: this program again, under callgrind, which collects inside `measured` alone.

use crate::sides::Side;
use std::env;
use std::process::{Command, Stdio};

/// Callgrind counts each turn of a `rep` instruction, so copying and clearing are told to take plain loops.
const PLAIN_LOOPS: &str =
    "glibc.cpu.x86_rep_stosb_threshold=1000000:glibc.cpu.x86_rep_movsb_threshold=1000000";

/// Is valgrind installed?
pub fn possible() -> bool {
    let asked = Command::new("valgrind").arg("--version").output();
    asked.is_ok_and(|output| output.status.success())
}

/// The instructions of one call: those of two calls without those of the first, which also sets up the allocator.
pub fn instructions(workload: &str, size: usize, side: Side) -> u64 {
    calls(workload, size, side, "2") - calls(workload, size, side, "1")
}

/// The instructions of some calls.
fn calls(workload: &str, size: usize, side: Side, repeats: &str) -> u64 {
    let program = env::current_exe().expect("the path of this program");
    let output = Command::new("valgrind")
        .env("GLIBC_TUNABLES", PLAIN_LOOPS)
        .args([
            "--tool=callgrind",
            "--toggle-collect=bench::sides::measured*",
        ])
        .arg("--callgrind-out-file=/dev/null")
        .arg(program)
        .args(["one", workload, &size.to_string(), side.name(), repeats])
        .stdout(Stdio::null())
        .output()
        .expect("valgrind runs");
    collected(&String::from_utf8_lossy(&output.stderr))
}

/// The number behind `Collected :` in callgrind's words.
fn collected(words: &str) -> u64 {
    let line = words
        .lines()
        .find_map(|line| line.split_once("Collected :"));
    let number = line.and_then(|(_, number)| number.trim().parse().ok());
    number.unwrap_or_else(|| panic!("callgrind said no number:\n{words}"))
}
