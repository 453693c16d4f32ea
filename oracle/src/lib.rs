//! The oracle: what html2text 0.17.4 answers to document 01's jobs and row calls, with cells
//! that span rows (request 2.1) and names that wait (request 2.2).
//!
//! `format` and `checks` read the house format, `call` runs the crate's own code
//! and gives the answer of a call, `row` says where the crate must panic, `layout` runs it alone
//! on decoded inputs, `record` is the file format of questions with answers, `vectors` makes
//! such files, and `known` has calls whose answers were worked out by hand.

// The crate's own text: macros, WhitespaceExt, WhiteSpace, Colour, config, render.
include!(concat!(env!("OUT_DIR"), "/crate_root.rs"));

/// Stands for the crate's error type, which `render` names once.
#[allow(dead_code)]
enum Error {
    TooNarrow,
}

pub mod call;
pub mod checks;
mod damage;
mod edges;
pub mod format;
mod guard;
pub mod known;
pub mod layout;
mod make;
mod random;
pub mod record;
mod row;
pub mod show;
pub mod vectors;
