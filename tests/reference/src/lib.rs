//! An interpreter of the rules that docs/RULES.md tells: of document 01, the client's specification, and of its
//! change requests, document 02, Points 1 to 9. It is written apart from the product and for obviousness: bytes,
//! lines, tokens, a tree, names and limits, then evaluation with the whole list of accesses kept. Marks, obstacles,
//! private values, partial results, counts and stages are taken from that list as the documents word them.
//!
//! Comments quote these documents; "READING 44" is the entry of that number in the project's reading
//! of document 01, "P1.2" or "7.3" one of document 02, which stand behind every choice they leave.
//! tests/README.md says which section of RULES has each.

mod accesses;
mod alike;
mod describe;
mod draft;
mod evaluate;
mod fortran;
mod grids;
mod groups;
mod integers;
mod lines;
mod marks;
mod names_limits;
mod obstacles;
mod order;
mod parser;
mod plan;
mod print;
mod printed;
pub mod program;
mod reader;
mod serial;
mod services;
mod steps;
pub mod syntax;
mod tokens;
mod trial;

pub use accesses::{Access, Kind};
pub use alike::alike;
pub use describe::{bounds, name, Bounds, NameCells};
pub use fortran::{fortran, fortran_of_all, Threads};
pub use grids::{columns, rows};
pub use integers::{divide_rounded, divide_truncated};
pub use obstacles::obstacles;
pub use plan::{depend, touches, Touched};
pub use print::lrpd;
pub use printed::printed;
pub use reader::read;
pub use serial::{run_in_order, run_serially, Serial};
pub use services::{check, load, look, plan, print, run, serial, stepped, trial, workspace_needed};
pub use steps::{share, Processor, Speculation};
pub use trial::Trial;

/// The three numbers of a refusal: "Returned: number, line, value of v".
#[derive(Debug, Clone, Copy, PartialEq, Eq)]
pub struct Refusal {
    pub number: u32,
    pub line: u32,
    pub v: i32,
}

impl Refusal {
    /// A refusal before any iteration, for which v is 0; 1, 5 to 8 and 11 to 13 have line 0.
    pub(crate) fn of_text(number: u32, line: u32) -> Self {
        Refusal { number, line, v: 0 }
    }
}

/// What Run answers: passed or rerun, and the two write counts.
#[derive(Debug, Clone, Copy, PartialEq, Eq)]
pub struct Answer {
    pub passed: bool,
    pub pairs: u32,
    pub cells: u32,
}
