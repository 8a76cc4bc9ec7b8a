//! What the tests are made of: tables of cases with answers written by hand from documents 01 and 02 and the
//! project's reading of them (docs/RULES.md tells both), and random loops, damaged texts, noise, cells and schedules from
//! explicit seeds. Nothing here interprets a loop.

mod body;
mod builder;
pub mod copies;
pub mod damage;
pub mod edits;
pub mod grids;
pub mod hostile;
pub mod layout;
pub mod lend;
mod lines;
pub mod loops;
pub mod neighbours;
pub mod noise;
pub mod ranges;
pub mod reductions;
pub mod repeats;
pub mod rng;
pub mod subscripts;
pub mod tables;
pub mod variants;
pub mod wavefronts;

pub use lines::Operation;
pub use loops::{Copied, Knobs, Loop, Turned};
pub use rng::Rng;
