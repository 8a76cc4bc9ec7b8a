//! RULES 6 (document 01, "The serial run").

use crate::accesses::{write_counts, Access, Kind};
use crate::evaluate::{run_iteration, Memory, Paused, Stop};
use crate::obstacles::obstacles;
use crate::program::Program;
use crate::syntax::Operation;
use crate::Refusal;

/// How a serial run ended, and its whole list of accesses. After a fault the counts and obstacles
/// are those of the list as far as it went. Document 02, Point 3, changes its obstacles alone, for which
/// it needs the text's P (P3.10).
#[derive(Debug, Clone, PartialEq, Eq)]
pub struct Serial {
    /// The first fault ended the run: its number, line and v.
    pub outcome: Result<(), Refusal>,
    /// The cells at the run's end (after a fault not yet returned to entry).
    pub cells_after: Vec<i32>,
    /// The different pairs of iteration and cell written or updated.
    pub pairs: u32,
    /// The different cells written or updated.
    pub cells: u32,
    /// For each cell whether it has an obstacle.
    pub obstacles: Vec<bool>,
    /// All accesses in the order made.
    pub accesses: Vec<Access>,
}

impl Serial {
    /// "Without fault or obstacle the run has passed".
    pub fn passes(&self) -> bool {
        self.outcome.is_ok() && !self.obstacles.contains(&true)
    }

    /// All that shows but the word passed or rerun: the outcome, the cells and both write counts.
    pub fn ending(&self) -> (Result<(), Refusal>, &[i32], u32, u32) {
        (self.outcome, &self.cells_after, self.pairs, self.cells)
    }
}

/// "Fed the text and the cells as lent and nothing else, it holds the cells and a list of accesses,
/// empty at first."
struct Holding {
    cells: Vec<i32>,
    accesses: Vec<Access>,
    iteration: u32,
}

impl Holding {
    fn list(&mut self, kind: Kind, cell: usize, value: i32) {
        self.accesses.push(Access {
            kind,
            cell: cell as u16,
            iteration: self.iteration,
            value,
        });
    }
}

/// "A read gives the cell as it now stands, whatever its clause; a write stores in place; an update
/// adds its remainder to the cell", or does what its operation is (document 02, Point 6).
impl Memory for Holding {
    fn read(&mut self, cell: usize) -> Result<i32, Paused> {
        let value = self.cells[cell];
        self.list(Kind::Read, cell, value);
        Ok(value)
    }

    fn write(&mut self, cell: usize, value: i32) -> Result<(), Paused> {
        self.cells[cell] = value;
        self.list(Kind::Write, cell, value);
        Ok(())
    }

    fn update(&mut self, cell: usize, operation: Operation, operand: i32) -> Result<(), Paused> {
        self.cells[cell] = operation.of(self.cells[cell], operand);
        self.list(Kind::Update, cell, operand);
        Ok(())
    }
}

/// Whole iterations one after another, in the order in which their indices come; the first fault ends it.
fn run_whole(
    program: &Program,
    entry: &[i32],
    mut order: impl Iterator<Item = u32>,
) -> (Result<(), Refusal>, Holding) {
    let mut holding = Holding {
        cells: entry.to_vec(),
        accesses: Vec::new(),
        iteration: 0,
    };
    let outcome = order.try_for_each(|iteration| {
        holding.iteration = iteration;
        match run_iteration(program, program.variable_at(iteration), &mut holding) {
            Ok(()) => Ok(()),
            Err(Stop::Fault(fault)) => Err(fault),
            Err(Stop::Paused) => unreachable!("the serial run does not pause"),
        }
    });
    (outcome, holding)
}

/// What whole iterations in another order end in: their first fault, if they meet one, and the cells then.
/// Accesses are made as in the serial run, in place.
pub fn run_in_order(
    program: &Program,
    entry: &[i32],
    order: &[u32],
) -> (Result<(), Refusal>, Vec<i32>) {
    let (outcome, holding) = run_whole(program, entry, order.iter().copied());
    (outcome, holding.cells)
}

/// "Iterations go one after another, index 0 first, v being m + index".
pub fn run_serially(program: &Program, entry: &[i32]) -> Serial {
    let (outcome, holding) = run_whole(program, entry, 0..program.iteration_count());
    let (pairs, cells) = write_counts(&holding.accesses);
    Serial {
        outcome,
        cells_after: holding.cells,
        pairs,
        cells,
        obstacles: obstacles(&holding.accesses, program),
        accesses: holding.accesses,
    }
}
