//! The trial (RULES 4, 5 and 7): what speculation leaves, each part taken from the whole list of accesses.

use crate::accesses::{by_cell, visits, write_counts, Access, Kind};
use crate::groups::group_of;
use crate::marks::marks;
use crate::obstacles::has_obstacle;
use crate::steps::{share, Processor, Speculation};
use crate::syntax::{Class, Operation};

/// What speculation leaves.
#[derive(Debug, Clone, PartialEq, Eq)]
pub struct Trial {
    /// The cells in place: shared ones as written, others as at entry.
    pub shared: Vec<i32>,
    /// For each processor and cell, the highest of its iterations that wrote the cell privately, by
    /// index, and the last value that iteration wrote (READING 76).
    pub private: Vec<Vec<Option<(u32, i32)>>>,
    /// For each processor and cell of a `reduction` name, the operation and its partial result: all its
    /// updates, from the neutral number on (READING 75; P6.7).
    pub partial: Vec<Vec<Option<(Operation, i32)>>>,
    /// The marks of each cell.
    pub marks: Vec<u32>,
    /// The record of each processor.
    pub processors: Vec<Processor>,
    /// The different pairs of iteration and cell written or updated.
    pub pairs: u32,
    /// The different cells written or updated.
    pub cells: u32,
    /// For each cell whether it has an obstacle.
    pub obstacles: Vec<bool>,
    /// All accesses in the order made.
    pub accesses: Vec<Access>,
}

impl Trial {
    /// What the speculation has come to.
    pub fn of(speculation: Speculation) -> Self {
        let lists = by_cell(&speculation.accesses, speculation.entry.len());
        let (pairs, cells) = write_counts(&speculation.accesses);
        let group = |iteration| group_of(speculation.program, iteration);
        let visited: Vec<_> = lists.iter().map(|list| visits(list, group)).collect();
        Trial {
            private: each_processor(&speculation, &lists, private_value),
            partial: each_processor(&speculation, &lists, partial_result),
            marks: visited.iter().map(|visits| marks(visits)).collect(),
            pairs,
            cells,
            obstacles: visited
                .iter()
                .zip(&speculation.classes)
                .map(|(visits, &class)| has_obstacle(class, visits))
                .collect(),
            shared: speculation.shared,
            processors: speculation.processors,
            accesses: speculation.accesses,
        }
    }

    /// "Without fault or obstacle the run has passed".
    pub fn passes(&self) -> bool {
        self.processors.iter().all(|record| record.fault.is_none())
            && !self.obstacles.contains(&true)
    }

    /// The cells of a passed run: "a privately written cell takes the value of the highest iteration
    /// that wrote it, updates are added" (READING 86), or multiplied, or the greatest is taken (P6.7).
    pub fn merged(&self) -> Vec<i32> {
        (0..self.shared.len())
            .map(|cell| {
                let written = self.private.iter().filter_map(|private| private[cell]);
                let value = written
                    .max_by_key(|&(iteration, _)| iteration)
                    .map_or(self.shared[cell], |(_, value)| value);
                let partial = self.partial.iter().filter_map(|partial| partial[cell]);
                partial.fold(value, |value, (operation, result)| {
                    operation.of(value, result)
                })
            })
            .collect()
    }
}

/// For each processor and cell, something of that processor's accesses of that cell.
fn each_processor<T>(
    speculation: &Speculation,
    lists: &[Vec<Access>],
    what: impl Fn(Class, &[Access]) -> T,
) -> Vec<Vec<T>> {
    let program = speculation.program;
    let of_processor = |p: usize| {
        let iterations = share(program.iteration_count(), p, program.processors);
        let of_cell = |list: &Vec<Access>, class: &Class| {
            let own: Vec<Access> = list
                .iter()
                .filter(|access| iterations.contains(&access.iteration))
                .copied()
                .collect();
            what(*class, &own)
        };
        let pairs = lists.iter().zip(&speculation.classes);
        pairs.map(|(list, class)| of_cell(list, class)).collect()
    };
    (0..speculation.processors.len())
        .map(of_processor)
        .collect()
}

/// The last write of the highest iteration that wrote; of equal iterations `max_by_key` gives the
/// last. Shared cells are written in place, not privately.
fn private_value(class: Class, accesses: &[Access]) -> Option<(u32, i32)> {
    accesses
        .iter()
        .filter(|access| class != Class::Shared && access.kind == Kind::Write)
        .max_by_key(|access| access.iteration)
        .map(|access| (access.iteration, access.value))
}

/// "Partial results start at 1 and −2147483648", sums at 0.
fn partial_result(class: Class, accesses: &[Access]) -> Option<(Operation, i32)> {
    let Class::Reduction(operation) = class else {
        return None;
    };
    let updates = accesses.iter().filter(|access| access.kind == Kind::Update);
    let result = updates.fold(operation.neutral(), |result, access| {
        operation.of(result, access.value)
    });
    Some((operation, result))
}
