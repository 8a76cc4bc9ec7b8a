//! Loops that are run with other clauses too, and for several numbers of processors.

use super::runs::{self, text, Ran, RunRow};

/// A loop, its clauses without `num_threads`.
pub(super) struct Case<'c> {
    pub name: &'c str,
    pub names: &'c str,
    pub clauses: &'c str,
    pub bounds: &'c str,
    pub body: &'c str,
    pub cells: &'c [i32],
}

impl Case<'_> {
    /// For so many processors.
    pub fn on(&self, processors: u32, expected: Ran) -> RunRow {
        self.with(self.clauses, processors, expected)
    }

    /// The same by blocks (document 02, Point 3).
    pub fn blocks(&self, processors: u32, expected: Ran) -> RunRow {
        let clauses = format!("schedule(static) {}", self.clauses);
        self.with(&clauses, processors, expected)
    }

    /// The same with these clauses.
    pub fn with(&self, clauses: &str, processors: u32, expected: Ran) -> RunRow {
        let clauses = format!("num_threads({processors}) {clauses}");
        let name = format!("{}: {clauses}", self.name);
        let text = text(self.names, &clauses, self.bounds, self.body);
        runs::row(&name, &text, self.cells, expected)
    }
}
