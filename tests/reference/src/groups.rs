//! RULES 4.1 (document 02, Point 3): what the test takes as one iteration. "The argument about order is made for
//! any grouping of each processor's iterations into runs of neighbours, and both tests use it."

use crate::program::Program;
use crate::steps::share;
use crate::syntax::Grouping;
use std::ops::Range;

/// The group that an iteration belongs to, as the run of iterations in it.
pub fn group_of(program: &Program, iteration: u32) -> Range<u32> {
    match program.grouping {
        Grouping::Iterations => iteration..iteration + 1,
        Grouping::Blocks => block_of(program, iteration),
    }
}

/// "each processor's block": the iterations that Steps gives the processor that has this one. Blocks
/// without iterations never count (P3.5).
fn block_of(program: &Program, iteration: u32) -> Range<u32> {
    let iterations = program.iteration_count();
    (0..program.processors as usize)
        .map(|p| share(iterations, p, program.processors))
        .find(|share| share.contains(&iteration))
        .expect("a processor for each iteration")
}

#[cfg(test)]
mod tests {
    use super::*;
    use crate::reader::read;

    /// The groups of all iterations of a loop of so many.
    fn groups(iterations: u32, clauses: &str) -> Vec<Range<u32>> {
        let text =
            format!("integer a\n!$omp parallel do {clauses}\ndo i = 1, {iterations}\nend do");
        let program = read(text.as_bytes()).expect("a good text");
        (0..iterations)
            .map(|iteration| group_of(&program, iteration))
            .collect()
    }

    #[test]
    fn without_the_clause_each_iteration_is_a_group() {
        assert_eq!(groups(3, "num_threads(1)"), [0..1, 1..2, 2..3]);
        assert_eq!(groups(3, "num_threads(2)"), [0..1, 1..2, 2..3]);
    }

    #[test]
    fn with_the_clause_each_processors_block_is_one() {
        let blocks = |iterations, processors: u32| {
            groups(
                iterations,
                &format!("schedule(static) num_threads({processors})"),
            )
        };
        assert_eq!(blocks(3, 1), [0..3, 0..3, 0..3]);
        assert_eq!(blocks(5, 2), [0..2, 0..2, 2..5, 2..5, 2..5]);
        // P3.5: more processors than iterations.
        assert_eq!(blocks(2, 3), [0..1, 1..2]);
        assert_eq!(blocks(3, 8), [0..1, 1..2, 2..3]);
    }
}
