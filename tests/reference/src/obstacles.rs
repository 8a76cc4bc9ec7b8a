//! RULES 7.1 (document 01, "Obstacles", cell by cell, and document 02, Point 5, for names in two clauses). Point 3: in
//! a text with its clause "marks and obstacles are by block", so a block stands for "iteration" in each
//! sentence (P3.8).

use crate::accesses::{by_cell, visits, Access, Visit};
use crate::groups::group_of;
use crate::program::Program;
use crate::syntax::Class;

/// For each cell whether it has an obstacle, by the accesses of the whole run.
pub fn obstacles(list: &[Access], program: &Program) -> Vec<bool> {
    let classes = program.cell_classes();
    by_cell(list, classes.len())
        .iter()
        .map(|accesses| visits(accesses, |iteration| group_of(program, iteration)))
        .zip(classes)
        .map(|(visits, class)| has_obstacle(class, &visits))
        .collect()
}

/// Whether a cell of this class with these visits has an obstacle.
pub fn has_obstacle(class: Class, visits: &[Visit]) -> bool {
    match class {
        // "shared: one iteration writes it and a different one reads or writes it"
        Class::Shared => written_and_elsewhere(visits, |visit| visit.reads() || visit.writes()),
        Class::Lastprivate => used_before_written(visits),
        Class::CopyIn => used_above_a_writer(visits),
        // "reduction: it has an update and an ordinary access, even in one iteration": whatever the
        // groups, and so with one processor too (P3.8), and whatever the operation (P6.7)
        Class::Reduction(_) => {
            let updated = visits.iter().any(Visit::updates);
            let ordinary = visits.iter().any(|visit| visit.reads() || visit.writes());
            (updated && ordinary) || used_before_written(visits)
        }
    }
}

/// "lastprivate, and ordinary accesses of reduction cells: one iteration writes it and a different
/// one reads it before writing it" (READING 83, 84)
fn used_before_written(visits: &[Visit]) -> bool {
    written_and_elsewhere(visits, Visit::reads_before_writing)
}

/// Point 5: "Its obstacle is only that an iteration reads it before writing it and a lower-numbered
/// iteration writes it, whichever of the two steps came first." (P5.3, P5.4, P5.6)
fn used_above_a_writer(visits: &[Visit]) -> bool {
    let readers = || visits.iter().filter(|visit| visit.reads_before_writing());
    visits
        .iter()
        .filter(|visit| visit.writes())
        .any(|writer| readers().any(|reader| writer.group.start < reader.group.start))
}

/// "one iteration writes it and a different one" does `what`: iterations, not processors
/// (READING 85), but by Point 3's clause blocks.
fn written_and_elsewhere(visits: &[Visit], what: impl Fn(&Visit) -> bool) -> bool {
    let doers: Vec<&Visit> = visits.iter().filter(|visit| what(visit)).collect();
    visits
        .iter()
        .filter(|visit| visit.writes())
        .any(|writer| doers.iter().any(|doer| doer.group != writer.group))
}

#[cfg(test)]
mod tests {
    use super::*;
    use crate::accesses::Kind::{self, Read, Update, Write};
    use crate::syntax::Operation;

    fn of(class: Class, visits: &[&[Kind]]) -> bool {
        let visits: Vec<Visit> = visits
            .iter()
            .zip(0..)
            .map(|(kinds, first)| Visit {
                group: first..first + 1,
                kinds: kinds.to_vec(),
            })
            .collect();
        has_obstacle(class, &visits)
    }

    #[test]
    fn shared_cells() {
        assert!(!of(Class::Shared, &[&[Read], &[Read]]));
        assert!(!of(Class::Shared, &[&[Read, Write, Read]]));
        assert!(of(Class::Shared, &[&[Write], &[Write]]));
        assert!(of(Class::Shared, &[&[Read], &[Write]]));
    }

    #[test]
    fn lastprivate_cells() {
        assert!(!of(Class::Lastprivate, &[&[Write], &[Write, Read]]));
        assert!(!of(Class::Lastprivate, &[&[Read, Write]]));
        assert!(of(Class::Lastprivate, &[&[Read], &[Write]]));
        assert!(of(Class::Lastprivate, &[&[Read, Write], &[Read, Write]]));
        assert!(of(Class::Lastprivate, &[&[Write], &[Read, Write]]));
    }

    #[test]
    fn copy_in_cells() {
        assert!(!of(Class::CopyIn, &[&[Read], &[Read], &[Write], &[Write]]));
        assert!(!of(
            Class::CopyIn,
            &[&[Read], &[Read, Write], &[Write, Read]]
        ));
        assert!(!of(Class::CopyIn, &[&[Read, Write]]));
        assert!(of(Class::CopyIn, &[&[Write], &[Read]]));
        assert!(of(Class::CopyIn, &[&[Read, Write], &[Read, Write]]));
        assert!(of(Class::CopyIn, &[&[Read], &[Write], &[Write], &[Read]]));
    }

    /// "The record of a cell now holds the lowest-numbered iteration that writes it and the
    /// highest-numbered that so reads it": all lists of four iterations (P5.7).
    #[test]
    fn copy_in_cells_by_their_record() {
        const DONE: [&[Kind]; 5] = [&[], &[Read], &[Write], &[Read, Write], &[Write, Read]];
        for number in 0..DONE.len().pow(4) {
            let visits: Vec<&[Kind]> = (0..4u32)
                .map(|iteration| DONE[number / DONE.len().pow(iteration) % DONE.len()])
                .collect();
            let lowest_writer = visits.iter().position(|kinds| kinds.contains(&Write));
            let highest_reader = visits
                .iter()
                .rposition(|kinds| kinds.first() == Some(&Read));
            let above = lowest_writer
                .zip(highest_reader)
                .is_some_and(|(writer, reader)| reader > writer);
            assert_eq!(of(Class::CopyIn, &visits), above, "{visits:?}");
        }
    }

    #[test]
    fn reduction_cells() {
        for operation in [Operation::Sum, Operation::Product, Operation::Maximum] {
            let class = Class::Reduction(operation);
            assert!(!of(class, &[&[Update], &[Update]]));
            assert!(!of(class, &[&[Write], &[Write]]));
            assert!(of(class, &[&[Update, Read]]));
            assert!(of(class, &[&[Update], &[Write]]));
            assert!(of(class, &[&[Write], &[Read]]));
        }
    }
}
