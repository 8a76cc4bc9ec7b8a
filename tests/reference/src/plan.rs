//! RULES 8 (document 02, Point 7): which iterations depend on each other, and their stages. Every pair of iterations
//! is looked at, as the Point words it.

use crate::accesses::{Access, Kind};
use std::collections::BTreeSet;

/// The cells that an iteration touches in the serial run, and those of them that it writes or updates. Each
/// access that is listed is a touch (S5).
#[derive(Debug, Clone, Default, PartialEq, Eq)]
pub struct Touched {
    pub touched: BTreeSet<u16>,
    pub changed: BTreeSet<u16>,
}

/// What each of the iterations touches.
pub fn touches(list: &[Access], iterations: u32) -> Vec<Touched> {
    let mut touches = vec![Touched::default(); iterations as usize];
    for access in list {
        let iteration = &mut touches[access.iteration as usize];
        iteration.touched.insert(access.cell);
        if access.kind != Kind::Read {
            iteration.changed.insert(access.cell);
        }
    }
    touches
}

/// "Two iterations depend if both touch a cell in the serial run and one writes or updates it." (7.3, 7.9, S6)
pub fn depend(one: &Touched, other: &Touched) -> bool {
    !one.changed.is_disjoint(&other.touched) || !one.touched.is_disjoint(&other.changed)
}

/// "A stage is 1 more than the highest stage of a lower iteration it depends on, else 1." No stage is above
/// its iteration's index + 1, so it fits 16 bits (7.6).
pub fn stages(list: &[Access], iterations: u32) -> Vec<u16> {
    let touches = touches(list, iterations);
    let mut stages: Vec<u16> = Vec::new();
    for iteration in &touches {
        let lower = touches.iter().zip(&stages);
        let highest = lower
            .filter(|(lower, _)| depend(lower, iteration))
            .map(|(_, stage)| *stage)
            .max();
        stages.push(highest.unwrap_or(0) + 1);
    }
    stages
}

#[cfg(test)]
mod tests {
    use super::Kind::{Read, Update, Write};
    use super::*;
    use crate::reader::read;
    use crate::serial::{run_in_order, run_serially};

    fn list(accesses: &[(u32, Kind, u16)]) -> Vec<Access> {
        let access = |&(iteration, kind, cell)| Access {
            kind,
            cell,
            iteration,
            value: 0,
        };
        accesses.iter().map(access).collect()
    }

    /// Two iterations that each touch cell 3 once.
    fn two(one: Kind, other: Kind) -> bool {
        let touches = touches(&list(&[(0, one, 3), (1, other, 3)]), 2);
        assert_eq!(
            depend(&touches[0], &touches[1]),
            depend(&touches[1], &touches[0])
        );
        depend(&touches[0], &touches[1])
    }

    #[test]
    fn one_of_two_that_touch_a_cell_changes_it() {
        for other in [Read, Write, Update] {
            assert!(two(Write, other) && two(Update, other));
        }
        assert!(!two(Read, Read));
    }

    #[test]
    fn different_cells_do_not_meet() {
        let touches = touches(&list(&[(0, Write, 3), (1, Read, 2), (1, Update, 4)]), 2);
        assert!(!depend(&touches[0], &touches[1]));
    }

    /// A cell that both read beside one that each writes for itself.
    #[test]
    fn the_cell_that_both_touch_is_the_one_changed() {
        let accesses = [(0, Read, 1), (0, Write, 2), (1, Read, 1), (1, Write, 3)];
        let touches = touches(&list(&accesses), 2);
        assert!(!depend(&touches[0], &touches[1]));
    }

    #[test]
    fn one_more_than_the_highest_lower_stage() {
        // 0 writes cell 0, 1 reads it and writes cell 1, 2 touches nothing, 3 reads both, 4 writes cell 2.
        let accesses = [
            (0, Write, 0),
            (1, Read, 0),
            (1, Write, 1),
            (3, Read, 0),
            (3, Read, 1),
            (4, Write, 2),
        ];
        assert_eq!(stages(&list(&accesses), 5), [1, 2, 1, 3, 1]);
        assert_eq!(stages(&[], 3), [1, 1, 1]);
        assert_eq!(stages(&[], 0), []);
    }

    /// 7.8: the last iteration reads cell 0 with the others and then writes it, so it comes after them; what it
    /// wrote before, cell 1, has its stage too.
    #[test]
    fn a_late_write_counts_for_the_whole_iteration() {
        let accesses = [
            (0, Read, 0),
            (1, Read, 0),
            (2, Write, 1),
            (2, Read, 0),
            (2, Write, 0),
            (3, Read, 1),
        ];
        assert_eq!(stages(&list(&accesses), 4), [1, 1, 2, 3]);
    }

    /// Whole iterations in another order: a fault ends them there, and dependent ones give other cells.
    #[test]
    fn iterations_in_another_order() {
        let text = "integer a(4)\n!$omp parallel do num_threads(1)\ndo i = 2, 4\na(i) = 12/a(i - 1)\nend do";
        let program = read(text.as_bytes()).unwrap();
        let entry = [3, 0, 2, 0];
        let serial = run_serially(&program, &entry);
        assert_eq!(serial.cells_after, [3, 4, 3, 4]);
        let in_order = run_in_order(&program, &entry, &[0, 1, 2]);
        assert_eq!(in_order, (Ok(()), serial.cells_after));
        let other = run_in_order(&program, &entry, &[2, 0, 1]);
        assert_eq!(other, (Ok(()), vec![3, 4, 3, 6]));
        let (outcome, cells) = run_in_order(&program, &entry, &[2, 1, 0]);
        let fault = outcome.unwrap_err();
        assert_eq!((fault.number, fault.line, fault.v), (10, 4, 3));
        assert_eq!(cells, [3, 0, 2, 6]);
    }
}
