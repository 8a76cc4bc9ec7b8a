//! The whole list of accesses (RULES 4.1 c), and what is counted in it (6 e).

use std::ops::Range;

/// The kind of an access: an update is listed as an update only (READING 66).
#[derive(Debug, Clone, Copy, PartialEq, Eq, PartialOrd, Ord)]
pub enum Kind {
    Read,
    Write,
    Update,
}

/// One access of a cell. "Each is listed with its kind, iteration and cell."
#[derive(Debug, Clone, Copy, PartialEq, Eq)]
pub struct Access {
    pub kind: Kind,
    /// The number of the cell, from 0.
    pub cell: u16,
    /// The index of the iteration, from 0.
    pub iteration: u32,
    /// The value read or written, or what an update adds, multiplies by or compares with.
    pub value: i32,
}

impl Access {
    /// "Other accesses are ordinary."
    pub fn is_ordinary(&self) -> bool {
        self.kind != Kind::Update
    }
}

/// The two write counts: "the different pairs of iteration and cell, and the different cells, among
/// listed writes and updates". Document 02, Point 3: "The write counts are still by iteration."
pub fn write_counts(list: &[Access]) -> (u32, u32) {
    let written = list.iter().filter(|access| access.kind != Kind::Read);
    let pairs = count_different(
        written
            .clone()
            .map(|access| (access.iteration, access.cell)),
    );
    let cells = count_different(written.map(|access| access.cell));
    (pairs, cells)
}

fn count_different<T: Ord>(things: impl Iterator<Item = T>) -> u32 {
    let mut things: Vec<T> = things.collect();
    things.sort_unstable();
    things.dedup();
    things.len() as u32
}

/// For each of `cells` cells its accesses, in the order of the list.
pub fn by_cell(list: &[Access], cells: usize) -> Vec<Vec<Access>> {
    let mut lists = vec![Vec::new(); cells];
    for access in list {
        lists[usize::from(access.cell)].push(*access);
    }
    lists
}

/// What one group of iterations did with one cell.
#[derive(Debug, Clone, PartialEq, Eq)]
pub struct Visit {
    /// The iterations that the test takes as one.
    pub group: Range<u32>,
    /// The kinds of its accesses in the order made.
    pub kinds: Vec<Kind>,
}

impl Visit {
    pub fn reads(&self) -> bool {
        self.kinds.contains(&Kind::Read)
    }

    pub fn writes(&self) -> bool {
        self.kinds.contains(&Kind::Write)
    }

    pub fn updates(&self) -> bool {
        self.kinds.contains(&Kind::Update)
    }

    /// The first ordinary access is a read; updates are not counted as first (READING 79, 83).
    pub fn reads_before_writing(&self) -> bool {
        self.kinds.iter().find(|&&kind| kind != Kind::Update) == Some(&Kind::Read)
    }
}

/// The visits of one cell, one for each group that accessed it, from that cell's accesses in the
/// order made and the group of each iteration.
pub fn visits(accesses: &[Access], group_of: impl Fn(u32) -> Range<u32>) -> Vec<Visit> {
    let mut in_groups: Vec<(Range<u32>, Kind)> = accesses
        .iter()
        .map(|access| (group_of(access.iteration), access.kind))
        .collect();
    // A stable sort keeps the order within each group.
    in_groups.sort_by_key(|(group, _)| group.start);
    in_groups
        .chunk_by(|(one, _), (other, _)| one == other)
        .map(|chunk| Visit {
            group: chunk[0].0.clone(),
            kinds: chunk.iter().map(|&(_, kind)| kind).collect(),
        })
        .collect()
}

#[cfg(test)]
mod tests {
    use super::Kind::{Read, Update, Write};
    use super::*;

    /// Iterations 2 and 3 are run beside 0 and 1.
    const LIST: [(u32, Kind); 6] = [
        (2, Read),
        (0, Write),
        (1, Read),
        (2, Update),
        (3, Write),
        (1, Write),
    ];

    fn list() -> Vec<Access> {
        let access = |(iteration, kind)| Access {
            kind,
            cell: 0,
            iteration,
            value: 0,
        };
        LIST.map(access).to_vec()
    }

    fn visit(group: Range<u32>, kinds: &[Kind]) -> Visit {
        Visit {
            group,
            kinds: kinds.to_vec(),
        }
    }

    #[test]
    fn visits_by_iterations() {
        let expected = [
            visit(0..1, &[Write]),
            visit(1..2, &[Read, Write]),
            visit(2..3, &[Read, Update]),
            visit(3..4, &[Write]),
        ];
        let visits = visits(&list(), |iteration| iteration..iteration + 1);
        assert_eq!(visits, expected);
        assert!(visits[1].reads_before_writing());
    }

    #[test]
    fn visits_by_blocks_of_two() {
        let expected = [
            visit(0..2, &[Write, Read, Write]),
            visit(2..4, &[Read, Update, Write]),
        ];
        let block = |iteration: u32| {
            let start = iteration / 2 * 2;
            start..start + 2
        };
        let visits = visits(&list(), block);
        assert_eq!(visits, expected);
        assert!(!visits[0].reads_before_writing() && visits[1].reads_before_writing());
    }

    #[test]
    fn counts_are_by_iteration() {
        assert_eq!(write_counts(&list()), (4, 1));
    }
}
