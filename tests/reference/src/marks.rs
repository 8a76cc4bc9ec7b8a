//! RULES 5 (document 01, "Steps"): "Marks of a cell, over the accesses so far, are the sum of" four. Kept for
//! cells of every clause (READING 81). Document 02, Point 3: in a text with its clause "marks and
//! obstacles are by block", so a block stands for "iteration" in each sentence (P3.7).

use crate::accesses::Visit;

/// The marks of a cell from its visits.
pub fn marks(visits: &[Visit]) -> u32 {
    // "1, some iteration wrote it ordinarily"
    let wrote = visits.iter().any(Visit::writes);
    // "2, some iteration read it ordinarily and has not written it ordinarily" (READING 78)
    let only_read = visits.iter().any(|visit| visit.reads() && !visit.writes());
    // "4, some iteration read it first and then wrote it" (READING 79, 80)
    let read_then_wrote = visits
        .iter()
        .any(|visit| visit.reads_before_writing() && visit.writes());
    // "8, it was updated"
    let updated = visits.iter().any(Visit::updates);
    u32::from(wrote)
        + 2 * u32::from(only_read)
        + 4 * u32::from(read_then_wrote)
        + 8 * u32::from(updated)
}

#[cfg(test)]
mod tests {
    use super::*;
    use crate::accesses::Kind::{self, Read, Update, Write};

    fn of(visits: &[&[Kind]]) -> u32 {
        let visits: Vec<Visit> = visits
            .iter()
            .zip(0..)
            .map(|(kinds, first)| Visit {
                group: first..first + 1,
                kinds: kinds.to_vec(),
            })
            .collect();
        marks(&visits)
    }

    #[test]
    fn each_mark_by_its_sentence() {
        assert_eq!(of(&[]), 0);
        assert_eq!(of(&[&[Write]]), 1);
        assert_eq!(of(&[&[Read]]), 2);
        assert_eq!(of(&[&[Read, Write]]), 5);
        assert_eq!(of(&[&[Write, Read, Write]]), 1);
        assert_eq!(of(&[&[Update, Read, Write]]), 13);
        assert_eq!(of(&[&[Update, Read]]), 10);
        assert_eq!(of(&[&[Update]]), 8);
        assert_eq!(of(&[&[Read], &[Write]]), 3);
        assert_eq!(of(&[&[Read, Write], &[Read]]), 7);
        assert_eq!(of(&[&[Write, Read], &[Read, Read]]), 3);
    }
}
