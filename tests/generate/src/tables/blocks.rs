//! RULES 4.1 b, 4.4, 5 and 7.1 by blocks (document 02, Point 3): "A text with the clause `schedule(static)`, at most once, is tested with each
//! processor's block as one long iteration". What Run answers, and what Look shows.

use super::cases::Case;
use super::looks::{self, LookRow, Seen};
use super::runs::{self, text, Ran, RunRow};

/// What Run answers and leaves in the cells, under every schedule.
pub fn run_rows() -> Vec<RunRow> {
    let mut rows = word_rows();
    rows.extend(form_rows());
    rows.extend(shared_rows());
    rows.extend(lastprivate_rows());
    rows.extend(reduction_rows());
    rows.extend(few_iteration_rows());
    rows.extend(count_rows());
    rows.extend(fault_rows());
    rows
}

/// "Of what Run answers and leaves in the cells, the processor count may change that result alone, and
/// only in these texts."
fn word_rows() -> Vec<RunRow> {
    // i = 2 to 4: P = 2 has 2 | 3, 4.
    let recurrence = Case {
        name: "a(i) = a(i - 1)",
        names: "a(4)",
        clauses: "",
        bounds: "2, 4",
        body: "a(i) = a(i - 1)",
        cells: &[1, 2, 3, 5],
    };
    let carried = || vec![1; 4];
    let mut rows = vec![
        recurrence.blocks(1, Ran::Passed(3, 3, carried())),
        recurrence.blocks(2, Ran::Rerun(3, 3, carried())),
        recurrence.blocks(3, Ran::Rerun(3, 3, carried())),
        recurrence.blocks(8, Ran::Rerun(3, 3, carried())),
        recurrence.on(1, Ran::Rerun(3, 3, carried())),
        recurrence.on(2, Ran::Rerun(3, 3, carried())),
    ];
    // P = 3 has 1, 2 | 3, 4 | 5, 6: each block sets z first. For more, and for 2, there is a block that
    // begins with an even iteration.
    let mixture = Case {
        name: "z set by odd iterations",
        names: "z, s, a(6)",
        clauses: "lastprivate(z) reduction(+:s)",
        bounds: "1, 6",
        body: "if (i - i/2*2 == 1) then\nz = i\nend if\na(i) = z\ns = s + z",
        cells: &[9, 100, 0, 0, 0, 0, 0, 0],
    };
    let after = || vec![5, 118, 1, 1, 3, 3, 5, 5];
    for processors in [1, 3] {
        rows.push(mixture.blocks(processors, Ran::Passed(15, 8, after())));
    }
    for processors in [2, 4, 5, 6, 7, 8] {
        rows.push(mixture.blocks(processors, Ran::Rerun(15, 8, after())));
    }
    for processors in [1, 3, 8] {
        rows.push(mixture.on(processors, Ran::Rerun(15, 8, after())));
    }
    rows
}

/// The clause first, last and between, in either case, with blanks (P3.1), and its words as names (P3.4).
fn form_rows() -> Vec<RunRow> {
    let mut rows = Vec::new();
    for clauses in [
        "schedule(static) num_threads(1) shared(a)",
        "num_threads(1) schedule(static) shared(a)",
        "num_threads(1) shared(a) schedule(static)",
        "shared(a)schedule(static)num_threads(1)",
        "NUM_THREADS(1) SCHEDULE(STATIC)",
        "num_threads(1)   Schedule ( Static )  ",
    ] {
        let text = text("a(3)", clauses, "1, 3", "a(1) = a(1) + i");
        let expected = Ran::Passed(3, 1, vec![10, 0, 0]);
        rows.push(runs::row(clauses, &text, &[4, 0, 0], expected));
    }
    let names = "schedule, static(4)";
    let body = "static(i) = schedule\nschedule = i";
    let lent = [7, 0, 0, 0, 0];
    let after = || vec![4, 7, 1, 2, 3];
    rows.push(runs::row(
        "schedule and static as names, and the clause",
        &text(
            names,
            "lastprivate(schedule) schedule(static) shared(static) num_threads(1)",
            "1, 4",
            body,
        ),
        &lent,
        Ran::Passed(8, 5, after()),
    ));
    rows.push(runs::row(
        "schedule and static as names, without the clause",
        &text(
            names,
            "lastprivate(schedule) shared(static) num_threads(1)",
            "1, 4",
            body,
        ),
        &lent,
        Ran::Rerun(8, 5, after()),
    ));
    rows
}

/// "shared: one [block] writes it and a different one reads or writes it"
fn shared_rows() -> Vec<RunRow> {
    // P = 2 has 1, 2 | 3, 4; P = 3 has 1 | 2 | 3, 4.
    let pairs = Case {
        name: "two neighbours to a cell",
        names: "a(2), k(4)",
        clauses: "",
        bounds: "1, 4",
        body: "a(k(i)) = a(k(i)) + i",
        cells: &[0, 0, 1, 1, 2, 2],
    };
    let in_pairs = || vec![3, 7, 1, 1, 2, 2];
    // P = 2 has 1 | 2, 3.
    let ahead = Case {
        name: "read ahead",
        names: "a(4)",
        clauses: "shared(a)",
        bounds: "1, 3",
        body: "a(i) = a(i + 1)",
        cells: &[1, 2, 3, 5],
    };
    let one_cell = Case {
        name: "document 01: a(1) = i, shared",
        names: "a(1)",
        clauses: "",
        bounds: "1, 2",
        body: "a(1) = i",
        cells: &[0],
    };
    let apart = Case {
        name: "a(i) = a(i) + 1",
        names: "a(3)",
        clauses: "",
        bounds: "1, 3",
        body: "a(i) = a(i) + 1",
        cells: &[5, 6, 7],
    };
    let all_read = Case {
        name: "all read a cell",
        names: "a(4), b",
        clauses: "",
        bounds: "1, 4",
        body: "a(i) = b*i",
        cells: &[0, 0, 0, 0, 3],
    };
    vec![
        pairs.blocks(1, Ran::Passed(4, 2, in_pairs())),
        pairs.blocks(2, Ran::Passed(4, 2, in_pairs())),
        pairs.blocks(3, Ran::Rerun(4, 2, in_pairs())),
        pairs.blocks(4, Ran::Rerun(4, 2, in_pairs())),
        pairs.on(2, Ran::Rerun(4, 2, in_pairs())),
        ahead.blocks(1, Ran::Passed(3, 3, vec![2, 3, 5, 5])),
        ahead.blocks(2, Ran::Rerun(3, 3, vec![2, 3, 5, 5])),
        one_cell.blocks(1, Ran::Passed(2, 1, vec![2])),
        one_cell.blocks(2, Ran::Rerun(2, 1, vec![2])),
        apart.blocks(1, Ran::Passed(3, 3, vec![6, 7, 8])),
        apart.blocks(2, Ran::Passed(3, 3, vec![6, 7, 8])),
        all_read.blocks(3, Ran::Passed(4, 4, vec![3, 6, 9, 12, 3])),
    ]
}

/// "private reads give what the block wrote before, else the entry value" (P3.6), and "lastprivate [...]:
/// one [block] writes it and a different one reads it before writing it". P = 2 has 1, 2 | 3, 4.
fn lastprivate_rows() -> Vec<RunRow> {
    let z = |name, body, cells| Case {
        name,
        names: "z, a(4)",
        clauses: "lastprivate(z)",
        bounds: "1, 4",
        body,
        cells,
    };
    let handed_on = z(
        "z read as the iteration before left it",
        "a(i) = z\nz = 10*i",
        &[7, 0, 0, 0, 0],
    );
    let set_first = z(
        "z set first by each block",
        "if (i == 1) then\nz = 5\nend if\nif (i == 3) then\nz = 6\nend if\na(i) = z",
        &[9, 0, 0, 0, 0],
    );
    let elsewhere = z(
        "z written in one block, read in a later one",
        "if (i == 2) then\nz = 5\nelse\na(i) = z\nend if",
        &[9, 0, 0, 0, 0],
    );
    let later = z(
        "z read in one block, written in a later one",
        "if (i == 1) then\na(1) = z\nend if\nif (i == 3) then\nz = 5\nend if",
        &[9, 0, 0, 0, 0],
    );
    let within = z(
        "z read in one iteration, written in the next",
        "if (i == 3) then\na(1) = z\nend if\nif (i == 4) then\nz = 5\nend if",
        &[9, 0, 0, 0, 0],
    );
    let read_after = z(
        "z written and then read by one block, written by the other",
        "if (i < 4) then\nz = i\nelse\na(i) = z\nend if",
        &[9, 0, 0, 0, 0],
    );
    let highest = z(
        "the highest iteration that wrote, not the highest block",
        "if (i < 3) then\nz = 10*i\nend if",
        &[9, 0, 0, 0, 0],
    );
    let only_read = z("z only read", "a(i) = z", &[8, 0, 0, 0, 0]);
    let left_on = || vec![40, 7, 10, 20, 30];
    vec![
        handed_on.blocks(1, Ran::Passed(8, 5, left_on())),
        handed_on.blocks(2, Ran::Rerun(8, 5, left_on())),
        handed_on.on(1, Ran::Rerun(8, 5, left_on())),
        set_first.blocks(2, Ran::Passed(6, 5, vec![6, 5, 5, 6, 6])),
        set_first.blocks(4, Ran::Rerun(6, 5, vec![6, 5, 5, 6, 6])),
        set_first.on(2, Ran::Rerun(6, 5, vec![6, 5, 5, 6, 6])),
        elsewhere.blocks(1, Ran::Passed(4, 4, vec![5, 9, 0, 5, 5])),
        elsewhere.blocks(2, Ran::Rerun(4, 4, vec![5, 9, 0, 5, 5])),
        later.blocks(1, Ran::Passed(2, 2, vec![5, 9, 0, 0, 0])),
        later.blocks(2, Ran::Rerun(2, 2, vec![5, 9, 0, 0, 0])),
        within.blocks(2, Ran::Passed(2, 2, vec![5, 9, 0, 0, 0])),
        within.on(2, Ran::Rerun(2, 2, vec![5, 9, 0, 0, 0])),
        read_after.blocks(2, Ran::Passed(4, 2, vec![3, 0, 0, 0, 3])),
        read_after.on(2, Ran::Rerun(4, 2, vec![3, 0, 0, 0, 3])),
        highest.blocks(2, Ran::Passed(2, 1, vec![20, 0, 0, 0, 0])),
        only_read.blocks(2, Ran::Passed(4, 4, vec![8, 8, 8, 8, 8])),
    ]
}

/// "ordinary accesses of reduction cells" as lastprivate ones, and "reduction: it has an update and an
/// ordinary access, even in one" block (P3.8). P = 2 has 1, 2 | 3, 4.
fn reduction_rows() -> Vec<RunRow> {
    let s = |name, body, cells| Case {
        name,
        names: "s, a(4)",
        clauses: "reduction(+:s)",
        bounds: "1, 4",
        body,
        cells,
    };
    let handed_on = s(
        "s, a reduction name, read as the iteration before left it",
        "a(i) = s\ns = 10*i",
        &[7, 0, 0, 0, 0],
    );
    let set_first = s(
        "s, a reduction name, set first by each block",
        "if (i == 1) then\ns = 5\nend if\nif (i == 3) then\ns = 6\nend if\na(i) = s",
        &[9, 0, 0, 0, 0],
    );
    let updated_and_read = s(
        "s updated in one iteration, read in the next",
        "if (i == 3) then\ns = s + 5\nend if\nif (i == 4) then\na(i) = s\nend if",
        &[2, 0, 0, 0, 0],
    );
    let subtracted_and_written = s(
        "s subtracted from in one iteration, written in the next",
        "if (i == 1) then\ns = s - 5\nend if\nif (i == 2) then\ns = 3\nend if",
        &[2, 0, 0, 0, 0],
    );
    let written_and_updated = s(
        "s written in one iteration, updated in the next",
        "if (i == 1) then\ns = 3\nelse\ns = s + i\nend if",
        &[2, 0, 0, 0, 0],
    );
    let in_one_iteration = s(
        "s updated and read in one iteration",
        "if (i == 2) then\ns = s + 1\na(i) = s\nend if",
        &[2, 0, 0, 0, 0],
    );
    let summed = s("s only updated", "s = s + i\ns = s - 2*i", &[5, 0, 0, 0, 0]);
    let running = s("s = i + s, ordinary", "s = i + s", &[5, 0, 0, 0, 0]);
    let left_on = || vec![40, 7, 10, 20, 30];
    let mut rows = vec![
        handed_on.blocks(1, Ran::Passed(8, 5, left_on())),
        handed_on.blocks(2, Ran::Rerun(8, 5, left_on())),
        handed_on.on(1, Ran::Rerun(8, 5, left_on())),
        set_first.blocks(2, Ran::Passed(6, 5, vec![6, 5, 5, 6, 6])),
        set_first.on(2, Ran::Rerun(6, 5, vec![6, 5, 5, 6, 6])),
        running.blocks(1, Ran::Passed(4, 1, vec![15, 0, 0, 0, 0])),
        running.blocks(2, Ran::Rerun(4, 1, vec![15, 0, 0, 0, 0])),
    ];
    for processors in [1, 2, 3] {
        rows.extend([
            updated_and_read.blocks(processors, Ran::Rerun(2, 2, vec![7, 0, 0, 0, 7])),
            subtracted_and_written.blocks(processors, Ran::Rerun(2, 1, vec![3, 0, 0, 0, 0])),
            written_and_updated.blocks(processors, Ran::Rerun(4, 1, vec![12, 0, 0, 0, 0])),
            in_one_iteration.blocks(processors, Ran::Rerun(2, 2, vec![3, 0, 3, 0, 0])),
            summed.blocks(processors, Ran::Passed(4, 1, vec![-5, 0, 0, 0, 0])),
        ]);
    }
    rows
}

/// "With P over n every iteration is a block of its own" (P3.5), and no iterations at all.
fn few_iteration_rows() -> Vec<RunRow> {
    let one_cell = Case {
        name: "a(1) = i, n = 2",
        names: "a(1)",
        clauses: "",
        bounds: "1, 2",
        body: "a(1) = i",
        cells: &[0],
    };
    let private = Case {
        name: "z = z + 1, n = 2",
        names: "z",
        clauses: "lastprivate(z)",
        bounds: "1, 2",
        body: "z = z + 1",
        cells: &[5],
    };
    let last = Case {
        name: "z = i, n = 2",
        names: "z",
        clauses: "lastprivate(z)",
        bounds: "1, 2",
        body: "z = i",
        cells: &[5],
    };
    let alone = Case {
        name: "a = a + 1, n = 1",
        names: "a",
        clauses: "",
        bounds: "6, 6",
        body: "a = a + 1",
        cells: &[5],
    };
    let none = Case {
        name: "no iterations",
        names: "a",
        clauses: "",
        bounds: "1, 0",
        body: "a = 1/0",
        cells: &[7],
    };
    vec![
        one_cell.blocks(3, Ran::Rerun(2, 1, vec![2])),
        one_cell.blocks(8, Ran::Rerun(2, 1, vec![2])),
        private.blocks(1, Ran::Passed(2, 1, vec![7])),
        private.blocks(3, Ran::Rerun(2, 1, vec![7])),
        last.blocks(8, Ran::Passed(2, 1, vec![2])),
        alone.blocks(8, Ran::Passed(1, 1, vec![6])),
        none.blocks(1, Ran::Passed(0, 0, vec![7])),
        none.blocks(8, Ran::Passed(0, 0, vec![7])),
    ]
}

/// "The write counts are still by iteration."
fn count_rows() -> Vec<RunRow> {
    let twice_each = Case {
        name: "a cell written twice by each of three iterations is three pairs",
        names: "a",
        clauses: "",
        bounds: "1, 3",
        body: "a = i\na = a + 1",
        cells: &[0],
    };
    let two_of_a_block = Case {
        name: "a cell written in two iterations of one block is two pairs",
        names: "a, b",
        clauses: "",
        bounds: "1, 4",
        body: "if (i < 3) then\na = a + i\nelse\nb = b + i\nend if",
        cells: &[0, 0],
    };
    let private = Case {
        name: "z = i, n = 4",
        names: "z",
        clauses: "lastprivate(z)",
        bounds: "1, 4",
        body: "z = i",
        cells: &[9],
    };
    vec![
        twice_each.blocks(1, Ran::Passed(3, 1, vec![4])),
        twice_each.blocks(2, Ran::Rerun(3, 1, vec![4])),
        two_of_a_block.blocks(2, Ran::Passed(4, 2, vec![3, 7])),
        two_of_a_block.blocks(1, Ran::Passed(4, 2, vec![3, 7])),
        private.blocks(1, Ran::Passed(4, 1, vec![4])),
        private.blocks(2, Ran::Passed(4, 1, vec![4])),
    ]
}

/// A fault is the serial run's, whatever the blocks. P = 2 has 1, 2 | 3, 4.
fn fault_rows() -> Vec<RunRow> {
    let outside = Case {
        name: "a fault in the last iteration",
        names: "a(4)",
        clauses: "",
        bounds: "1, 5",
        body: "a(i) = i",
        cells: &[7; 4],
    };
    let z = |name, body, cells| Case {
        name,
        names: "z, a(4)",
        clauses: "lastprivate(z)",
        bounds: "1, 4",
        body,
        cells,
    };
    let made_good = z(
        "z is 0 at entry, which a later block reads",
        "if (i == 1) then\nz = 2\nend if\na(i) = 10/z",
        &[0; 5],
    );
    let made_zero = z(
        "z becomes 0 in an earlier block",
        "a(i) = 10/z\nif (i == 2) then\nz = 0\nend if",
        &[5, 0, 0, 0, 0],
    );
    let in_the_block = z(
        "z becomes 0 in the same block",
        "a(i) = 10/z\nif (i == 3) then\nz = 0\nend if",
        &[5, 0, 0, 0, 0],
    );
    vec![
        outside.blocks(1, Ran::Fault(9, 4, 5)),
        outside.blocks(2, Ran::Fault(9, 4, 5)),
        outside.blocks(8, Ran::Fault(9, 4, 5)),
        made_good.blocks(1, Ran::Passed(5, 5, vec![2, 5, 5, 5, 5])),
        made_good.blocks(2, Ran::Rerun(5, 5, vec![2, 5, 5, 5, 5])),
        made_good.on(1, Ran::Rerun(5, 5, vec![2, 5, 5, 5, 5])),
        made_zero.blocks(1, Ran::Fault(10, 4, 3)),
        made_zero.blocks(2, Ran::Fault(10, 4, 3)),
        in_the_block.blocks(2, Ran::Fault(10, 4, 4)),
        in_the_block.on(2, Ran::Fault(10, 4, 4)),
    ]
}

/// What Look shows: marks with "block" for "iteration" (P3.7), private reads in what they lead to.
pub fn look_rows() -> Vec<LookRow> {
    let mut rows = Vec::new();
    let mut add = |name: &str, text: &str, cells: &[i32], looks: &[Seen]| {
        for (schedule, view) in looks {
            rows.push(looks::row(name, text, cells, schedule, view));
        }
    };
    add_shared(&mut add);
    add_private(&mut add);
    add_reductions(&mut add);
    rows
}

type Add<'a> = dyn FnMut(&str, &str, &[i32], &[Seen]) + 'a;

const ONE: &str = "num_threads(1) schedule(static)";
const TWO: &str = "num_threads(2) schedule(static)";

fn add_shared(add: &mut Add) {
    let write_and_read = "if (i == 1) then\na = 1\nelse\nb = a\nend if";
    add(
        "one block wrote, then read",
        &text("a, b", ONE, "1, 2", write_and_read),
        &[5, 0],
        &[
            (&[0], &[(1, 1), (0, 0)]),
            (&[0, 0], &[(1, 1), (0, 0)]),
            (&[0, 0, 0], &[(1, 1), (0, 0)]),
            (&[0, 0, 0, 0], &[(1, 1), (1, 1)]),
        ],
    );
    add(
        "the same by iterations",
        &text("a, b", "num_threads(1)", "1, 2", write_and_read),
        &[5, 0],
        &[(&[0, 0, 0, 0], &[(1, 3), (1, 1)])],
    );
    add(
        "the same in two blocks",
        &text("a, b", TWO, "1, 2", write_and_read),
        &[5, 0],
        &[
            (&[0, 1, 1], &[(1, 3), (1, 1)]),
            (&[1, 0, 1], &[(1, 3), (5, 1)]),
        ],
    );
    let read_and_write = "if (i == 1) then\nb = a\nelse\na = 1\nend if";
    add(
        "one block read, then wrote in a later iteration: its 2 goes",
        &text("a, b", ONE, "1, 2", read_and_write),
        &[5, 0],
        &[
            (&[0], &[(5, 2), (0, 0)]),
            (&[0, 0, 0], &[(5, 2), (5, 1)]),
            (&[0, 0, 0, 0], &[(1, 5), (5, 1)]),
        ],
    );
    add(
        "the same by iterations",
        &text("a, b", "num_threads(1)", "1, 2", read_and_write),
        &[5, 0],
        &[(&[0, 0, 0, 0], &[(1, 3), (5, 1)])],
    );
    // 1, 2 | 3, 4
    add(
        "a 2 that another block keeps",
        &text(
            "a, b(4)",
            TWO,
            "1, 4",
            "if (i == 2) then\na = 1\nelse\nb(i) = a\nend if",
        ),
        &[5, 0, 0, 0, 0],
        &[
            (&[1, 0, 0, 0], &[(5, 2), (5, 1), (0, 0), (0, 0), (0, 0)]),
            (&[0, 0, 0, 0], &[(1, 5), (5, 1), (0, 0), (0, 0), (0, 0)]),
            (&[1, 0, 0, 0, 0], &[(1, 7), (5, 1), (0, 0), (0, 0), (0, 0)]),
            (&[0, 0, 0, 0, 1], &[(1, 7), (5, 1), (0, 0), (0, 0), (0, 0)]),
        ],
    );
    // n = 5: 1, 2 | 3, 4, 5
    add(
        "read and written by every iteration",
        &text("a", TWO, "1, 5", "a = a*2"),
        &[5],
        &[
            (&[0, 0], &[(10, 5)]),
            (&[0, 0, 0, 0], &[(10, 5)]),
            (&[0, 0, 1], &[(10, 7)]),
            (&[0, 0, 1, 1], &[(20, 5)]),
            (&[1, 1, 1, 1, 1, 1], &[(20, 5)]),
            (&[1, 1, 1, 1, 1, 1, 0], &[(20, 7)]),
        ],
    );
    add(
        "written in one iteration, read and written in the next",
        &text(
            "a",
            ONE,
            "1, 2",
            "if (i == 1) then\na = 1\nelse\na = a\nend if",
        ),
        &[5],
        &[
            (&[0, 0], &[(1, 1)]),
            (&[0, 0, 0], &[(1, 1)]),
            (&[0, 0, 0, 0], &[(1, 1)]),
        ],
    );
    add(
        "an iteration's end is a step of its own still (P3.9)",
        &text("a(2)", ONE, "1, 2", "a(i) = i"),
        &[0, 0],
        &[
            (&[0], &[(1, 1), (0, 0)]),
            (&[0, 0], &[(1, 1), (0, 0)]),
            (&[0, 0, 0], &[(1, 1), (2, 1)]),
        ],
    );
    // n = 3, P = 8: processors 2, 5 and 7 have one iteration each.
    add(
        "every iteration a block of its own",
        &text("a", "num_threads(8) schedule(static)", "1, 3", "a = a + 1"),
        &[5],
        &[
            (&[2, 2], &[(6, 5)]),
            (&[2, 2, 5], &[(6, 7)]),
            (&[2, 2, 5, 5, 7], &[(7, 7)]),
            (&[2, 2, 5, 5, 7, 7], &[(8, 5)]),
        ],
    );
}

fn add_private(add: &mut Add) {
    let handed_on = "t(i) = z\nz = 10*i";
    let private = |clauses: &str| format!("{clauses} lastprivate(z)");
    add(
        "lastprivate: read as the block left it",
        &text("z, t(2)", &private(ONE), "1, 2", handed_on),
        &[9, 0, 0],
        &[
            (&[0], &[(9, 2), (0, 0), (0, 0)]),
            (&[0, 0], &[(9, 2), (9, 1), (0, 0)]),
            (&[0, 0, 0], &[(9, 5), (9, 1), (0, 0)]),
            (&[0; 5], &[(9, 5), (9, 1), (0, 0)]),
            (&[0; 6], &[(9, 5), (9, 1), (10, 1)]),
            (&[0; 9], &[(9, 5), (9, 1), (10, 1)]),
        ],
    );
    add(
        "the same by iterations",
        &text("z, t(2)", &private("num_threads(1)"), "1, 2", handed_on),
        &[9, 0, 0],
        &[
            (&[0; 5], &[(9, 7), (9, 1), (0, 0)]),
            (&[0; 6], &[(9, 7), (9, 1), (9, 1)]),
            (&[0; 9], &[(9, 5), (9, 1), (9, 1)]),
        ],
    );
    // 1, 2 | 3, 4: what processor 0 wrote is not seen by processor 1.
    add(
        "lastprivate: another block's write is not seen",
        &text("z, t(4)", &private(TWO), "1, 4", handed_on),
        &[9, 0, 0, 0, 0],
        &[
            (
                &[0, 0, 0, 0, 0, 0, 1, 1],
                &[(9, 7), (9, 1), (10, 1), (9, 1), (0, 0)],
            ),
            (
                &[1, 1, 1, 1, 0, 0, 1, 1],
                &[(9, 7), (9, 1), (0, 0), (9, 1), (30, 1)],
            ),
        ],
    );
    // i = 1 writes, i = 2 does nothing, i = 3 reads.
    add(
        "lastprivate: written two iterations before",
        &text(
            "z, t",
            &private(ONE),
            "1, 3",
            "if (i == 1) then\nz = 4\nz = z + 1\nend if\nif (i == 3) then\nt = z\nend if",
        ),
        &[9, 0],
        &[
            (&[0; 3], &[(9, 1), (0, 0)]),
            (&[0; 5], &[(9, 1), (0, 0)]),
            (&[0; 6], &[(9, 1), (0, 0)]),
            (&[0; 7], &[(9, 1), (5, 1)]),
        ],
    );
}

fn add_reductions(add: &mut Add) {
    let one = format!("{ONE} reduction(+:s)");
    let write_and_read = "if (i == 1) then\ns = 4\nelse\nt = s\nend if";
    add(
        "reduction: read as the block left it",
        &text("s, t", &one, "1, 2", write_and_read),
        &[9, 0],
        &[
            (&[0], &[(9, 1), (0, 0)]),
            (&[0; 3], &[(9, 1), (0, 0)]),
            (&[0; 4], &[(9, 1), (4, 1)]),
        ],
    );
    add(
        "the same by iterations",
        &text(
            "s, t",
            "num_threads(1) reduction(+:s)",
            "1, 2",
            write_and_read,
        ),
        &[9, 0],
        &[(&[0; 3], &[(9, 3), (0, 0)]), (&[0; 4], &[(9, 3), (9, 1)])],
    );
    add(
        "reduction: the block's updates are not seen",
        &text(
            "s, t",
            &one,
            "1, 2",
            "if (i == 1) then\ns = s + 4\nelse\nt = s\nend if",
        ),
        &[9, 0],
        &[
            (&[0], &[(9, 8), (0, 0)]),
            (&[0; 3], &[(9, 10), (0, 0)]),
            (&[0; 4], &[(9, 10), (9, 1)]),
        ],
    );
    add(
        "reduction: written, updated, read, each in an iteration of its own",
        &text(
            "s, t",
            &one,
            "1, 3",
            "if (i == 1) then\ns = 4\nend if\nif (i == 2) then\ns = s - 1\nend if\n\
             if (i == 3) then\nt = s\nend if",
        ),
        &[9, 0],
        &[
            (&[0], &[(9, 1), (0, 0)]),
            (&[0; 3], &[(9, 9), (0, 0)]),
            (&[0; 5], &[(9, 9), (0, 0)]),
            (&[0; 6], &[(9, 9), (4, 1)]),
        ],
    );
    let update_read_write =
        "if (i == 1) then\ns = s + 1\nend if\nif (i == 2) then\nt = s\nend if\n\
                             if (i == 3) then\ns = 2\nend if";
    add(
        "reduction: updated, read, written, each in an iteration of its own",
        &text("s, t", &one, "1, 3", update_read_write),
        &[9, 0],
        &[
            (&[0], &[(9, 8), (0, 0)]),
            (&[0; 3], &[(9, 10), (0, 0)]),
            (&[0; 5], &[(9, 10), (9, 1)]),
            (&[0; 6], &[(9, 13), (9, 1)]),
        ],
    );
    add(
        "the same by iterations",
        &text(
            "s, t",
            "num_threads(1) reduction(+:s)",
            "1, 3",
            update_read_write,
        ),
        &[9, 0],
        &[(&[0; 6], &[(9, 11), (9, 1)])],
    );
}
