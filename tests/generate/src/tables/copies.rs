//! RULES 7.1, copied cells (document 02, Point 5): "A name may stand in `firstprivate` and `lastprivate` together. Its obstacle is only
//! that an iteration reads it before writing it and a lower-numbered iteration writes it". What Run answers,
//! and what Look shows.

use super::cases::Case;
use super::looks::{self, LookRow, Seen};
use super::runs::{self, text, Ran, RunRow};

/// What Run answers and leaves in the cells, under every schedule.
pub fn run_rows() -> Vec<RunRow> {
    let mut rows = early_rows();
    rows.extend(late_rows());
    rows.extend(alone_rows());
    rows.extend(value_rows());
    rows.extend(block_rows());
    rows.extend(form_rows());
    rows.extend(beside_rows());
    rows.extend(fault_rows());
    rows
}

impl Case<'_> {
    /// The clause `firstprivate` of the names that `lastprivate` has.
    fn first(&self) -> String {
        self.clauses.replacen("lastprivate", "firstprivate", 1)
    }

    /// In both clauses, for so many processors.
    fn both(&self, processors: u32, expected: Ran) -> RunRow {
        let clauses = format!("{} {}", self.first(), self.clauses);
        self.with(&clauses, processors, expected)
    }

    /// In both clauses, tested by blocks.
    fn both_blocks(&self, processors: u32, expected: Ran) -> RunRow {
        let clauses = format!("{} schedule(static) {}", self.clauses, self.first());
        self.with(&clauses, processors, expected)
    }
}

/// z, in `lastprivate` alone, and an array.
const fn of_z<'c>(name: &'c str, bounds: &'c str, body: &'c str, cells: &'c [i32]) -> Case<'c> {
    Case {
        name,
        names: "z, a(4)",
        clauses: "lastprivate(z)",
        bounds,
        body,
        cells,
    }
}

/// Document 01's example of a rerun: z is read by the first iteration and written by the second.
const READ_THEN_WRITTEN: Case = of_z(
    "iteration 1 reads, iteration 2 writes",
    "1, 2",
    "if (i == 1) then\na(1) = z\nelse\nz = 7\nend if",
    &[3, 0, 0, 0, 0],
);

const WRITTEN_THEN_READ: Case = of_z(
    "iteration 1 writes, iteration 2 reads",
    "1, 2",
    "if (i == 1) then\nz = 7\nelse\na(1) = z\nend if",
    &[3, 0, 0, 0, 0],
);

/// Each iteration takes the old value of the next cell.
const AHEAD: Case = Case {
    name: "a(i) = a(i + 1)",
    names: "a(4)",
    clauses: "lastprivate(a)",
    bounds: "1, 3",
    body: "a(i) = a(i + 1)",
    cells: &[1, 2, 3, 5],
};

const BEHIND: Case = Case {
    name: "a(i) = a(i - 1)",
    names: "a(4)",
    clauses: "lastprivate(a)",
    bounds: "2, 4",
    body: "a(i) = a(i - 1)",
    cells: &[1, 2, 3, 5],
};

/// "Loops that read an old value early and overwrite it later should pass". In `lastprivate` alone they
/// keep document 01's obstacle (P5.9).
fn early_rows() -> Vec<RunRow> {
    let by_all = of_z(
        "all read, the last one then writes",
        "1, 4",
        "a(i) = z + i\nif (i == 4) then\nz = 9\nend if",
        &[5, 0, 0, 0, 0],
    );
    let then_first = of_z(
        "later iterations write before they read",
        "1, 4",
        "if (i > 2) then\nz = 10*i\nend if\na(i) = z",
        &[5, 0, 0, 0, 0],
    );
    let renewed = Case {
        name: "old levels kept, then renewed",
        names: "a(2), b(2)",
        clauses: "lastprivate(a)",
        bounds: "1, 4",
        body: "if (i <= 2) then\nb(i) = a(i)\nelse\na(i - 2) = i\nend if",
        cells: &[7, 8, 0, 0],
    };
    let mut rows = vec![
        then_first.both(2, Ran::Passed(6, 5, vec![40, 5, 5, 30, 40])),
        then_first.on(2, Ran::Rerun(6, 5, vec![40, 5, 5, 30, 40])),
        renewed.both(2, Ran::Passed(4, 4, vec![3, 4, 7, 8])),
        renewed.both(3, Ran::Passed(4, 4, vec![3, 4, 7, 8])),
        renewed.on(2, Ran::Rerun(4, 4, vec![3, 4, 7, 8])),
        AHEAD.both(2, Ran::Passed(3, 3, vec![2, 3, 5, 5])),
        AHEAD.on(2, Ran::Rerun(3, 3, vec![2, 3, 5, 5])),
    ];
    for processors in [1, 2, 3, 8] {
        let one_each = || vec![7, 3, 0, 0, 0];
        let nine_last = || vec![9, 6, 7, 8, 9];
        rows.extend([
            READ_THEN_WRITTEN.both(processors, Ran::Passed(2, 2, one_each())),
            READ_THEN_WRITTEN.on(processors, Ran::Rerun(2, 2, one_each())),
            by_all.both(processors, Ran::Passed(5, 5, nine_last())),
            by_all.on(processors, Ran::Rerun(5, 5, nine_last())),
        ]);
    }
    rows
}

/// "an iteration reads it before writing it and a lower-numbered iteration writes it, whichever of the two
/// steps came first": the rows are run under every short schedule, so in both orders (P5.6).
fn late_rows() -> Vec<RunRow> {
    let far = of_z(
        "iteration 1 writes, iteration 4 reads",
        "1, 4",
        "if (i == 1) then\nz = 7\nend if\nif (i == 4) then\na(4) = z\nend if",
        &[3, 0, 0, 0, 0],
    );
    let between = of_z(
        "read early and late, written between",
        "1, 3",
        "if (i == 2) then\nz = 7\nelse\na(i) = z\nend if",
        &[3, 0, 0, 0, 0],
    );
    let between_twice = of_z(
        "read by all but iteration 3, written by 3 and 4",
        "1, 4",
        "if (i /= 3) then\na(i) = z\nend if\nif (i > 2) then\nz = i\nend if",
        &[9, 0, 0, 0, 0],
    );
    let one_of_two = Case {
        name: "z(1) read and then written, z(2) written and then read",
        names: "z(2), a(2)",
        clauses: "lastprivate(z)",
        bounds: "1, 2",
        body: "if (i == 1) then\na(1) = z(1)\nz(2) = 4\nelse\na(2) = z(2)\nz(1) = 6\nend if",
        cells: &[3, 5, 0, 0],
    };
    let mut rows = vec![
        far.both(2, Ran::Rerun(2, 2, vec![7, 0, 0, 0, 7])),
        far.both(4, Ran::Rerun(2, 2, vec![7, 0, 0, 0, 7])),
        between.both(2, Ran::Rerun(3, 3, vec![7, 3, 0, 7, 0])),
        between_twice.both(2, Ran::Rerun(5, 4, vec![4, 9, 9, 0, 3])),
        one_of_two.both(2, Ran::Rerun(4, 4, vec![6, 4, 3, 4])),
        BEHIND.both(2, Ran::Rerun(3, 3, vec![1; 4])),
        BEHIND.on(2, Ran::Rerun(3, 3, vec![1; 4])),
    ];
    for processors in [1, 2, 3, 8] {
        rows.extend([
            WRITTEN_THEN_READ.both(processors, Ran::Rerun(2, 2, vec![7, 7, 0, 0, 0])),
            WRITTEN_THEN_READ.on(processors, Ran::Rerun(2, 2, vec![7, 7, 0, 0, 0])),
        ]);
    }
    rows
}

/// "a lower-numbered iteration": one that reads and then writes is no obstacle by itself (P5.3).
fn alone_rows() -> Vec<RunRow> {
    let less_one = |name, bounds| of_z(name, bounds, "z = z - 1", &[5, 0, 0, 0, 0]);
    let once = less_one("z = z - 1, n = 1", "1, 1");
    let twice = less_one("z = z - 1, n = 2", "1, 2");
    let third = of_z(
        "z = z - 1 in iteration 3 alone",
        "1, 4",
        "if (i == 3) then\nz = z - 1\nend if",
        &[5, 0, 0, 0, 0],
    );
    let after_reads = of_z(
        "read by 1 and 2, z = z - 1 in 3",
        "1, 4",
        "if (i < 3) then\na(i) = z\nend if\nif (i == 3) then\nz = z - 1\nend if",
        &[5, 0, 0, 0, 0],
    );
    let before_writes = of_z(
        "z = z - 1 in 2, written and then read by 3 and 4",
        "1, 4",
        "if (i == 2) then\nz = z - 1\nend if\nif (i > 2) then\nz = i\na(i) = z\nend if",
        &[5, 0, 0, 0, 0],
    );
    let two_of_three = of_z(
        "z = z - 1 in 2 and 3",
        "1, 3",
        "if (i > 1) then\nz = z - 1\nend if",
        &[5, 0, 0, 0, 0],
    );
    let written_first = of_z(
        "written, then read and written",
        "1, 3",
        "z = i\nz = z - 1",
        &[5, 0, 0, 0, 0],
    );
    let z = |value| vec![value, 0, 0, 0, 0];
    let mut rows = vec![
        third.both(2, Ran::Passed(1, 1, z(4))),
        third.on(2, Ran::Passed(1, 1, z(4))),
        after_reads.both(2, Ran::Passed(3, 3, vec![4, 5, 5, 0, 0])),
        after_reads.on(2, Ran::Rerun(3, 3, vec![4, 5, 5, 0, 0])),
        before_writes.both(2, Ran::Passed(5, 3, vec![4, 0, 0, 3, 4])),
        before_writes.on(2, Ran::Rerun(5, 3, vec![4, 0, 0, 3, 4])),
        two_of_three.both(2, Ran::Rerun(2, 1, z(3))),
        two_of_three.both(3, Ran::Rerun(2, 1, z(3))),
        written_first.both(2, Ran::Passed(3, 1, z(2))),
        written_first.on(2, Ran::Passed(3, 1, z(2))),
    ];
    for processors in [1, 2, 8] {
        rows.extend([
            once.both(processors, Ran::Passed(1, 1, z(4))),
            once.on(processors, Ran::Passed(1, 1, z(4))),
            twice.both(processors, Ran::Rerun(2, 1, z(3))),
            twice.on(processors, Ran::Rerun(2, 1, z(3))),
        ]);
    }
    rows
}

/// The value of the highest iteration that wrote; the entry value where none did (P5.5).
fn value_rows() -> Vec<RunRow> {
    let z = |name, body| of_z(name, "1, 4", body, &[9, 0, 0, 0, 0]);
    let highest = z(
        "the highest iteration that wrote, not the last",
        "if (i < 3) then\nz = 10*i\nend if",
    );
    let last_in_it = z("the last write in it", "z = i\nz = 10*z");
    let some = z(
        "iterations 2 and 3 write, 1 reads",
        "if (i == 1) then\na(1) = z\nend if\nif (i > 1) then\nif (i < 4) then\nz = 10*i\nend if\nend if",
    );
    let own = z(
        "read as at entry, then as written by the iteration itself",
        "a(i) = z\nif (i > 3) then\nz = 2*z\na(i) = a(i) + z\nend if",
    );
    let only_read = z("only read", "a(i) = z");
    let never = z("never touched", "if (i > 4) then\nz = i\nend if");
    let no_iterations = of_z("no iterations", "1, 0", "z = z - 1", &[9, 0, 0, 0, 0]);
    let each_its_own = Case {
        name: "each iteration its own cell",
        names: "z(4)",
        clauses: "lastprivate(z)",
        bounds: "1, 4",
        body: "z(i) = z(i) + i",
        cells: &[1, 1, 1, 1],
    };
    let mut rows = Vec::new();
    for processors in [1, 2, 8] {
        rows.extend([
            highest.both(processors, Ran::Passed(2, 1, vec![20, 0, 0, 0, 0])),
            some.both(processors, Ran::Passed(3, 2, vec![30, 9, 0, 0, 0])),
        ]);
    }
    rows.extend([
        some.on(2, Ran::Rerun(3, 2, vec![30, 9, 0, 0, 0])),
        last_in_it.both(2, Ran::Passed(4, 1, vec![40, 0, 0, 0, 0])),
        own.both(2, Ran::Passed(5, 5, vec![18, 9, 9, 9, 27])),
        own.on(2, Ran::Rerun(5, 5, vec![18, 9, 9, 9, 27])),
        only_read.both(2, Ran::Passed(4, 4, vec![9; 5])),
        never.both(2, Ran::Passed(0, 0, vec![9, 0, 0, 0, 0])),
        no_iterations.both(2, Ran::Passed(0, 0, vec![9, 0, 0, 0, 0])),
        each_its_own.both(2, Ran::Passed(4, 4, vec![2, 3, 4, 5])),
        each_its_own.on(2, Ran::Passed(4, 4, vec![2, 3, 4, 5])),
    ]);
    rows
}

/// "with Point 3's clause, blocks": obstacles by the numbers of blocks (P5.7). P = 2 has 1, 2 | 3, 4, P = 3
/// has 1 | 2 | 3, 4.
fn block_rows() -> Vec<RunRow> {
    let z = |name, body| of_z(name, "1, 4", body, &[5, 0, 0, 0, 0]);
    let in_one = z(
        "iteration 1 writes, iteration 2 reads",
        "if (i == 1) then\nz = 7\nend if\nif (i == 2) then\na(2) = z\nend if",
    );
    let upward = z(
        "iteration 2 writes, iteration 3 reads",
        "if (i == 2) then\nz = 7\nend if\nif (i == 3) then\na(3) = z\nend if",
    );
    let downward = z(
        "iteration 2 reads, iteration 3 writes",
        "if (i == 2) then\na(2) = z\nend if\nif (i == 3) then\nz = 7\nend if",
    );
    let handed_on = z("each reads what the one before wrote", "a(i) = z\nz = 10*i");
    let set_by_third = z(
        "handed on, but set first by iteration 3",
        "if (i == 3) then\nz = 50\nend if\nz = z + i\na(i) = z",
    );
    let less_one = of_z("z = z - 1, n = 2", "1, 2", "z = z - 1", &[5, 0, 0, 0, 0]);
    let kept = || vec![7, 0, 7, 0, 0];
    let met = || vec![7, 0, 0, 7, 0];
    let old = || vec![7, 0, 5, 0, 0];
    let left_on = || vec![40, 5, 10, 20, 30];
    let sums = || vec![57, 6, 8, 53, 57];
    let mut rows = vec![
        in_one.both_blocks(1, Ran::Passed(2, 2, kept())),
        in_one.both_blocks(2, Ran::Passed(2, 2, kept())),
        in_one.both_blocks(3, Ran::Rerun(2, 2, kept())),
        in_one.both_blocks(4, Ran::Rerun(2, 2, kept())),
        in_one.both(2, Ran::Rerun(2, 2, kept())),
        upward.both_blocks(1, Ran::Passed(2, 2, met())),
        upward.both_blocks(2, Ran::Rerun(2, 2, met())),
        upward.both_blocks(3, Ran::Rerun(2, 2, met())),
        upward.both(1, Ran::Rerun(2, 2, met())),
        downward.blocks(1, Ran::Passed(2, 2, old())),
        downward.blocks(2, Ran::Rerun(2, 2, old())),
        downward.on(1, Ran::Rerun(2, 2, old())),
        handed_on.both_blocks(1, Ran::Passed(8, 5, left_on())),
        handed_on.both_blocks(2, Ran::Rerun(8, 5, left_on())),
        handed_on.both(1, Ran::Rerun(8, 5, left_on())),
        // Block 0 reads first and writes, block 1 writes first.
        set_by_third.both_blocks(1, Ran::Passed(8, 5, sums())),
        set_by_third.both_blocks(2, Ran::Passed(8, 5, sums())),
        set_by_third.both_blocks(3, Ran::Rerun(8, 5, sums())),
        set_by_third.both_blocks(4, Ran::Rerun(8, 5, sums())),
        set_by_third.both_blocks(8, Ran::Rerun(8, 5, sums())),
        set_by_third.both(2, Ran::Rerun(8, 5, sums())),
        set_by_third.blocks(1, Ran::Passed(8, 5, sums())),
        set_by_third.blocks(2, Ran::Rerun(8, 5, sums())),
        less_one.both_blocks(1, Ran::Passed(2, 1, vec![3, 0, 0, 0, 0])),
        less_one.both_blocks(2, Ran::Rerun(2, 1, vec![3, 0, 0, 0, 0])),
        // P3.5: each iteration a block of its own
        READ_THEN_WRITTEN.both_blocks(8, Ran::Passed(2, 2, vec![7, 3, 0, 0, 0])),
        WRITTEN_THEN_READ.both_blocks(8, Ran::Rerun(2, 2, vec![7, 7, 0, 0, 0])),
        WRITTEN_THEN_READ.both_blocks(1, Ran::Passed(2, 2, vec![7, 7, 0, 0, 0])),
        BEHIND.both_blocks(1, Ran::Passed(3, 3, vec![1; 4])),
        BEHIND.both_blocks(2, Ran::Rerun(3, 3, vec![1; 4])),
    ];
    for processors in [1, 2, 3, 4, 8] {
        rows.extend([
            downward.both_blocks(processors, Ran::Passed(2, 2, old())),
            AHEAD.both_blocks(processors, Ran::Passed(3, 3, vec![2, 3, 5, 5])),
        ]);
    }
    rows
}

/// The clauses in either order and case, with others between, and the clause's word as a name.
fn form_rows() -> Vec<RunRow> {
    let mut rows = Vec::new();
    for clauses in [
        "num_threads(2) firstprivate(z) lastprivate(z)",
        "num_threads(2) lastprivate(z) firstprivate(z)",
        "firstprivate(z) num_threads(2) lastprivate(z)",
        "lastprivate(z)firstprivate(z)num_threads(2)",
        "NUM_THREADS(2) FIRSTPRIVATE(Z) LASTPRIVATE(Z)",
        "lastprivate ( z ) num_threads(2)  FirstPrivate  (  z  )",
        "firstprivate(z) shared(a) lastprivate(z) num_threads(2)",
    ] {
        let case = &READ_THEN_WRITTEN;
        let text = text(case.names, clauses, case.bounds, case.body);
        let expected = Ran::Passed(2, 2, vec![7, 3, 0, 0, 0]);
        rows.push(runs::row(clauses, &text, case.cells, expected));
    }
    let as_names = Case {
        name: "firstprivate and lastprivate as names (P5.10)",
        names: "firstprivate, lastprivate(2)",
        clauses: "lastprivate(firstprivate, lastprivate)",
        bounds: "1, 2",
        body: "if (i == 1) then\nlastprivate(1) = firstprivate\nelse\nfirstprivate = 7\nend if",
        cells: &[3, 0, 0],
    };
    rows.push(as_names.both(2, Ran::Passed(2, 2, vec![7, 3, 0])));
    rows.push(as_names.on(2, Ran::Rerun(2, 2, vec![7, 3, 0])));
    rows
}

/// Names of other clauses beside one in both: each keeps its own obstacle (P5.1, P5.9).
fn beside_rows() -> Vec<RunRow> {
    // z and y are read early and overwritten later.
    let two = |clauses: &str, passed: bool| {
        let body = "if (i == 1) then\na(1) = z\na(2) = y\nelse\nz = 7\ny = 8\nend if";
        let clauses = format!("{clauses} num_threads(2)");
        let after = vec![7, 8, 3, 4];
        let expected = match passed {
            true => Ran::Passed(4, 4, after),
            false => Ran::Rerun(4, 4, after),
        };
        let text = text("z, y, a(2)", &clauses, "1, 2", body);
        runs::row(&clauses, &text, &[3, 4, 0, 0], expected)
    };
    let scratch = |clauses: &str, expected: Ran| {
        let body = "y = z + i\na(i) = y\nif (i == 3) then\nz = 0\nend if";
        let text = text("y, z, a(3)", clauses, "1, 3", body);
        runs::row(clauses, &text, &[0, 5, 0, 0, 0], expected)
    };
    let used = || vec![8, 0, 6, 7, 8];
    let other = |names: &str, clauses: &str, bounds: &str, body: &str, cells: &[i32], expected| {
        runs::row(body, &text(names, clauses, bounds, body), cells, expected)
    };
    vec![
        two("firstprivate(z, y) lastprivate(y, z)", true),
        two("firstprivate(y) lastprivate(y, z) firstprivate(z)", true),
        two("lastprivate(z) firstprivate(y, z) lastprivate(y)", true),
        two("firstprivate(z) lastprivate(y, z)", false),
        two("lastprivate(y) firstprivate(z) lastprivate(z)", false),
        two("firstprivate(y) lastprivate(z, y)", false),
        two("lastprivate(y, z)", false),
        two("firstprivate(z) lastprivate(z) shared(y)", false),
        two("firstprivate(z) lastprivate(z)", false),
        two("firstprivate(z) lastprivate(z) reduction(+:y)", false),
        scratch(
            "lastprivate(y, z) num_threads(2) firstprivate(z)",
            Ran::Passed(7, 5, used()),
        ),
        scratch(
            "lastprivate(y, z) num_threads(2) firstprivate(z, y)",
            Ran::Passed(7, 5, used()),
        ),
        scratch(
            "lastprivate(y, z) num_threads(2) firstprivate(y)",
            Ran::Rerun(7, 5, used()),
        ),
        scratch("lastprivate(y, z) num_threads(2)", Ran::Rerun(7, 5, used())),
        other(
            "s, z",
            "reduction(+:s) lastprivate(z) firstprivate(z) num_threads(2)",
            "1, 4",
            "s = s + z\nif (i == 4) then\nz = 0\nend if",
            &[100, 5],
            Ran::Passed(5, 2, vec![120, 0]),
        ),
        // The words of an update are ordinary for a name of other clauses (READING 64).
        other(
            "z",
            "num_threads(2) firstprivate(z) lastprivate(z)",
            "1, 3",
            "z = z + i",
            &[5],
            Ran::Rerun(3, 1, vec![11]),
        ),
        other(
            "z, b",
            "num_threads(2) firstprivate(z) lastprivate(z)",
            "1, 2",
            "b = z\nif (i == 2) then\nz = 1\nend if",
            &[5, 0],
            Ran::Rerun(3, 2, vec![1, 5]),
        ),
    ]
}

/// Faults are the serial run's.
fn fault_rows() -> Vec<RunRow> {
    let divide = |name, body, cells| of_z(name, "1, 2", body, cells);
    let made_zero = divide(
        "iteration 1 writes 0, iteration 2 divides by it",
        "if (i == 1) then\nz = 0\nelse\na(1) = 10/z\nend if",
        &[5, 0, 0, 0, 0],
    );
    let made_good = divide(
        "0 at entry, iteration 1 writes 5, iteration 2 divides by it",
        "if (i == 1) then\nz = 5\nelse\na(1) = 10/z\nend if",
        &[0; 5],
    );
    let spoiled_later = divide(
        "iteration 1 divides by the old value, iteration 2 writes 0",
        "if (i == 1) then\na(1) = 10/z\nelse\nz = 0\nend if",
        &[5, 0, 0, 0, 0],
    );
    let outside = |name, body| Case {
        name,
        names: "k, a(2)",
        clauses: "lastprivate(k, a)",
        bounds: "1, 4",
        body,
        cells: &[2, 0, 0],
    };
    let subscript = outside(
        "a subscript used and then made a bad one",
        "if (i == 4) then\nk = 9\nelse\na(k) = i\nend if",
    );
    let used_again = outside(
        "a subscript made a bad one and then used",
        "if (i == 3) then\nk = 9\nelse\na(k) = i\nend if",
    );
    vec![
        made_zero.both(2, Ran::Fault(10, 7, 2)),
        made_zero.on(2, Ran::Fault(10, 7, 2)),
        made_good.both(2, Ran::Rerun(2, 2, vec![5, 2, 0, 0, 0])),
        spoiled_later.both(2, Ran::Passed(2, 2, vec![0, 2, 0, 0, 0])),
        spoiled_later.on(2, Ran::Rerun(2, 2, vec![0, 2, 0, 0, 0])),
        subscript.both(2, Ran::Passed(4, 2, vec![9, 0, 3])),
        subscript.on(2, Ran::Rerun(4, 2, vec![9, 0, 3])),
        used_again.both(2, Ran::Fault(9, 7, 4)),
        used_again.both_blocks(1, Ran::Fault(9, 7, 4)),
    ]
}

/// What Look shows: marks as before, the entry value as the shared one, private values in what they lead
/// to (P5.5). In `lastprivate` alone all of it is the same.
pub fn look_rows() -> Vec<LookRow> {
    let mut rows = Vec::new();
    let mut add = |name: &str, (processors, bounds, body): Loop, cells: &[i32], looks: &[Seen]| {
        for clauses in ["firstprivate(z) lastprivate(z)", "lastprivate(z)"] {
            let name = format!("{name}, {clauses}");
            let clauses = format!("{processors} {clauses}");
            let text = text("z, a(2)", &clauses, bounds, body);
            for (schedule, view) in looks {
                rows.push(looks::row(&name, &text, cells, schedule, view));
            }
        }
    };
    add_two_iterations(&mut add);
    add_own_values(&mut add);
    rows
}

/// The number of processors and other clauses, the bounds and the body.
type Loop<'l> = (&'l str, &'l str, &'l str);
type Add<'a> = dyn FnMut(&str, Loop, &[i32], &[Seen]) + 'a;

fn add_two_iterations(add: &mut Add) {
    let read_then_written = "if (i == 1) then\na(1) = z\nelse\nz = 7\nend if";
    add(
        "the lower reads, the higher writes",
        ("num_threads(2)", "1, 2", read_then_written),
        &[3, 0, 0],
        &[
            (&[], &[(3, 0), (0, 0), (0, 0)]),
            (&[0], &[(3, 2), (0, 0), (0, 0)]),
            (&[0, 0], &[(3, 2), (3, 1), (0, 0)]),
            (&[1], &[(3, 1), (0, 0), (0, 0)]),
            (&[1, 0], &[(3, 3), (0, 0), (0, 0)]),
            (&[0, 1], &[(3, 3), (0, 0), (0, 0)]),
            (&[1, 0, 0], &[(3, 3), (3, 1), (0, 0)]),
            (&[0, 0, 0, 1, 1], &[(3, 3), (3, 1), (0, 0)]),
        ],
    );
    let written_then_read = "if (i == 1) then\nz = 7\nelse\na(1) = z\nend if";
    add(
        "the lower writes, the higher reads",
        ("num_threads(2)", "1, 2", written_then_read),
        &[3, 0, 0],
        &[
            (&[0], &[(3, 1), (0, 0), (0, 0)]),
            (&[0, 1], &[(3, 3), (0, 0), (0, 0)]),
            (&[1, 0], &[(3, 3), (0, 0), (0, 0)]),
            (&[0, 1, 1], &[(3, 3), (3, 1), (0, 0)]),
            (&[1, 1, 0], &[(3, 3), (3, 1), (0, 0)]),
        ],
    );
    add(
        "the same on one processor: the other iteration's write is not seen",
        ("num_threads(1)", "1, 2", written_then_read),
        &[3, 0, 0],
        &[
            (&[0, 0], &[(3, 1), (0, 0), (0, 0)]),
            (&[0, 0, 0], &[(3, 3), (0, 0), (0, 0)]),
            (&[0, 0, 0, 0], &[(3, 3), (3, 1), (0, 0)]),
        ],
    );
    add(
        "the same in one block: it is seen",
        ("num_threads(1) schedule(static)", "1, 2", written_then_read),
        &[3, 0, 0],
        &[
            (&[0, 0, 0], &[(3, 1), (0, 0), (0, 0)]),
            (&[0, 0, 0, 0], &[(3, 1), (7, 1), (0, 0)]),
        ],
    );
    add(
        "one block read, then wrote",
        ("num_threads(1) schedule(static)", "1, 2", read_then_written),
        &[3, 0, 0],
        &[
            (&[0, 0, 0], &[(3, 2), (3, 1), (0, 0)]),
            (&[0, 0, 0, 0], &[(3, 5), (3, 1), (0, 0)]),
        ],
    );
}

fn add_own_values(add: &mut Add) {
    add(
        "reads and then writes, and reads its own",
        ("num_threads(2)", "1, 2", "z = z - 1\na(i) = z"),
        &[5, 0, 0],
        &[
            (&[0], &[(5, 2), (0, 0), (0, 0)]),
            (&[0, 0], &[(5, 5), (0, 0), (0, 0)]),
            (&[0, 0, 0, 0], &[(5, 5), (4, 1), (0, 0)]),
            (&[0, 0, 0, 0, 1], &[(5, 7), (4, 1), (0, 0)]),
            (&[0, 0, 0, 0, 1, 1], &[(5, 5), (4, 1), (0, 0)]),
            (&[0, 0, 0, 0, 1, 1, 1, 1], &[(5, 5), (4, 1), (4, 1)]),
        ],
    );
    add(
        "writes and then reads",
        ("num_threads(2)", "1, 2", "z = 10*i\na(i) = z"),
        &[5, 0, 0],
        &[
            (&[1], &[(5, 1), (0, 0), (0, 0)]),
            (&[1, 1], &[(5, 1), (0, 0), (0, 0)]),
            (&[1, 1, 1], &[(5, 1), (0, 0), (20, 1)]),
            (&[1, 1, 1, 0, 0, 0], &[(5, 1), (10, 1), (20, 1)]),
        ],
    );
}
