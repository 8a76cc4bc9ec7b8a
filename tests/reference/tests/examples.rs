//! The examples of document 01 (the client's specification) as it words them, and the trial's parts by hand.

use reference::syntax::Operation::{self, Maximum, Product, Sum};
use reference::{
    check, load, look, run, serial, trial, workspace_needed, Answer, Kind, Refusal, Trial,
};

const ENOUGH: usize = 100_000;

fn text(names: &str, clauses: &str, bounds: &str, body: &str) -> String {
    format!("integer {names}\n!$omp parallel do {clauses}\ndo i = {bounds}\n{body}\nend do\n")
}

fn run_on(text: &str, cells: &mut [i32]) -> Result<Answer, Refusal> {
    run(text.as_bytes(), cells, &mut vec![0; ENOUGH], &[])
}

fn passed(pairs: u32, cells: u32) -> Result<Answer, Refusal> {
    Ok(Answer {
        passed: true,
        pairs,
        cells,
    })
}

fn rerun(pairs: u32, cells: u32) -> Result<Answer, Refusal> {
    Ok(Answer {
        passed: false,
        pairs,
        cells,
    })
}

#[test]
fn adding_one_in_place() {
    let mut cells = [0; 3];
    let text = text("a(3)", "num_threads(2)", "1, 3", "a(i) = a(i) + 1");
    assert_eq!(run_on(&text, &mut cells), passed(3, 3));
}

#[test]
fn one_cell_for_all() {
    let shared = text("a(1)", "num_threads(2)", "1, 2", "a(1) = i");
    let mut cells = [0];
    assert_eq!(run_on(&shared, &mut cells), rerun(2, 1));
    assert_eq!(cells, [2]);
    let lastprivate = text("a(1)", "num_threads(2) lastprivate(a)", "1, 2", "a(1) = i");
    let mut cells = [0];
    assert_eq!(run_on(&lastprivate, &mut cells), passed(2, 1));
    assert_eq!(cells, [2]);
    for (schedule, shown) in [([1, 0], 1), ([0, 1], 2)] {
        let mut view = [0; 2];
        let mut workspace = vec![0; workspace_needed(1, 2)];
        look(
            shared.as_bytes(),
            &[0],
            &mut workspace,
            &schedule,
            &mut view,
        )
        .unwrap();
        assert_eq!(view, [shown, 1]);
    }
}

#[test]
fn a_sum() {
    let mut cells = [5];
    let text = text("s", "num_threads(3) reduction(+:s)", "1, 4", "s = s + i");
    assert_eq!(run_on(&text, &mut cells), passed(4, 1));
    assert_eq!(cells, [15]);
}

#[test]
fn no_iterations() {
    let text = text("a", "num_threads(3)", "1, 0", "a = 1");
    assert_eq!(run_on(&text, &mut [0]), passed(0, 0));
}

#[test]
fn read_first_and_written_later() {
    let body = "if (i == 1) then\na = z\nelse\nz = 1\nend if";
    let text = text("z, a", "num_threads(2) lastprivate(z)", "1, 2", body);
    assert!(!run_on(&text, &mut [0, 0]).unwrap().passed);
}

#[test]
fn a_fault_met_while_speculating() {
    let body = "if (i == 1) then\nk = 2\nelse\na(k) = 1\nend if";
    let text = text("k, a(4)", "num_threads(2)", "1, 2", body);
    let lent = [9, 0, 0, 0, 0];
    let tried = trial(text.as_bytes(), &lent, ENOUGH, &[1, 1, 1]).unwrap();
    let fault = tried.processors[1].fault.unwrap();
    assert_eq!((fault.number, fault.line, fault.v), (9, 7, 2));
    let mut cells = lent;
    let answer = run(
        text.as_bytes(),
        &mut cells,
        &mut vec![0; ENOUGH],
        &[1, 1, 1],
    );
    assert_eq!(answer, rerun(2, 2));
    assert_eq!(cells, [2, 0, 1, 0, 0]);
}

#[test]
fn the_empty_text_and_the_longest() {
    let refusal = |number, line| Err(Refusal { number, line, v: 0 });
    assert_eq!(check(b""), refusal(2, 1));
    let good = text("a", "num_threads(1)", "1, 1", "a = 1");
    let padded = |length| format!("{good:<length$}");
    assert_eq!(check(padded(2048).as_bytes()), Ok((1, 1)));
    assert_eq!(check(padded(2049).as_bytes()), refusal(1, 0));
}

/// The partial result of each processor for a cell.
fn partial_results(trial: &Trial, cell: usize) -> Vec<Option<(Operation, i32)>> {
    trial.partial.iter().map(|partial| partial[cell]).collect()
}

/// Three processors, two iterations each: private values, sums, marks, records and counts.
#[test]
fn what_a_trial_leaves() {
    let body = "z = 10*i\ns = s + i\na(i) = z";
    let clauses = "num_threads(3) lastprivate(z) reduction(+:s)";
    let text = text("z, s, a(6)", clauses, "1, 6", body);
    let lent = [7, 100, 0, 0, 0, 0, 0, 0];
    let tried = trial(text.as_bytes(), &lent, ENOUGH, &[2, 2, 1, 0, 2, 2, 2]).unwrap();
    assert_eq!(tried.shared, [7, 100, 10, 20, 30, 40, 50, 60]);
    let of_z: Vec<_> = tried.private.iter().map(|private| private[0]).collect();
    assert_eq!(of_z, [Some((1, 20)), Some((3, 40)), Some((5, 60))]);
    assert_eq!(
        partial_results(&tried, 1),
        [(Sum, 3), (Sum, 7), (Sum, 11)].map(Some)
    );
    assert_eq!(partial_results(&tried, 0), [None; 3]);
    assert_eq!(tried.marks, [1, 8, 1, 1, 1, 1, 1, 1]);
    assert_eq!(tried.obstacles, [false; 8]);
    assert_eq!((tried.pairs, tried.cells), (18, 8));
    let stands: Vec<_> = tried.processors.iter().map(|p| p.iteration).collect();
    assert_eq!(stands, [2, 4, 6]);
    assert_eq!(tried.merged(), [60, 121, 10, 20, 30, 40, 50, 60]);
}

/// Document 02, Point 6: "Partial results start at 1 and −2147483648", sums at 0; each processor has its own, and
/// the merge takes in all of them. Processor 0 has iterations 1 and 2, processor 1 has 3 and 4, processor 2 has
/// 5 and 6 and updates nothing.
#[test]
fn what_a_trial_with_three_operations_leaves() {
    let body = "if (i < 5) then\ns = s - i\np = p * (-i)\nm = max(m, -i)\nend if";
    let clauses = "num_threads(3) reduction(max:m) reduction(*:p, q) reduction(+:s)";
    let text = text("s, p, m, q", clauses, "1, 6", body);
    let lent = [100, 5, -9, 7];
    for schedule in [vec![], vec![2, 1, 0, 1, 1, 0, 1], vec![1; 40]] {
        let tried = trial(text.as_bytes(), &lent, ENOUGH, &schedule).unwrap();
        let of = |cell| partial_results(&tried, cell);
        assert_eq!(of(0), [(Sum, -3), (Sum, -7), (Sum, 0)].map(Some));
        let products = [(Product, 2), (Product, 12), (Product, 1)];
        assert_eq!(of(1), products.map(Some));
        let maxima = [(Maximum, -1), (Maximum, -3), (Maximum, i32::MIN)];
        assert_eq!(of(2), maxima.map(Some));
        assert_eq!(of(3), [(Product, 1); 3].map(Some));
        // Nothing of it is in place before the merge.
        assert_eq!(tried.shared, lent);
        assert_eq!(tried.private, [[None; 4]; 3]);
        assert_eq!(tried.marks, [8, 8, 8, 0]);
        assert_eq!(tried.obstacles, [false; 4]);
        assert_eq!((tried.pairs, tried.cells), (12, 3));
        assert_eq!(tried.merged(), [90, 120, -1, 7]);
    }
}

/// A product that wraps in a partial result and one that wraps in the merge alone.
#[test]
fn products_wrap() {
    let clauses = "num_threads(2) reduction(*:p, q)";
    let text = text("p, q", clauses, "1, 4", "p = p * 65537\nq = q * 256");
    let mut cells = [3, 1];
    let tried = trial(text.as_bytes(), &cells, ENOUGH, &[]).unwrap();
    // 65537 × 65537 is 2^32 + 131073.
    let results = [(Product, 131_073); 2].map(Some);
    assert_eq!(partial_results(&tried, 0), results);
    let results = [(Product, 65_536); 2].map(Some);
    assert_eq!(partial_results(&tried, 1), results);
    // 131073 × 131073 is 2^34 + 262145.
    assert_eq!(run_on(&text, &mut cells), passed(8, 2));
    assert_eq!(cells, [786_435, 0]);
}

/// A processor that a fault stopped counts with the accesses it made.
#[test]
fn what_a_stopped_processor_leaves() {
    let body = "z = i\na(4 - i) = z\nb = 1/(i - 2)";
    let clauses = "num_threads(2) lastprivate(z, b)";
    let text = text("z, a(3), b", clauses, "1, 3", body);
    let tried = trial(text.as_bytes(), &[0; 5], ENOUGH, &[]).unwrap();
    // Processor 0 has iteration index 0, processor 1 has 1 and 2 and stops in 1.
    assert_eq!(tried.shared, [0, 0, 2, 1, 0]);
    assert_eq!(tried.private[1][0], Some((1, 2)));
    assert_eq!(tried.private[0][4], Some((0, -1)));
    assert_eq!(tried.private[1][4], None);
    assert_eq!(tried.processors[1].iteration, 1);
    let fault = tried.processors[1].fault.unwrap();
    assert_eq!((fault.number, fault.line, fault.v), (10, 6, 2));
    assert_eq!((tried.pairs, tried.cells), (5, 4));
}

/// Document 02, Point 3: the same blocks as in the steps, whose private reads see earlier iterations of the
/// block. Sums and private values stay by processor and iteration, counts by iteration.
#[test]
fn what_a_trial_by_blocks_leaves() {
    // Indices 0 to 1 and 2 to 4.
    let body = "z = z + i\ns = s + z\na(1) = z";
    let clauses = "num_threads(2) lastprivate(z) schedule(static) reduction(+:s)";
    let text = text("z, s, a(1)", clauses, "1, 5", body);
    let lent = [7, 100, 0];
    // Processor 1 makes all its accesses before processor 0.
    let tried = trial(text.as_bytes(), &lent, ENOUGH, &[1; 30]).unwrap();
    // z is 8, 10 in the first block and 10, 14, 19 in the second.
    assert_eq!(tried.shared, [7, 100, 10]);
    let of_z: Vec<_> = tried.private.iter().map(|private| private[0]).collect();
    assert_eq!(of_z, [Some((1, 10)), Some((4, 19))]);
    assert_eq!(partial_results(&tried, 1), [(Sum, 18), (Sum, 43)].map(Some));
    assert_eq!(tried.marks, [5, 8, 1]);
    // Each of two blocks reads z before writing it and writes a(1); s is only updated.
    assert_eq!(tried.obstacles, [true, false, true]);
    assert_eq!((tried.pairs, tried.cells), (15, 3));
}

/// One block: nothing but an update beside an ordinary access can be an obstacle (P3.8).
#[test]
fn one_block() {
    let body = "z = z + i\ns = s + z\na(1) = z\nt = i - t\nu = u + 1\nt = u";
    let clauses = "num_threads(1) lastprivate(z) schedule(static) reduction(+:s, t, u)";
    let text = text("z, s, t, u, a(1)", clauses, "1, 3", body);
    let tried = trial(text.as_bytes(), &[7, 100, 0, 0, 0], ENOUGH, &[]).unwrap();
    assert_eq!(tried.obstacles, [false, false, false, true, false]);
    assert_eq!(tried.marks, [5, 8, 5, 10, 1]);
}

/// Document 02, Point 5: "whichever of the two steps came first". z is read by one iteration and written by
/// the other; each of the two processors takes all its steps first.
#[test]
fn the_order_of_the_two_steps_is_no_matter() {
    let read_first = "if (i == 1) then\na = z\nelse\nz = 7\nend if";
    let written_first = "if (i == 1) then\nz = 7\nelse\na = z\nend if";
    for (body, obstacle) in [(read_first, false), (written_first, true)] {
        let clauses = "num_threads(2) firstprivate(z) lastprivate(z)";
        let text = text("z, a", clauses, "1, 2", body);
        let mut firsts = Vec::new();
        for schedule in [[0; 3], [1; 3]] {
            let tried = trial(text.as_bytes(), &[3, 0], ENOUGH, &schedule).unwrap();
            assert_eq!(tried.obstacles, [obstacle, false]);
            // As at entry, also where the write came first.
            assert_eq!(tried.shared, [3, 3]);
            assert_eq!(tried.marks, [3, 1]);
            let of_z = tried.accesses.iter().find(|access| access.cell == 0);
            firsts.push(of_z.unwrap().kind);
        }
        firsts.sort();
        assert_eq!(firsts, [Kind::Read, Kind::Write]);
    }
}

/// Three processors, two iterations each: z is read by all and written by the last two, y is handed on.
#[test]
fn what_a_trial_with_copies_leaves() {
    let body = "a(i) = z\nif (i > 4) then\nz = 10*i\nend if\ny = y + i";
    let clauses = "num_threads(3) firstprivate(y, z) lastprivate(z, y)";
    let text = text("z, y, a(6)", clauses, "1, 6", body);
    let lent = [7, 100, 0, 0, 0, 0, 0, 0];
    let tried = trial(text.as_bytes(), &lent, ENOUGH, &[2, 2, 2, 2, 0, 1]).unwrap();
    assert_eq!(tried.shared, [7, 100, 7, 7, 7, 7, 7, 7]);
    let of =
        |cell: usize| -> Vec<_> { tried.private.iter().map(|private| private[cell]).collect() };
    assert_eq!(of(0), [None, None, Some((5, 60))]);
    assert_eq!(of(1), [Some((1, 102)), Some((3, 104)), Some((5, 106))]);
    assert_eq!(tried.marks, [7, 5, 1, 1, 1, 1, 1, 1]);
    // The sixth iteration reads z, which the fifth writes.
    assert_eq!(tried.obstacles[..3], [true, true, false]);
    assert_eq!((tried.pairs, tried.cells), (14, 8));
}

#[test]
fn what_a_serial_run_lists() {
    let body = "s = s + a(i)\na(i) = s";
    let text = text("s, a(2)", "num_threads(2) reduction(+:s)", "1, 2", body);
    let ran = serial(text.as_bytes(), &[1, 10, 20]).unwrap();
    let list: Vec<_> = ran
        .accesses
        .iter()
        .map(|access| (access.kind, access.iteration, access.cell, access.value))
        .collect();
    let expected = [
        (Kind::Read, 0, 1, 10),
        (Kind::Update, 0, 0, 10),
        (Kind::Read, 0, 0, 11),
        (Kind::Write, 0, 1, 11),
        (Kind::Read, 1, 2, 20),
        (Kind::Update, 1, 0, 20),
        (Kind::Read, 1, 0, 31),
        (Kind::Write, 1, 2, 31),
    ];
    assert_eq!(list, expected);
    assert_eq!(ran.obstacles, [true, false, false]);
    assert_eq!(ran.cells_after, [31, 11, 31]);
    assert_eq!((ran.pairs, ran.cells), (4, 3));
}

/// Document 02, Point 9: "Both subscripts are worked out, then each is tested against its own bound": what the serial run
/// lists of `g(e, f)`, also where the first one is outside (P9.4).
#[test]
fn both_subscripts_are_worked_out() {
    let lent = [0, 1, 2, 3, 4];
    let list = |body: &str| {
        let text = text("s, g(2, 2)", "num_threads(2)", "1, 1", body);
        let ran = serial(text.as_bytes(), &lent).unwrap();
        let accesses = ran.accesses.iter();
        let list = accesses.map(|access| (access.kind, access.cell, access.value));
        (ran.outcome, list.collect::<Vec<_>>())
    };
    let fault = |number| {
        let (line, v) = (4, 1);
        Err(Refusal { number, line, v })
    };
    let read = |cell: u16| (Kind::Read, cell, lent[usize::from(cell)]);
    let written = (Kind::Write, 0, 3);
    assert_eq!(
        list("s = g(g(1, 1), g(2, 1))"),
        (Ok(()), vec![read(1), read(2), read(3), written])
    );
    assert_eq!(list("s = g(9, g(1, 2))"), (fault(9), vec![read(3)]));
    assert_eq!(list("s = g(g(1, 1), 3)"), (fault(9), vec![read(1)]));
    assert_eq!(list("s = g(3, 1)"), (fault(9), vec![]));
    assert_eq!(list("s = g(9, g(1, 2)/0)"), (fault(10), vec![read(3)]));
    assert_eq!(list("s = g(g(9, 1), g(1, 2)/0)"), (fault(9), vec![]));
}

#[test]
fn a_name_with_data_and_one_without() {
    let text =
        "integer a(2), b\ndata a /2*-4/\n!$omp parallel do num_threads(1)\ndo i = 1, 1\nend do";
    let mut cells = [1, 2, 3];
    assert_eq!(load(text.as_bytes(), &mut cells), Ok(()));
    assert_eq!(cells, [-4, -4, 0]);
}
