//! What Run answers and leaves in the cells, under every schedule (demand 3).

/// How a run ends.
#[derive(Debug, Clone, PartialEq, Eq)]
pub enum Ran {
    /// The counts, pairs first, and the cells.
    Passed(u32, u32, Vec<i32>),
    Rerun(u32, u32, Vec<i32>),
    /// Number, line and v; the cells are as lent.
    Fault(u32, u32, i32),
}

/// A text, the cells lent, and how its run ends.
#[derive(Debug, Clone)]
pub struct RunRow {
    pub name: String,
    pub text: Vec<u8>,
    pub cells: Vec<i32>,
    pub expected: Ran,
}

const LEAST: i32 = i32::MIN;
const GREATEST: i32 = i32::MAX;

/// The value of the right side of `s = ...`, where s is 6, a is 1, 2, 3, 4 and i is 1.
const VALUES: &[(&str, i32)] = &[
    // Document 01
    ("-7/2", -3),
    ("rdiv(-7, 2)", -4),
    ("rdiv(7, 2)", 4),
    ("rdiv(1, 3)", 0),
    ("2147483647 + 1", LEAST),
    // READING 99
    ("(-2147483647 - 1)/(-1)", LEAST),
    ("rdiv(-2147483647 - 1, -1)", LEAST),
    // `/` truncates
    ("7/2", 3),
    ("(-7)/2", -3),
    ("7/(-2)", -3),
    ("(-7)/(-2)", 3),
    ("0/7", 0),
    ("6/7", 0),
    ("(-6)/7", 0),
    ("(-2147483647 - 1)/2147483647", -1),
    ("2147483647/(-2147483647 - 1)", 0),
    ("(-2147483647 - 1)/1", LEAST),
    ("2147483647/(-1)", -GREATEST),
    // Document 02, Point 4: neither negative, the divisor, the dividend, both
    ("8/2", 4),
    ("8/(-2)", -4),
    ("(-8)/2", -4),
    ("(-8)/(-2)", 4),
    ("0/(-7)", 0),
    ("6/(-7)", 0),
    ("(-6)/(-7)", 0),
    // what is left has the dividend's sign
    ("7 - 7/2*2", 1),
    ("7 - 7/(-2)*(-2)", 1),
    ("-7 - (-7)/2*2", -1),
    ("-7 - (-7)/(-2)*(-2)", -1),
    // around the end of the range
    ("(-2147483647)/(-1)", GREATEST),
    ("(-2147483647)/1", -GREATEST),
    ("(-2147483647 - 1)/2", -1073741824),
    ("(-2147483647 - 1)/(-2)", 1073741824),
    ("(-2147483647 - 1)/(-3)", 715827882),
    ("(-2147483647 - 1)/(-2147483647)", 1),
    ("(-2147483647 - 1)/(-2147483647 - 1)", 1),
    ("(-2147483647)/(-2147483647 - 1)", 0),
    ("(-1)/(-2147483647 - 1)", 0),
    ("1/(-2147483647 - 1)", 0),
    // rdiv: nearest
    ("rdiv(-1, 3)", 0),
    ("rdiv(2, 3)", 1),
    ("rdiv(-2, 3)", -1),
    ("rdiv(7, 4)", 2),
    ("rdiv(5, 4)", 1),
    ("rdiv(0, 5)", 0),
    ("rdiv(2147483647, 1)", GREATEST),
    ("rdiv(-2147483647 - 1, 2)", -1073741824),
    ("rdiv(-2147483647 - 1, 1)", LEAST),
    ("rdiv(-2147483647, -1)", GREATEST),
    ("rdiv(-2147483647 - 1, 2147483647)", -1),
    ("rdiv(2147483647, -2147483647 - 1)", -1),
    ("rdiv(-2147483647 - 1, -2147483647 - 1)", 1),
    // READING 61
    ("rdiv(1073741823, -2147483647 - 1)", 0),
    ("rdiv(1073741825, -2147483647 - 1)", -1),
    ("rdiv(-1073741825, -2147483647 - 1)", 1),
    ("rdiv(1073741823, 2147483647)", 0),
    ("rdiv(1073741824, 2147483647)", 1),
    // Document 02, Point 2: halves to even
    ("rdiv(5, 2)", 2),
    ("rdiv(-5, 2)", -2),
    // P2.1
    ("rdiv(1, 2)", 0),
    ("rdiv(-1, 2)", 0),
    ("rdiv(1, -2)", 0),
    ("rdiv(-1, -2)", 0),
    ("rdiv(3, 2)", 2),
    ("rdiv(-3, 2)", -2),
    ("rdiv(5, -2)", -2),
    ("rdiv(-5, -2)", 2),
    ("rdiv(7, -2)", -4),
    ("rdiv(-7, -2)", 4),
    ("rdiv(9, 2)", 4),
    ("rdiv(6, 4)", 2),
    ("rdiv(10, 4)", 2),
    ("rdiv(14, 4)", 4),
    ("rdiv(15, 6)", 2),
    ("rdiv(15, -6)", -2),
    // P2.2
    ("rdiv(2147483647, 2)", 1073741824),
    ("rdiv(2147483647, -2)", -1073741824),
    ("rdiv(2147483645, 2)", 1073741822),
    ("rdiv(-2147483645, 2)", -1073741822),
    ("rdiv(-2147483647, 2)", -1073741824),
    ("rdiv(1073741824, -2147483647 - 1)", 0),
    ("rdiv(-1073741824, -2147483647 - 1)", 0),
    ("rdiv(1073741823, 2147483646)", 0),
    ("rdiv(-1073741823, 2147483646)", 0),
    // Wrapping
    ("-2147483647 - 1", LEAST),
    ("-2147483647 - 2", GREATEST),
    ("-(-2147483647 - 1)", LEAST),
    ("65536*65536", 0),
    ("46341*46341", -2147479015),
    ("2147483647*2", -2),
    ("2147483647*2147483647", 1),
    ("-2147483647*2", 2),
    ("65536*32768", LEAST),
    // From the left; the sign is the first term's (READING 54)
    ("2 - 3 - 4", -5),
    ("100/7/2", 7),
    ("7/2*2", 6),
    ("2*7/2", 7),
    ("-3*2 + 1", -5),
    ("-7/2*2", -6),
    ("-rdiv(7, 2)", -4),
    ("1 - 2*3", -5),
    ("2*3 - 1", 5),
    ("10 - 4/3", 9),
    ("+5", 5),
    ("-(1 + 2)", -3),
    ("(2 + 3)*4", 20),
    ("2 + 3*4", 14),
    ("rdiv(7, 2)*2", 8),
    ("100/rdiv(7, 2)", 25),
    ("2 - (3 - 4)", 3),
    ("100/(7/2)", 33),
    // v, cells and subscripts
    ("i", 1),
    ("-i", -1),
    ("s", 6),
    ("s*s", 36),
    ("-s + 1", -5),
    ("a(i)", 1),
    ("a(i + 1)", 2),
    ("a(a(3) + 1)", 4),
    ("a(a(a(4)))", 4),
    ("a(rdiv(7, 2))", 4),
    ("a(7/2)", 3),
    ("a(-1 + 2)", 1),
    ("a(+i)", 1),
    ("a(1) - a(2) - a(3)", -4),
    ("00000000000000000000000000000001", 1),
    // READING 60
    ("a(2147483647 + 1 + 2147483647 + 2)", 1),
    ("a(65536*65536 + 3)", 3),
    // document 02, Point 6: max
    ("max(3, 7)", 7),
    ("max(7, 3)", 7),
    ("max(5, 5)", 5),
    ("max(-3, -7)", -3),
    ("max(-7, -3)", -3),
    ("max(0, -1)", 0),
    ("max(+1, -1)", 1),
    ("max(-2147483647 - 1, -2147483647)", -GREATEST),
    ("max(-2147483647 - 1, 2147483647)", GREATEST),
    ("max(2147483647, -2147483647 - 1)", GREATEST),
    ("max(-2147483647 - 1, -2147483647 - 1)", LEAST),
    ("max(2147483647 + 1, 0)", 0),
    ("max(65536*65536, -1)", 0),
    ("max(s, a(4))", 6),
    ("max(a(4), s)", 6),
    ("max(-i, i)", 1),
    ("MAX ( 1 , 2 )", 2),
    ("max(max(1, 5), max(4, 2))", 5),
    ("max(1, max(2, max(3, 4)))", 4),
    ("max((1 + 2)*3, 8)", 9),
    ("max(1 + 2, 2*2)", 4),
    ("max(1 - 2 - 3, 7/2*2 - 11)", -4),
    // a factor: its place in terms
    ("-max(3, 7)", -7),
    ("-max(3, 7) + 1", -6),
    ("-max(-3, -7)*2", 6),
    ("max(3, 7)*2", 14),
    ("2*max(3, 7)", 14),
    ("100/max(3, 7)", 14),
    ("max(100, 7)/max(3, 7)*2", 28),
    ("2 - max(3, 7)", -5),
    ("max(3, 7) - max(7, 3)", 0),
    ("(max(3, 7))", 7),
    ("a(max(2, 3))", 3),
    ("a(max(a(1), a(2)))", 2),
    ("rdiv(max(7, 5), 2)", 4),
    ("rdiv(7, max(-2, 2))", 4),
    ("max(rdiv(7, 2), 7/2)", 4),
];

/// A statement on line 4 in the same loop, and its fault.
const FAULTS: &[(&str, u32)] = &[
    ("s = a(0)", 9),
    ("s = a(5)", 9),
    ("s = a(-1)", 9),
    ("a(0) = 1", 9),
    ("a(5) = 1", 9),
    ("a(2147483647) = 1", 9),
    ("s = a(2147483647 + 1)", 9),
    ("s = a(a(4) + 1)", 9),
    ("s = a(s)", 9),
    ("s = 1/0", 10),
    ("s = 0/0", 10),
    ("s = rdiv(1, 0)", 10),
    ("s = rdiv(0, 0)", 10),
    ("s = (-2147483647 - 1)/0", 10),
    ("s = 1/(1 - 1)", 10),
    ("s = 1/(2 - a(2))", 10),
    ("s = 5/(65536*65536)", 10),
    ("s = 1/(1/2)", 10),
    // READING 56
    ("s = a(9)/0", 9),
    ("s = 1/0 + a(9)", 10),
    ("s = 1/(0*a(9))", 9),
    ("s = rdiv(a(9), 0)", 9),
    ("s = rdiv(1/0, a(9))", 10),
    ("s = rdiv(1, 0*a(9))", 9),
    ("s = rdiv(1, 0) + a(9)", 10),
    ("s = 0*a(9)", 9),
    ("s = 0*(1/0)", 10),
    // READING 57
    ("s = a(1/0)", 10),
    ("s = a(a(5))", 9),
    // READING 58
    ("a(9) = 1/0", 10),
    ("a(1/0) = a(9)", 9),
    ("a(1/0) = 1", 10),
    ("a(a(9)) = 1", 9),
    ("if (1/0 == a(9)) then\nend if", 10),
    ("if (a(9) == 1/0) then\nend if", 9),
    ("if (1 == 1/0) then\nend if", 10),
    ("if (a(9) /= a(9)) then\nend if", 9),
    // document 02, Point 6: both arguments, the left one first (P6.8)
    ("s = max(a(9), 1/0)", 9),
    ("s = max(1/0, a(9))", 10),
    ("s = max(1, 1/0)", 10),
    ("s = max(1/0, 1)", 10),
    ("s = max(a(9), 1)", 9),
    ("s = max(1, a(9))", 9),
    ("s = max(2147483647, a(9))", 9),
    ("s = max(1, 2)/0", 10),
    ("s = a(9)*max(1/0, 1)", 9),
    ("s = max(1/0, 1)*a(9)", 10),
    ("a(9) = max(a(9), 1/0)", 9),
    ("a(9) = max(1/0, a(9))", 10),
    ("a(9) = max(1, 1/0)", 10),
    ("a(max(4, 5)) = 1", 9),
    ("a(max(0, -1)) = 1/0", 10),
    ("s = a(max(0, -1))", 9),
    ("s = 1/max(-1, 0)", 10),
    ("s = rdiv(1, max(0, -3))", 10),
    ("if (max(1/0, a(9)) == 1) then\nend if", 10),
    ("if (max(a(9), 1/0) == 1) then\nend if", 9),
    ("if (1 == max(1, a(5))) then\nend if", 9),
];

/// The same where s and a are reduction names: updates (READING 67).
const UPDATE_FAULTS: &[(&str, u32)] = &[
    ("a(9) = a(9) + 1/0", 9),
    ("a(1/0) = a(1/0) + a(9)", 10),
    ("a(1/0) = a(1/0) + 1", 10),
    ("a(a(9)) = a(a(9)) + 1/0", 9),
    ("s = s + 1/0", 10),
    ("s = s + a(9)", 9),
    ("a(1) = a(1) + a(9)/0", 9),
    ("a(1) = a(1) + 1/0 + a(9)", 10),
    // P1.5
    ("a(9) = a(9) - 1/0", 9),
    ("a(0) = a(0) - 1/0", 9),
    ("a(1/0) = a(1/0) - a(9)", 10),
    ("a(a(9)) = a(a(9)) - 1/0", 9),
    ("s = s - 1/0", 10),
    ("s = s - a(9)", 9),
    ("a(1) = a(1) - a(9)/0", 9),
    ("a(1) = a(1) - 1/0 + a(9)", 10),
    // ordinary: the right side first
    ("a(9) = 1/0 + a(9)", 10),
    ("a(9) = (a(9)) + 1/0", 9),
    ("a(9) = a((9)) + 1/0", 9),
    ("a(9) = 1/0 - a(9)", 10),
    ("a(9) = -a(9) - 1/0", 9),
    ("a(1/0) = a(9) + 1", 9),
];

/// For v from 1 to 3, what `if (i rel 2)` chooses: 10 for `then`, 20 for `else`.
const RELATIONS: &[(&str, [i32; 3])] = &[
    ("==", [20, 10, 20]),
    ("/=", [10, 20, 10]),
    ("<", [10, 20, 20]),
    ("<=", [10, 10, 20]),
    (">", [20, 20, 10]),
    (">=", [20, 10, 10]),
];

/// All rows.
pub fn rows() -> Vec<RunRow> {
    let mut rows = one_statement_rows();
    rows.extend(RELATIONS.iter().map(|(relation, chosen)| {
        let head = "integer a(3)\n!$omp parallel do num_threads(2)\ndo i = 1, 3";
        let body = format!("if (i {relation} 2) then\na(i) = 10\nelse\na(i) = 20\nend if");
        let text = format!("{head}\n{body}\nend do\n");
        row(relation, &text, &[0; 3], Ran::Passed(3, 3, chosen.to_vec()))
    }));
    rows.extend(shared_rows());
    rows.extend(lastprivate_rows());
    rows.extend(reduction_rows());
    rows.extend(minus_rows());
    rows.extend(fault_rows());
    rows.extend(other_rows());
    rows.extend(super::blocks::run_rows());
    rows.extend(super::copies::run_rows());
    rows.extend(super::reductions::run_rows());
    rows.extend(super::grids::run_rows());
    rows
}

pub(super) fn row(name: &str, text: &str, cells: &[i32], expected: Ran) -> RunRow {
    RunRow {
        name: name.to_string(),
        text: text.as_bytes().to_vec(),
        cells: cells.to_vec(),
        expected,
    }
}

/// A loop of these declarations, clauses, bounds and body.
pub(super) fn text(names: &str, clauses: &str, bounds: &str, body: &str) -> String {
    format!("integer {names}\n!$omp parallel do {clauses}\ndo i = {bounds}\n{body}\nend do\n")
}

fn one_statement_rows() -> Vec<RunRow> {
    let lent = [6, 1, 2, 3, 4];
    let ordinary = |line: &str| text("s, a(4)", "num_threads(1)", "1, 1", line);
    let reduction = |line: &str| {
        let clauses = "num_threads(1) reduction(+:s, a)";
        text("s, a(4)", clauses, "1, 1", line)
    };
    let mut rows = Vec::new();
    for (expression, value) in VALUES {
        let after = vec![*value, 1, 2, 3, 4];
        let text = ordinary(&format!("s = {expression}"));
        rows.push(row(expression, &text, &lent, Ran::Passed(1, 1, after)));
    }
    for (line, number) in FAULTS {
        rows.push(row(line, &ordinary(line), &lent, Ran::Fault(*number, 4, 1)));
    }
    for (line, number) in UPDATE_FAULTS {
        let name = format!("reduction: {line}");
        rows.push(row(
            &name,
            &reduction(line),
            &lent,
            Ran::Fault(*number, 4, 1),
        ));
    }
    rows
}

/// "shared: one iteration writes it and a different one reads or writes it"
fn shared_rows() -> Vec<RunRow> {
    let two = "num_threads(2)";
    vec![
        row(
            "document 01: a(i) = a(i) + 1",
            &text("a(3)", two, "1, 3", "a(i) = a(i) + 1"),
            &[5, 6, 7],
            Ran::Passed(3, 3, vec![6, 7, 8]),
        ),
        row(
            "document 01: a(1) = i, shared",
            &text("a(1)", two, "1, 2", "a(1) = i"),
            &[0],
            Ran::Rerun(2, 1, vec![2]),
        ),
        row(
            "the same in a clause, P = 1 (READING 34, 85)",
            &text("a(1)", "shared(a) num_threads(1)", "1, 2", "a(1) = i"),
            &[0],
            Ran::Rerun(2, 1, vec![2]),
        ),
        row(
            "the same, P = 8",
            &text("a(1)", "num_threads(8)", "1, 2", "a(1) = i"),
            &[0],
            Ran::Rerun(2, 1, vec![2]),
        ),
        row(
            "document 01: the program's example",
            &text("a(4), k(4)", two, "1, 4", "a(k(i)) = 10 * i"),
            &[0, 0, 0, 0, 2, 1, 4, 3],
            Ran::Passed(4, 4, vec![20, 10, 40, 30, 2, 1, 4, 3]),
        ),
        row(
            "its index twice",
            &text("a(4), k(4)", two, "1, 4", "a(k(i)) = 10 * i"),
            &[0, 0, 0, 0, 2, 1, 2, 3],
            Ran::Rerun(4, 3, vec![20, 30, 40, 0, 2, 1, 2, 3]),
        ),
        row(
            "document 01: k is 9",
            &text(
                "k, a(4)",
                two,
                "1, 2",
                "if (i == 1) then\nk = 2\nelse\na(k) = 5\nend if",
            ),
            &[9, 0, 0, 0, 0],
            Ran::Rerun(2, 2, vec![2, 0, 5, 0, 0]),
        ),
        row(
            "one iteration alone reads and writes",
            &text("a", two, "1, 4", "if (i == 2) then\na = a + 1\nend if"),
            &[5],
            Ran::Passed(1, 1, vec![6]),
        ),
        row(
            "one writes, another reads",
            &text(
                "a, b",
                two,
                "1, 2",
                "if (i == 1) then\na = 1\nelse\nb = a\nend if",
            ),
            &[0, 0],
            Ran::Rerun(2, 2, vec![1, 1]),
        ),
        row(
            "one reads, a later one writes",
            &text(
                "a, b",
                two,
                "1, 2",
                "if (i == 1) then\nb = a\nelse\na = 1\nend if",
            ),
            &[7, 0],
            Ran::Rerun(2, 2, vec![1, 7]),
        ),
        row(
            "read ahead",
            &text("a(4)", two, "1, 3", "a(i) = a(i + 1)"),
            &[1, 2, 3, 4],
            Ran::Rerun(3, 3, vec![2, 3, 4, 4]),
        ),
        row(
            "carried on",
            &text("a(4)", two, "1, 3", "a(i + 1) = a(i)"),
            &[1, 2, 3, 4],
            Ran::Rerun(3, 3, vec![1, 1, 1, 1]),
        ),
        row(
            "all read",
            &text("a(4), b", "num_threads(3)", "1, 4", "a(i) = b*i"),
            &[0, 0, 0, 0, 3],
            Ran::Passed(4, 4, vec![3, 6, 9, 12, 3]),
        ),
        row(
            "the words of an update (READING 64)",
            &text("s", two, "1, 4", "s = s + i"),
            &[5],
            Ran::Rerun(4, 1, vec![15]),
        ),
        row(
            "a cell written twice in an iteration is one pair",
            &text(
                "a(3)",
                two,
                "1, 3",
                "a(i) = 1\na(i) = a(i) + i\na(i) = -a(i)",
            ),
            &[0; 3],
            Ran::Passed(3, 3, vec![-2, -3, -4]),
        ),
    ]
}

/// "lastprivate [...]: one iteration writes it and a different one reads it before writing it"
fn lastprivate_rows() -> Vec<RunRow> {
    let z = "num_threads(2) lastprivate(z)";
    vec![
        row(
            "document 01: a(1) = i, lastprivate",
            &text("z(1)", z, "1, 2", "z(1) = i"),
            &[0],
            Ran::Passed(2, 1, vec![2]),
        ),
        row(
            "document 01: iteration 1 reads, iteration 2 writes",
            &text(
                "z, a",
                z,
                "1, 2",
                "if (i == 1) then\na = z\nelse\nz = 7\nend if",
            ),
            &[3, 0],
            Ran::Rerun(2, 2, vec![7, 3]),
        ),
        row(
            "the highest iteration that wrote (READING 76, 86, 98)",
            &text("z", z, "1, 4", "if (i < 3) then\nz = i\nend if"),
            &[9],
            Ran::Passed(2, 1, vec![2]),
        ),
        row(
            "the last write in it",
            &text("z", z, "1, 3", "z = i\nz = 10*z"),
            &[0],
            Ran::Passed(3, 1, vec![30]),
        ),
        row(
            "reads and then writes, alone (READING 83)",
            &text("z", z, "1, 4", "if (i == 2) then\nz = z + 1\nend if"),
            &[5],
            Ran::Passed(1, 1, vec![6]),
        ),
        row(
            "reads and then writes, twice",
            &text("z", z, "1, 2", "z = z + 1"),
            &[5],
            Ran::Rerun(2, 1, vec![7]),
        ),
        row(
            "one writes, another reads and then writes",
            &text(
                "z",
                z,
                "1, 2",
                "if (i == 1) then\nz = 3\nelse\nz = z*2\nend if",
            ),
            &[5],
            Ran::Rerun(2, 1, vec![6]),
        ),
        row(
            "writes before it reads",
            &text("z, a(3)", z, "1, 3", "z = i\na(i) = z"),
            &[0; 4],
            Ran::Passed(6, 4, vec![3, 1, 2, 3]),
        ),
        row(
            "only read, as at entry (READING 98)",
            &text("z, a(3)", z, "1, 3", "a(i) = z"),
            &[8, 0, 0, 0],
            Ran::Passed(3, 3, vec![8, 8, 8, 8]),
        ),
        row(
            "different cells of one name",
            &text("z(4)", z, "1, 4", "z(i) = z(i) + i"),
            &[1, 1, 1, 1],
            Ran::Passed(4, 4, vec![2, 3, 4, 5]),
        ),
        row(
            "never written",
            &text("z", z, "1, 4", "if (i > 4) then\nz = i\nend if"),
            &[9],
            Ran::Passed(0, 0, vec![9]),
        ),
    ]
}

/// "reduction: it has an update and an ordinary access, even in one iteration"
fn reduction_rows() -> Vec<RunRow> {
    let s = "num_threads(2) reduction(+:s)";
    vec![
        row(
            "document 01: s = s + i (READING 75)",
            &text("s", s, "1, 4", "s = s + i"),
            &[5],
            Ran::Passed(4, 1, vec![15]),
        ),
        row(
            "a sum that wraps",
            &text("s", s, "1, 4", "s = s + 1"),
            &[i32::MAX],
            Ran::Passed(4, 1, vec![i32::MIN + 3]),
        ),
        row(
            "the remainder of the line (READING 63)",
            &text("s, a, b", s, "1, 2", "s = s + a - b"),
            &[1, 10, 3],
            Ran::Passed(2, 1, vec![15, 10, 3]),
        ),
        row(
            "s = s + s (READING 65)",
            &text("s", s, "1, 1", "s = s + s"),
            &[3],
            Ran::Rerun(1, 1, vec![6]),
        ),
        row(
            "a(a(1)) = a(a(1)) + 1, the same cell (READING 65)",
            &text("s(2)", s, "1, 1", "s(s(1)) = s(s(1)) + 1"),
            &[1, 0],
            Ran::Rerun(1, 1, vec![2, 0]),
        ),
        row(
            "a(a(1)) = a(a(1)) + 1, another cell",
            &text("s(2)", s, "1, 2", "s(s(1)) = s(s(1)) + 1"),
            &[2, 0],
            Ran::Passed(2, 1, vec![2, 2]),
        ),
        row(
            "a(a(1)) = a(a(1)) + 1, first the same, then another",
            &text("s(2)", s, "1, 2", "s(s(1)) = s(s(1)) + 1"),
            &[1, 0],
            Ran::Rerun(2, 2, vec![2, 1]),
        ),
        row(
            "updated by one, read by another",
            &text(
                "s, a",
                s,
                "1, 2",
                "if (i == 1) then\ns = s + 5\nelse\na = s\nend if",
            ),
            &[2, 0],
            Ran::Rerun(2, 2, vec![7, 7]),
        ),
        row(
            "updated and then read in one iteration (READING 74)",
            &text("s, a", s, "1, 1", "s = s + 1\na = s"),
            &[5, 0],
            Ran::Rerun(2, 2, vec![6, 6]),
        ),
        row(
            "updated and written",
            &text(
                "s",
                s,
                "1, 2",
                "if (i == 1) then\ns = s + 5\nelse\ns = 3\nend if",
            ),
            &[2],
            Ran::Rerun(2, 1, vec![3]),
        ),
        row(
            "only written (READING 84)",
            &text("s", s, "1, 3", "s = i"),
            &[9],
            Ran::Passed(3, 1, vec![3]),
        ),
        row(
            "only written, not by the last",
            &text("s", s, "1, 3", "if (i == 1) then\ns = 4\nend if"),
            &[9],
            Ran::Passed(1, 1, vec![4]),
        ),
        row(
            "read and written, by one",
            &text("s", s, "1, 1", "s = 1 + s"),
            &[5],
            Ran::Passed(1, 1, vec![6]),
        ),
        row(
            "read and written, by two",
            &text("s", s, "1, 2", "s = 1 + s"),
            &[5],
            Ran::Rerun(2, 1, vec![7]),
        ),
        row(
            "written before it is read",
            &text("s, a(2)", s, "1, 2", "s = i\na(i) = s"),
            &[0; 3],
            Ran::Passed(4, 3, vec![2, 1, 2]),
        ),
        row(
            "only read",
            &text("s, a(2)", s, "1, 2", "a(i) = s"),
            &[4, 0, 0],
            Ran::Passed(2, 2, vec![4, 4, 4]),
        ),
        row(
            "cells of one name, some updated, some written",
            &text(
                "s(3)",
                s,
                "1, 3",
                "s(1) = s(1) + i\ns(2) = i\ns(3) = s(3) + s(2)",
            ),
            &[1, 1, 1],
            Ran::Passed(9, 3, vec![7, 3, 7]),
        ),
        row(
            "leading zeros and case (READING 62)",
            &text("s(2)", s, "1, 3", "s(01) = S( 001 ) + 2"),
            &[1, 1],
            Ran::Passed(3, 1, vec![7, 1]),
        ),
        row(
            "brackets in the subscript (READING 62)",
            &text("s(2)", s, "1, 3", "s(1) = s((1)) + 2"),
            &[1, 1],
            Ran::Rerun(3, 1, vec![7, 1]),
        ),
        row(
            "a sign in the subscript (READING 62)",
            &text("s(2)", s, "1, 3", "s(1) = s(+1) + 2"),
            &[1, 1],
            Ran::Rerun(3, 1, vec![7, 1]),
        ),
    ]
}

/// Document 02, Point 1: "For a reduction name, the same reference followed by - is now an update too.
/// What is added is the remainder with the minus applied to its first term".
fn minus_rows() -> Vec<RunRow> {
    let s = "num_threads(2) reduction(+:s)";
    let mut rows = vec![
        row(
            "s = s - i",
            &text("s", s, "1, 4", "s = s - i"),
            &[5],
            Ran::Passed(4, 1, vec![-5]),
        ),
        row(
            "s = s - p + q adds q - p",
            &text("s, p, q", s, "1, 2", "s = s - p + q"),
            &[1, 10, 3],
            Ran::Passed(2, 1, vec![-13, 10, 3]),
        ),
        row(
            "the whole first term: a product (P1.2)",
            &text("s, a, b", s, "1, 2", "s = s - a*b + a"),
            &[1, 10, 3],
            Ran::Passed(2, 1, vec![-39, 10, 3]),
        ),
        row(
            "the whole first term: a quotient and a product (P1.2)",
            &text("s, q, p, r", s, "1, 2", "s = s - q/p*r"),
            &[1, 7, 2, 3],
            Ran::Passed(2, 1, vec![-17, 7, 2, 3]),
        ),
        row(
            "the whole first term: brackets (P1.2)",
            &text("s, a, b", s, "1, 2", "s = s - (a + b)"),
            &[1, 10, 3],
            Ran::Passed(2, 1, vec![-25, 10, 3]),
        ),
        row(
            "-(q/p) is not (-q)/p at the end of the range (P1.2)",
            &text("s, q, p", s, "1, 1", "s = s - q/p"),
            &[0, i32::MIN, 2],
            Ran::Passed(1, 1, vec![1_073_741_824, i32::MIN, 2]),
        ),
        row(
            "the end of the range subtracted, once (P1.3)",
            &text("s, a", s, "1, 1", "s = s - a"),
            &[5, i32::MIN],
            Ran::Passed(1, 1, vec![i32::MIN + 5, i32::MIN]),
        ),
        row(
            "the end of the range subtracted, twice (P1.3)",
            &text("s, a", s, "1, 2", "s = s - a"),
            &[5, i32::MIN],
            Ran::Passed(2, 1, vec![5, i32::MIN]),
        ),
        row(
            "a sum that wraps below",
            &text("s", s, "1, 4", "s = s - 1"),
            &[i32::MIN],
            Ran::Passed(4, 1, vec![i32::MAX - 3]),
        ),
        row(
            "both forms on one cell (P1.5)",
            &text("s", s, "1, 4", "s = s + i\ns = s - 2*i"),
            &[5],
            Ran::Passed(4, 1, vec![-5]),
        ),
        row(
            "both forms on one cell, by different iterations",
            &text(
                "s",
                s,
                "1, 4",
                "if (i < 3) then\ns = s + i\nelse\ns = s - i\nend if",
            ),
            &[5],
            Ran::Passed(4, 1, vec![1]),
        ),
        row(
            "leading zeros and case (P1.1)",
            &text("s(2)", s, "1, 3", "s(01) = S( 001 )-2"),
            &[1, 1],
            Ran::Passed(3, 1, vec![-5, 1]),
        ),
        row(
            "another word for the same cell (P1.1)",
            &text("s(2)", s, "1, 2", "s(1) = s(i) - 2"),
            &[5, 7],
            Ran::Rerun(2, 1, vec![5, 7]),
        ),
        row(
            "s = s - s (P1.5)",
            &text("s", s, "1, 1", "s = s - s"),
            &[5],
            Ran::Rerun(1, 1, vec![0]),
        ),
        row(
            "subtracted from, then read in one iteration: passed before (P1.7)",
            &text("s, t", s, "1, 1", "s = s - 1\nt = s"),
            &[5, 0],
            Ran::Rerun(2, 2, vec![4, 4]),
        ),
        row(
            "subtracted from, then written in one iteration: passed before (P1.7)",
            &text("s", s, "1, 1", "s = s - 1\ns = 5"),
            &[9],
            Ran::Rerun(1, 1, vec![5]),
        ),
        row(
            "shared: a read and a write (P1.6)",
            &text("s", "num_threads(2)", "1, 2", "s = s - 1"),
            &[5],
            Ran::Rerun(2, 1, vec![3]),
        ),
        row(
            "lastprivate: a read and a write (P1.6)",
            &text("s", "num_threads(2) lastprivate(s)", "1, 2", "s = s - 1"),
            &[5],
            Ran::Rerun(2, 1, vec![3]),
        ),
    ];
    // no updates (P1.1)
    for (line, after) in [
        ("s = -s - 1", 5),
        ("s = +s - 1", 3),
        ("s = (s) - 1", 3),
        ("s = (s - 1)", 3),
        ("s = 1 - s", 5),
        ("s = s * 1 - 2", 1),
        ("s = s / 1 - 2", 1),
    ] {
        let expected = Ran::Rerun(2, 1, vec![after]);
        rows.push(row(line, &text("s", s, "1, 2", line), &[5], expected));
    }
    rows
}

/// "The first fault ends the run and gives its number, the line of the statement or `if`, and v."
fn fault_rows() -> Vec<RunRow> {
    let two = "num_threads(2)";
    vec![
        row(
            "in the last iteration",
            &text("a(4)", two, "1, 5", "a(i) = i"),
            &[7; 4],
            Ran::Fault(9, 4, 5),
        ),
        row(
            "v below 0 (READING 91)",
            &text("a(4)", two, "-3, 4", "a(i) = i"),
            &[7; 4],
            Ran::Fault(9, 4, -3),
        ),
        row(
            "v at its greatest",
            &text("a", two, "2147483647, 2147483647", "a = 1/0"),
            &[7],
            Ran::Fault(10, 4, i32::MAX),
        ),
        row(
            "v at its least",
            &text("a", two, "-2147483647, -2147483646", "a = 1/(i - i)"),
            &[7],
            Ran::Fault(10, 4, -i32::MAX),
        ),
        row(
            "the line in a block",
            &text(
                "a(4)",
                two,
                "1, 4",
                "if (i == 3) then\n! x\nif (i == 4) then\nelse\na(i) = 1/0\nend if\nend if",
            ),
            &[7; 4],
            Ran::Fault(10, 8, 3),
        ),
        row(
            "the line of an if",
            &text("a(4)", two, "1, 4", "\n\nif (a(2*i) == 1) then\nend if"),
            &[7; 4],
            Ran::Fault(9, 6, 3),
        ),
        row(
            "not reached (READING 38)",
            &text("a(4)", two, "1, 4", "if (i == 9) then\na(9) = 1/0\nend if"),
            &[7; 4],
            Ran::Passed(0, 0, vec![7; 4]),
        ),
        row(
            "only serially: speculation reads z as at entry",
            &text(
                "z, a(2)",
                "num_threads(2) lastprivate(z)",
                "1, 2",
                "a(i) = 10/z\nz = 0",
            ),
            &[5, 0, 0],
            Ran::Fault(10, 4, 2),
        ),
        row(
            "only in speculation: s is read as at entry; the counts are serial (READING 92)",
            &text(
                "s, a(2)",
                "num_threads(2) reduction(+:s)",
                "1, 2",
                "s = s + 1\na(s) = i",
            ),
            &[0, 0, 0],
            Ran::Rerun(4, 3, vec![2, 1, 2]),
        ),
        row(
            "only in speculation: z is 0 at entry",
            &text(
                "z, a(3)",
                "num_threads(3) lastprivate(z)",
                "1, 3",
                "if (i == 1) then\nz = 2\nend if\na(i) = 10/z",
            ),
            &[0; 4],
            Ran::Rerun(4, 4, vec![2, 5, 5, 5]),
        ),
        row(
            "the serially first, not the first in time",
            &text(
                "a(8)",
                "num_threads(8)",
                "1, 8",
                "a(i) = 1/((i - 6)*(i - 3))",
            ),
            &[7; 8],
            Ran::Fault(10, 4, 3),
        ),
    ]
}

fn other_rows() -> Vec<RunRow> {
    vec![
        row(
            "document 01: no iterations",
            &text("a", "num_threads(2)", "1, 0", "a = 1"),
            &[7],
            Ran::Passed(0, 0, vec![7]),
        ),
        row(
            "no iterations, far apart",
            &text("a", "num_threads(8)", "2147483647, -2147483647", "a = 1/0"),
            &[7],
            Ran::Passed(0, 0, vec![7]),
        ),
        row(
            "no statements",
            &text("a", "num_threads(8)", "1, 9", ""),
            &[7],
            Ran::Passed(0, 0, vec![7]),
        ),
        row(
            "up to the greatest number (READING 97)",
            &text("z", "num_threads(2) lastprivate(z)", "2147483646, 2147483647", "z = i"),
            &[7],
            Ran::Passed(2, 1, vec![i32::MAX]),
        ),
        row(
            "from the least",
            &text("z", "num_threads(2) lastprivate(z)", "-2147483647, -2147483646", "z = i"),
            &[7],
            Ran::Passed(2, 1, vec![-2147483646]),
        ),
        row(
            "65,535 iterations",
            &text("s", "num_threads(7) reduction(+:s)", "1, 65535", "s = s + i"),
            &[0],
            Ran::Passed(65535, 1, vec![2147450880]),
        ),
        row(
            "more processors than iterations",
            &text("a(3)", "num_threads(8)", "1, 3", "a(i) = i"),
            &[0; 3],
            Ran::Passed(3, 3, vec![1, 2, 3]),
        ),
        row(
            "data are no matter of Run",
            "integer a\ndata a /5/\n!$omp parallel do num_threads(1)\ndo i = 1, 1\na = a + 1\nend do",
            &[-9],
            Ran::Passed(1, 1, vec![-8]),
        ),
        row(
            "if without else, both ways",
            &text("a(4)", "num_threads(2)", "1, 4", "if (a(i) > 0) then\na(i) = -a(i)\nend if"),
            &[-1, 2, 0, 4],
            Ran::Passed(2, 2, vec![-1, -2, 0, -4]),
        ),
    ]
}
