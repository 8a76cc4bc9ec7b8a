//! RULES 3 and 4.5 (document 02, Point 6): "Add `reduction(*:list)` and `reduction(max:list)`. Product updates are `x = x * e`,
//! where the remainder has no +, - or / outside brackets. Maximum updates are `x = max(x, e)`. [...] Each name
//! has the update of its own clause only." What Run answers, and what Look shows.

use super::cases::Case;
use super::looks::{self, LookRow, Seen};
use super::runs::{text, Ran, RunRow};

/// What Run answers and leaves in the cells, under every schedule.
pub fn run_rows() -> Vec<RunRow> {
    let mut rows = product_rows();
    rows.extend(maximum_rows());
    rows.extend(form_rows());
    rows.extend(ordinary_rows());
    rows.extend(clause_rows());
    rows.extend(obstacle_rows());
    rows.extend(untouched_rows());
    rows.extend(together_rows());
    rows.extend(block_rows());
    rows.extend(deep_rows());
    rows.extend(fault_rows());
    rows
}

/// The numbers of processors: one, as many as there may be, and some between.
const PROCESSORS: [u32; 4] = [1, 2, 3, 8];

impl Case<'_> {
    /// For one, two, three and eight.
    fn on_all(&self, expected: &Ran) -> Vec<RunRow> {
        PROCESSORS
            .map(|processors| self.on(processors, expected.clone()))
            .to_vec()
    }
}

/// x alone, or with a and b.
const fn of_x<'c>(
    names: &'c str,
    clauses: &'c str,
    bounds: &'c str,
    body: &'c str,
    cells: &'c [i32],
) -> Case<'c> {
    Case {
        name: body,
        names,
        clauses,
        bounds,
        body,
        cells,
    }
}

const PRODUCT: &str = "reduction(*:x)";
const MAXIMUM: &str = "reduction(max:x)";
const SUM: &str = "reduction(+:x)";

const LEAST: i32 = i32::MIN;
const GREATEST: i32 = i32::MAX;

/// "Weights are multiplied": each partial result starts at 1, so what no iteration or processor gives is none.
fn product_rows() -> Vec<RunRow> {
    let x = |bounds, body, cells| of_x("x", PRODUCT, bounds, body, cells);
    let mut rows = Vec::new();
    for (case, pairs, after) in [
        (x("1, 5", "x = x * i", &[3]), 5, 360),
        (x("1, 5", "x = x * i", &[-1]), 5, -120),
        (x("1, 1", "x = x * 7", &[6]), 1, 42),
        (x("1, 3", "x = x * (-i)", &[2]), 3, -12),
        (x("1, 3", "x = x * (i - 2)", &[9]), 3, 0),
        (x("1, 3", "x = x * i", &[0]), 3, 0),
        (x("1, 4", "x = x * 1", &[LEAST]), 4, LEAST),
        // wrapping
        (x("1, 2", "x = x * 65536", &[1]), 2, 0),
        (x("1, 2", "x = x * 46341", &[1]), 2, -2147479015),
        (x("1, 2", "x = x * 2147483647", &[3]), 2, 3),
        (x("1, 3", "x = x * 2147483647", &[3]), 3, 2147483645),
        (x("1, 2", "x = x * 3", &[LEAST]), 2, LEAST),
        (x("1, 1", "x = x * 2", &[GREATEST]), 1, -2),
        (x("1, 1", "x = x * (-1)", &[LEAST]), 1, LEAST),
        (x("1, 31", "x = x * 2", &[1]), 31, LEAST),
        (x("1, 32", "x = x * 2", &[1]), 32, 0),
        (x("1, 40", "x = x * 3", &[1]), 40, THREES),
    ] {
        rows.extend(case.on_all(&Ran::Passed(pairs, 1, vec![after])));
    }
    rows
}

/// 3 multiplied forty times is 12,157,665,459,056,928,801, of which 32 bits are left.
const THREES: i32 = 689_956_897;

/// "peaks kept": each partial result starts at −2147483648, below which is nothing. An update counts as one
/// that writes also where the cell keeps its value.
fn maximum_rows() -> Vec<RunRow> {
    let values = |cells| of_x("x, a(3)", MAXIMUM, "1, 3", "x = max(x, a(i))", cells);
    let mut rows = Vec::new();
    for (cells, peak) in [
        (&[0, 4, 9, 2], 9),
        (&[0, 9, 4, 2], 9),
        (&[0, 2, 4, 9], 9),
        // negative values only
        (&[-5, -7, -3, -9], -3),
        (&[LEAST, -7, -3, -9], -3),
        (&[LEAST, LEAST, -GREATEST, LEAST], -GREATEST),
        (&[LEAST, LEAST, LEAST, LEAST], LEAST),
        // the entry value is the largest
        (&[50, 4, 9, 2], 50),
        (&[-2, -7, -3, -9], -2),
        (&[-2, LEAST, LEAST, LEAST], -2),
        (&[GREATEST, 4, 9, 2], GREATEST),
        (&[0, -7, -3, -9], 0),
        (&[9, 4, 9, 2], 9),
        (&[LEAST, 4, GREATEST, 2], GREATEST),
    ] {
        let mut after = cells.to_vec();
        after[0] = peak;
        rows.extend(values(cells).on_all(&Ran::Passed(3, 1, after)));
    }
    let fewer = of_x("x", MAXIMUM, "1, 2", "x = max(x, -i)", &[-9]);
    rows.extend(fewer.on_all(&Ran::Passed(2, 1, vec![-1])));
    rows
}

/// Right sides that are updates of x (3 at entry) in two iterations, with a = 7 and b = 2, and what x ends as.
const PRODUCTS: &[(&str, i32)] = &[
    ("x * a", 147),
    ("x * i", 6),
    ("x * 02", 12),
    ("x * a * b", 588),
    // "no +, - or / outside brackets" (P6.3)
    ("x * (a + b)", 243),
    ("x * (a - b)", 75),
    ("x * (a/b)", 27),
    ("x * (-a)", 147),
    ("x * (+a)", 147),
    ("x * (a + b) * b", 972),
    ("x * b * (a + b)", 972),
    ("x * (a/b) * (a - b)", 675),
    ("x * ((a + b) - (a/b))", 108),
    ("x * rdiv(a - 1, 1 + 1)", 27),
    ("x * rdiv(a, b)*2", 192),
    ("x * max(a - 9, -b)", 12),
    ("x * max(-a, b/2)", 3),
    ("x*a*max(a/b, b - a)*(b)", 5292),
];

const MAXIMA: &[(&str, i32)] = &[
    ("max(x, a)", 7),
    ("max(x, b)", 3),
    ("max(x, i)", 3),
    ("max(x, 05)", 5),
    // "any expression (a sign may begin it)" (P6.4)
    ("max(x, -a)", 3),
    ("max(x, +a)", 7),
    ("max(x, a + b)", 9),
    ("max(x, a - b*2)", 3),
    ("max(x, a*b)", 14),
    ("max(x, a/b*b)", 6),
    ("max(x, (a))", 7),
    ("max(x, max(a, b))", 7),
    ("max(x, max(b, -b))", 3),
    ("max(x, rdiv(a, b))", 4),
    ("max(x, -(-a - b))", 9),
];

const SUMS: &[(&str, i32)] = &[("x + a", 17), ("x - a", -11), ("x + max(a, b)", 17)];

/// What is multiplied by or compared with, and references the same token for token.
fn form_rows() -> Vec<RunRow> {
    let mut rows = Vec::new();
    for (clauses, rights) in [(PRODUCT, PRODUCTS), (MAXIMUM, MAXIMA), (SUM, SUMS)] {
        for (right, after) in rights {
            let body = format!("x = {right}");
            let case = of_x("x, a, b", clauses, "1, 2", &body, &[3, 7, 2]);
            rows.push(case.on(2, Ran::Passed(2, 1, vec![*after, 7, 2])));
        }
    }
    // a subscript, leading zeros and case (READING 62)
    for (clauses, body, cells, after) in [
        (PRODUCT, "x(1) = x(1) * 3", 1, [18, 5]),
        (PRODUCT, "x(01) = X( 001 )*3", 1, [18, 5]),
        (PRODUCT, "x(i) = x(i) * 3", 2, [6, 15]),
        (PRODUCT, "x(max(1, 2)) = x(max(1, 2)) * 3", 1, [2, 45]),
        (PRODUCT, "x(3 - i) = x(3-i)*i", 2, [4, 5]),
        (MAXIMUM, "x(1) = max(x(1), 3)", 1, [3, 5]),
        (MAXIMUM, "x(01) = MAX ( X( 001 ) , 3 )", 1, [3, 5]),
        (MAXIMUM, "x(i) = max(x(i), 3)", 2, [3, 5]),
        (MAXIMUM, "x(max(1, 2)) = max(x(max(1, 2)), 9)", 1, [2, 9]),
        (MAXIMUM, "x(3 - i) = max(x(3-i), 4*i)", 2, [8, 5]),
    ] {
        let case = of_x("x(2)", clauses, "1, 2", body, &[2, 5]);
        rows.push(case.on(2, Ran::Passed(2, cells, after.to_vec())));
    }
    rows
}

/// Right sides that are none of x's updates: in two iterations, from x = 5 with a = 7 and b = 2, what x ends
/// as.
const NO_PRODUCTS: &[(&str, i32)] = &[
    // P6.3
    ("x * a / b", 59),
    ("x * a + b", 261),
    ("x * a - b", 229),
    ("a * x", 245),
    ("(x) * a", 245),
    ("-x * a", 245),
    ("+x * a", 245),
    ("(x * a)", 245),
    ("x * a + 0", 245),
    ("x * (a) / 1", 245),
    ("x * a * b / b", 245),
    ("x / b", 1),
    ("x / b * a", 49),
    ("1 * x * a", 245),
    ("rdiv(x, 1) * a", 245),
    ("x", 5),
    // the updates of other clauses (P6.6)
    ("x + a", 19),
    ("x - a", -9),
    ("max(x, a)", 7),
];

const NO_MAXIMA: &[(&str, i32)] = &[
    // P6.4
    ("max(a, x)", 7),
    ("max((x), a)", 7),
    ("max(x + 0, a)", 7),
    ("max(x*1, a)", 7),
    ("max(+x, a)", 7),
    ("+max(x, a)", 7),
    ("-max(x, a)", -7),
    ("(max(x, a))", 7),
    ("max(x, a) + 0", 7),
    ("max(x, a) - b", 5),
    ("max(x, a)*b", 28),
    ("max(x, a)*(b)", 28),
    ("max(x, a)/b", 3),
    ("max(x, a) + (b)", 11),
    ("max(x, a) + max(x, b)", 24),
    ("0 + max(x, a)", 7),
    ("1*max(x, a)", 7),
    ("max(max(x, a), b)", 7),
    ("rdiv(max(x, a), 1)", 7),
    ("x", 5),
    // P6.6
    ("x + a", 19),
    ("x - a", -9),
    ("x * a", 245),
];

const NO_SUMS: &[(&str, i32)] = &[("x * a", 245), ("max(x, a)", 7), ("max(x, a) + b", 11)];

/// "any other form is an ordinary read and write": two iterations meet, one alone does not.
fn ordinary_rows() -> Vec<RunRow> {
    let mut rows = Vec::new();
    for (clauses, rights) in [(PRODUCT, NO_PRODUCTS), (MAXIMUM, NO_MAXIMA), (SUM, NO_SUMS)] {
        for (right, after) in rights {
            let body = format!("x = {right}");
            let case = of_x("x, a, b", clauses, "1, 2", &body, &[5, 7, 2]);
            rows.push(case.on(2, Ran::Rerun(2, 1, vec![*after, 7, 2])));
        }
    }
    for (clauses, right, after) in [
        (PRODUCT, "x * a / b", 17),
        (PRODUCT, "x * a + b", 37),
        (PRODUCT, "a * x", 35),
        (PRODUCT, "x + a", 12),
        (PRODUCT, "max(x, a)", 7),
        (MAXIMUM, "max(a, x)", 7),
        (MAXIMUM, "max(x, a) + 0", 7),
        (MAXIMUM, "x * a", 35),
        (MAXIMUM, "x - a", -2),
        (SUM, "x * a", 35),
        (SUM, "max(x, a)", 7),
    ] {
        let body = format!("x = {right}");
        let case = of_x("x, a, b", clauses, "1, 1", &body, &[5, 7, 2]);
        rows.push(case.on(2, Ran::Passed(1, 1, vec![after, 7, 2])));
    }
    // the same cell by other words (READING 62)
    for (clauses, body, after) in [
        (PRODUCT, "x(1) = x((1)) * 3", 18),
        (PRODUCT, "x(1) = x(+1) * 3", 18),
        (PRODUCT, "x(1) = x(1 + 0) * 3", 18),
        (MAXIMUM, "x(1) = max(x((1)), 3)", 3),
        (MAXIMUM, "x(1) = max(x(+1), 3)", 3),
        (MAXIMUM, "x(1) = max(x(max(1, 1)), 3)", 3),
    ] {
        let case = of_x("x(2)", clauses, "1, 2", body, &[2, 5]);
        rows.push(case.on(2, Ran::Rerun(2, 1, vec![after, 5])));
    }
    // names of no such clause have no updates (READING 64)
    for clauses in [
        "",
        "shared(x)",
        "lastprivate(x)",
        "firstprivate(x) lastprivate(x)",
    ] {
        for (body, after) in [("x = x * 3", 45), ("x = max(x, 3*i)", 6)] {
            let case = of_x("x", clauses, "1, 2", body, &[5]);
            rows.push(case.on(2, Ran::Rerun(2, 1, vec![after])));
        }
    }
    rows
}

/// The words of an update, and what they make of 5 in two iterations.
const WORDS: [(&str, &str, i32); 4] = [
    (SUM, "x = x + 3", 11),
    (SUM, "x = x - 3", -1),
    (PRODUCT, "x = x * 3", 45),
    (MAXIMUM, "x = max(x, 9)", 9),
];

/// "Each name has the update of its own clause only": every clause with the words of every clause, in two
/// iterations, and in one beside an update of its own.
fn clause_rows() -> Vec<RunRow> {
    let mut rows = Vec::new();
    for clauses in [SUM, PRODUCT, MAXIMUM] {
        for (own, body, after) in WORDS {
            let case = of_x("x", clauses, "1, 2", body, &[5]);
            let after = vec![after];
            rows.extend(case.on_all(&match own == clauses {
                true => Ran::Passed(2, 1, after),
                false => Ran::Rerun(2, 1, after),
            }));
        }
    }
    for (clauses, body, after) in [
        (SUM, "x = x + 2\nx = x * 3", 21),
        (SUM, "x = x - 2\nx = max(x, 9)", 9),
        (PRODUCT, "x = x * 2\nx = x + 3", 13),
        (PRODUCT, "x = x * 2\nx = x - 3", 7),
        (PRODUCT, "x = x * 2\nx = max(x, 9)", 10),
        (PRODUCT, "x = x - 3\nx = x * 2", 4),
        (MAXIMUM, "x = max(x, 9)\nx = x + 3", 12),
        (MAXIMUM, "x = max(x, 9)\nx = x - 3", 6),
        (MAXIMUM, "x = max(x, 9)\nx = x * 3", 27),
        (MAXIMUM, "x = x * 3\nx = max(x, 9)", 15),
    ] {
        let case = of_x("x", clauses, "1, 1", body, &[5]);
        rows.extend(case.on_all(&Ran::Rerun(1, 1, vec![after])));
    }
    for (clauses, body, after) in [
        (SUM, "x = x + 2\nx = x - 3", 4),
        (PRODUCT, "x = x * 2\nx = x * 3", 30),
        (MAXIMUM, "x = max(x, 9)\nx = max(x, 8)", 9),
    ] {
        let case = of_x("x", clauses, "1, 1", body, &[5]);
        rows.extend(case.on_all(&Ran::Passed(1, 1, vec![after])));
    }
    rows
}

/// "reduction: it has an update and an ordinary access, even in one iteration": whatever the operation (P6.7).
fn obstacle_rows() -> Vec<RunRow> {
    let mut rows = Vec::new();
    // The update, what it makes of 5 in one iteration, and in two.
    for (clauses, own, once, twice) in [
        (PRODUCT, "x = x * 3", 15, 45),
        (MAXIMUM, "x = max(x, 8)", 8, 8),
    ] {
        let x = |bounds, body| of_x("x, a", clauses, bounds, body, &[5, 0]);
        let read = format!("{own}\na = x");
        let read_first = format!("a = x\n{own}");
        let read_elsewhere = format!("if (i == 1) then\n{own}\nelse\na = x\nend if");
        let read_earlier = format!("if (i == 2) then\n{own}\nelse\na = x\nend if");
        let written = format!("{own}\nx = 3");
        let written_elsewhere = format!("if (i == 1) then\n{own}\nelse\nx = 3\nend if");
        let tested = format!("if (x > 0) then\n{own}\nend if");
        rows.extend([
            x("1, 1", &read).on(2, Ran::Rerun(2, 2, vec![once, once])),
            x("1, 1", &read_first).on(2, Ran::Rerun(2, 2, vec![once, 5])),
            x("1, 2", &read).on(2, Ran::Rerun(4, 2, vec![twice, twice])),
            x("1, 2", &read_elsewhere).on(2, Ran::Rerun(2, 2, vec![once, once])),
            x("1, 2", &read_earlier).on(2, Ran::Rerun(2, 2, vec![once, 5])),
            x("1, 1", &written).on(2, Ran::Rerun(1, 1, vec![3, 0])),
            x("1, 2", &written_elsewhere).on(2, Ran::Rerun(2, 1, vec![3, 0])),
            x("1, 1", &tested).on(2, Ran::Rerun(1, 1, vec![once, 0])),
            // ordinary accesses alone (READING 84)
            x("1, 3", "x = i").on(2, Ran::Passed(3, 1, vec![3, 0])),
            x("1, 1", "a = x").on(2, Ran::Passed(1, 1, vec![5, 5])),
            x("1, 3", "if (i == 1) then\nx = 4\nend if").on(2, Ran::Passed(1, 1, vec![4, 0])),
        ]);
    }
    // The remainder or the subscript reads the cell (READING 65).
    for (clauses, body, after) in [
        (PRODUCT, "x = x * x", 25),
        (PRODUCT, "x = x * (x + 1)", 30),
        (PRODUCT, "x = x * 2 * x", 50),
        (MAXIMUM, "x = max(x, x)", 5),
        (MAXIMUM, "x = max(x, x + 1)", 6),
        (MAXIMUM, "x = max(x, (x))", 5),
    ] {
        let case = of_x("x", clauses, "1, 1", body, &[5]);
        rows.push(case.on(2, Ran::Rerun(1, 1, vec![after])));
    }
    let product = "x(x(1)) = x(x(1)) * 3";
    let maximum = "x(x(1)) = max(x(x(1)), 9)";
    let x = |clauses, bounds, body, cells| of_x("x(2)", clauses, bounds, body, cells);
    rows.extend([
        x(PRODUCT, "1, 1", product, &[1, 4]).on(2, Ran::Rerun(1, 1, vec![3, 4])),
        x(PRODUCT, "1, 2", product, &[2, 4]).on(2, Ran::Passed(2, 1, vec![2, 36])),
        x(MAXIMUM, "1, 1", maximum, &[1, 4]).on(2, Ran::Rerun(1, 1, vec![9, 4])),
        x(MAXIMUM, "1, 2", maximum, &[2, 4]).on(2, Ran::Passed(2, 1, vec![2, 9])),
    ]);
    rows
}

/// "a cell without updates is not touched" (P6.7), also where all processors, or some, have nothing to give.
fn untouched_rows() -> Vec<RunRow> {
    let mut rows = Vec::new();
    for (clauses, right, after) in [
        (PRODUCT, "x(2) * 3", 18),
        (MAXIMUM, "max(x(2), 3)", 3),
        (SUM, "x(2) + 3", 8),
    ] {
        let body = format!("if (i < 3) then\nx(2) = {right}\nend if");
        let case = of_x("x(3)", clauses, "1, 8", &body, &[LEAST, 2, GREATEST]);
        rows.extend(case.on_all(&Ran::Passed(2, 1, vec![LEAST, after, GREATEST])));
        let never = format!("if (i > 8) then\nx(2) = {right}\nend if");
        let case = of_x("x(3)", clauses, "1, 8", &never, &[LEAST, 0, GREATEST]);
        rows.push(case.on(2, Ran::Passed(0, 0, vec![LEAST, 0, GREATEST])));
        let none = format!("x(2) = {right}");
        let case = of_x("x(3)", clauses, "1, 0", &none, &[-7, 0, 7]);
        rows.push(case.on(2, Ran::Passed(0, 0, vec![-7, 0, 7])));
        // One cell is only written, the others are not touched.
        let written = "if (i == 4) then\nx(1) = i\nend if";
        let case = of_x("x(3)", clauses, "1, 8", written, &[9, -9, LEAST]);
        rows.push(case.on(2, Ran::Passed(1, 1, vec![4, -9, LEAST])));
    }
    rows
}

/// All three operations in one text, by names and by cells.
fn together_rows() -> Vec<RunRow> {
    let body = "s = s + a(i)\np = p * a(i)\nm = max(m, a(i))";
    let cells = &[10, 1, -5, 3, -2, 4, -1];
    let after = || vec![14, 24, 4, 3, -2, 4, -1];
    let named = |clauses| of_x("s, p, m, a(4)", clauses, "1, 4", body, cells);
    let mut rows = Vec::new();
    for clauses in [
        "reduction(+:s) reduction(*:p) reduction(max:m)",
        "reduction(max:m) reduction(*:p) reduction(+:s)",
        "reduction(*:p) shared(a) reduction(max:m) reduction(+:s)",
        "REDUCTION(MAX:M) Reduction(*:P)reduction ( + : s )",
    ] {
        rows.extend(named(clauses).on_all(&Ran::Passed(12, 3, after())));
    }
    // Each name in another's clause, or one of them in none.
    for clauses in [
        "reduction(+:p) reduction(*:m) reduction(max:s)",
        "reduction(+:m) reduction(*:s) reduction(max:p)",
        "reduction(+:s, p) reduction(max:m)",
        "reduction(*:p, m) reduction(+:s)",
        "reduction(max:s, p, m)",
        "reduction(+:s) reduction(max:m)",
        "reduction(+:s) reduction(*:p) lastprivate(m)",
    ] {
        rows.push(named(clauses).on(2, Ran::Rerun(12, 3, after())));
    }
    // Several names of one operation, in one clause or two.
    let two = "x = x * i\ny = y * 2";
    for clauses in ["reduction(*:x, y)", "reduction(*:x) reduction(*:y)"] {
        let case = of_x("x, y", clauses, "1, 4", two, &[1, 3]);
        rows.push(case.on(2, Ran::Passed(8, 2, vec![24, 48])));
    }
    let two = "x = max(x, i)\ny = max(y, -i)";
    for clauses in ["reduction(max:y, x)", "reduction(max:x) reduction(max:y)"] {
        let case = of_x("x, y", clauses, "1, 4", two, &[1, -3]);
        rows.push(case.on(2, Ran::Passed(8, 2, vec![4, -1])));
    }
    // Cells chosen by numbers: 1, 2, 1, 2, each with its own partial result.
    let places = "p(k(i)) = p(k(i)) * w(i)\nm(k(i)) = max(m(k(i)), w(i))";
    let case = of_x(
        "p(3), m(3), k(4), w(4)",
        "reduction(*:p) reduction(max:m)",
        "1, 4",
        places,
        &[1, 2, 3, -9, -9, -9, 1, 2, 1, 2, 5, -3, 7, -4],
    );
    let after = vec![35, 24, 3, 7, -3, -9, 1, 2, 1, 2, 5, -3, 7, -4];
    rows.extend(case.on_all(&Ran::Passed(8, 4, after)));
    // A peak of old values, which the last iteration overwrites (Point 5).
    let case = of_x(
        "m, p, z",
        "reduction(max:m) reduction(*:p) firstprivate(z) lastprivate(z)",
        "1, 3",
        "m = max(m, z - i)\np = p * z\nif (i == 3) then\nz = 0\nend if",
        &[-9, 1, 5],
    );
    rows.push(case.on(2, Ran::Passed(7, 3, vec![4, 125, 0])));
    // What a maximum is worked out from is a name's own clause's matter.
    let case = of_x(
        "s, m",
        "reduction(+:s) reduction(max:m)",
        "1, 3",
        "s = s + max(i, 2)\nm = max(m, s)",
        &[0, 0],
    );
    rows.push(case.on(2, Ran::Rerun(6, 2, vec![7, 7])));
    rows
}

/// With Point 3's clause: an update and an ordinary access are an obstacle in one block too (P3.8). P = 2 has
/// 1, 2 | 3, 4.
fn block_rows() -> Vec<RunRow> {
    let mut rows = Vec::new();
    for (clauses, own, once, all) in [
        ("schedule(static) reduction(*:x)", "x = x * 3", 15, 405),
        ("reduction(max:x) schedule(static)", "x = max(x, 8)", 8, 8),
    ] {
        let x = |body| of_x("x, a(4)", clauses, "1, 4", body, &[5, 0, 0, 0, 0]);
        let with_x = |value| vec![value, 0, 0, 0, 0];
        rows.extend(x(own).on_all(&Ran::Passed(4, 1, with_x(all))));
        let read_next =
            format!("if (i == 3) then\n{own}\nend if\nif (i == 4) then\na(4) = x\nend if");
        let after = vec![once, 0, 0, 0, once];
        rows.extend(x(&read_next).on_all(&Ran::Rerun(2, 2, after)));
        let written_before = format!("if (i == 1) then\nx = 5\nelse\n{own}\nend if");
        let after = if once == 15 { 135 } else { 8 };
        rows.extend(x(&written_before).on_all(&Ran::Rerun(4, 1, with_x(after))));
        let in_one = format!("if (i == 2) then\n{own}\na(2) = x\nend if");
        let after = vec![once, 0, once, 0, 0];
        rows.extend(x(&in_one).on_all(&Ran::Rerun(2, 2, after)));
        // ordinary accesses that one block hands on
        let handed_on = x("a(i) = x\nx = 10*i");
        let after = || vec![40, 5, 10, 20, 30];
        rows.extend([
            handed_on.on(1, Ran::Passed(8, 5, after())),
            handed_on.on(2, Ran::Rerun(8, 5, after())),
        ]);
    }
    for (clauses, body, after) in [
        ("schedule(static) reduction(*:x)", "x = i * x", 120),
        ("schedule(static) reduction(*:x)", "x = x + i", 15),
        ("schedule(static) reduction(max:x)", "x = max(i, x)", 5),
        ("schedule(static) reduction(max:x)", "x = x * i", 120),
        ("schedule(static) reduction(+:x)", "x = x * i", 120),
    ] {
        let case = of_x("x", clauses, "1, 4", body, &[5]);
        rows.push(case.on(1, Ran::Passed(4, 1, vec![after])));
        rows.push(case.on(2, Ran::Rerun(4, 1, vec![after])));
    }
    rows
}

/// "max waits as rdiv does" (P6.9): in as many brackets as there may be, each with a sum's left, a product's left
/// and the left argument waiting. From 1 + 2 × 3 on, each of them makes 2 y + 1 of y.
fn deep_rows() -> Vec<RunRow> {
    let nested = |times: usize| {
        let open = "1 + 2*max(1, ".repeat(times);
        format!("{open}1 + 2*3{}", ")".repeat(times))
    };
    let [six, seven, eight] = [6, 7, 8].map(nested);
    let mut rows = Vec::new();
    for (clauses, body, after) in [
        ("", format!("x = {eight}"), 2047),
        ("", format!("if (5 < {eight}) then\nx = 4\nend if"), 4),
        ("", format!("x = a(2*3 - 1*max(1, {six}) + 506)"), 9),
        (SUM, format!("x = x + {eight}"), 2052),
        (SUM, format!("x = x - 1 - ({seven})"), -1019),
        (PRODUCT, format!("x = x*({seven})"), 5115),
        (PRODUCT, format!("x = x*2*max(1, {seven})"), 10230),
        (MAXIMUM, format!("x = max(x, {seven})"), 1023),
    ] {
        let case = of_x("x, a(1)", clauses, "1, 1", &body, &[5, 9]);
        rows.push(case.on(1, Ran::Passed(1, 1, vec![after, 9])));
    }
    rows
}

/// "Order as for +: subscripts with their tests, remainder, one access; x itself is not read" (P6.5): a
/// statement on line 4, where s is 6 and a is 1, 2, 3, 4, all in one clause, and its fault.
const PRODUCT_FAULTS: &[(&str, u32)] = &[
    ("a(9) = a(9)*(1/0)", 9),
    ("a(0) = a(0)*(1/0)", 9),
    ("a(1/0) = a(1/0)*a(9)", 10),
    ("a(1/0) = a(1/0)*2", 10),
    ("a(a(9)) = a(a(9))*(1/0)", 9),
    ("a(max(4, 5)) = a(max(4, 5))*2", 9),
    ("s = s*(1/0)", 10),
    ("s = s*a(9)", 9),
    ("s = s*0*a(9)", 9),
    ("s = s*a(9)*(1/0)", 9),
    ("s = s*(1/0)*a(9)", 10),
    ("a(1) = a(1)*rdiv(a(9), 0)", 9),
    ("a(1) = a(1)*max(1/0, a(9))", 10),
    // ordinary: the right side first
    ("a(9) = (1/0)*a(9)", 10),
    ("a(9) = a(1)*(1/0)", 10),
    ("a(9) = a(9)*1/0", 9),
    ("a(9) = a(1)*2", 9),
    ("a(9) = 2*a(1)/0", 10),
    ("a(1/0) = a(9)*2", 9),
];

const MAXIMUM_FAULTS: &[(&str, u32)] = &[
    ("a(9) = max(a(9), 1/0)", 9),
    ("a(0) = max(a(0), 1/0)", 9),
    ("a(1/0) = max(a(1/0), a(9))", 10),
    ("a(1/0) = max(a(1/0), 2)", 10),
    ("a(a(9)) = max(a(a(9)), 1/0)", 9),
    ("a(max(4, 5)) = max(a(max(4, 5)), 2)", 9),
    ("s = max(s, 1/0)", 10),
    ("s = max(s, a(9))", 9),
    ("s = max(s, a(9)/0)", 9),
    ("s = max(s, 1/0 + a(9))", 10),
    ("a(1) = max(a(1), max(a(9), 1/0))", 9),
    ("a(1) = max(a(1), max(1/0, a(9)))", 10),
    // ordinary: the right side first, from the left
    ("a(9) = max(1/0, a(9))", 10),
    ("a(9) = max(1, 1/0)", 10),
    ("a(9) = max((a(9)), 1/0)", 9),
    ("a(9) = max(a(1), 1/0)", 10),
    ("a(9) = max(a(1), 2)", 9),
    ("a(9) = max(1, 2)/0", 10),
    ("a(1/0) = max(a(9), 2)", 9),
];

fn fault_rows() -> Vec<RunRow> {
    let mut rows = Vec::new();
    for (clauses, faults) in [
        ("reduction(*:s, a)", PRODUCT_FAULTS),
        ("reduction(max:s, a)", MAXIMUM_FAULTS),
    ] {
        for (line, number) in faults {
            let case = of_x("s, a(4)", clauses, "1, 1", line, &[6, 1, 2, 3, 4]);
            rows.push(case.on(1, Ran::Fault(*number, 4, 1)));
        }
    }
    let of_iterations = |clauses, body| of_x("x, a(3)", clauses, "1, 4", body, &[2, 1, 1, 1]);
    rows.extend([
        of_iterations(PRODUCT, "x = x * a(i)").on(2, Ran::Fault(9, 4, 4)),
        of_iterations(PRODUCT, "x = x * (6/(i - 3))").on(2, Ran::Fault(10, 4, 3)),
        of_iterations(MAXIMUM, "x = max(x, a(i))").on(2, Ran::Fault(9, 4, 4)),
        of_iterations(MAXIMUM, "x = max(x, 6/(i - 3))").on(2, Ran::Fault(10, 4, 3)),
        // Only serially: speculation reads x as at entry.
        of_iterations(PRODUCT, "a(x) = i\nx = x * 2").on(2, Ran::Fault(9, 4, 2)),
        of_iterations(MAXIMUM, "a(x) = i\nx = max(x, 2*i)").on(2, Ran::Fault(9, 4, 3)),
    ]);
    // Only in speculation; the counts are serial (READING 92).
    rows.extend([
        of_x(
            "x, a(2)",
            MAXIMUM,
            "1, 2",
            "x = max(x, i)\na(x) = i",
            &[0, 0, 0],
        )
        .on(2, Ran::Rerun(4, 3, vec![2, 1, 2])),
        of_x(
            "x, a(2)",
            PRODUCT,
            "1, 2",
            "x = x * (-1)\nif (i == 1) then\na(x) = 7\nend if",
            &[-1, 0, 0],
        )
        .on(2, Ran::Rerun(3, 2, vec![-1, 7, 0])),
    ]);
    rows
}

/// Assignments where s and a are in one clause, s being 6, a 1, 2, 3, 4 and i 1, and the marks they leave on s
/// and a. An update alone leaves 8, a read and write 5.
const PRODUCT_MARKS: &[(&str, [u32; 5])] = &[
    ("s=s*2", [8, 0, 0, 0, 0]),
    ("S = s * 2", [8, 0, 0, 0, 0]),
    ("s=s*(1+2)", [8, 0, 0, 0, 0]),
    ("s = s * a(1) * a(2)", [8, 2, 2, 0, 0]),
    ("s = s * (a(1) + a(2)) * a(3)", [8, 2, 2, 2, 0]),
    ("s = s * (a(1) / a(2))", [8, 2, 2, 0, 0]),
    ("s = s * rdiv(a(1) - 1, a(2) + 1)", [8, 2, 2, 0, 0]),
    ("s = s * max(a(1) - 1, -a(2))", [8, 2, 2, 0, 0]),
    ("s = s * a(1 + 1)", [8, 0, 2, 0, 0]),
    ("s = s * s", [10, 0, 0, 0, 0]),
    ("s = s * (s)", [10, 0, 0, 0, 0]),
    ("s = s * 2 * s", [10, 0, 0, 0, 0]),
    ("s = s * a(s - 5)", [10, 2, 0, 0, 0]),
    ("a(i)=A( I )*2", [0, 8, 0, 0, 0]),
    ("a(01)=A( 1 )*2", [0, 8, 0, 0, 0]),
    ("a(rdiv(4,2))=a(rdiv(4,2))*2", [0, 0, 8, 0, 0]),
    ("a(max(1,2))=a(max(1,2))*2", [0, 0, 8, 0, 0]),
    ("a(a(2))=a(a(2))*2", [0, 0, 10, 0, 0]),
    ("a(a(1)+a(1))=a(a(1)+a(1))*3", [0, 2, 8, 0, 0]),
    ("a(1)=a(1)*a(1)", [0, 10, 0, 0, 0]),
    // no updates (P6.3)
    ("s=s*a(1)/a(2)", [5, 2, 2, 0, 0]),
    ("s=s*a(1)+a(2)", [5, 2, 2, 0, 0]),
    ("s=s*a(1)-a(2)", [5, 2, 2, 0, 0]),
    ("s=a(1)*s", [5, 2, 0, 0, 0]),
    ("s=(s)*a(1)", [5, 2, 0, 0, 0]),
    ("s=-s*a(1)", [5, 2, 0, 0, 0]),
    ("s=+s*a(1)", [5, 2, 0, 0, 0]),
    ("s=(s*a(1))", [5, 2, 0, 0, 0]),
    ("s=s*2+0", [5, 0, 0, 0, 0]),
    ("s=s/2", [5, 0, 0, 0, 0]),
    ("s=1*s*2", [5, 0, 0, 0, 0]),
    ("s=s", [5, 0, 0, 0, 0]),
    ("s=rdiv(s,1)*2", [5, 0, 0, 0, 0]),
    ("a(1)=a(i)*2", [0, 5, 0, 0, 0]),
    ("a(1)=a((1))*2", [0, 5, 0, 0, 0]),
    ("a(1)=a(1+0)*2", [0, 5, 0, 0, 0]),
    ("a(2)=a(1)*2", [0, 2, 1, 0, 0]),
    ("a(1)=s*2", [2, 1, 0, 0, 0]),
    // the updates of other clauses (P6.6)
    ("s=s+1", [5, 0, 0, 0, 0]),
    ("s=s-1", [5, 0, 0, 0, 0]),
    ("s=max(s,1)", [5, 0, 0, 0, 0]),
    // faults (P6.5)
    ("s=s*(1/0)", [0, 0, 0, 0, 0]),
    ("s=s*(a(1)/0)", [0, 2, 0, 0, 0]),
    ("a(9)=a(9)*s", [0, 0, 0, 0, 0]),
    ("a(a(1)+8)=a(a(1)+8)*s", [0, 2, 0, 0, 0]),
    ("a(9)=s*2", [2, 0, 0, 0, 0]),
];

const MAXIMUM_MARKS: &[(&str, [u32; 5])] = &[
    ("s=max(s,1)", [8, 0, 0, 0, 0]),
    ("S = MAX ( s , 1 )", [8, 0, 0, 0, 0]),
    ("s=max(s,-1)", [8, 0, 0, 0, 0]),
    ("s=max(s,+1)", [8, 0, 0, 0, 0]),
    ("s=max(s,(1))", [8, 0, 0, 0, 0]),
    ("s=max(s,a(1)-a(2)/2)", [8, 2, 2, 0, 0]),
    ("s=max(s,-a(1)*a(2)+a(3))", [8, 2, 2, 2, 0]),
    ("s=max(s,max(a(1),a(2)))", [8, 2, 2, 0, 0]),
    ("s=max(s,s)", [10, 0, 0, 0, 0]),
    ("s=max(s,(s))", [10, 0, 0, 0, 0]),
    ("s=max(s,1+s)", [10, 0, 0, 0, 0]),
    ("a(i)=max(A( I ),2)", [0, 8, 0, 0, 0]),
    ("a(01)=max(a(1),2)", [0, 8, 0, 0, 0]),
    ("a(rdiv(4,2))=max(a(rdiv(4,2)),2)", [0, 0, 8, 0, 0]),
    ("a(max(1,2))=max(a(max(1,2)),3)", [0, 0, 8, 0, 0]),
    ("a(a(2))=max(a(a(2)),2)", [0, 0, 10, 0, 0]),
    ("a(a(1)+a(1))=max(a(a(1)+a(1)),1)", [0, 2, 8, 0, 0]),
    ("a(1)=max(a(1),a(1))", [0, 10, 0, 0, 0]),
    // no updates (P6.4)
    ("s=max(1,s)", [5, 0, 0, 0, 0]),
    ("s=max((s),1)", [5, 0, 0, 0, 0]),
    ("s=max(s+0,1)", [5, 0, 0, 0, 0]),
    ("s=max(s*1,1)", [5, 0, 0, 0, 0]),
    ("s=max(+s,1)", [5, 0, 0, 0, 0]),
    ("s=+max(s,1)", [5, 0, 0, 0, 0]),
    ("s=-max(s,1)", [5, 0, 0, 0, 0]),
    ("s=(max(s,1))", [5, 0, 0, 0, 0]),
    ("s=max(s,1)+0", [5, 0, 0, 0, 0]),
    ("s=max(s,1)*1", [5, 0, 0, 0, 0]),
    ("s=max(s,1)*(1)", [5, 0, 0, 0, 0]),
    ("s=max(s,1)+max(s,1)", [5, 0, 0, 0, 0]),
    ("s=1*max(s,1)", [5, 0, 0, 0, 0]),
    ("s=max(max(s,1),1)", [5, 0, 0, 0, 0]),
    ("s=rdiv(max(s,1),1)", [5, 0, 0, 0, 0]),
    ("s=s", [5, 0, 0, 0, 0]),
    ("a(1)=max(a(i),2)", [0, 5, 0, 0, 0]),
    ("a(1)=max(a((1)),2)", [0, 5, 0, 0, 0]),
    ("a(1)=max(a(1+0),2)", [0, 5, 0, 0, 0]),
    ("a(2)=max(a(1),2)", [0, 2, 1, 0, 0]),
    ("a(1)=max(s,2)", [2, 1, 0, 0, 0]),
    ("s=max(a(1),a(2))", [1, 2, 2, 0, 0]),
    // P6.6
    ("s=s+1", [5, 0, 0, 0, 0]),
    ("s=s-1", [5, 0, 0, 0, 0]),
    ("s=s*2", [5, 0, 0, 0, 0]),
    // faults (P6.5)
    ("s=max(s,1/0)", [0, 0, 0, 0, 0]),
    ("s=max(s,a(1)/0)", [0, 2, 0, 0, 0]),
    ("a(9)=max(a(9),s)", [0, 0, 0, 0, 0]),
    ("a(a(1)+8)=max(a(a(1)+8),s)", [0, 2, 0, 0, 0]),
    ("a(9)=max(s,2)", [2, 0, 0, 0, 0]),
];

const SUM_MARKS: &[(&str, [u32; 5])] = &[
    ("s=s+max(a(1),a(2))", [8, 2, 2, 0, 0]),
    ("s=s-max(s,1)", [10, 0, 0, 0, 0]),
    ("s=s*2", [5, 0, 0, 0, 0]),
    ("s=max(s,1)", [5, 0, 0, 0, 0]),
    ("s=max(s,1)+1", [5, 0, 0, 0, 0]),
];

const NO_CLAUSE_MARKS: &[(&str, [u32; 5])] = &[
    ("s=s*2", [5, 0, 0, 0, 0]),
    ("s=max(s,1)", [5, 0, 0, 0, 0]),
    ("a(01)=max(a(1),2)", [0, 5, 0, 0, 0]),
];

/// What Look shows.
pub fn look_rows() -> Vec<LookRow> {
    let mut rows = Vec::new();
    let lent = [6, 1, 2, 3, 4];
    for (clauses, marks) in [
        ("reduction(*:s, a)", PRODUCT_MARKS),
        ("reduction(max:s, a)", MAXIMUM_MARKS),
        ("reduction(+:s, a)", SUM_MARKS),
        ("lastprivate(s, a)", NO_CLAUSE_MARKS),
    ] {
        for (statement, marks) in marks {
            let clauses = format!("num_threads(1) {clauses}");
            let text = text("s, a(4)", &clauses, "1, 1", statement);
            // READING 90: the values shown are those at entry.
            let view: Vec<_> = lent.iter().copied().zip(marks.iter().copied()).collect();
            let name = format!("{clauses}: {statement}");
            rows.push(looks::row(&name, &text, &lent, &[0; 20], &view));
        }
    }
    let mut add = |name: &str, (clauses, bounds, body): Loop, cells: &[i32], looks: &[Seen]| {
        let text = text("s, t, k(2)", clauses, bounds, body);
        for (schedule, view) in looks {
            rows.push(looks::row(name, &text, cells, schedule, view));
        }
    };
    add_orders(&mut add);
    add_unseen(&mut add);
    rows
}

/// The number of processors and other clauses, the bounds and the body.
type Loop<'l> = (&'l str, &'l str, &'l str);
type Add<'a> = dyn FnMut(&str, Loop, &[i32], &[Seen]) + 'a;

/// "subscripts with their tests, remainder, one access": one step after another.
fn add_orders(add: &mut Add) {
    for (clauses, body) in [
        ("num_threads(1) reduction(*:k)", "k(s) = k(s) * t"),
        ("num_threads(1) reduction(max:k)", "k(s) = max(k(s), t)"),
    ] {
        add(
            "the subscript, then the remainder, then the update",
            (clauses, "1, 1", body),
            &[2, 7, 3, 4],
            &[
                (&[], &[(2, 0), (7, 0), (3, 0), (4, 0)]),
                (&[0], &[(2, 2), (7, 0), (3, 0), (4, 0)]),
                (&[0; 2], &[(2, 2), (7, 2), (3, 0), (4, 0)]),
                (&[0; 3], &[(2, 2), (7, 2), (3, 0), (4, 8)]),
                (&[0; 4], &[(2, 2), (7, 2), (3, 0), (4, 8)]),
            ],
        );
        add(
            "the subscript is outside: no remainder and no update",
            (clauses, "1, 1", body),
            &[3, 7, 3, 4],
            &[
                (&[0], &[(3, 2), (7, 0), (3, 0), (4, 0)]),
                (&[0; 9], &[(3, 2), (7, 0), (3, 0), (4, 0)]),
            ],
        );
    }
    add(
        "max: the left argument first",
        (
            "num_threads(1) lastprivate(t)",
            "1, 1",
            "t = max(k(2), k(1)) - s",
        ),
        &[5, 7, 3, 4],
        &[
            (&[0], &[(5, 0), (7, 0), (3, 0), (4, 2)]),
            (&[0; 2], &[(5, 0), (7, 0), (3, 2), (4, 2)]),
            (&[0; 3], &[(5, 2), (7, 0), (3, 2), (4, 2)]),
            (&[0; 4], &[(5, 2), (7, 1), (3, 2), (4, 2)]),
        ],
    );
}

/// Partial results are not seen: the shared value stays, and a read gives the entry value (READING 74).
fn add_unseen(add: &mut Add) {
    for (clauses, own) in [
        ("reduction(*:s)", "s = s * 3"),
        ("reduction(max:s)", "s = max(s, 9)"),
    ] {
        let then_read = format!("{own}\nt = s");
        let one = format!("num_threads(1) {clauses}");
        add(
            "updated, then read as at entry",
            (&one, "1, 1", &then_read),
            &[5, 0, 1, 1],
            &[
                (&[0], &[(5, 8), (0, 0), (1, 0), (1, 0)]),
                (&[0; 2], &[(5, 10), (0, 0), (1, 0), (1, 0)]),
                (&[0; 3], &[(5, 10), (5, 1), (1, 0), (1, 0)]),
            ],
        );
        let then_written = format!("{own}\ns = t - s");
        add(
            "updated, read, written",
            (&one, "1, 1", &then_written),
            &[5, 0, 1, 1],
            &[
                (&[0; 2], &[(5, 8), (0, 2), (1, 0), (1, 0)]),
                (&[0; 3], &[(5, 10), (0, 2), (1, 0), (1, 0)]),
                (&[0; 4], &[(5, 13), (0, 2), (1, 0), (1, 0)]),
            ],
        );
        let read_next = format!("if (i == 1) then\n{own}\nelse\nt = s\nend if");
        let block = format!("{one} schedule(static)");
        for clauses in [&one, &block] {
            add(
                "updated in one iteration, read in the next, by iterations and in one block",
                (clauses, "1, 2", &read_next),
                &[5, 0, 1, 1],
                &[
                    (&[0; 2], &[(5, 8), (0, 0), (1, 0), (1, 0)]),
                    (&[0; 3], &[(5, 10), (0, 0), (1, 0), (1, 0)]),
                    (&[0; 4], &[(5, 10), (5, 1), (1, 0), (1, 0)]),
                ],
            );
        }
        let two = format!("num_threads(2) {clauses}");
        add(
            "updated by two processors",
            (&two, "1, 2", own),
            &[5, 0, 1, 1],
            &[
                (&[1], &[(5, 8), (0, 0), (1, 0), (1, 0)]),
                (&[1, 0], &[(5, 8), (0, 0), (1, 0), (1, 0)]),
                (&[1, 0, 1, 0, 0], &[(5, 8), (0, 0), (1, 0), (1, 0)]),
            ],
        );
    }
}
