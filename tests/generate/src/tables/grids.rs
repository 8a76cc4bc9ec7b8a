//! Grids (document 02, Point 9): texts, runs, views, plans, and the two services that rearrange one, Rows and Columns.
//! Declarations stand in `declarations`, brackets in `limits`, Name's rows in `names`, printed forms in `forms` and
//! `pairs`, what the program prints in `prints`, and what is lent to Load, Look and Run in `arguments`.

use super::cases::Case;
use super::data::LoadRow;
use super::looks::{self, LookRow, Seen};
use super::plans::{fault, planned, PlanRow};
use super::runs::{self, text, Ran, RunRow};
use super::TextRow;

// Texts -----------------------------------------------------------------------------------------------------------

/// A line of the body on line 4 of a text that is good otherwise, in which s is one cell, a an array of four, g a grid of
/// two rows and three columns, and v is i. N is 11.
const HEAD: &str = "integer s, a(4), g(2, 3)\n!$omp parallel do num_threads(2)\ndo i = 1, 2";

fn framed(line: &str) -> String {
    format!("{HEAD}\n{line}\nend do\n")
}

/// An `if` is closed on line 5.
fn framed_if(line: &str) -> String {
    format!("{HEAD}\n{line}\nend if\nend do\n")
}

/// "cells `a(e, f)`"
const GOOD: &[&str] = &[
    "g(1, 1) = 1",
    "G(I,2)=A(I)",
    "  g ( 1 , 2 )  =  3 ",
    "s = g(2, 3)",
    "s = g(1,1)+g(2,2)*g(i,3)-g(2,1)/g(1,2)",
    "g(g(1, 1), g(2, 3)) = g(g(1, 2), 1)",
    "g(a(1), a(2)) = 1",
    "a(g(1, 1)) = 2",
    "a(a(g(a(1), i))) = 2",
    "s = g(rdiv(1, 2), max(1, 2))",
    "s = rdiv(g(1, 1), g(2, 2))",
    "s = max(g(1, 1), g(2, 1))",
    "g(1, 1) = max(g(1, 1), 2)",
    "g(i, i) = g(i, i)*2",
    "s = -g(1, 1)",
    "s = (g(1, 1))",
    "g((1), (2)) = 1",
    // signs: a subscript is an expression (READING 54)
    "s = g(-1 + 2, +1)",
    "g(-i, -i) = -i",
    // READING 38
    "s = g(9, 9)",
    "g(0, 0) = 1",
    "s = g(1/0, 1)",
    "s = g(1, 1/0)",
    "s = g(2147483647, 2147483647)",
    // READING 19
    "s = g(0001, 0000000000000000000000000000002)",
];

const GOOD_IFS: &[&str] = &[
    "if (g(1, 2) == g(2, 1)) then",
    "IF(G(1,1)<=G(I,I))THEN",
    "if (1 /= g(g(1, 1), 1)) then",
];

/// Number 2.
const BROKEN: &[&str] = &[
    // P9.3: `g()`, `g(1,)` and what else is no list of expressions
    "s = g()",
    "g() = 1",
    "s = g(1,)",
    "g(1,) = 1",
    "s = g(,1)",
    "g(,1) = 1",
    "s = g(,)",
    "s = g(1,,2)",
    "s = g(1, 2",
    "s = g(1, 2))",
    "s = (g(1, 2)",
    "s = g 1, 2",
    "s = g 1, 2)",
    "s = g, 2",
    "s = g(1 2)",
    "s = g(1; 2)",
    "s = g(1: 2)",
    "s = g(1, 1:2)",
    "s = g(:, 1)",
    "s = g(1, :)",
    "s = g(1, *)",
    "s = g((1, 2))",
    "g((1, 2)) = 1",
    "s = g((1, 2), 3)",
    "s = g(1)(2)",
    "g(1)(2) = 1",
    "s = g(1, 2)(1)",
    "s = g(1, 2) 3",
    "s = 2 g(1, 2)",
    "s = g(1, --2)",
    "s = g(1, 2 +)",
    "s = g(* 1, 2)",
    "s = 2*-g(1, 2)",
    "s = g(1 == 1, 2)",
    "s = g[1, 2]",
    "s = (1, 2)",
    // "three or more, declared or used, are 2", on whatever name
    "s = g(1, 2, 3)",
    "g(1, 2, 3) = 1",
    "g(1, 1, 1) = g(1, 1, 1) + 1",
    "s = g(1, 2,)",
    "s = g(,1, 2)",
    "s = g(1, 2, 3, 4)",
    "s = g(1,1,1,1,1,1,1,1,1)",
    "s = a(1, 2, 3)",
    "a(1, 2, 3) = 1",
    "s = s(1, 2, 3)",
    "s(1, 2, 3) = 1",
    "s = i(1, 2, 3)",
    "i(1, 2, 3) = 1",
    "s = t(1, 2, 3)",
    "t(1, 2, 3) = 1",
    "s = min(1, 2, 3)",
    "s = a(g(1, 1, 1))",
    "s = g(1, g(1, 1, 1))",
    "s = g(t(1, 2, 3), 1)",
    "s = max(g(1, 2, 3), 1)",
    "s = max(1, 2, 3)",
    // words that are no names (READING 21)
    "do(1, 2) = 1",
    "if(1, 2) = 1",
    "integer(1, 2) = 1",
    "s = end(1, 2)",
    "s = then(1, 2)",
    "s = abcdefghijklmnopqrstuvwxyz123456(1, 2)",
    // 2 before 3 and 4 (READING 23)
    "t = g(1, 1, 1)",
    "s = g + g(1, 2, 3)",
    "s = g(1) +",
    "s = a(1, 2) 3",
    "s = 2147483648 + g(1, 2, 3)",
    "s = g(1, (((((((((2))))))))",
];

const BROKEN_IFS: &[&str] = &[
    "if (g(1, 2, 3) == 1) then",
    "if (1 == a(1, 2, 3)) then",
    "if (g(1, 2) then",
    "if (g(1, 2)) then",
    "if (g(1, 2 == 1) then",
    "if g(1, 2) == 1 then",
    "if (g(, 1) == 1) then",
    "if (g(1, 2) == 1, 2) then",
];

/// Number 3: "One subscript where two belong, or two for one".
const MISNAMED: &[&str] = &[
    // one or none on a grid
    "s = g",
    "g = 1",
    "s = g + 1",
    "s = g(1)",
    "g(1) = 1",
    "g(1) = g(1) + 1",
    "s = g((1))",
    "s = g(1) + g(1, 1)",
    "g(1, 1) = g(1)",
    "s = a(g)",
    "s = a(g(1))",
    "a(g(1)) = 1",
    "s = g(g, 1)",
    "s = g(1, g)",
    "s = g(g(1), 1)",
    "s = g(1, g(1))",
    "g(1, g(2)) = 1",
    "s = max(g, 1)",
    "s = max(1, g(1))",
    "s = rdiv(g(1), 2)",
    // two on an array
    "s = a(1, 2)",
    "a(1, 2) = 1",
    "a(1, 1) = a(1, 1) + 1",
    "s = a(i, i)",
    "s = a(a(1, 1))",
    "s = g(a(1, 2), 1)",
    "s = g(1, a(1, 1))",
    // on a single cell
    "s = s(1, 2)",
    "s(1, 1) = 1",
    "s = g(s(1, 1), 1)",
    // on v
    "s = i(1, 2)",
    "i(1, 1) = 1",
    "s = g(1, i(1, 1))",
    // on a name that is unknown, as a function of two is
    "s = t(1, 2)",
    "t(1, 2) = 1",
    "t(1, 2) = t(1, 2) + 1",
    "s = min(s, 1)",
    "s = mod(7, 2)",
    "s = max2(1, 2)",
    "s = num_threads(1, 2)",
    "s = abcdefghijklmnopqrstuvwxyz12345(1, 2)",
    "s = g(t, 1)",
    "s = g(1, t)",
    "s = g(t(1, 2), 1)",
    "g(1, min(1, 2)) = 1",
    // 3 before 4
    "s = g(2147483648)",
    "s = a(1, 2147483648)",
    "t(2147483648, 1) = 1",
    "s = g + (((((((((1)))))))))",
    "s = a(1, ((((((((1)))))))))",
];

const MISNAMED_IFS: &[&str] = &[
    "if (g == 1) then",
    "if (g(1) == 1) then",
    "if (1 == g(2)) then",
    "if (a(1, 2) == 1) then",
    "if (1 == s(1, 2)) then",
    "if (1 == i(1, 1)) then",
    "if (t(1, 2) == 1) then",
    "if (min(1, 2) == 1) then",
];

/// Number 4; brackets stand in `limits`.
const BEYOND: &[&str] = &[
    "s = g(2147483648, 1)",
    "s = g(1, 2147483648)",
    "g(2147483648, 2147483648) = 1",
    "g(1, 4294967297) = 1",
    "g(18446744073709551617, 1) = 1",
    "s = g(1, -2147483648)",
    "s = g(1, 1) + 2147483648",
];

/// Data lines on line 2, with their number.
const DATA: &[(&str, u32)] = &[
    // "data of the wrong count"
    ("data g /5*1/", 3),
    ("data g /7*1/", 3),
    ("data g /1/", 3),
    ("data g /2*1/", 3),
    ("data g /3*1/", 3),
    ("data g /1, 2, 3, 4, 5/", 3),
    ("data g /4294967302*1/", 3),
    // the bare name (P9.8)
    ("data g(1, 1) /1/", 2),
    ("data g(2, 3) /6*1/", 2),
    ("data g(1) /1/", 2),
    ("data g, s /6*1, 2/", 2),
    ("data g /0*1, 6*1/", 2),
    ("data g /5*1, 2147483648/", 4),
];

/// Clauses on line 2, with their number; 0 where they are good.
const CLAUSES: &[(&str, u32)] = &[
    ("shared(g)", 0),
    ("shared(a, G, s)", 0),
    ("lastprivate(g)", 0),
    ("firstprivate(g) lastprivate(s, g)", 0),
    ("reduction(+:g)", 0),
    ("reduction(*:s, g) schedule(static)", 0),
    ("reduction(max:g) reduction(+:a)", 0),
    // the bare name (P9.8)
    ("shared(g(1, 1))", 2),
    ("shared(g(2, 3))", 2),
    ("lastprivate(g(1))", 2),
    ("reduction(+:g(1, 1))", 2),
    ("reduction(max:s, g(1, 1))", 2),
    ("shared(g, g)", 3),
    ("shared(g) lastprivate(g)", 3),
    ("firstprivate(g)", 3),
    ("reduction(+:g) reduction(max:g)", 3),
];

/// A name for the row, the `integer` lines, and N or the number and line of the refusal.
type Declared = (&'static str, &'static str, Result<usize, (u32, u32)>);

/// Limits over several lines (READING 30; P9.1).
const DECLARED: &[Declared] = &[
    (
        "N of 4,096 in two grids",
        "integer g(32, 64)\ninteger h(2048, 1)",
        Ok(4096),
    ),
    (
        "N of 4,097 in a grid and a cell",
        "integer g(64, 64)\ninteger s",
        Err((4, 2)),
    ),
    (
        "N of 4,097 in three lines",
        "integer s\ninteger g(32, 64)\ninteger h(2, 1024)",
        Err((4, 3)),
    ),
    (
        "N of 4,095 and a grid of two",
        "integer g(63, 65)\ninteger h(2, 1)",
        Err((4, 2)),
    ),
    (
        "a grid declared before as an array",
        "integer g(4)\ninteger g(2, 2)",
        Err((3, 2)),
    ),
    (
        "17 names, the last a grid",
        "integer a,b,c,d,e,f,g,h\ninteger j,k,l,m,n,o,p,q\ninteger r(1, 1)",
        Err((4, 3)),
    ),
    (
        "16 names, the last a grid",
        "integer a,b,c,d,e,f,g,h\ninteger j,k,l,m,n,o,p\ninteger r(2, 2)",
        Ok(19),
    ),
    (
        "three extents after an array of 0",
        "integer a(0)\ninteger g(1, 1, 1)",
        Err((4, 1)),
    ),
];

/// What Check answers.
pub fn text_rows() -> Vec<TextRow> {
    let mut rows = Vec::new();
    let frames: [fn(&str) -> String; 2] = [framed, framed_if];
    let bad = [
        ([BROKEN, BROKEN_IFS], 2),
        ([MISNAMED, MISNAMED_IFS], 3),
        ([BEYOND, &[]], 4),
    ];
    for (frame, lines) in frames.iter().zip([GOOD, GOOD_IFS]) {
        rows.extend(lines.iter().map(|l| TextRow::good(l, frame(l), 11, 2)));
    }
    for (groups, number) in bad {
        for (frame, lines) in frames.iter().zip(groups) {
            rows.extend(lines.iter().map(|l| TextRow::bad(l, frame(l), number, 4)));
        }
    }
    for (line, number) in DATA {
        let text = framed("").replacen('\n', &format!("\n{line}\n"), 1);
        rows.push(TextRow::bad(line, text, *number, 2));
    }
    for (clauses, number) in CLAUSES {
        let text = framed("").replace("num_threads(2)", &format!("num_threads(2) {clauses}"));
        rows.push(match number {
            0 => TextRow::good(clauses, text, 11, 2),
            number => TextRow::bad(clauses, text, *number, 2),
        });
    }
    for (name, lines, expected) in DECLARED {
        let text = format!("{lines}\n!$omp parallel do num_threads(1)\ndo i = 1, 2\nend do\n");
        rows.push(match expected {
            Ok(cells) => TextRow::good(name, text, *cells, 1),
            Err((number, line)) => TextRow::bad(name, text, *number, *line),
        });
    }
    let plain = |names: &str, body: &str| text(names, "num_threads(1)", "1, 2", body);
    rows.extend([
        // P9.2
        TextRow::good("one by one", plain("g(1, 1)", "g(1, 1) = 1"), 1, 1),
        TextRow::bad(
            "one by one, one subscript",
            plain("g(1, 1)", "g(1) = 1"),
            3,
            4,
        ),
        TextRow::bad("one by one, no subscript", plain("g(1, 1)", "g = 1"), 3, 4),
        TextRow::bad(
            "one column, one subscript",
            plain("g(6, 1)", "g(1) = 1"),
            3,
            4,
        ),
        TextRow::bad(
            "an array of one, two subscripts",
            plain("a(1)", "a(1, 1) = 1"),
            3,
            4,
        ),
        TextRow::bad(
            "an array, two subscripts",
            plain("a(6)", "a(6, 1) = 1"),
            3,
            4,
        ),
        TextRow::bad(
            "a grid as v, at the do line",
            plain("i(2, 3)", "i(1, 1) = 1"),
            3,
            3,
        ),
    ]);
    rows
}

/// "stored in Fortran's element order, first subscript fastest": data are given so (P9.5).
pub fn load_rows() -> Vec<LoadRow> {
    let row = |name: &str, names: &str, data: &str, cells: &[i32]| LoadRow {
        name: name.to_string(),
        text: format!(
            "integer {names}\n{data}\n!$omp parallel do num_threads(2)\ndo i = 1, 2\nend do\n"
        )
        .into_bytes(),
        cells: cells.to_vec(),
    };
    vec![
        row(
            "a grid of six",
            "g(2, 3)",
            "data g /11, 21, 12, 22, 13, 23/",
            &[11, 21, 12, 22, 13, 23],
        ),
        row(
            "a grid of six, three rows",
            "g(3, 2)",
            "data g /11, 21, 31, 12, 22, 32/",
            &[11, 21, 31, 12, 22, 32],
        ),
        row(
            "by copies",
            "s, G(2, 2), a(2)",
            "DATA g /3*-7, +4/",
            &[0, -7, -7, -7, 4, 0, 0],
        ),
        row(
            "without data",
            "g(2, 2), h(2, 1)",
            "data h /1, 2/",
            &[0, 0, 0, 0, 1, 2],
        ),
        row("one by one", "g(1, 1)", "data g /5/", &[5]),
        row("4,096 cells", "g(64, 64)", "data g /4096*3/", &[3; 4096]),
    ]
}

// Runs ------------------------------------------------------------------------------------------------------------

/// What s and the grid of two rows and three columns hold: g(1, 1) is 1, g(2, 1) is 2, g(1, 2) is 3, g(2, 2) is 4,
/// g(1, 3) is 5, g(2, 3) is 6. i is 1.
const LENT: [i32; 7] = [0, 1, 2, 3, 4, 5, 6];

/// The value of the right side of `s = ...`.
const VALUES: &[(&str, i32)] = &[
    ("g(1, 1)", 1),
    ("g(2, 1)", 2),
    ("g(1, 2)", 3),
    ("g(2, 2)", 4),
    ("g(1, 3)", 5),
    ("g(2, 3)", 6),
    ("G ( 02 , 003 )", 6),
    ("g(i, i)", 1),
    ("g(i + 1, i + 2)", 6),
    ("g(i, i + 1) - g(i + 1, i)", 1),
    ("g(g(1, 1), g(1, 2))", 5),
    ("g(g(2, 1), g(2, 1))", 4),
    ("g(2, g(2, g(1, 1)))", 4),
    ("g(g(g(2, 1), 1), 1)", 2),
    ("-g(2, 3)", -6),
    ("g(1, 2)*g(2, 1)", 6),
    ("g(2, 3)/g(2, 2)", 1),
    ("max(g(2, 1), g(1, 2))", 3),
    ("rdiv(g(1, 3), g(2, 1))", 2),
    ("g(rdiv(3, 2), max(1, 3))", 6),
    ("g(-1 + 2, +3)", 5),
    ("g((2), (3))", 6),
    // on the wrapped values (READING 60)
    ("g(65536*65536 + 2, 1)", 2),
    ("g(1, 2147483647 + 1 + 2147483647 + 4)", 5),
];

/// A statement on line 4 in the same loop, and its fault.
const FAULTS: &[(&str, u32)] = &[
    // "each is tested against its own bound": these would be inside by their place
    ("s = g(3, 1)", 9),
    ("s = g(4, 1)", 9),
    ("s = g(6, 1)", 9),
    ("s = g(3, 2)", 9),
    ("s = g(0, 2)", 9),
    ("s = g(0, 3)", 9),
    ("s = g(-1, 2)", 9),
    ("s = g(-1, 3)", 9),
    ("s = g(3, 0)", 9),
    ("s = g(5, 0)", 9),
    ("s = g(-1, 4)", 9),
    ("g(3, 1) = 1", 9),
    ("g(0, 2) = 1", 9),
    // and these not
    ("s = g(1, 4)", 9),
    ("s = g(2, 0)", 9),
    ("s = g(0, 1)", 9),
    ("s = g(3, 3)", 9),
    ("s = g(1, -1)", 9),
    ("s = g(9, 9)", 9),
    ("s = g(2147483647, 1)", 9),
    ("s = g(1, 2147483647)", 9),
    ("s = g(2147483647 + 1, 1)", 9),
    ("s = g(1, 2147483647 + 1)", 9),
    ("s = g(65536, 65536)", 9),
    ("s = g(1, 1073741825)", 9),
    ("g(1, 4) = 1", 9),
    ("g(i + 2, i) = 1", 9),
    ("g(i, i + 3) = 1", 9),
    // "Both subscripts are worked out, then each is tested" (P9.4)
    ("s = g(9, 1/0)", 10),
    ("s = g(g(9, 1), 1/0)", 9),
    ("s = g(1/0, 9)", 10),
    ("s = g(1/0, g(9, 1))", 10),
    ("s = g(1, 1/0)", 10),
    ("s = g(1/0, 1)", 10),
    ("s = g(1/0, 1/0)", 10),
    ("s = g(9, g(1, 9))", 9),
    ("s = g(9, rdiv(1, 0))", 10),
    ("s = g(9, 1/(g(1, 1) - 1))", 10),
    ("s = g(9, g(9, 1/0))", 10),
    ("s = g(g(9, 1/0), 1)", 10),
    ("s = g(g(9, 1/0), g(9, 1))", 10),
    ("s = g(g(9, 1), g(9, 1/0))", 9),
    ("s = g(1, g(1, g(9, 1)))", 9),
    ("s = g(0*g(9, 1) + 1, 1/0)", 9),
    // among other factors (READING 56)
    ("s = g(9, 1)/0", 9),
    ("s = 1/0 + g(9, 1)", 10),
    ("s = 1/(0*g(1, 9))", 9),
    ("s = max(g(9, 1), 1/0)", 9),
    ("s = rdiv(1/0, g(9, 1))", 10),
    // the left side last (READING 58)
    ("g(9, 1) = 1/0", 10),
    ("g(1/0, 1) = g(9, 1)", 9),
    ("g(9, 1/0) = 1", 10),
    ("g(9, 1/0) = g(9, 1)", 9),
    ("g(9, 1) = g(1, 1/0)", 10),
    ("g(g(9, 1), 1/0) = 1", 9),
    ("g(g(9, 1/0), 1) = 1", 10),
    ("if (g(9, 1/0) == 1) then\nend if", 10),
    ("if (g(9, 1) == 1/0) then\nend if", 9),
    ("if (1/0 == g(9, 1)) then\nend if", 10),
    ("if (1 == g(1, 4)) then\nend if", 9),
];

/// The same where s and g are sums: "they are worked out once and tested, then the remainder" (P9.7).
const UPDATE_FAULTS: &[(&str, u32)] = &[
    ("g(9, 1) = g(9, 1) + 1/0", 9),
    ("g(1, 9) = g(1, 9) - 1/0", 9),
    ("g(3, 1) = g(3, 1) + 1/0", 9),
    ("g(9, 1/0) = g(9, 1/0) + g(9, 1)", 10),
    ("g(9, g(1, 1)) = g(9, g(1, 1)) + 1/0", 9),
    ("g(g(9, 1), 1/0) = g(g(9, 1), 1/0) + 1", 9),
    ("g(1, 1) = g(1, 1) + 1/0", 10),
    ("g(1, 1) = g(1, 1) - g(1, 4)", 9),
    ("s = s + g(9, 1/0)", 10),
    // ordinary: the right side first
    ("g(9, 1) = 1/0 + g(9, 1)", 10),
    ("g(9, 1) = g(9, (1/0)) + 1", 10),
    ("g(1/0, 1) = g(9, 1) + 1", 9),
    ("g(9, 1) = max(1/0, g(9, 1))", 10),
];

/// The same where s and g are maxima, and products.
const MAXIMUM_FAULTS: &[(&str, u32)] = &[
    ("g(9, 1) = max(g(9, 1), 1/0)", 9),
    ("g(1, 4) = max(g(1, 4), 1/0)", 9),
    ("g(9, 1/0) = max(g(9, 1/0), g(9, 1))", 10),
    ("g(1, 1) = max(g(1, 1), g(0, 2))", 9),
    ("g(9, 1) = max(1/0, g(9, 1))", 10),
];
const PRODUCT_FAULTS: &[(&str, u32)] = &[
    ("g(9, 1) = g(9, 1)*(1/0)", 9),
    ("g(1, 4) = g(1, 4)*g(9, 1/0)", 9),
    ("g(9, 1/0) = g(9, 1/0)*2", 10),
    ("g(1, 1) = g(1, 1)*g(3, 1)", 9),
];

fn statement_rows() -> Vec<RunRow> {
    let with = |clauses: &str, line: &str| {
        let clauses = format!("num_threads(1) {clauses}");
        text("s, g(2, 3)", &clauses, "1, 1", line)
    };
    let mut rows = Vec::new();
    for (expression, value) in VALUES {
        let mut after = LENT.to_vec();
        after[0] = *value;
        let text = with("", &format!("s = {expression}"));
        rows.push(runs::row(
            expression,
            &text,
            &LENT,
            Ran::Passed(1, 1, after),
        ));
    }
    for (clauses, faults) in [
        ("", FAULTS),
        ("reduction(+:s, g)", UPDATE_FAULTS),
        ("reduction(max:s, g)", MAXIMUM_FAULTS),
        ("reduction(*:s, g)", PRODUCT_FAULTS),
    ] {
        for (line, number) in faults {
            let name = format!("{clauses} {line}");
            let expected = Ran::Fault(*number, 4, 1);
            rows.push(runs::row(&name, &with(clauses, line), &LENT, expected));
        }
    }
    rows
}

/// What Run answers and leaves.
pub fn run_rows() -> Vec<RunRow> {
    let mut rows = statement_rows();
    rows.extend(order_rows());
    rows.extend(obstacle_rows());
    rows.extend(update_rows());
    rows.extend(clause_rows());
    rows.extend(fault_rows());
    rows
}

const TWO: &str = "num_threads(2)";

/// "stored in Fortran's element order, first subscript fastest" (P9.5)
fn order_rows() -> Vec<RunRow> {
    let large = |body: &str, expected: Vec<i32>| {
        let text = text("g(64, 64)", "num_threads(3)", "1, 64", body);
        runs::row(body, &text, &[0; 4096], Ran::Passed(64, 64, expected))
    };
    let last_column = (0..4096).map(|cell| (cell - 4031).max(0)).collect();
    let last_row = (1..=4096).map(|cell| if cell % 64 == 0 { cell / 64 } else { 0 });
    vec![
        runs::row(
            "the last column",
            &text("g(2, 3)", TWO, "1, 2", "g(i, 3) = i"),
            &[0; 6],
            Ran::Passed(2, 2, vec![0, 0, 0, 0, 1, 2]),
        ),
        runs::row(
            "the last row",
            &text("g(2, 3)", TWO, "1, 3", "g(2, i) = i"),
            &[0; 6],
            Ran::Passed(3, 3, vec![0, 1, 0, 2, 0, 3]),
        ),
        runs::row(
            "the last column of three rows",
            &text("g(3, 2)", TWO, "1, 3", "g(i, 2) = i"),
            &[0; 6],
            Ran::Passed(3, 3, vec![0, 0, 0, 1, 2, 3]),
        ),
        runs::row(
            "the last row of three",
            &text("g(3, 2)", TWO, "1, 2", "g(3, i) = i"),
            &[0; 6],
            Ran::Passed(2, 2, vec![0, 0, 1, 0, 0, 2]),
        ),
        runs::row(
            "all cells by row and column",
            &text(
                "g(2, 3)",
                "num_threads(3)",
                "1, 6",
                "g(i - (i - 1)/2*2, (i - 1)/2 + 1) = i",
            ),
            &[0; 6],
            Ran::Passed(6, 6, vec![1, 2, 3, 4, 5, 6]),
        ),
        runs::row(
            "one column",
            &text("g(3, 1)", TWO, "1, 3", "g(i, 1) = i"),
            &[0; 3],
            Ran::Passed(3, 3, vec![1, 2, 3]),
        ),
        runs::row(
            "one row",
            &text("g(1, 3)", TWO, "1, 3", "g(1, i) = i"),
            &[0; 3],
            Ran::Passed(3, 3, vec![1, 2, 3]),
        ),
        runs::row(
            "among other names",
            &text(
                "a(2), g(2, 2), s, h(1, 2)",
                TWO,
                "1, 1",
                "g(2, 1) = a(1)\ns = g(1, 2)\nh(1, 2) = a(2)",
            ),
            &[50, 60, 1, 2, 3, 4, 0, 7, 8],
            Ran::Passed(3, 3, vec![50, 60, 1, 50, 3, 4, 3, 7, 60]),
        ),
        runs::row(
            "turned",
            &text(
                "g(2, 3), h(3, 2)",
                TWO,
                "1, 3",
                "h(i, 1) = g(1, i)\nh(i, 2) = g(2, i)",
            ),
            &[11, 21, 12, 22, 13, 23, 0, 0, 0, 0, 0, 0],
            Ran::Passed(6, 6, vec![11, 21, 12, 22, 13, 23, 11, 12, 13, 21, 22, 23]),
        ),
        large("g(i, 64) = i", last_column),
        large("g(64, i) = i", last_row.collect()),
    ]
}

/// "whatever held of a single-subscript loop holds of these": obstacles go by cell.
fn obstacle_rows() -> Vec<RunRow> {
    let bed = [1, 2, 3, 4, 5, 6];
    let of = |name: &str, clauses: &str, bounds: &str, body: &str, expected: Ran| {
        runs::row(
            name,
            &text("g(2, 3)", clauses, bounds, body),
            &bed,
            expected,
        )
    };
    vec![
        of(
            "document 01: g(1, i) = g(1, i) + 1",
            TWO,
            "1, 3",
            "g(1, i) = g(1, i) + 1",
            Ran::Passed(3, 3, vec![2, 2, 4, 4, 6, 6]),
        ),
        of(
            "document 01: one cell for all, shared",
            TWO,
            "1, 2",
            "g(2, 2) = i",
            Ran::Rerun(2, 1, vec![1, 2, 3, 2, 5, 6]),
        ),
        of(
            "document 01: one cell for all, lastprivate",
            "num_threads(2) lastprivate(g)",
            "1, 2",
            "g(2, 2) = i",
            Ran::Passed(2, 1, vec![1, 2, 3, 2, 5, 6]),
        ),
        of(
            "the same row and another column",
            TWO,
            "1, 2",
            "g(i, 1) = g(i, 2)",
            Ran::Passed(2, 2, vec![3, 4, 3, 4, 5, 6]),
        ),
        of(
            "the same column and another row",
            TWO,
            "1, 3",
            "g(1, i) = g(2, i)",
            Ran::Passed(3, 3, vec![2, 2, 4, 4, 6, 6]),
        ),
        of(
            "the row of the other iteration",
            TWO,
            "1, 2",
            "g(i, 1) = g(3 - i, 1)",
            Ran::Rerun(2, 2, vec![2, 2, 3, 4, 5, 6]),
        ),
        of(
            "the column before",
            TWO,
            "2, 3",
            "g(1, i) = g(1, i - 1)",
            Ran::Rerun(2, 2, vec![1, 2, 1, 4, 1, 6]),
        ),
        of(
            "subscripts exchanged: one cell, (1, 1), by one iteration",
            TWO,
            "1, 2",
            "g(i, 1) = g(1, i)",
            Ran::Passed(2, 2, vec![1, 3, 3, 4, 5, 6]),
        ),
        of(
            "subscripts exchanged: (1, 2) and (2, 1)",
            TWO,
            "1, 2",
            "g(i, 3 - i) = g(3 - i, i)",
            Ran::Rerun(2, 2, vec![1, 2, 2, 4, 5, 6]),
        ),
        of(
            "a subscript that another iteration writes",
            TWO,
            "1, 2",
            "g(1, g(1, 1)) = i + 1",
            Ran::Rerun(2, 2, vec![2, 2, 3, 4, 5, 6]),
        ),
    ]
}

/// "An update's reference is the same token for token over both subscripts" (P9.7).
fn update_rows() -> Vec<RunRow> {
    let bed = [1, 2, 3, 4, 5, 6];
    let of = |operation: &str, body: &str, expected: Ran| {
        let clauses = format!("num_threads(2) reduction({operation}:g)");
        let name = format!("reduction({operation}:g): {body}");
        let text = text("g(2, 3)", &clauses, "1, 2", body);
        runs::row(&name, &text, &bed, expected)
    };
    let at_12 = |value: i32| vec![1, 2, value, 4, 5, 6];
    vec![
        of("+", "g(1, 2) = g(1, 2) + i", Ran::Passed(2, 1, at_12(6))),
        of("+", "g(1, 2) = g(1, 2) - i", Ran::Passed(2, 1, at_12(0))),
        of("+", "g(01, 2) = G( 1 ,002)-i", Ran::Passed(2, 1, at_12(0))),
        of(
            "+",
            "g((1), 2) = g((1), 2) + i",
            Ran::Passed(2, 1, at_12(6)),
        ),
        of(
            "+",
            "g(1, 1 + 1) = g(1, 1 + 1) + i",
            Ran::Passed(2, 1, at_12(6)),
        ),
        of(
            "+",
            "g(max(1, 0), 2) = g(max(1, 0), 2) + i",
            Ran::Passed(2, 1, at_12(6)),
        ),
        of(
            "*",
            "g(1, 2) = g(1, 2)*(i + 1)",
            Ran::Passed(2, 1, at_12(18)),
        ),
        of(
            "max",
            "g(1, 2) = max(g(1, 2), 3*i)",
            Ran::Passed(2, 1, at_12(6)),
        ),
        of(
            "+",
            "g(i, 3) = g(i, 3) + 10",
            Ran::Passed(2, 2, vec![1, 2, 3, 4, 15, 16]),
        ),
        // a cell that is read for a subscript, and not updated
        of(
            "+",
            "g(g(1, 1), 2) = g(g(1, 1), 2) + i",
            Ran::Passed(2, 1, at_12(6)),
        ),
        of(
            "+",
            "g(1, g(2, 1)) = g(1, g(2, 1)) + i",
            Ran::Passed(2, 1, at_12(6)),
        ),
        // one that is updated too
        of(
            "+",
            "g(g(1, 1), 1) = g(g(1, 1), 1) + 1",
            Ran::Rerun(2, 2, vec![2, 3, 3, 4, 5, 6]),
        ),
        of(
            "+",
            "g(1, g(1, 1)) = g(1, g(1, 1)) + 1",
            Ran::Rerun(2, 2, vec![2, 2, 4, 4, 5, 6]),
        ),
        of(
            "+",
            "g(1, 2) = g(1, 2) + g(1, 2)",
            Ran::Rerun(2, 1, at_12(12)),
        ),
        // not the same words
        of("+", "g(1, 2) = g((1), 2) + i", Ran::Rerun(2, 1, at_12(6))),
        of("+", "g(1, 2) = g(1, (2)) + i", Ran::Rerun(2, 1, at_12(6))),
        of("+", "g(1, 2) = g(1, +2) + i", Ran::Rerun(2, 1, at_12(6))),
        of("+", "g(1, 2) = g(1, 1 + 1) + i", Ran::Rerun(2, 1, at_12(6))),
        of("+", "g(1, 2) = (g(1, 2)) + i", Ran::Rerun(2, 1, at_12(6))),
        of("+", "g(1, 2) = i + g(1, 2)", Ran::Rerun(2, 1, at_12(6))),
        of("*", "g(1, 2) = g(1, (2))*2", Ran::Rerun(2, 1, at_12(12))),
        of(
            "max",
            "g(1, 2) = max(g(1, (2)), i)",
            Ran::Rerun(2, 1, at_12(3)),
        ),
        of(
            "max",
            "g(1, 2) = max(i + 2, g(1, 2))",
            Ran::Rerun(2, 1, at_12(4)),
        ),
        // the update of another clause
        of("max", "g(1, 2) = g(1, 2) + i", Ran::Rerun(2, 1, at_12(6))),
        of(
            "+",
            "g(1, 2) = max(g(1, 2), 3*i)",
            Ran::Rerun(2, 1, at_12(6)),
        ),
        // another cell: only written, or only read
        of("+", "g(1, 2) = g(2, 1) + i", Ran::Passed(2, 1, at_12(4))),
        of("+", "g(1, 2) = g(1, 3) - i", Ran::Passed(2, 1, at_12(3))),
    ]
}

/// Clauses and blocks, which know nothing of extents.
fn clause_rows() -> Vec<RunRow> {
    let bed = [1, 2, 3, 4, 5, 6];
    let ahead = Case {
        name: "the column after",
        names: "g(2, 3)",
        clauses: "",
        bounds: "1, 2",
        body: "g(1, i) = g(1, i + 1)",
        cells: &bed,
    };
    let carried = Case {
        name: "the column before",
        body: "g(2, i) = g(2, i - 1)",
        bounds: "2, 3",
        ..ahead
    };
    let scratch = Case {
        name: "a scratch grid",
        names: "g(2, 3), a(2)",
        bounds: "1, 2",
        body: "g(2, 3) = 10*i\ng(1, 1) = g(2, 3) + 1\na(i) = g(1, 1)",
        cells: &[1, 2, 3, 4, 5, 6, 0, 0],
        ..ahead
    };
    let moved = vec![3, 2, 5, 4, 5, 6];
    let copied = "firstprivate(g) lastprivate(g)";
    vec![
        ahead.on(2, Ran::Rerun(2, 2, moved.clone())),
        ahead.with("lastprivate(g)", 2, Ran::Rerun(2, 2, moved.clone())),
        ahead.with(copied, 2, Ran::Passed(2, 2, moved.clone())),
        ahead.blocks(1, Ran::Passed(2, 2, moved.clone())),
        ahead.blocks(2, Ran::Rerun(2, 2, moved)),
        carried.on(1, Ran::Rerun(2, 2, vec![1, 2, 3, 2, 5, 2])),
        carried.with(copied, 2, Ran::Rerun(2, 2, vec![1, 2, 3, 2, 5, 2])),
        carried.blocks(1, Ran::Passed(2, 2, vec![1, 2, 3, 2, 5, 2])),
        carried.blocks(2, Ran::Rerun(2, 2, vec![1, 2, 3, 2, 5, 2])),
        scratch.on(2, Ran::Rerun(6, 4, vec![21, 2, 3, 4, 5, 20, 11, 21])),
        scratch.with(
            "lastprivate(g)",
            2,
            Ran::Passed(6, 4, vec![21, 2, 3, 4, 5, 20, 11, 21]),
        ),
        scratch.with(
            "reduction(max:g)",
            3,
            Ran::Passed(6, 4, vec![21, 2, 3, 4, 5, 20, 11, 21]),
        ),
    ]
}

/// Numbers, lines and v, and faults of speculation or of the serial run alone.
fn fault_rows() -> Vec<RunRow> {
    vec![
        runs::row(
            "the first subscript in the last iteration",
            &text("g(2, 3)", TWO, "1, 3", "\ng(i, 1) = i"),
            &[7; 6],
            Ran::Fault(9, 5, 3),
        ),
        runs::row(
            "the second subscript in the last iteration",
            &text("g(2, 3)", TWO, "1, 4", "g(1, i) = i"),
            &[7; 6],
            Ran::Fault(9, 4, 4),
        ),
        runs::row(
            "the first subscript below 1",
            &text("g(2, 3)", TWO, "-1, 2", "g(i, 2) = i"),
            &[7; 6],
            Ran::Fault(9, 4, -1),
        ),
        runs::row(
            "document 01: outside in speculation alone, the second subscript",
            &text(
                "k, g(2, 2)",
                TWO,
                "1, 2",
                "if (i == 1) then\nk = 2\nelse\ng(1, k) = 1\nend if",
            ),
            &[9, 0, 0, 0, 0],
            Ran::Rerun(2, 2, vec![2, 0, 0, 1, 0]),
        ),
        runs::row(
            "the same, the first subscript, of a cell that would be inside",
            &text(
                "k, g(2, 2)",
                TWO,
                "1, 2",
                "if (i == 1) then\nk = 2\nelse\ng(k, 1) = 1\nend if",
            ),
            &[3, 0, 0, 0, 0],
            Ran::Rerun(2, 2, vec![2, 0, 1, 0, 0]),
        ),
        runs::row(
            "outside in the serial run alone",
            &text(
                "k, g(2, 2)",
                "num_threads(2) lastprivate(k)",
                "1, 2",
                "g(i, k) = i\nk = 3",
            ),
            &[1, 0, 0, 0, 0],
            Ran::Fault(9, 4, 2),
        ),
        runs::row(
            "a divisor in a second subscript, met by the last iteration",
            &text("g(2, 2)", TWO, "1, 2", "g(9*(i - 1) + 1, 2/(2 - i)) = i"),
            &[0; 4],
            Ran::Fault(10, 4, 2),
        ),
        runs::row(
            "not reached",
            &text(
                "g(2, 2)",
                TWO,
                "1, 2",
                "if (i == 9) then\ng(9, 1/0) = 1\nend if",
            ),
            &[7; 4],
            Ran::Passed(0, 0, vec![7; 4]),
        ),
    ]
}

// Views -----------------------------------------------------------------------------------------------------------

/// What s and the grid of two rows and two columns hold: g(1, 1) and g(1, 2) are 1, g(2, 1) and g(2, 2) are 2. s is cell
/// 0, g(1, 1) 1, g(2, 1) 2, g(1, 2) 3 and g(2, 2) 4.
const SEEN: [i32; 5] = [6, 1, 2, 1, 2];

/// Assignments where s and g are sums, and the marks they leave: an update 8, a read and then a write 5.
const MARKS: &[(&str, [u32; 5])] = &[
    ("g(1,2)=g(1,2)+1", [0, 0, 0, 8, 0]),
    ("g(2,1)=g(2,1)-1", [0, 0, 8, 0, 0]),
    ("g(01,2)=G( 1 ,002 )+1", [0, 0, 0, 8, 0]),
    ("g((1),2)=g((1),2)+1", [0, 0, 0, 8, 0]),
    ("g(i,i)=g(i,i)+1", [0, 8, 0, 0, 0]),
    ("g(1,i+1)=g(01,i+001)+1", [0, 0, 0, 8, 0]),
    ("s=s+g(1,2)-g(2,1)", [8, 0, 2, 2, 0]),
    // the subscripts are read once, and ordinarily
    ("g(g(1,1),2)=g(g(1,1),2)+1", [0, 2, 0, 8, 0]),
    ("g(1,g(2,1))=g(1,g(2,1))+1", [0, 0, 2, 8, 0]),
    ("g(g(1,1),g(2,1))=g(g(1,1),g(2,1))+g(2,2)", [0, 2, 2, 8, 2]),
    ("g(g(1,1),1)=g(g(1,1),1)+1", [0, 10, 0, 0, 0]),
    ("g(1,2)=g(1,2)+g(1,2)", [0, 0, 0, 10, 0]),
    // not the same words
    ("g(1,2)=g((1),2)+1", [0, 0, 0, 5, 0]),
    ("g(1,2)=g(1,(2))+1", [0, 0, 0, 5, 0]),
    ("g(1,2)=g(1,+2)+1", [0, 0, 0, 5, 0]),
    ("g(1,i+1)=g(1,i*2)+1", [0, 0, 0, 5, 0]),
    ("g(1,i+1)=g(1,1+i)+1", [0, 0, 0, 5, 0]),
    ("g(i,2)=g(1,2)+1", [0, 0, 0, 5, 0]),
    ("g(1,2)=g(2,1)+1", [0, 0, 2, 1, 0]),
    ("g(1,2)=max(g(1,2),3)", [0, 0, 0, 5, 0]),
    // P9.4: "the reads in the second subscript are listed before the fault of the first"
    ("s=g(9,g(1,2))", [0, 0, 0, 2, 0]),
    ("s=g(g(1,1)+8,g(2,2))", [0, 2, 0, 0, 2]),
    ("s=g(0,g(1,2)+g(2,1))", [0, 0, 2, 2, 0]),
    ("g(9,g(1,2))=s", [2, 0, 0, 2, 0]),
    // the second's divisor before the first is tested, the first's own fault before the second
    ("s=g(9,1/0)", [0, 0, 0, 0, 0]),
    ("s=g(g(1,1),1/0)", [0, 2, 0, 0, 0]),
    ("s=g(g(9,1),g(1,2))", [0, 0, 0, 0, 0]),
    ("s=g(g(9,g(2,2)),g(1,2))", [0, 0, 0, 0, 2]),
    ("s=g(g(1,1),9)", [0, 2, 0, 0, 0]),
    // an update's subscripts are tested before its remainder
    ("g(9,g(1,2))=g(9,g(1,2))+s", [0, 0, 0, 2, 0]),
    ("g(g(1,1),9)=g(g(1,1),9)+s", [0, 2, 0, 0, 0]),
    ("g(9,1/0)=g(9,1/0)+s", [0, 0, 0, 0, 0]),
    ("g(1,1)=g(1,1)+s/0", [2, 0, 0, 0, 0]),
];

/// Statements, the order of their accesses by the number of the cell, and the cell that is written, if any.
const ORDERS: &[(&str, &[usize], Option<usize>)] = &[
    ("s = g(g(1, 1), g(2, 1))", &[1, 2, 3, 0], Some(0)),
    ("s = g(1, g(2, 2))", &[4, 3, 0], Some(0)),
    ("s = g(g(2, 2), 1)", &[4, 2, 0], Some(0)),
    ("g(g(1, 1), g(2, 1)) = g(2, 2)", &[4, 1, 2, 3], Some(3)),
    ("g(g(2, 2), 1) = s", &[0, 4, 2], Some(2)),
    ("s = g(2, 1)/g(1, 2)", &[2, 3, 0], Some(0)),
    ("s = max(g(2, 2), g(1, 1))", &[4, 1, 0], Some(0)),
    (
        "s = g(g(1, 1), g(2, 1)) + g(2, 2)",
        &[1, 2, 3, 4, 0],
        Some(0),
    ),
    ("if (g(1, 2) == g(2, 1)) then\nend if", &[3, 2], None),
    // a fault after the accesses
    ("s = g(9, g(1, 2)) + g(1, 1)", &[3], None),
    ("s = g(g(1, 1) + 8, g(2, 2))", &[1, 4], None),
];

/// What Look shows.
pub fn look_rows() -> Vec<LookRow> {
    let mut rows = Vec::new();
    for (statement, marks) in MARKS {
        let clauses = "num_threads(1) reduction(+:s, g)";
        let text = text("s, g(2, 2)", clauses, "1, 1", statement);
        let view: Vec<_> = SEEN.into_iter().zip(*marks).collect();
        let name = format!("reduction: {statement}");
        rows.push(looks::row(&name, &text, &SEEN, &[0; 20], &view));
    }
    for (statement, order, written) in ORDERS {
        let clauses = "num_threads(1) lastprivate(s, g)";
        let text = text("s, g(2, 2)", clauses, "1, 1", statement);
        for steps in 0..=order.len() + 1 {
            let mark = |cell: usize| match order[..steps.min(order.len())].contains(&cell) {
                false => 0,
                true if *written == Some(cell) => 1,
                true => 2,
            };
            let view: Vec<_> = (0..5).map(|cell| (SEEN[cell], mark(cell))).collect();
            rows.push(looks::row(statement, &text, &SEEN, &vec![0; steps], &view));
        }
    }
    let mut add = |name: &str, text: &str, cells: &[i32], looks: &[Seen]| {
        for (schedule, view) in looks {
            rows.push(looks::row(name, text, cells, schedule, view));
        }
    };
    // "Look's view" in element order (P9.5)
    add(
        "columns by two processors",
        &text("g(2, 2)", TWO, "1, 2", "g(1, i) = 10*i\ng(2, i) = 20*i"),
        &[5, 6, 7, 8],
        &[
            (&[], &[(5, 0), (6, 0), (7, 0), (8, 0)]),
            (&[0], &[(10, 1), (6, 0), (7, 0), (8, 0)]),
            (&[1], &[(5, 0), (6, 0), (20, 1), (8, 0)]),
            (&[1, 1], &[(5, 0), (6, 0), (20, 1), (40, 1)]),
            (&[0, 1, 0], &[(10, 1), (20, 1), (20, 1), (8, 0)]),
        ],
    );
    add(
        "a row of three columns",
        &text("g(2, 3)", "num_threads(1)", "1, 3", "g(2, i) = i"),
        &[0; 6],
        &[(&[0; 6], &[(0, 0), (1, 1), (0, 0), (2, 1), (0, 0), (3, 1)])],
    );
    rows
}

// Plans -----------------------------------------------------------------------------------------------------------

/// What Plan answers.
pub fn plan_rows() -> Vec<PlanRow> {
    let bed = [1, 2, 3, 4, 5, 6];
    let of = |clauses: &str, bounds: &str, body: &str| text("g(2, 3)", clauses, bounds, body);
    let neighbours =
        "g(i/2 + 2, i - i/2*2 + 2) = g(i/2 + 1, i - i/2*2 + 2) + g(i/2 + 2, i - i/2*2 + 1)";
    vec![
        planned(
            "the column before",
            &of(TWO, "2, 3", "g(1, i) = g(1, i - 1)"),
            &bed,
            (2, &[1, 2]),
        ),
        planned(
            "another column of the same row",
            &of(TWO, "1, 2", "g(i, 1) = g(i, 2)"),
            &bed,
            (1, &[1, 1]),
        ),
        planned(
            "another row of the same column",
            &of(TWO, "1, 3", "g(1, i) = g(2, i)"),
            &bed,
            (1, &[1, 1, 1]),
        ),
        planned(
            "the other row",
            &of(TWO, "1, 2", "g(i, 1) = g(3 - i, 1)"),
            &bed,
            (2, &[1, 2]),
        ),
        planned(
            "subscripts exchanged, no cell for both",
            &of(TWO, "1, 2", "g(i, 3) = g(1, i)"),
            &bed,
            (1, &[1, 1]),
        ),
        planned(
            "from the neighbours above and to the left: along the diagonals",
            &text("g(3, 3)", TWO, "0, 3", neighbours),
            &[1; 9],
            (3, &[1, 2, 2, 3]),
        ),
        planned(
            "a subscript that all read",
            &of(TWO, "1, 3", "g(g(2, 1) - 1, i) = 7"),
            &bed,
            (1, &[1, 1, 1]),
        ),
        planned(
            "a second subscript that one writes",
            &of(TWO, "1, 3", "g(1, g(1, i)) = 1"),
            &[1, 0, 2, 0, 1, 0],
            (2, &[1, 1, 2]),
        ),
        planned(
            "updates of one cell (7.3)",
            &of(
                "num_threads(2) reduction(+:g)",
                "1, 3",
                "g(2, 2) = g(2, 2) + i",
            ),
            &bed,
            (3, &[1, 2, 3]),
        ),
        planned(
            "updates of one row",
            &of(
                "num_threads(2) reduction(+:g)",
                "1, 3",
                "g(2, i) = g(2, i) + i",
            ),
            &bed,
            (1, &[1, 1, 1]),
        ),
        fault(
            "the first subscript",
            &of(TWO, "1, 3", "g(i, 1) = i"),
            &bed,
            3,
            (9, 4, 3),
        ),
        fault(
            "the second subscript",
            &of(TWO, "1, 4", "g(1, i) = i"),
            &bed,
            4,
            (9, 4, 4),
        ),
        fault(
            "a divisor in the second subscript, before the first is tested",
            &of(TWO, "1, 3", "g(4*i, 6/(i - 1)) = i"),
            &bed,
            3,
            (10, 4, 1),
        ),
    ]
}

// Rows and Columns ------------------------------------------------------------------------------------------------

/// A text, the cells lent, a name, and what Rows and Columns each leave in the cells, or the number and line of the
/// refusal, after which they are as lent.
#[derive(Debug, Clone)]
pub struct ArrangeRow {
    pub name: String,
    pub text: Vec<u8>,
    pub cells: Vec<i32>,
    pub asked: Vec<u8>,
    pub rows: Result<Vec<i32>, (u32, u32)>,
    pub columns: Result<Vec<i32>, (u32, u32)>,
}

fn arranged(
    name: &str,
    text: impl Into<Vec<u8>>,
    asked: &str,
    [cells, rows, columns]: [&[i32]; 3],
) -> ArrangeRow {
    ArrangeRow {
        name: name.to_string(),
        text: text.into(),
        cells: cells.to_vec(),
        asked: asked.into(),
        rows: Ok(rows.to_vec()),
        columns: Ok(columns.to_vec()),
    }
}

/// A loop without statements of these names.
fn of_names(names: &str) -> String {
    text(names, "num_threads(2)", "1, 2", "")
}

/// A grid with its cells in element order, each the digits of its row and column, by rows; and what becomes of these
/// cells when they are taken for rows (9.1).
const ARRANGED: &[(&str, [&[i32]; 3])] = &[
    (
        "g(2, 3)",
        [
            &[11, 21, 12, 22, 13, 23],
            &[11, 12, 13, 21, 22, 23],
            &[11, 22, 21, 13, 12, 23],
        ],
    ),
    (
        "g(3, 2)",
        [
            &[11, 21, 31, 12, 22, 32],
            &[11, 12, 21, 22, 31, 32],
            &[11, 31, 22, 21, 12, 32],
        ],
    ),
    (
        "g(2, 2)",
        [&[11, 21, 12, 22], &[11, 12, 21, 22], &[11, 12, 21, 22]],
    ),
    (
        "g(3, 3)",
        [
            &[11, 21, 31, 12, 22, 32, 13, 23, 33],
            &[11, 12, 13, 21, 22, 23, 31, 32, 33],
            &[11, 12, 13, 21, 22, 23, 31, 32, 33],
        ],
    ),
    (
        "g(2, 4)",
        [
            &[11, 21, 12, 22, 13, 23, 14, 24],
            &[11, 12, 13, 14, 21, 22, 23, 24],
            &[11, 13, 21, 23, 12, 14, 22, 24],
        ],
    ),
    (
        "g(4, 2)",
        [
            &[11, 21, 31, 41, 12, 22, 32, 42],
            &[11, 12, 21, 22, 31, 32, 41, 42],
            &[11, 31, 12, 32, 21, 41, 22, 42],
        ],
    ),
    // 9.4: "done, with the cells as they were"
    ("g(1, 4)", [&[11, 12, 13, 14]; 3]),
    ("g(4, 1)", [&[11, 21, 31, 41]; 3]),
    ("g(1, 1)", [&[11]; 3]),
];

/// Between other names: g has cells 1 to 6, a 7 to 9, h 10 to 13, one 14 and 15, last 16.
const NAMES: &str = "s, g(2, 3), a(3), h(2, 2), one(1, 2), last";
const CELLS: [i32; 17] = [
    90, 11, 21, 12, 22, 13, 23, 91, 92, 93, 31, 41, 32, 42, 94, 95, 96,
];
const G_BY_ROWS: [i32; 17] = [
    90, 11, 12, 13, 21, 22, 23, 91, 92, 93, 31, 41, 32, 42, 94, 95, 96,
];
const G_BACK: [i32; 17] = [
    90, 11, 22, 21, 13, 12, 23, 91, 92, 93, 31, 41, 32, 42, 94, 95, 96,
];
/// Two rows and two columns: the way there and the way back are the same.
const H_TURNED: [i32; 17] = [
    90, 11, 21, 12, 22, 13, 23, 91, 92, 93, 31, 32, 41, 42, 94, 95, 96,
];

/// "New: 13, name not a grid": not declared, v, reserved, one cell, an array, or not the whole name (9.2, 9.3).
const NO_GRIDS: &[&str] = &[
    "s",
    "a",
    "last",
    "i",
    "I",
    "q",
    "integer",
    "do",
    "max",
    "rdiv",
    "end",
    "num_threads",
    "parallel",
    "omp",
    "",
    " ",
    " g",
    "g ",
    "g g",
    "gg",
    "g,",
    "g(",
    "g(2, 3)",
    "g(1, 1)",
    "g(1)",
    "(g)",
    "2",
    "g2",
    "g_",
    "g\n",
    "\ng",
    "g\0",
    "\0",
    "o",
    "on",
    "ones",
    "on e",
    "ne",
];

/// Bytes that one bit alone keeps from being g or G, or more do.
const NO_LETTERS: [u8; 6] = [0xe7, 0xc7, 0x27, 0x07, 0x87, 0xff];

/// What is refused before 13: a text, how many cells are lent, the name, and the number and line.
const REFUSED: &[(&str, usize, &str, (u32, u32))] = &[
    // "Order: 1, 2-4, 5, 13" (9.1)
    ("g(2, 3)", 5, "g", (5, 0)),
    ("g(2, 3)", 7, "g", (5, 0)),
    ("g(2, 3)", 0, "g", (5, 0)),
    ("g(2, 3)", 2, "g", (5, 0)),
    ("g(2, 3)", 3, "g", (5, 0)),
    ("g(2, 3), s", 6, "g", (5, 0)),
    ("g(2, 3), s", 8, "G", (5, 0)),
    ("g(1, 1)", 2, "g", (5, 0)),
    ("g(2, 3)", 5, "a", (5, 0)),
    ("g(2, 3)", 7, "", (5, 0)),
    ("s", 0, "s", (5, 0)),
    ("g(2, 3)", 6, "h", (13, 0)),
    ("g(6)", 6, "g", (13, 0)),
    ("g(1)", 1, "g", (13, 0)),
    ("g", 1, "g", (13, 0)),
    ("g(2, 3, 1)", 6, "g", (2, 1)),
    ("g(2, 3, 1)", 9, "q", (2, 1)),
    ("g(2, 3), g", 7, "g", (3, 1)),
    ("g(2, 3), i", 7, "g", (3, 3)),
    ("g(64, 65)", 4160, "g", (4, 1)),
    ("g(0, 3)", 0, "g", (4, 1)),
    ("g(0, 3)", 5, "", (4, 1)),
];

/// What Rows and Columns do.
pub fn arrange_rows() -> Vec<ArrangeRow> {
    let mut rows: Vec<ArrangeRow> = ARRANGED
        .iter()
        .map(|(names, cells)| arranged(names, of_names(names), "g", *cells))
        .collect();
    let among = of_names(NAMES);
    let of_g: [&[i32]; 3] = [&CELLS, &G_BY_ROWS, &G_BACK];
    let of_h: [&[i32]; 3] = [&CELLS, &H_TURNED, &H_TURNED];
    let row = |name: &str, asked: &str, cells| arranged(name, among.clone(), asked, cells);
    rows.extend([
        row("among other names", "g", of_g),
        row("another grid", "h", of_h),
        row("one row", "one", [&CELLS; 3]),
        // "upper case read as lower"
        row("upper case", "G", of_g),
        row("upper case, three letters", "oNE", [&CELLS; 3]),
        arranged("a text in upper case", among.to_uppercase(), "g", of_g),
        arranged("both in upper case", among.to_uppercase(), "H", of_h),
        arranged(
            "the longest name",
            of_names("s, abcdefghijklmnopqrstuvwxyz12345(2, 2)"),
            "ABCDEFGHIJKLMNOPQRSTUVWXYZ12345",
            [&[9, 1, 2, 3, 4], &[9, 1, 3, 2, 4], &[9, 1, 3, 2, 4]],
        ),
        arranged(
            "a name that begins another",
            of_names("ab(2, 2), a(2, 2)"),
            "a",
            [
                &[1, 2, 3, 4, 5, 6, 7, 8],
                &[1, 2, 3, 4, 5, 7, 6, 8],
                &[1, 2, 3, 4, 5, 7, 6, 8],
            ],
        ),
        arranged(
            "the ends of the range",
            of_names("g(2, 2)"),
            "g",
            [
                &[i32::MIN, i32::MAX, -1, 0],
                &[i32::MIN, -1, i32::MAX, 0],
                &[i32::MIN, -1, i32::MAX, 0],
            ],
        ),
    ]);
    rows.extend(unrun_rows());
    rows.extend(large_rows());
    let refused = |name: &str, text: Vec<u8>, cells: &[i32], asked: &[u8], refusal| ArrangeRow {
        name: name.to_string(),
        text,
        cells: cells.to_vec(),
        asked: asked.to_vec(),
        rows: Err(refusal),
        columns: Err(refusal),
    };
    let no_grid = |asked: &[u8]| {
        let name = format!("no grid: {}", asked.escape_ascii());
        refused(&name, among.clone().into(), &CELLS, asked, (13, 0))
    };
    rows.extend(NO_GRIDS.iter().map(|asked| no_grid(asked.as_bytes())));
    rows.extend(NO_LETTERS.iter().map(|byte| no_grid(&[*byte])));
    rows.push(no_grid(&[b'g'; 3000]));
    rows.push(no_grid(among.as_bytes()));
    for (names, count, asked, refusal) in REFUSED {
        let name = format!("{names}, {count} cells, {asked:?}");
        let cells: Vec<i32> = (0..*count as i32).collect();
        let text = of_names(names).into_bytes();
        rows.push(refused(&name, text, &cells, asked.as_bytes(), *refusal));
    }
    let bad = among.replace("end do", "g(1) = 1\nend do");
    let broken = among.replace("end do", "g(1, 1, 1) = 1\nend do");
    let long = format!("{among:<2049}");
    rows.extend([
        refused("3 in the body", bad.into(), &CELLS, b"g", (3, 5)),
        refused("2 in the body", broken.into(), &[], b"q", (2, 5)),
        refused("no text", Vec::new(), &[], b"g", (2, 1)),
        refused("2,049 bytes", long.clone().into(), &CELLS, b"g", (1, 0)),
        refused(
            "2,049 bytes, no cells, no name",
            long.clone().into(),
            &[],
            b"",
            (1, 0),
        ),
        arranged("2,048 bytes", &long[..2048], "g", of_g),
    ]);
    rows
}

/// "The loop is not run, so faults don't show; clauses and data are without effect." (9.5)
fn unrun_rows() -> Vec<ArrangeRow> {
    let cells: [&[i32]; 3] = [&[1, 2, 3, 4], &[1, 3, 2, 4], &[1, 3, 2, 4]];
    let of = |clauses: &str, body: &str| {
        let clauses = format!("num_threads(2) {clauses}");
        let name = format!("{clauses} {body}");
        arranged(&name, text("g(2, 2)", &clauses, "1, 9", body), "g", cells)
    };
    vec![
        of("", "g(1, 1) = 7"),
        of("", "g(9, 9) = 7"),
        of("", "g(1, 1) = 1/0"),
        of("shared(g)", "g(1, 1) = i"),
        of("lastprivate(g)", "g(1, 1) = i"),
        of("firstprivate(g) lastprivate(g)", ""),
        of("reduction(+:g) schedule(static)", "g(1, 1) = g(1, 1) + 1"),
        of("reduction(*:g)", ""),
        of("reduction(max:g)", ""),
        arranged(
            "data",
            "integer g(2, 2)\ndata g /4*9/\n!$omp parallel do num_threads(2)\ndo i = 1, 0\nend do",
            "g",
            cells,
        ),
    ]
}

/// Grids of 4,096 cells, of which each holds its own number, from 0: "a(r, c), found at (r - 1) + (c - 1) x m, to
/// (r - 1) x n + (c - 1)"; "the second undoes it" (9.1).
fn large_rows() -> Vec<ArrangeRow> {
    let row = |(m, n): (i32, i32)| {
        let numbers: Vec<i32> = (0..m * n).collect();
        let by_rows = (0..m).flat_map(|r| (0..n).map(move |c| r + c * m));
        let by_columns = (0..n).flat_map(|c| (0..m).map(move |r| r * n + c));
        let (by_rows, by_columns): (Vec<i32>, Vec<i32>) = (by_rows.collect(), by_columns.collect());
        let names = format!("g({m}, {n})");
        let cells: [&[i32]; 3] = [&numbers, &by_rows, &by_columns];
        arranged(&names, of_names(&names), "g", cells)
    };
    let extents = [
        (64, 64),
        (2, 2048),
        (2048, 2),
        (16, 256),
        (1, 4096),
        (4096, 1),
    ];
    extents.into_iter().map(row).collect()
}
