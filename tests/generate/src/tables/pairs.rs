//! Which texts print alike (document 02, Point 8).

use super::forms::framed;

/// Two accepted texts, and whether they print alike.
#[derive(Debug, Clone)]
pub struct PairRow {
    pub name: String,
    pub texts: [Vec<u8>; 2],
    pub alike: bool,
}

/// A name for the row, and for either text its `integer` lines, data lines, directive, `do` line and statements.
type Pair = (&'static str, [&'static str; 5], [&'static str; 5]);

const FIRST: &str = "integer s, a(4)";
const CLAUSES: &str = "!$omp parallel do num_threads(2)";
const LOOP: &str = "do i = 1, 4";

/// "Two accepted texts print alike exactly when they differ only in what this form removes": these do.
const ALIKE: &[Pair] = &[
    (
        "case",
        [FIRST, "", CLAUSES, LOOP, "s = a(i)"],
        [
            "Integer S, A(4)",
            "",
            "!$Omp PARALLEL do Num_Threads(2)",
            "dO I = 1, 4",
            "S = A(I)",
        ],
    ),
    (
        "blanks",
        [FIRST, "", CLAUSES, LOOP, "s = a(i) + 1"],
        [
            " integer s , a( 4)",
            "",
            " !$omp  parallel do num_threads (2)",
            "do i=1,4",
            "s=a( i )+1  ",
        ],
    ),
    (
        "a comment",
        [FIRST, "", CLAUSES, LOOP, ""],
        [FIRST, "! s is the sum", CLAUSES, LOOP, ""],
    ),
    (
        "comments",
        [FIRST, "! 1", CLAUSES, LOOP, "!! 2"],
        [
            "! integer b\ninteger s, a(4)",
            " !$ omp",
            CLAUSES,
            "do i = 1, 4\n\n ! x",
            "",
        ],
    ),
    (
        "empty lines",
        [FIRST, "", CLAUSES, LOOP, ""],
        [
            "\n\ninteger s, a(4)\n",
            "",
            CLAUSES,
            "   \ndo i = 1, 4",
            "\n",
        ],
    ),
    (
        "endings",
        [FIRST, "", CLAUSES, LOOP, "if (s == 1) then\nendif"],
        [FIRST, "", CLAUSES, LOOP, "if (s == 1) then\nend if"],
    ),
    (
        "copies",
        [FIRST, "data a /1, 1, 1, 1/", CLAUSES, LOOP, ""],
        [FIRST, "data a /4*1/", CLAUSES, LOOP, ""],
    ),
    (
        "copies with a sign",
        [FIRST, "data a /2*-1, -1, -1/", CLAUSES, LOOP, ""],
        [FIRST, "data a /-1, 3*-1/", CLAUSES, LOOP, ""],
    ),
    (
        "one copy",
        [FIRST, "data a /1*1, 2, 1*3, 4/", CLAUSES, LOOP, ""],
        [FIRST, "data a /1, 1*2, 3, 0001*4/", CLAUSES, LOOP, ""],
    ),
    (
        "zeros",
        [FIRST, "data a /2*0, 7, 10/", CLAUSES, LOOP, "s = a(1) + 0"],
        [
            "integer s, a(04)",
            "data a /00, 0, 007, 010/",
            "!$omp parallel do num_threads(02)",
            "do i = 01, 4",
            "s = a(001) + 000",
        ],
    ),
    // document 02, Point 9
    (
        "a grid in another way",
        [
            "integer g(2, 3)",
            "data g /6*1/",
            CLAUSES,
            LOOP,
            "g(1, 2) = g(i, 3)",
        ],
        [
            "INTEGER G ( 02,003 )",
            "data g /1, 2*1, 3*01/",
            CLAUSES,
            LOOP,
            "  g(01 ,2)=G( I,0003 )",
        ],
    ),
];

/// These do not.
const DIFFERENT: &[Pair] = &[
    (
        "two integer lines",
        [FIRST, "", CLAUSES, LOOP, ""],
        ["integer s\ninteger a(4)", "", CLAUSES, LOOP, ""],
    ),
    (
        "declared in another order",
        [FIRST, "", CLAUSES, LOOP, ""],
        ["integer a(4), s", "", CLAUSES, LOOP, ""],
    ),
    (
        "a name more",
        [FIRST, "", CLAUSES, LOOP, ""],
        ["integer s, a(4), b", "", CLAUSES, LOOP, ""],
    ),
    (
        "one cell or an array of one",
        ["integer s", "", CLAUSES, LOOP, ""],
        ["integer s(1)", "", CLAUSES, LOOP, ""],
    ),
    (
        "another length",
        ["integer s, a(4)", "", CLAUSES, LOOP, ""],
        ["integer s, a(40)", "", CLAUSES, LOOP, ""],
    ),
    (
        "another name",
        ["integer s, a1", "", CLAUSES, LOOP, ""],
        ["integer s, a01", "", CLAUSES, LOOP, ""],
    ),
    (
        "an underscore",
        ["integer s, a_1", "", CLAUSES, LOOP, ""],
        ["integer s, a1", "", CLAUSES, LOOP, ""],
    ),
    (
        "a data line of zeros",
        [FIRST, "", CLAUSES, LOOP, ""],
        [FIRST, "data a /4*0/", CLAUSES, LOOP, ""],
    ),
    (
        "data lines in another order",
        [FIRST, "data a /4*1/\ndata s /2/", CLAUSES, LOOP, ""],
        [FIRST, "data s /2/\ndata a /4*1/", CLAUSES, LOOP, ""],
    ),
    (
        "data of another name",
        ["integer s, t", "data s /2/", CLAUSES, LOOP, ""],
        ["integer s, t", "data t /2/", CLAUSES, LOOP, ""],
    ),
    (
        "a plus in data",
        [FIRST, "data s /1/", CLAUSES, LOOP, ""],
        [FIRST, "data s /+1/", CLAUSES, LOOP, ""],
    ),
    (
        "a minus before 0",
        [FIRST, "data s /0/", CLAUSES, LOOP, ""],
        [FIRST, "data s /-0/", CLAUSES, LOOP, ""],
    ),
    (
        "plus or minus before 0",
        [FIRST, "data s /+0/", CLAUSES, LOOP, ""],
        [FIRST, "data s /-0/", CLAUSES, LOOP, ""],
    ),
    (
        "the literal behind a sign",
        [FIRST, "data s /-1/", CLAUSES, LOOP, ""],
        [FIRST, "data s /-2/", CLAUSES, LOOP, ""],
    ),
    (
        "copies with a plus",
        [FIRST, "data a /4*1/", CLAUSES, LOOP, ""],
        [FIRST, "data a /4*+1/", CLAUSES, LOOP, ""],
    ),
    (
        "one copy with a plus",
        [FIRST, "data a /4*1/", CLAUSES, LOOP, ""],
        [FIRST, "data a /1, 1, +1, 1/", CLAUSES, LOOP, ""],
    ),
    (
        "the last copy",
        [FIRST, "data a /4*1/", CLAUSES, LOOP, ""],
        [FIRST, "data a /3*1, 2/", CLAUSES, LOOP, ""],
    ),
    (
        "other copies",
        [FIRST, "data a /2*1, 2*2/", CLAUSES, LOOP, ""],
        [FIRST, "data a /3*1, 2/", CLAUSES, LOOP, ""],
    ),
    (
        "a zero more behind",
        [FIRST, "data s /1/", CLAUSES, LOOP, ""],
        [FIRST, "data s /10/", CLAUSES, LOOP, ""],
    ),
    (
        "a zero within",
        [FIRST, "data s /11/", CLAUSES, LOOP, ""],
        [FIRST, "data s /101/", CLAUSES, LOOP, ""],
    ),
    (
        "clauses in another order",
        [
            FIRST,
            "",
            "!$omp parallel do num_threads(2) shared(a)",
            LOOP,
            "",
        ],
        [
            FIRST,
            "",
            "!$omp parallel do shared(a) num_threads(2)",
            LOOP,
            "",
        ],
    ),
    (
        "names of a clause in another order",
        [
            FIRST,
            "",
            "!$omp parallel do num_threads(2) shared(a, s)",
            LOOP,
            "",
        ],
        [
            FIRST,
            "",
            "!$omp parallel do num_threads(2) shared(s, a)",
            LOOP,
            "",
        ],
    ),
    (
        "one clause or two",
        [
            FIRST,
            "",
            "!$omp parallel do num_threads(2) shared(a, s)",
            LOOP,
            "",
        ],
        [
            FIRST,
            "",
            "!$omp parallel do num_threads(2) shared(a) shared(s)",
            LOOP,
            "",
        ],
    ),
    (
        "shared by a clause or by none",
        [FIRST, "", CLAUSES, LOOP, ""],
        [
            FIRST,
            "",
            "!$omp parallel do num_threads(2) shared(a)",
            LOOP,
            "",
        ],
    ),
    (
        "schedule(static)",
        [FIRST, "", CLAUSES, LOOP, ""],
        [
            FIRST,
            "",
            "!$omp parallel do num_threads(2) schedule(static)",
            LOOP,
            "",
        ],
    ),
    (
        "another operation",
        [
            FIRST,
            "",
            "!$omp parallel do num_threads(2) reduction(+:s)",
            LOOP,
            "",
        ],
        [
            FIRST,
            "",
            "!$omp parallel do num_threads(2) reduction(*:s)",
            LOOP,
            "",
        ],
    ),
    (
        "lastprivate or both clauses",
        [
            FIRST,
            "",
            "!$omp parallel do num_threads(2) lastprivate(s)",
            LOOP,
            "",
        ],
        [
            FIRST,
            "",
            "!$omp parallel do num_threads(2) lastprivate(s) firstprivate(s)",
            LOOP,
            "",
        ],
    ),
    (
        "another number of processors",
        [FIRST, "", CLAUSES, LOOP, ""],
        [FIRST, "", "!$omp parallel do num_threads(1)", LOOP, ""],
    ),
    (
        "a plus before a bound",
        [FIRST, "", CLAUSES, "do i = 1, 4", ""],
        [FIRST, "", CLAUSES, "do i = +1, 4", ""],
    ),
    (
        "another variable",
        [FIRST, "", CLAUSES, "do i = 1, 4", ""],
        [FIRST, "", CLAUSES, "do j = 1, 4", ""],
    ),
    (
        "no iterations, by other bounds",
        [FIRST, "", CLAUSES, "do i = 1, 0", ""],
        [FIRST, "", CLAUSES, "do i = 2, 0", ""],
    ),
    (
        "brackets",
        [FIRST, "", CLAUSES, LOOP, "s = i"],
        [FIRST, "", CLAUSES, LOOP, "s = (i)"],
    ),
    (
        "a plus before an expression",
        [FIRST, "", CLAUSES, LOOP, "s = i"],
        [FIRST, "", CLAUSES, LOOP, "s = +i"],
    ),
    (
        "terms in another order",
        [FIRST, "", CLAUSES, LOOP, "s = 1 + i"],
        [FIRST, "", CLAUSES, LOOP, "s = i + 1"],
    ),
    (
        "a term of 0",
        [FIRST, "", CLAUSES, LOOP, "s = i"],
        [FIRST, "", CLAUSES, LOOP, "s = i + 0"],
    ),
    (
        "relations",
        [FIRST, "", CLAUSES, LOOP, "if (s < 1) then\nend if"],
        [FIRST, "", CLAUSES, LOOP, "if (s <= 1) then\nend if"],
    ),
    (
        "an empty else",
        [FIRST, "", CLAUSES, LOOP, "if (s < 1) then\nend if"],
        [FIRST, "", CLAUSES, LOOP, "if (s < 1) then\nelse\nend if"],
    ),
    (
        "an if that does nothing",
        [FIRST, "", CLAUSES, LOOP, ""],
        [FIRST, "", CLAUSES, LOOP, "if (s < 1) then\nend if"],
    ),
    (
        "statements in another order",
        [FIRST, "", CLAUSES, LOOP, "s = 1\na(1) = 2"],
        [FIRST, "", CLAUSES, LOOP, "a(1) = 2\ns = 1"],
    ),
    (
        "a statement twice",
        [FIRST, "", CLAUSES, LOOP, "s = 1"],
        [FIRST, "", CLAUSES, LOOP, "s = 1\ns = 1"],
    ),
    (
        "a statement less",
        [FIRST, "", CLAUSES, LOOP, "s = 1"],
        [FIRST, "", CLAUSES, LOOP, "! s = 1"],
    ),
    (
        "after an end if or before it",
        [FIRST, "", CLAUSES, LOOP, "if (s < 1) then\ns = 1\nend if"],
        [FIRST, "", CLAUSES, LOOP, "if (s < 1) then\nend if\ns = 1"],
    ),
    // document 02, Point 9
    (
        "subscripts in another order",
        ["integer g(2, 2)", "", CLAUSES, LOOP, "g(1, 2) = i"],
        ["integer g(2, 2)", "", CLAUSES, LOOP, "g(2, 1) = i"],
    ),
    (
        "subscripts that are read in another order",
        ["integer s, g(2, 2)", "", CLAUSES, LOOP, "s = g(i, 1)"],
        ["integer s, g(2, 2)", "", CLAUSES, LOOP, "s = g(1, i)"],
    ),
    (
        "the same digits in two subscripts",
        ["integer g(12, 12)", "", CLAUSES, LOOP, "g(1, 12) = i"],
        ["integer g(12, 12)", "", CLAUSES, LOOP, "g(11, 2) = i"],
    ),
    (
        "brackets in a subscript",
        ["integer g(2, 2)", "", CLAUSES, LOOP, "g(1, 2) = i"],
        ["integer g(2, 2)", "", CLAUSES, LOOP, "g(1, (2)) = i"],
    ),
    (
        "extents in another order",
        ["integer g(2, 3)", "", CLAUSES, LOOP, ""],
        ["integer g(3, 2)", "", CLAUSES, LOOP, ""],
    ),
    (
        "other extents of as many cells",
        ["integer g(2, 6)", "", CLAUSES, LOOP, ""],
        ["integer g(3, 4)", "", CLAUSES, LOOP, ""],
    ),
    (
        "the same digits in two extents",
        ["integer g(1, 11)", "", CLAUSES, LOOP, ""],
        ["integer g(11, 1)", "", CLAUSES, LOOP, ""],
    ),
    (
        "an array or a grid of as many cells",
        ["integer g(6)", "", CLAUSES, LOOP, ""],
        ["integer g(2, 3)", "", CLAUSES, LOOP, ""],
    ),
    (
        "an array or a grid of one column",
        ["integer g(6)", "", CLAUSES, LOOP, "g(i) = 1"],
        ["integer g(6, 1)", "", CLAUSES, LOOP, "g(i, 1) = 1"],
    ),
    (
        "one cell or a grid of one",
        ["integer g", "", CLAUSES, LOOP, ""],
        ["integer g(1, 1)", "", CLAUSES, LOOP, ""],
    ),
    (
        "a grid and an array in another order",
        ["integer g(2, 3), a(4)", "", CLAUSES, LOOP, ""],
        ["integer a(4), g(2, 3)", "", CLAUSES, LOOP, ""],
    ),
    (
        "two grids on one line or on two",
        ["integer g(2, 3), h(3, 2)", "", CLAUSES, LOOP, ""],
        ["integer g(2, 3)\ninteger h(3, 2)", "", CLAUSES, LOOP, ""],
    ),
];

/// All rows.
pub fn rows() -> Vec<PairRow> {
    let text = |[integers, data, directive, bounds, body]: [&str; 5]| {
        framed(integers, data, directive, bounds, body)
    };
    let row = |name: &str, texts: [String; 2], alike: bool| PairRow {
        name: name.to_string(),
        texts: texts.map(String::into_bytes),
        alike,
    };
    let of =
        |alike: bool| move |&(name, one, other): &Pair| row(name, [text(one), text(other)], alike);
    let mut rows: Vec<PairRow> = ALIKE.iter().map(of(true)).collect();
    rows.extend(DIFFERENT.iter().map(of(false)));
    let plain = text([FIRST, "", CLAUSES, LOOP, ""]);
    let closed = plain.clone() + "!$omp end parallel do\n";
    let joined = plain.replace("end do", "ENDDO");
    let unended = plain.trim_end().to_string();
    rows.extend([
        row("the same", [plain.clone(), plain.clone()], true),
        row("a closing directive", [plain.clone(), closed.clone()], true),
        row("enddo", [plain.clone(), joined], true),
        row("the last newline", [plain.clone(), unended.clone()], true),
        row("both", [unended, closed.clone()], true),
        row("a comment behind", [plain, closed + "\n! x"], true),
    ]);
    rows
}
