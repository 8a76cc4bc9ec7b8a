//! The table *From your Fortran to a text* of docs/GUIDE.md: what a loop in Fortran may have, with the number
//! that refuses it and its line, what is accepted as it stands, and what to write instead, which is accepted.

use super::TextRow;

/// The parts of a loop that a form stands in for; lines are parted by newlines.
#[derive(Clone, Copy)]
enum Part {
    Declaration,
    Data,
    Directive,
    Loop,
    Statement,
}

/// A text with a form for one of its parts: the declarations on line 1, then data, the directive, the loop and
/// one statement, each on a line of its own but for the form's.
fn with(part: Part, form: &str) -> String {
    let mut lines = [
        "integer a(8), t, s",
        "data a /8*1/",
        "!$omp parallel do num_threads(2)",
        "do i = 1, 4",
        "a(1) = 2",
        "end do\n",
    ];
    lines[part as usize] = form;
    lines.join("\n")
}

/// What a loop in Fortran may have: a part, the form, the number that refuses it and the line.
const HAVE: &[(Part, &str, u32, u32)] = &[
    (Part::Declaration, "integer :: a(8), t, s", 2, 1),
    (Part::Declaration, "integer, dimension(8) :: a", 2, 1),
    (Part::Declaration, "integer(4) a(8), t, s", 2, 1),
    (Part::Declaration, "integer*4 a(8), t, s", 2, 1),
    (Part::Declaration, "integer a(0:7), t, s", 2, 1),
    (Part::Declaration, "integer a(0:1, 4), t, s", 2, 1),
    (Part::Declaration, "integer a(2, 2, 2), t, s", 2, 1),
    (Part::Declaration, "integer a(n), t, s", 2, 1),
    (Part::Declaration, "integer a(n, 4), t, s", 2, 1),
    (Part::Declaration, "integer :: t = 0", 2, 1),
    (Part::Declaration, "real a(8), t, s", 2, 1),
    (Part::Declaration, "logical a", 2, 1),
    (Part::Declaration, "program tides", 2, 1),
    (Part::Declaration, "implicit none", 2, 1),
    (Part::Declaration, "integer, parameter :: n = 4", 2, 1),
    (Part::Declaration, "integer a(8), t, s, i", 3, 4),
    (Part::Data, "data a, t /8*1, 2/", 2, 2),
    (Part::Data, "data a /8*1/, t /2/", 2, 2),
    (Part::Directive, "!$omp parallel\n!$omp do", 2, 3),
    (Part::Directive, "!$omp parallel do", 2, 3),
    (
        Part::Directive,
        "!$omp parallel do num_threads(2), lastprivate(t)",
        2,
        3,
    ),
    (
        Part::Directive,
        "!$omp parallel do num_threads(2) &\n!$omp lastprivate(t)",
        2,
        3,
    ),
    (
        Part::Directive,
        "!$omp parallel do num_threads(2) private(t)",
        2,
        3,
    ),
    (
        Part::Directive,
        "!$omp parallel do num_threads(2) firstprivate(t)",
        3,
        3,
    ),
    (
        Part::Directive,
        "!$omp parallel do num_threads(2) default(none)",
        2,
        3,
    ),
    (
        Part::Directive,
        "!$omp parallel do num_threads(2) collapse(1)",
        2,
        3,
    ),
    (
        Part::Directive,
        "!$omp parallel do num_threads(2) schedule(dynamic)",
        2,
        3,
    ),
    (
        Part::Directive,
        "!$omp parallel do num_threads(2) reduction(-:s)",
        2,
        3,
    ),
    (
        Part::Directive,
        "!$omp parallel do num_threads(2) reduction(min:s)",
        2,
        3,
    ),
    (
        Part::Directive,
        "!$omp parallel do num_threads(2) private(i)",
        2,
        3,
    ),
    (
        Part::Directive,
        "!$omp parallel do num_threads(2) shared(i)",
        3,
        3,
    ),
    (Part::Loop, "do i = 1, t", 2, 4),
    (Part::Loop, "do i = 1, 2 * 2", 2, 4),
    (Part::Loop, "do i = 1, 9, 2", 2, 4),
    (Part::Loop, "do while (t < 4)", 2, 4),
    (Part::Statement, "a(i) = i   ! level", 2, 5),
    (Part::Statement, "a(i) = i &\n  + 1", 2, 5),
    (Part::Statement, "a(i) = i; t = 1", 2, 5),
    (Part::Statement, "if (i > 2) a(i) = 1", 2, 5),
    (
        Part::Statement,
        "if (i > 2) then\na(i) = 1\nelse if (i > 1) then\na(i) = 2\nend if",
        2,
        7,
    ),
    (
        Part::Statement,
        "if (i .gt. 2) then\na(i) = 1\nend if",
        2,
        5,
    ),
    (
        Part::Statement,
        "if (i .eq. 2) then\na(i) = 1\nend if",
        2,
        5,
    ),
    (
        Part::Statement,
        "if (i > 2 .and. i < 4) then\na(i) = 1\nend if",
        2,
        5,
    ),
    (
        Part::Statement,
        "if (i > 2 .or. t > 0) then\na(i) = 1\nend if",
        2,
        5,
    ),
    (
        Part::Statement,
        "if (.not. i > 2) then\na(i) = 1\nend if",
        2,
        5,
    ),
    (Part::Statement, "a(i) = mod(i, 4)", 3, 5),
    (Part::Statement, "a(i) = min(i, 4)", 3, 5),
    (Part::Statement, "a(i) = abs(t)", 3, 5),
    (Part::Statement, "a(i) = max(i, s, t)", 2, 5),
    (Part::Statement, "a(i, 1) = 2", 3, 5),
    (Part::Statement, "a(i, 1, 1) = 2", 2, 5),
    (Part::Statement, "print *, a(i)", 2, 5),
    (Part::Statement, "write (*, *) a(i)", 2, 5),
    (Part::Statement, "a(i) = i ** 2", 2, 5),
    (Part::Statement, "a(i) = 2 * -1", 2, 5),
    (Part::Statement, "a(i) = -2147483648", 4, 5),
    (Part::Statement, "a(i) = 1_4", 2, 5),
    (Part::Statement, "a(:) = 0", 2, 5),
    (Part::Statement, "a(:, 1) = 0", 2, 5),
    (Part::Statement, "a = 0", 3, 5),
    (Part::Statement, "do j = 1, 2\na(i) = j\nend do", 2, 5),
    (Part::Statement, "call flow(i)", 2, 5),
    (Part::Statement, "cycle", 2, 5),
    (Part::Statement, "exit", 2, 5),
    (Part::Statement, "goto 10", 2, 5),
    (Part::Statement, "10 a(i) = i", 2, 5),
    (Part::Statement, "continue", 2, 5),
    // Bytes that no text has.
    (Part::Statement, "\ta(i) = i", 2, 5),
    (Part::Statement, "a(i) = i\r", 2, 5),
    (Part::Statement, "! caf\u{e9}", 2, 5),
    (Part::Declaration, "\u{feff}integer a(8), t, s", 2, 1),
];

/// What is accepted as it stands since document 02, Point 9, and what to write for three dimensions or for a loop in a loop
/// over two: a declaration, the loop and a statement.
const GRIDS: &[(&str, &str, &str)] = &[
    ("integer a(2, 4), t, s", "do i = 1, 4", "a(2, i) = t"),
    (
        "integer a(4, 2), t, s",
        "do i = 1, 4",
        "a(i, t + 1) = a(i, 2) + s",
    ),
    ("integer a(8, 1), t, s", "do i = 1, 4", "a(i, 1) = 2"),
    (
        "integer a(2, 4), t, s",
        "do i = 1, 2",
        "a(i, 2 + 2 * (2 - 1)) = 1",
    ),
    (
        "integer a(2, 4), t, s",
        "do k = 0, 7",
        "a((k - k / 2 * 2 + 1), (k / 2 + 1)) = k",
    ),
];

/// What to write instead.
const WRITE: &[(Part, &str)] = &[
    (Part::Statement, "! level\na(i) = i"),
    (Part::Statement, "if (i > 2) then\na(i) = 1\nend if"),
    (
        Part::Statement,
        "if (i > 2) then\na(i) = 1\nelse\nif (i > 1) then\na(i) = 2\nend if\nend if",
    ),
    (Part::Statement, "a(i) = 2 * (i - i / 4 * 4)"),
    (Part::Statement, "a(i) = 2 * (-max(-i, -4))"),
    (Part::Statement, "a(i) = max(max(i, s), t)"),
    (Part::Statement, "a(i) = max(t, -t)"),
    (Part::Statement, "a(i) = i * i"),
    (Part::Statement, "a(i) = 2 * (-1)"),
    (Part::Statement, "a(i) = -2147483647 - 1"),
    (Part::Loop, "do k = 1, 5"),
    (
        Part::Directive,
        "!$omp parallel do num_threads(2) lastprivate(t)",
    ),
    (
        Part::Directive,
        "!$omp parallel do num_threads(2) firstprivate(t) lastprivate(t)",
    ),
    (
        Part::Directive,
        "!$omp parallel do num_threads(2) reduction(+:s)",
    ),
];

/// All rows.
pub fn rows() -> Vec<TextRow> {
    let have = |&(part, form, number, line): &(Part, &str, u32, u32)| {
        TextRow::bad(form, with(part, form), number, line)
    };
    let write = |&(part, form): &(Part, &str)| TextRow::good(form, with(part, form), 10, 2);
    let grid = |&(declaration, bounds, statement): &(&str, &str, &str)| {
        let text = with(Part::Statement, statement);
        let text = text.replace("integer a(8), t, s", declaration);
        let text = text.replace("do i = 1, 4", bounds);
        TextRow::good(&format!("{declaration}, {statement}"), text, 10, 2)
    };
    HAVE.iter()
        .map(have)
        .chain(GRIDS.iter().map(grid))
        .chain(WRITE.iter().map(write))
        .collect()
}
