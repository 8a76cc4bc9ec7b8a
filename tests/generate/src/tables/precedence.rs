//! "The first bad line counts": texts with two bad lines, of every kind and number, and texts that end
//! at their bad line or right after it (RULES 1.14; READING 3, 23, 24).

use super::TextRow;

/// A good text, line by line.
const GOOD: [&str; 13] = [
    "integer s, a(4)",
    "data a /4*1/",
    "! x",
    "!$omp parallel do num_threads(2)",
    "do i = 1, 4",
    "s = a(i)",
    "if (s == 1) then",
    "s = 2",
    "else",
    "a(i) = 3",
    "end if",
    "end do",
    "!$omp end parallel do",
];

/// A line of [`GOOD`] by its index, what may stand in its place, and the number of that.
const BAD: &[Line] = &[
    (0, "integer s, a(4), s x", 2),
    (0, "integer s, a(4), s", 3),
    (0, "integer s, a(4), b(0)", 4),
    (0, "integer s, a(4), max", 2),
    (0, "integer s, a(4), g(1, 1, 1)", 2),
    (0, "integer s, a(4), g(2, 3), g", 3),
    (0, "integer s, a(4), g(64, 65)", 4),
    (1, "data a /4*1", 2),
    (1, "data a /5*1/", 3),
    (1, "data a /3*1, 2147483648/", 4),
    (2, "\u{7f}", 2),
    (2, "! \t", 2),
    (3, "!$omp parallel do", 2),
    (3, "!$omp parallel do num_threads(2) schedule(dynamic)", 2),
    (
        3,
        "!$omp parallel do schedule(static) num_threads(2) schedule(static)",
        2,
    ),
    (3, "!$omp parallel do num_threads(2) shared(t)", 3),
    (
        3,
        "!$omp parallel do num_threads(2) schedule(static) shared(t)",
        3,
    ),
    (
        3,
        "!$omp parallel do num_threads(2) firstprivate() lastprivate(s)",
        2,
    ),
    (3, "!$omp parallel do num_threads(2) firstprivate(s)", 3),
    (
        3,
        "!$omp parallel do num_threads(9) lastprivate(s) firstprivate(s, s)",
        3,
    ),
    (
        3,
        "!$omp parallel do firstprivate(s) lastprivate(s) num_threads(9)",
        4,
    ),
    (3, "!$omp parallel do num_threads(9)", 4),
    (3, "!$omp parallel do num_threads(2) reduction(min:s)", 2),
    (
        3,
        "!$omp parallel do num_threads(2) reduction(*:s) reduction(max:s)",
        3,
    ),
    (3, "!$omp parallel do num_threads(9) reduction(max:s)", 4),
    (4, "do i = 1", 2),
    (4, "do s = 1, 4", 3),
    (4, "do i = 1, 65536", 4),
    (5, "s = a(i", 2),
    (5, "s = a", 3),
    (5, "s = 2147483648", 4),
    (5, "s = a(i, 1, 1)", 2),
    (5, "s = a(i, 1)", 3),
    (5, "s = max(a(i))", 2),
    (5, "s = max(a, 1)", 3),
    (5, "s = max(1, ((((((((1)))))))))", 4),
    (6, "if (s == 1)", 2),
    (6, "if (t == 1) then", 3),
    (6, "if (s == 2147483648) then", 4),
    (7, "2 = s", 2),
    (7, "i = 2", 3),
    (7, "s = (((((((((2)))))))))", 4),
    (8, "else if", 2),
    (9, "a(i) = 3 ! x", 2),
    (9, "a(s(1)) = 3", 3),
    (9, "a(i, 1) = 3", 3),
    (9, "a((((((((i)))))))) = 3 + 4294967296", 4),
    (10, "end if if", 2),
    (11, "end do x", 2),
    (12, "!$omp end do", 2),
];

type Line = (usize, &'static str, u32);

/// [`GOOD`] with these lines in the place of its own.
fn with(bad: &[Line]) -> Vec<&'static str> {
    let mut lines = GOOD.to_vec();
    for &(index, line, _) in bad {
        lines[index] = line;
    }
    lines
}

/// All rows.
pub fn rows() -> Vec<TextRow> {
    let mut rows = pair_rows();
    for &(index, line, number) in BAD {
        let lines = with(&[(index, line, number)]);
        let upto = lines[..=index].join("\n");
        let place = index as u32 + 1;
        let row = |name: &str, text: String, number: u32| {
            TextRow::bad(&format!("{line}: {name}"), text, number, place)
        };
        rows.push(row("the only bad line", lines.join("\n"), number));
        rows.push(row("a blank line after it", format!("{upto}\n\n"), number));
        if index < 11 {
            rows.push(row("the end after it", upto.clone(), 2));
            rows.push(row("a newline after it", format!("{upto}\n"), 2));
        }
    }
    rows
}

/// Every two bad lines: the first counts.
fn pair_rows() -> Vec<TextRow> {
    let mut rows = Vec::new();
    for first in BAD {
        for second in BAD.iter().filter(|second| second.0 > first.0) {
            let text = with(&[*first, *second]).join("\n");
            let name = format!("{}, then {}", first.1, second.1);
            rows.push(TextRow::bad(&name, text, first.2, first.0 as u32 + 1));
        }
    }
    rows
}
