//! What Look shows after a schedule's bytes: for each cell the shared value and the marks.

/// A text, the cells lent, the schedule, and the view.
#[derive(Debug, Clone)]
pub struct LookRow {
    pub name: String,
    pub text: Vec<u8>,
    pub cells: Vec<i32>,
    pub schedule: Vec<u8>,
    pub view: Vec<(i32, u32)>,
}

/// A schedule and the view after it.
pub(super) type Seen<'s> = (&'s [u8], &'s [(i32, u32)]);

/// Assignments where s and a are reduction names, s being 6, a 1, 2, 3, 4 and i 1, and the marks
/// they leave on s and a (READING 62 to 67). An update alone leaves 8, a read and write 5.
const REDUCTIONS: &[(&str, [u32; 5])] = &[
    ("s=s+1", [8, 0, 0, 0, 0]),
    ("S = s + 1", [8, 0, 0, 0, 0]),
    ("s=s+1-1", [8, 0, 0, 0, 0]),
    ("s=s+(1)", [8, 0, 0, 0, 0]),
    ("s=s+rdiv(1,1)*2", [8, 0, 0, 0, 0]),
    ("s = s + a(1) - a(2)", [8, 2, 2, 0, 0]),
    ("s = s + s", [10, 0, 0, 0, 0]),
    ("s = s + (s)", [10, 0, 0, 0, 0]),
    ("s = s + 1 + s", [10, 0, 0, 0, 0]),
    ("a(i)=A( I )+1", [0, 8, 0, 0, 0]),
    ("a(01)=a(1)+2", [0, 8, 0, 0, 0]),
    ("a(1)=a(0001)+2", [0, 8, 0, 0, 0]),
    ("a((1))=a((1))+2", [0, 8, 0, 0, 0]),
    ("a(1+0)=a(1+00)+2", [0, 8, 0, 0, 0]),
    ("a(10/5)=a(010/05)+2", [0, 0, 8, 0, 0]),
    ("a(-1 + 2)=a( - 1+2 )+2", [0, 8, 0, 0, 0]),
    ("a(rdiv(4,2))=a(rdiv(4,2))+2", [0, 0, 8, 0, 0]),
    ("a(a(001))=a(a(1))+2", [0, 10, 0, 0, 0]),
    ("a(a(2))=a(a(2))+2", [0, 0, 10, 0, 0]),
    ("a(a(1)+a(1))=a(a(1)+a(1))+1", [0, 2, 8, 0, 0]),
    ("a(1)=a(1)+a(1)", [0, 10, 0, 0, 0]),
    // document 02, Point 1 (P1.1, P1.2, P1.5)
    ("s=s-1", [8, 0, 0, 0, 0]),
    ("s=s-1+2", [8, 0, 0, 0, 0]),
    ("s = s - a(1) + a(2)", [8, 2, 2, 0, 0]),
    ("s = s - a(1)/a(2)*a(3)", [8, 2, 2, 2, 0]),
    ("s = s - (a(1) + a(2))", [8, 2, 2, 0, 0]),
    ("s=s-rdiv(1,1)*2", [8, 0, 0, 0, 0]),
    ("s = s - s", [10, 0, 0, 0, 0]),
    ("s = s - (s)", [10, 0, 0, 0, 0]),
    ("s = s - 1 + s", [10, 0, 0, 0, 0]),
    ("s = s + 1 - s", [10, 0, 0, 0, 0]),
    ("a(01) = A( 1 )-2", [0, 8, 0, 0, 0]),
    ("a(1)=a(0001)-2", [0, 8, 0, 0, 0]),
    ("a(-1 + 2)=a( - 1+2 )-2", [0, 8, 0, 0, 0]),
    ("a(rdiv(4,2))=a(rdiv(4,2))-2", [0, 0, 8, 0, 0]),
    ("a(a(2))=a(a(2))-2", [0, 0, 10, 0, 0]),
    ("a(1)=a(1)-a(1)", [0, 10, 0, 0, 0]),
    // not the same words
    ("a(1)=a((1))+2", [0, 5, 0, 0, 0]),
    ("a((1))=a(1)+2", [0, 5, 0, 0, 0]),
    ("a(1)=a(1+0)+2", [0, 5, 0, 0, 0]),
    ("a(1)=a(+1)+2", [0, 5, 0, 0, 0]),
    ("a(1)=a(i)+2", [0, 5, 0, 0, 0]),
    ("a(i)=a(1)+2", [0, 5, 0, 0, 0]),
    ("a(2)=a(1)+2", [0, 2, 1, 0, 0]),
    ("a(1)=a(10)+2", [0, 0, 0, 0, 0]),
    ("a(1)=s+2", [2, 1, 0, 0, 0]),
    ("s=(s)+1", [5, 0, 0, 0, 0]),
    ("s=(s+1)", [5, 0, 0, 0, 0]),
    // READING 55
    ("s=+s+1", [5, 0, 0, 0, 0]),
    ("s=-s+1", [5, 0, 0, 0, 0]),
    ("s=1+s", [5, 0, 0, 0, 0]),
    // P1.1
    ("s=-s-1", [5, 0, 0, 0, 0]),
    ("s=+s-1", [5, 0, 0, 0, 0]),
    ("s=(s)-1", [5, 0, 0, 0, 0]),
    ("s=(s-1)", [5, 0, 0, 0, 0]),
    ("s=1-s", [5, 0, 0, 0, 0]),
    ("s=s*1-2", [5, 0, 0, 0, 0]),
    ("s=s/1-2", [5, 0, 0, 0, 0]),
    ("s=s*2", [5, 0, 0, 0, 0]),
    ("s=s/2", [5, 0, 0, 0, 0]),
    ("a(1)=a(i)-2", [0, 5, 0, 0, 0]),
    ("a(1)=a((1))-2", [0, 5, 0, 0, 0]),
    ("a(2)=a(1)-2", [0, 2, 1, 0, 0]),
    ("a(1)=s-2", [2, 1, 0, 0, 0]),
    ("s=s*2+1", [5, 0, 0, 0, 0]),
    ("s=s/2+1", [5, 0, 0, 0, 0]),
    ("s=s", [5, 0, 0, 0, 0]),
    ("s=rdiv(s,1)+1", [5, 0, 0, 0, 0]),
    // faults (READING 67, 82)
    ("s=s+1/0", [0, 0, 0, 0, 0]),
    ("s=s+a(1)/0", [0, 2, 0, 0, 0]),
    ("s=s-1/0", [0, 0, 0, 0, 0]),
    ("s=s-a(1)/0", [0, 2, 0, 0, 0]),
    ("a(9)=a(9)-s", [0, 0, 0, 0, 0]),
    ("s=a(1)/0", [0, 2, 0, 0, 0]),
    ("a(9)=a(9)+s", [0, 0, 0, 0, 0]),
    ("a(9)=s", [2, 0, 0, 0, 0]),
    ("a(a(1)+8)=a(a(1)+8)+s", [0, 2, 0, 0, 0]),
];

/// Statements where the names are lastprivate: none leaves an 8 (READING 64).
const ORDINARY: &[(&str, [u32; 5])] = &[
    ("s=s+1", [5, 0, 0, 0, 0]),
    ("s=s-1", [5, 0, 0, 0, 0]),
    ("a(01)=a(1)+2", [0, 5, 0, 0, 0]),
    ("a(01)=a(1)-2", [0, 5, 0, 0, 0]),
    ("a(a(2))=a(a(2))+2", [0, 0, 5, 0, 0]),
    ("s = s + s", [5, 0, 0, 0, 0]),
    ("a(9)=a(9)+s", [0, 0, 0, 0, 0]),
    ("a(9)=s", [2, 0, 0, 0, 0]),
    ("s=1", [1, 0, 0, 0, 0]),
    ("s=1\na(1)=s", [1, 1, 0, 0, 0]),
    ("a(1)=s\ns=1", [5, 1, 0, 0, 0]),
    // READING 79
    ("s=1\ns=s+1", [1, 0, 0, 0, 0]),
    ("s=s\ns=s", [5, 0, 0, 0, 0]),
    ("if (s==a(1)) then\nend if", [2, 2, 0, 0, 0]),
    (
        "if (s<a(1)) then\na(2)=1\nelse\na(3)=1\nend if",
        [2, 2, 0, 1, 0],
    ),
];

/// Statements, and the order of their accesses by the number of the cell (s is 0, a(1) is 1) as the
/// cells marked after one, two, ... steps (READING 56 to 59, 66).
const ORDERS: &[(&str, &[usize])] = &[
    ("s = a(1) + a(2)*a(3) - a(4)", &[1, 2, 3, 4, 0]),
    ("s = a(4)/a(3)/a(2)", &[4, 3, 2, 0]),
    ("s = rdiv(a(3), a(2))", &[3, 2, 0]),
    ("s = -a(2) + (a(1) - a(4))", &[2, 1, 4, 0]),
    ("s = a(a(2) + 1)", &[2, 3, 0]),
    ("s = a(4) + a(a(2) + 1)", &[4, 2, 3, 0]),
    ("a(a(1) + 1) = a(4)", &[4, 1, 2]),
    ("a(a(3) + 1) = s", &[0, 3, 4]),
    // P6.8
    ("s = max(a(3), a(2))", &[3, 2, 0]),
    ("s = max(a(2), a(3))", &[2, 3, 0]),
    ("s = max(a(4), 1)/max(1, a(2))*a(3)", &[4, 2, 3, 0]),
    ("a(max(a(1), 4)) = a(3)", &[3, 1, 4]),
    ("if (a(3) == a(2)) then\nend if", &[3, 2]),
    (
        "if (a(3) == a(2) + 1) then\ns = 1\nend if\na(1) = 1",
        &[3, 2, 0, 1],
    ),
];

/// All rows.
pub fn rows() -> Vec<LookRow> {
    let mut rows = one_iteration_rows();
    rows.extend(order_rows());
    rows.extend(step_rows());
    rows.extend(mark_rows());
    rows.extend(super::blocks::look_rows());
    rows.extend(super::copies::look_rows());
    rows.extend(super::reductions::look_rows());
    rows.extend(super::grids::look_rows());
    rows
}

pub(super) fn row(
    name: &str,
    text: &str,
    cells: &[i32],
    schedule: &[u8],
    view: &[(i32, u32)],
) -> LookRow {
    LookRow {
        name: format!("{name}, bytes {schedule:?}"),
        text: text.as_bytes().to_vec(),
        cells: cells.to_vec(),
        schedule: schedule.to_vec(),
        view: view.to_vec(),
    }
}

/// A loop of these declarations, clauses, bounds and body.
fn text(names: &str, clauses: &str, bounds: &str, body: &str) -> String {
    format!("integer {names}\n!$omp parallel do {clauses}\ndo i = {bounds}\n{body}\nend do\n")
}

/// More steps than any of these iterations takes.
const TO_THE_END: [u8; 20] = [0; 20];

fn one_iteration_rows() -> Vec<LookRow> {
    let lent = [6, 1, 2, 3, 4];
    let mut rows = Vec::new();
    for (statement, marks) in REDUCTIONS {
        let clauses = "num_threads(1) reduction(+:s, a)";
        let text = text("s, a(4)", clauses, "1, 1", statement);
        // READING 90: the values shown are those at entry.
        let view: Vec<_> = lent.iter().copied().zip(marks.iter().copied()).collect();
        let name = format!("reduction: {statement}");
        rows.push(row(&name, &text, &lent, &TO_THE_END, &view));
    }
    for (statement, marks) in ORDINARY {
        let clauses = "num_threads(1) lastprivate(s, a)";
        let text = text("s, a(4)", clauses, "1, 1", statement);
        let view: Vec<_> = lent.iter().copied().zip(marks.iter().copied()).collect();
        rows.push(row(statement, &text, &lent, &TO_THE_END, &view));
    }
    rows
}

/// One step after another marks one cell after another.
fn order_rows() -> Vec<LookRow> {
    let lent = [6, 1, 2, 3, 4];
    let mut rows = Vec::new();
    for (statement, order) in ORDERS {
        let text = text(
            "s, a(4)",
            "num_threads(1) lastprivate(s, a)",
            "1, 1",
            statement,
        );
        let written = writes_of(statement);
        for steps in 0..=order.len() {
            let mark = |cell: usize| match order[..steps].contains(&cell) {
                false => 0,
                true if written.contains(&cell) => 1,
                true => 2,
            };
            let view: Vec<_> = (0..5).map(|cell| (lent[cell], mark(cell))).collect();
            rows.push(row(statement, &text, &lent, &TO_THE_END[..steps], &view));
        }
    }
    rows
}

/// The cells that the statements of [`ORDERS`] write.
fn writes_of(statement: &str) -> &'static [usize] {
    match statement {
        "a(a(1) + 1) = a(4)" => &[2],
        "a(a(3) + 1) = s" | "a(max(a(1), 4)) = a(3)" => &[4],
        "if (a(3) == a(2)) then\nend if" => &[],
        "if (a(3) == a(2) + 1) then\ns = 1\nend if\na(1) = 1" => &[0, 1],
        _ => &[0],
    }
}

/// Which processor does what in which step (READING 69 to 72).
fn step_rows() -> Vec<LookRow> {
    let mut rows = Vec::new();
    let mut add = |name: &str, text: &str, cells: &[i32], looks: &[Seen]| {
        for (schedule, view) in looks {
            rows.push(row(name, text, cells, schedule, view));
        }
    };
    add(
        "document 01: a(1) = i, P = 2",
        &text("a(1)", "num_threads(2)", "1, 2", "a(1) = i"),
        &[7],
        &[
            (&[], &[(7, 0)]),
            (&[0], &[(1, 1)]),
            (&[1], &[(2, 1)]),
            (&[1, 0], &[(1, 1)]),
            (&[0, 1], &[(2, 1)]),
            (&[0, 0, 0, 1, 1, 1, 0], &[(2, 1)]),
        ],
    );
    add(
        "an iteration's end is a step of its own (READING 69)",
        &text("a(2)", "num_threads(1)", "1, 2", "a(i) = i"),
        &[0, 0],
        &[
            (&[0], &[(1, 1), (0, 0)]),
            (&[0, 0], &[(1, 1), (0, 0)]),
            (&[0, 0, 0], &[(1, 1), (2, 1)]),
            (&[0, 0, 0, 0, 0, 0], &[(1, 1), (2, 1)]),
        ],
    );
    add(
        "an iteration without accesses takes one step",
        &text(
            "a",
            "num_threads(1)",
            "1, 3",
            "if (i == 3) then\na = i\nend if",
        ),
        &[0],
        &[(&[0, 0], &[(0, 0)]), (&[0, 0, 0], &[(3, 1)])],
    );
    add(
        "a fault takes a step and makes no access (READING 70)",
        &text("a(2), s", "num_threads(1)", "1, 2", "s = 10/a(1) + a(2)"),
        &[0, 5, 7],
        &[
            (&[0], &[(0, 2), (5, 0), (7, 0)]),
            (&[0, 0], &[(0, 2), (5, 0), (7, 0)]),
            (&[0; 9], &[(0, 2), (5, 0), (7, 0)]),
        ],
    );
    add(
        "the same without a fault",
        &text("a(2), s", "num_threads(1)", "1, 1", "s = 10/a(1) + a(2)"),
        &[2, 5, 7],
        &[
            (&[0, 0], &[(2, 2), (5, 2), (7, 0)]),
            (&[0, 0, 0], &[(2, 2), (5, 2), (10, 1)]),
        ],
    );
    add(
        "document 01: n = 1, P = 2: processor 1 has it",
        &text("a", "num_threads(2)", "5, 5", "a = i"),
        &[0],
        &[
            (&[0, 0, 0], &[(0, 0)]),
            (&[1], &[(5, 1)]),
            (&[0, 0, 1, 1, 1, 1], &[(5, 1)]),
        ],
    );
    let five = text("a(5)", "num_threads(2)", "1, 5", "a(i) = i");
    let no = |_number: usize| (0, 0);
    let yes = |number: usize| (number as i32, 1);
    add(
        "document 01: n = 5, P = 2: 0-1 and 2-4",
        &five,
        &[0; 5],
        &[
            (&[0], &[yes(1), no(2), no(3), no(4), no(5)]),
            (&[1], &[no(1), no(2), yes(3), no(4), no(5)]),
            (&[0; 9], &[yes(1), yes(2), no(3), no(4), no(5)]),
            (&[1; 9], &[no(1), no(2), yes(3), yes(4), yes(5)]),
            (&[1, 1, 0, 1], &[yes(1), no(2), yes(3), yes(4), no(5)]),
        ],
    );
    add(
        "n = 3, P = 8: processors 2, 5 and 7",
        &text("a(3)", "num_threads(8)", "1, 3", "a(i) = i"),
        &[0; 3],
        &[
            (&[0, 1, 3, 4, 6, 0, 1, 3, 4, 6], &[no(1), no(2), no(3)]),
            (&[2, 2, 2], &[yes(1), no(2), no(3)]),
            (&[5], &[no(1), yes(2), no(3)]),
            (&[7], &[no(1), no(2), yes(3)]),
        ],
    );
    add(
        "no iterations (READING 71)",
        &text("a", "num_threads(3)", "1, 0", "a = 1"),
        &[4],
        &[(&[0, 1, 2, 2], &[(4, 0)])],
    );
    let relay = "if (i == 1) then\na = 5\nelse\nb = a\nend if";
    add(
        "shared cells are read in place",
        &text("a, b", "num_threads(2)", "1, 2", relay),
        &[1, 0],
        &[
            (&[1, 0, 1], &[(5, 3), (1, 1)]),
            (&[0, 1, 1], &[(5, 3), (5, 1)]),
            (&[1, 1, 0], &[(5, 3), (1, 1)]),
        ],
    );
    add(
        "private cells are not",
        &text("a, b", "num_threads(2) lastprivate(a)", "1, 2", relay),
        &[1, 0],
        &[(&[0, 1, 1], &[(1, 3), (1, 1)])],
    );
    add(
        "nor are those written earlier by the same processor",
        &text("a, b", "num_threads(1) lastprivate(a)", "1, 2", relay),
        &[1, 0],
        &[(&[0; 9], &[(1, 3), (1, 1)])],
    );
    rows
}

/// Marks as accesses come (READING 74, 78, 79, 80, 81, 90).
fn mark_rows() -> Vec<LookRow> {
    let mut rows = Vec::new();
    let mut add = |name: &str, text: &str, cells: &[i32], looks: &[Seen]| {
        for (schedule, view) in looks {
            rows.push(row(name, text, cells, schedule, view));
        }
    };
    add(
        "read, then written",
        &text("a", "num_threads(1)", "1, 1", "a = a - 1"),
        &[5],
        &[
            (&[0], &[(5, 2)]),
            (&[0, 0], &[(4, 5)]),
            (&[0, 0, 0], &[(4, 5)]),
        ],
    );
    add(
        "a read mark that another iteration keeps",
        &text(
            "a, s",
            "num_threads(2)",
            "1, 2",
            "s = a\nif (i == 2) then\na = 1\nend if",
        ),
        &[5, 0],
        &[
            (&[0, 1], &[(5, 2), (0, 0)]),
            (&[0, 1, 1, 1], &[(1, 7), (5, 1)]),
            (&[1, 1, 1], &[(1, 5), (5, 1)]),
            (&[1, 1, 1, 0], &[(1, 7), (5, 1)]),
        ],
    );
    add(
        "read by one, written by another",
        &text(
            "a, s",
            "num_threads(2)",
            "1, 2",
            "if (i == 1) then\ns = a\nelse\na = 1\nend if",
        ),
        &[5, 0],
        &[
            (&[0], &[(5, 2), (0, 0)]),
            (&[0, 1], &[(1, 3), (0, 0)]),
            (&[1, 0], &[(1, 3), (0, 0)]),
        ],
    );
    add(
        "written, read, written (READING 79)",
        &text("a", "num_threads(1)", "1, 1", "a = 1\na = a + 1"),
        &[5],
        &[
            (&[0], &[(1, 1)]),
            (&[0, 0], &[(1, 1)]),
            (&[0, 0, 0], &[(2, 1)]),
        ],
    );
    add(
        "updated, read, written (READING 79)",
        &text(
            "s",
            "num_threads(1) reduction(+:s)",
            "1, 1",
            "s = s + 1\ns = 1 + s",
        ),
        &[5],
        &[
            (&[0], &[(5, 8)]),
            (&[0, 0], &[(5, 10)]),
            (&[0, 0, 0], &[(5, 13)]),
        ],
    );
    add(
        "updated, then read as at entry (READING 74)",
        &text(
            "s, t",
            "num_threads(1) reduction(+:s)",
            "1, 1",
            "s = s + 1\nt = s",
        ),
        &[5, 0],
        &[(&[0, 0, 0], &[(5, 10), (5, 1)])],
    );
    add(
        "subtracted from, then read as at entry (P1.7)",
        &text(
            "s, t",
            "num_threads(1) reduction(+:s)",
            "1, 1",
            "s = s - 1\nt = s",
        ),
        &[5, 0],
        &[(&[0], &[(5, 8), (0, 0)]), (&[0, 0, 0], &[(5, 10), (5, 1)])],
    );
    add(
        "lastprivate: written, then read in the same iteration",
        &text(
            "z, t",
            "num_threads(1) lastprivate(z)",
            "1, 1",
            "z = 4\nt = z",
        ),
        &[9, 0],
        &[(&[0], &[(9, 1), (0, 0)]), (&[0, 0, 0], &[(9, 1), (4, 1)])],
    );
    add(
        "reduction: written, then read in the same iteration",
        &text(
            "z, t",
            "num_threads(1) reduction(+:z)",
            "1, 1",
            "z = 4\nt = z",
        ),
        &[9, 0],
        &[(&[0, 0, 0], &[(9, 1), (4, 1)])],
    );
    add(
        "two iterations of one processor",
        &text(
            "a",
            "num_threads(1)",
            "1, 2",
            "if (i == 1) then\na = 1\nelse\na = a\nend if",
        ),
        &[5],
        &[
            (&[0, 0], &[(1, 1)]),
            (&[0, 0, 0], &[(1, 3)]),
            (&[0, 0, 0, 0], &[(1, 5)]),
        ],
    );
    rows
}
