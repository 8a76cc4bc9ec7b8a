//! What Plan answers and writes to its list (RULES 8, 9.6; document 02, Point 7). The cells are as lent after every end.

use super::runs::text;

/// How a plan ends.
#[derive(Debug, Clone, PartialEq, Eq)]
pub enum Planned {
    /// The number of stages, and each iteration's, which the list holds. The workspace is zero.
    Stages(u32, Vec<u16>),
    /// Number, line and v. The list is as found, the workspace zero.
    Fault(u32, u32, i32),
    /// Number and line. List and workspace are as found.
    Refused(u32, u32),
}

/// A text, what is lent, and how its plan ends.
#[derive(Debug, Clone)]
pub struct PlanRow {
    pub name: String,
    pub text: Vec<u8>,
    pub cells: Vec<i32>,
    /// How many words of workspace are lent; without a number as many as are asked for, or some more.
    pub workspace: Option<usize>,
    /// How many numbers the list has.
    pub list: usize,
    pub expected: Planned,
}

/// A row whose iterations have these stages.
pub(super) fn planned(
    name: &str,
    text: &str,
    cells: &[i32],
    (stages, list): (u32, &[u16]),
) -> PlanRow {
    PlanRow {
        name: name.to_string(),
        text: text.as_bytes().to_vec(),
        cells: cells.to_vec(),
        workspace: None,
        list: list.len(),
        expected: Planned::Stages(stages, list.to_vec()),
    }
}

/// A row with a list of so many numbers, for as many iterations, that ends in a fault.
pub(super) fn fault(
    name: &str,
    text: &str,
    cells: &[i32],
    list: usize,
    (number, line, v): (u32, u32, i32),
) -> PlanRow {
    PlanRow {
        list,
        expected: Planned::Fault(number, line, v),
        ..planned(name, text, cells, (0, &[]))
    }
}

/// All rows.
pub fn rows() -> Vec<PlanRow> {
    let mut rows = dependence_rows();
    rows.extend(update_rows());
    rows.extend(late_rows());
    rows.extend(clause_rows());
    rows.extend(touch_rows());
    rows.extend(size_rows());
    rows.extend(fault_rows());
    rows.extend(super::grids::plan_rows());
    rows.extend(refusal_rows());
    rows
}

const TWO: &str = "num_threads(2)";

/// "Two iterations depend if both touch a cell in the serial run and one writes or updates it. A stage is 1
/// more than the highest stage of a lower iteration it depends on, else 1."
fn dependence_rows() -> Vec<PlanRow> {
    let array = |bounds: &str, body: &str| text("a(6), b(6)", TWO, bounds, body);
    let zero = [0; 12];
    vec![
        // both touch a cell, one writes it
        planned(
            "a(i) = a(i - 1)",
            &array("2, 6", "a(i) = a(i - 1)"),
            &zero,
            (5, &[1, 2, 3, 4, 5]),
        ),
        planned(
            "the higher one writes: a(i) = a(i + 1)",
            &array("1, 5", "a(i) = a(i + 1)"),
            &zero,
            (5, &[1, 2, 3, 4, 5]),
        ),
        planned(
            "both write",
            &array("1, 3", "a(1) = i"),
            &zero,
            (3, &[1, 2, 3]),
        ),
        planned(
            "both write the same value",
            &array("1, 3", "a(1) = 7"),
            &zero,
            (3, &[1, 2, 3]),
        ),
        planned(
            "each its own cell",
            &array("1, 6", "a(i) = i"),
            &zero,
            (1, &[1, 1, 1, 1, 1, 1]),
        ),
        planned(
            "each reads and writes its own cell",
            &array("1, 6", "a(i) = a(i) + 1"),
            &zero,
            (1, &[1, 1, 1, 1, 1, 1]),
        ),
        planned(
            "the same subscript of two arrays",
            &array("1, 3", "if (i == 1) then\na(2) = 1\nelse\nb(2) = i\nend if"),
            &zero,
            (2, &[1, 1, 2]),
        ),
        // "one writes or updates it": reads alone don't depend (7.3)
        planned(
            "all read one cell",
            &array("1, 4", "b(i) = a(1)"),
            &zero,
            (1, &[1, 1, 1, 1]),
        ),
        planned(
            "all read one cell twice, and one nobody writes in if",
            &array("1, 3", "if (a(2) < 1) then\nb(i) = a(1) + a(1)\nend if"),
            &zero,
            (1, &[1, 1, 1]),
        ),
        planned(
            "written once and then read: the readers share a stage",
            &array("1, 4", "if (i == 1) then\na(1) = 5\nelse\nb(i) = a(1)\nend if"),
            &zero,
            (2, &[1, 2, 2, 2]),
        ),
        planned(
            "read and then written: the writer comes after all readers",
            &array("1, 4", "if (i == 4) then\na(1) = 5\nelse\nb(i) = a(1)\nend if"),
            &zero,
            (2, &[1, 1, 1, 2]),
        ),
        planned(
            "readers, a writer, readers, a writer",
            &array(
                "1, 6",
                "if (i == 3) then\na(1) = 5\nend if\nif (i == 6) then\na(1) = 6\nend if\nb(i) = a(1)",
            ),
            &zero,
            (4, &[1, 1, 2, 3, 3, 4]),
        ),
        // "the highest stage": of the readers of a cell, not the last one's
        planned(
            "the writer depends on a reader of stage 3 and one of stage 1",
            &array(
                "1, 5",
                "if (i <= 3) then\nb(2) = a(1)\nend if\nif (i == 4) then\nb(4) = a(1)\nend if\n\
                 if (i == 5) then\na(1) = 9\nend if",
            ),
            &zero,
            (4, &[1, 2, 3, 1, 4]),
        ),
        // of all lower iterations, not of the one just before
        planned(
            "by strides of three",
            &array("4, 6", "a(i) = a(i - 3)\nb(i - 3) = a(i)"),
            &zero,
            (1, &[1, 1, 1]),
        ),
        planned(
            "by strides of two",
            &array("3, 6", "a(i) = a(i - 2) + 1"),
            &zero,
            (2, &[1, 1, 2, 2]),
        ),
        planned(
            "each from half its number",
            &array("2, 6", "a(i) = a(i/2) + 1"),
            &zero,
            (2, &[1, 1, 2, 2, 2]),
        ),
        planned(
            "a sweep over two rows of three",
            // a is a rectangle of 3 by 4 with its upper and left borders given
            &text("a(12)", TWO, "0, 5", "a(i + i/3 + 6) = a(i + i/3 + 5) + a(i + i/3 + 2)"),
            &[1; 12],
            (4, &[1, 2, 3, 2, 3, 4]),
        ),
        planned(
            "the highest of several",
            &array(
                "1, 5",
                "if (i <= 3) then\na(1) = i\nend if\nif (i == 4) then\na(2) = 1\nend if\n\
                 if (i == 5) then\na(3) = a(1) + a(2)\nend if",
            ),
            &zero,
            (4, &[1, 2, 3, 1, 4]),
        ),
        planned(
            "all touches are of its own cells",
            &array("1, 3", "a(i) = i\na(i) = a(i) + a(i)\nb(i) = a(i)"),
            &zero,
            (1, &[1, 1, 1]),
        ),
    ]
}

/// 7.3: "Updates of one cell depend on each other, though they commute".
fn update_rows() -> Vec<PlanRow> {
    let sum = |clauses: &str, body: &str| text("s, a(4)", clauses, "1, 4", body);
    let lent = [5, 0, 0, 0, 0];
    let mut rows = vec![
        planned(
            "the same without a clause",
            &sum(TWO, "s = s + i"),
            &lent,
            (4, &[1, 2, 3, 4]),
        ),
        planned(
            "an update of nothing",
            &sum("num_threads(2) reduction(+:s)", "s = s + 0"),
            &lent,
            (4, &[1, 2, 3, 4]),
        ),
        planned(
            "a histogram",
            &text(
                "h(3), x(6)",
                "num_threads(2) reduction(+:h)",
                "1, 6",
                "h(x(i)) = h(x(i)) + 1",
            ),
            &[0, 0, 0, 1, 3, 2, 3, 3, 1],
            (3, &[1, 1, 1, 2, 3, 2]),
        ),
        planned(
            "updated and then read",
            &sum(
                "num_threads(2) reduction(+:s)",
                "if (i == 1) then\ns = s + 1\nelse\na(i) = s\nend if",
            ),
            &lent,
            (2, &[1, 2, 2, 2]),
        ),
        planned(
            "read and then updated",
            &sum(
                "num_threads(2) reduction(+:s)",
                "if (i == 4) then\ns = s + 1\nelse\na(i) = s\nend if",
            ),
            &lent,
            (2, &[1, 1, 1, 2]),
        ),
        planned(
            "written and then updated",
            &sum(
                "num_threads(2) reduction(+:s)",
                "if (i == 2) then\ns = 1\nend if\nif (i == 4) then\ns = s + 1\nend if",
            ),
            &lent,
            (2, &[1, 1, 1, 2]),
        ),
        planned(
            "an update's remainder reads",
            &sum(
                "num_threads(2) reduction(+:a)",
                "a(i) = a(i) + s\nif (i == 3) then\ns = 0\nend if",
            ),
            &lent,
            (3, &[1, 1, 2, 3]),
        ),
    ];
    for (clause, update) in [
        ("reduction(+:s)", "s = s + i"),
        ("reduction(+:s)", "s = s - i"),
        ("reduction(*:s)", "s = s * i"),
        ("reduction(max:s)", "s = max(s, i)"),
    ] {
        let name = format!("{update}, {clause}");
        let text = sum(&format!("num_threads(2) {clause}"), update);
        rows.push(planned(&name, &text, &lent, (4, &[1, 2, 3, 4])));
    }
    rows
}

/// 7.8: "An iteration's stage is known only at its end: a late write of a cell it read early makes it depend on
/// the earlier readers too."
fn late_rows() -> Vec<PlanRow> {
    let of_z = |bounds: &str, body: &str| text("z, a(4), b(4)", TWO, bounds, body);
    let lent = [7, 0, 0, 0, 0, 0, 0, 0, 0];
    vec![
        planned(
            "read by all, written late by the last",
            &of_z("1, 4", "a(i) = z\nif (i == 4) then\nz = 0\nend if"),
            &lent,
            (2, &[1, 1, 1, 2]),
        ),
        planned(
            "read by all, written late by the third",
            &of_z("1, 4", "a(i) = z\nif (i == 3) then\nz = 0\nend if"),
            &lent,
            (3, &[1, 1, 2, 3]),
        ),
        planned(
            "what it wrote before its stage was known has its final stage",
            // the third reads z, writes b(1) and then z, the fourth reads b(1)
            &of_z(
                "1, 4",
                "if (i <= 3) then\na(i) = z\nend if\nif (i == 3) then\nb(1) = 1\nz = 0\nend if\n\
                 if (i == 4) then\na(4) = b(1)\nend if",
            ),
            &lent,
            (3, &[1, 1, 2, 3]),
        ),
        planned(
            "what it read before its stage was known has its final stage",
            // the third reads b(2) and then writes z, the fourth only writes b(2)
            &of_z(
                "1, 4",
                "if (i <= 2) then\na(i) = z\nend if\nif (i == 3) then\na(3) = b(2)\nz = 0\nend if\n\
                 if (i == 4) then\nb(2) = 1\nend if",
            ),
            &lent,
            (3, &[1, 1, 2, 3]),
        ),
        planned(
            "two touches of a cell are one dependence: a stage goes up by 1",
            &of_z("1, 3", "z = z + 1\nz = z + 1\na(1) = z"),
            &lent,
            (3, &[1, 2, 3]),
        ),
        planned(
            "two cells of one lower iteration are one dependence",
            &of_z("1, 3", "a(1) = z\na(2) = a(1)\nz = i"),
            &lent,
            (3, &[1, 2, 3]),
        ),
        planned(
            "its own earlier touches don't count",
            // each reads and writes cells of its own, the last then what the first wrote
            &of_z(
                "1, 3",
                "b(i) = i\nb(i) = b(i) + 1\nb(i) = b(i)*b(i)\nif (i == 3) then\nb(1) = b(3)\nend if",
            ),
            &lent,
            (2, &[1, 1, 2]),
        ),
        planned(
            "a late write meets readers of two stages",
            // z is read in stage 1 by 1 and in stage 2 by 2; 3 reads it at first in stage 1
            &of_z(
                "1, 3",
                "if (i <= 2) then\na(1) = z\nend if\nif (i == 3) then\na(3) = z\nz = 0\nend if",
            ),
            &lent,
            (3, &[1, 2, 3]),
        ),
    ]
}

/// 7.4: "lastprivate, firstprivate and schedule(static) change nothing: writes of a lastprivate cell depend." So
/// do shared and the number of processors.
fn clause_rows() -> Vec<PlanRow> {
    let mut rows = Vec::new();
    for clauses in [
        "num_threads(1)",
        "num_threads(2)",
        "num_threads(8)",
        "num_threads(2) shared(z, a)",
        "num_threads(2) lastprivate(z)",
        "num_threads(2) lastprivate(z, a)",
        "firstprivate(z) num_threads(2) lastprivate(z, a)",
        "num_threads(1) schedule(static)",
        "num_threads(2) schedule(static)",
        "num_threads(2) schedule(static) firstprivate(z, a) lastprivate(z, a)",
        "num_threads(2) reduction(+:z)",
        "num_threads(2) reduction(*:z) reduction(max:a)",
    ] {
        let row = |name: &str, body: &str, stages: (u32, &[u16])| {
            let text = text("z, a(4)", clauses, "1, 4", body);
            planned(
                &format!("{name}: {clauses}"),
                &text,
                &[3, 0, 0, 0, 0],
                stages,
            )
        };
        rows.push(row("written by all", "z = i", (4, &[1, 2, 3, 4])));
        rows.push(row(
            "written and then read in each",
            "z = i\na(i) = z",
            (4, &[1, 2, 3, 4]),
        ));
        rows.push(row("read by all", "a(i) = z", (1, &[1, 1, 1, 1])));
        rows.push(row(
            "read early, overwritten at the end",
            "a(i) = z\nif (i == 4) then\nz = 1\nend if",
            (2, &[1, 1, 1, 2]),
        ));
    }
    rows
}

/// 7.9, S5: "Dependence is by what the serial run touched", over the cells as lent (7.2).
fn touch_rows() -> Vec<PlanRow> {
    let of_numbers = |body: &str| text("k(4), a(4)", TWO, "1, 4", body);
    let data = "integer k(4), a(4)\ndata k /1, 2, 3, 4/\n!$omp parallel do num_threads(2)\n\
                do i = 1, 4\na(k(i)) = i\nend do\n";
    vec![
        // an `if` not taken touches nothing
        planned(
            "an if not taken",
            &of_numbers("if (i > 9) then\na(1) = i\nend if"),
            &[0; 8],
            (1, &[1, 1, 1, 1]),
        ),
        planned(
            "an if taken by two",
            &of_numbers("if (i - i/2*2 == 0) then\na(1) = i\nend if"),
            &[0; 8],
            (2, &[1, 1, 1, 2]),
        ),
        planned(
            "else alone",
            &of_numbers("if (i < 4) then\nelse\na(1) = i\nend if"),
            &[0; 8],
            (1, &[1, 1, 1, 1]),
        ),
        planned(
            "its condition reads",
            &of_numbers("if (a(1) > 9) then\nend if\nif (i == 2) then\na(1) = 1\nend if"),
            &[0; 8],
            (3, &[1, 2, 3, 3]),
        ),
        planned(
            "a condition on what an earlier iteration wrote",
            // the first sets a(1), which is 0 at entry: only the last two take the branch
            &of_numbers("if (i == 1) then\na(1) = 3\nend if\nif (i >= a(1)) then\na(2) = i\nend if"),
            &[0; 8],
            (3, &[1, 2, 2, 3]),
        ),
        // subscripts held in cells are touches
        planned(
            "the cell of a subscript in a condition",
            &of_numbers("if (a(k(1)) > 9) then\nend if\nif (i == 4) then\nk(1) = 2\nend if"),
            &[1, 2, 3, 4, 0, 0, 0, 0],
            (2, &[1, 1, 1, 2]),
        ),
        planned(
            "the cell of a left subscript",
            &of_numbers("if (i < 3) then\na(k(i)) = i\nend if\nif (i == 3) then\nk(1) = 4\nend if"),
            &[1, 2, 3, 4, 0, 0, 0, 0],
            (2, &[1, 1, 2, 1]),
        ),
        planned(
            "the cell of a right subscript",
            &of_numbers("if (i == 2) then\na(4) = a(k(2))\nend if\nif (i == 4) then\nk(2) = 1\nend if"),
            &[1, 2, 3, 4, 0, 0, 0, 0],
            (2, &[1, 1, 1, 2]),
        ),
        planned(
            "the cell of an update's subscript",
            &text(
                "k(4), a(4)",
                "num_threads(2) reduction(+:a)",
                "1, 4",
                "if (i == 2) then\na(k(2)) = a(k(2)) + 1\nend if\nif (i == 4) then\nk(2) = 1\nend if",
            ),
            &[1, 2, 3, 4, 0, 0, 0, 0],
            (2, &[1, 1, 1, 2]),
        ),
        planned(
            "v and literals touch nothing",
            &of_numbers("a(i) = i*2 + max(i, 3) - rdiv(7, 2)"),
            &[0; 8],
            (1, &[1, 1, 1, 1]),
        ),
        planned(
            "no statements",
            &of_numbers(""),
            &[0; 8],
            (1, &[1, 1, 1, 1]),
        ),
        // cells as lent, not the text's data
        planned(
            "as the data say",
            data,
            &[1, 2, 3, 4, 0, 0, 0, 0],
            (1, &[1, 1, 1, 1]),
        ),
        planned(
            "other cells than the data's",
            data,
            &[2, 1, 2, 2, 0, 0, 0, 0],
            (3, &[1, 1, 2, 3]),
        ),
        planned(
            "the greatest and the least in cells",
            &of_numbers("a(i) = a(i)*k(i) + a(i)"),
            &[i32::MAX, i32::MIN, -1, 0, i32::MIN, i32::MIN, i32::MIN, 0],
            (1, &[1, 1, 1, 1]),
        ),
    ]
}

/// 7.5, 7.6: no iterations, one, as many as there may be.
fn size_rows() -> Vec<PlanRow> {
    let most = |body: &str| text("s, a(4095)", TWO, "1, 65535", body);
    let lent = [0; 4096];
    let in_turn: Vec<u16> = (1..=65535).collect();
    let by_rounds: Vec<u16> = (0..65535).map(|index| index / 4095 + 1).collect();
    let last = [&[1; 65534][..], &[2]].concat();
    vec![
        planned(
            "no iterations",
            &text("a", TWO, "1, 0", "a = 1"),
            &[7],
            (0, &[]),
        ),
        planned(
            "no iterations, far apart, a fault not reached",
            &text("a", "num_threads(8)", "2147483647, -2147483647", "a = 1/0"),
            &[7],
            (0, &[]),
        ),
        planned(
            "one iteration",
            &text("a", TWO, "5, 5", "a = a + 1"),
            &[7],
            (1, &[1]),
        ),
        planned(
            "one iteration without statements",
            &text("a", TWO, "5, 5", ""),
            &[7],
            (1, &[1]),
        ),
        planned(
            "up to the greatest number",
            &text("z", TWO, "2147483646, 2147483647", "z = i"),
            &[7],
            (2, &[1, 2]),
        ),
        // "A stage is at most index + 1, so at most 65,535: it fits 16 bits, the largest value included."
        planned(
            "65,535 stages",
            &most("s = s + i"),
            &lent,
            (65535, &in_turn),
        ),
        planned(
            "65,535 iterations in one stage",
            &most("if (s > 0) then\ns = a(i)\nend if"),
            &lent,
            (1, &[1; 65535]),
        ),
        planned(
            "65,535 readers, of which the last writes",
            &most("if (s < i - 65534) then\ns = 1\nend if"),
            &lent,
            (2, &last),
        ),
        planned(
            "65,535 iterations through 4,095 cells: 17 rounds, the last of 15",
            &most("a((i - 1) - (i - 1)/4095*4095 + 1) = i"),
            &lent,
            (17, &by_rounds),
        ),
    ]
}

/// 7.7: "After a fault (9, 10) the list and cells are as found, the workspace is zero." Number, line and v are
/// the serial run's over the cells as lent.
fn fault_rows() -> Vec<PlanRow> {
    let of_numbers = |body: &str| text("k(4), a(4)", TWO, "11, 14", body);
    let numbered = of_numbers("a(1) = i\na(k(i - 10)) = 12/k(4)");
    vec![
        fault(
            "a subscript at once",
            &numbered,
            &[0, 1, 1, 1, 5, 6, 7, 8],
            4,
            (9, 5, 11),
        ),
        fault(
            "a subscript at last",
            &numbered,
            &[1, 1, 1, 5, 5, 6, 7, 8],
            4,
            (9, 5, 14),
        ),
        fault(
            "a divisor",
            &numbered,
            &[1, 1, 1, 0, 5, 6, 7, 8],
            4,
            (10, 5, 11),
        ),
        fault(
            "a divisor at last, which the loop itself makes 0",
            &of_numbers("a(1) = 12/(13 - i + k(1))\nk(1) = k(1) - 1"),
            &[4, 0, 0, 0, 5, 6, 7, 8],
            4,
            (10, 4, 14),
        ),
        fault(
            "in the condition of an if",
            &of_numbers("a(2) = 1\nif (1/(13 - i) == 9) then\nend if"),
            &[0; 8],
            4,
            (10, 5, 13),
        ),
        fault(
            "the serially first of two",
            &of_numbers("if (i > 12) then\na(9) = 1\nend if\nif (i > 11) then\na(1) = 1/0\nend if"),
            &[0; 8],
            4,
            (10, 8, 12),
        ),
        // S5: an iteration before it has written, which Plan takes back
        fault(
            "after writes and updates",
            &text(
                "s, a(4)",
                "num_threads(2) reduction(+:s)",
                "1, 5",
                "s = s + i\na(i) = s",
            ),
            &[1, 5, 6, 7, 8],
            5,
            (9, 5, 5),
        ),
        // document 01's example: a worker that starts with iteration 2 would fault, the serial run doesn't
        planned(
            "no fault of the serial run",
            &text(
                "k, a(4)",
                TWO,
                "1, 2",
                "if (i == 1) then\nk = 2\nelse\na(k) = 1\nend if",
            ),
            &[9, 0, 0, 0, 0],
            (2, &[1, 2]),
        ),
        // the other way round: the second iteration alone would not
        fault(
            "of the serial run alone",
            &text(
                "k, a(4)",
                TWO,
                "1, 2",
                "if (i == 1) then\nk = 9\nelse\na(k) = 1\nend if",
            ),
            &[2, 0, 0, 0, 0],
            2,
            (9, 7, 2),
        ),
    ]
}

/// N = 3, P = 2 and 5 iterations: a workspace of 4,352 + 64 × 2 + 3 × (4 + 8 × 2) = 4,540.
const FIVE: &str =
    "integer a(3)\n!$omp parallel do num_threads(2)\ndo i = 1, 5\na(1) = i\nend do\n";
/// The same with a fault in the last iteration.
const FAULTS: &str =
    "integer a(3)\n!$omp parallel do num_threads(2)\ndo i = 1, 5\na(1) = 1/(5 - i)\nend do\n";
/// N = 3, P = 2 and no iterations.
const NONE: &str =
    "integer a(3)\n!$omp parallel do num_threads(2)\ndo i = 5, 1\na(1) = i\nend do\n";
/// Number 3 at line 1.
const TWICE: &str = "integer a, a\n!$omp parallel do num_threads(1)\ndo i = 1, 0\nend do\n";
/// Number 4 at line 2.
const NINE: &str = "integer a(3)\n!$omp parallel do num_threads(9)\ndo i = 1, 5\nend do\n";
/// Number 2 at line 4.
const BROKEN: &str =
    "integer a(3)\n!$omp parallel do num_threads(2)\ndo i = 1, 5\na(1) =\nend do\n";

/// A text with so many cells, words and numbers lent, and what refuses it: a number and its line.
type Refused<'r> = (&'r str, &'r str, (usize, usize, usize), (u32, u32));

/// 7.1: "Order: 1, 2-4, 5, 6, 11, faults." 11 returns line and v as 0 (S2).
const REFUSED: &[Refused] = &[
    // "list length not n": exactly n
    ("a number too few", FIVE, (3, 4540, 4), (11, 0)),
    ("a number too many", FIVE, (3, 4540, 6), (11, 0)),
    ("no list", FIVE, (3, 4540, 0), (11, 0)),
    ("a list of N", FIVE, (3, 4540, 3), (11, 0)),
    ("a list of 65,535", FIVE, (3, 4540, 65_535), (11, 0)),
    ("5 + 65,536 numbers", FIVE, (3, 4540, 65_541), (11, 0)),
    ("no iterations, one number", NONE, (3, 4540, 1), (11, 0)),
    (
        "no iterations, 65,536 numbers",
        NONE,
        (3, 4540, 65_536),
        (11, 0),
    ),
    (
        "a larger workspace, a number too few",
        FIVE,
        (3, 5000, 4),
        (11, 0),
    ),
    // before faults
    ("11 before a fault", FAULTS, (3, 4540, 4), (11, 0)),
    ("11 before a fault, too many", FAULTS, (3, 4540, 6), (11, 0)),
    // after 5 and 6
    ("5", FIVE, (2, 4540, 5), (5, 0)),
    ("5, too many", FIVE, (4, 4540, 5), (5, 0)),
    ("5 before 11", FIVE, (4, 4540, 4), (5, 0)),
    ("5 before 6 and 11", FIVE, (2, 0, 9), (5, 0)),
    ("5 before a fault", FAULTS, (2, 4540, 5), (5, 0)),
    ("6", FIVE, (3, 4539, 5), (6, 0)),
    ("6, as before Point 5", FIVE, (3, 4528, 5), (6, 0)),
    ("6 before 11", FIVE, (3, 4539, 4), (6, 0)),
    ("6 before 11, nothing lent", FIVE, (3, 0, 0), (6, 0)),
    ("6 before a fault", FAULTS, (3, 4539, 5), (6, 0)),
    ("6 without iterations", NONE, (3, 4539, 0), (6, 0)),
    // 2 to 4 before everything
    ("2 before 5, 6 and 11", BROKEN, (9, 0, 9), (2, 4)),
    ("2 with all lent rightly", BROKEN, (3, 4540, 5), (2, 4)),
    ("3 before 5, 6 and 11", TWICE, (9, 0, 9), (3, 1)),
    ("3 with enough lent", TWICE, (2, 9999, 0), (3, 1)),
    ("4 before 5, 6 and 11", NINE, (9, 0, 9), (4, 2)),
    ("4 with enough lent", NINE, (3, 9999, 5), (4, 2)),
    ("2 for an empty text", "", (0, 0, 0), (2, 1)),
];

fn refusal_rows() -> Vec<PlanRow> {
    let lent =
        |name: &str, text: &str, (cells, words, list): (usize, usize, usize), expected| PlanRow {
            workspace: Some(words),
            list,
            expected,
            ..planned(name, text, &vec![77; cells], (0, &[]))
        };
    let refused = |&(name, text, sizes, (number, line)): &Refused| {
        lent(name, text, sizes, Planned::Refused(number, line))
    };
    let mut rows: Vec<PlanRow> = REFUSED.iter().map(refused).collect();
    let long = format!("{FIVE:<2049}");
    let bad = "?".repeat(2049);
    let stages = Planned::Stages(5, vec![1, 2, 3, 4, 5]);
    rows.extend([
        // 1 before everything
        lent(
            "1 with all lent rightly",
            &long,
            (3, 4540, 5),
            Planned::Refused(1, 0),
        ),
        lent("1 before 2 to 11", &bad, (9, 0, 9), Planned::Refused(1, 0)),
        // the same texts with all that is asked for
        lent("2,048 bytes", &long[..2048], (3, 4540, 5), stages.clone()),
        lent("exactly enough", FIVE, (3, 4540, 5), stages.clone()),
        lent("a larger workspace", FIVE, (3, 6000, 5), stages),
        lent(
            "no iterations and no list",
            NONE,
            (3, 4540, 0),
            Planned::Stages(0, Vec::new()),
        ),
        lent(
            "the fault itself",
            FAULTS,
            (3, 4540, 5),
            Planned::Fault(10, 4, 5),
        ),
        lent(
            "the fault, a larger workspace",
            FAULTS,
            (3, 6000, 5),
            Planned::Fault(10, 4, 5),
        ),
    ]);
    rows
}
