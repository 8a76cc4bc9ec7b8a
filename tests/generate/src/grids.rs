//! Loops over grids (document 02, Point 9): along rows and columns and through all cells, cells by their row and column
//! in other cells, words that nearly are an update, scratch grids, old levels, and subscripts that are outside a bound,
//! perhaps of one alone, or fault.

use crate::layout::Layout;
use crate::lines::{lastprivate, lines, with_data, Operation};
use crate::loops::Loop;
use crate::reductions::update;
use crate::rng::Rng;

/// Percent of the names in `lastprivate` that are in `firstprivate` too.
const COPIED: u32 = 70;

/// A loop of a random kind.
pub fn grids(rng: &mut Rng) -> Loop {
    let bed = Bed {
        rows: 1 + rng.below(5),
        columns: 1 + rng.below(5),
    };
    let count = 1 + rng.below(12);
    let (lines, cells) = match rng.below(20) {
        0..=2 => along(rng, bed),
        3 | 4 => all_cells(rng, bed),
        5 => turned(rng, bed),
        6..=9 => at_places(rng, bed, count),
        10 | 11 => nearly_updates(rng, bed, count),
        12 => scratch(rng, count),
        13 => old_levels(rng, count),
        14 | 15 => out_of_bounds(rng, bed, count),
        16 | 17 => bound_moved(rng, bed, count),
        _ => faults_in_subscripts(rng, bed, count),
    };
    let layout = rng.pick(&[Layout::PLAIN, Layout::VARIED, Layout::ODD]);
    let processors = 1 + rng.below(8);
    Loop::of_lines(lines, processors, cells, layout, rng)
}

type Drawn = (Vec<String>, Vec<i32>);

/// The extents of the grid g.
#[derive(Clone, Copy)]
struct Bed {
    rows: usize,
    columns: usize,
}

impl Bed {
    fn declared(self) -> String {
        format!("g({}, {})", self.rows, self.columns)
    }

    /// Levels to begin with.
    fn levels(self, rng: &mut Rng) -> Vec<i32> {
        let cells = self.rows * self.columns;
        (0..cells).map(|_| rng.between(-4, 9) as i32).collect()
    }
}

/// Clauses for a name that iterations may meet at.
fn clauses(rng: &mut Rng, name: &str) -> Vec<String> {
    match rng.below(8) {
        0 | 1 => Vec::new(),
        2 => vec![format!("shared({name})")],
        3..=5 => lastprivate(rng, name, COPIED),
        _ => vec![rng.pick(&Operation::ALL).clause(name)],
    }
}

/// A loop of s and the bed, both with data.
fn over_bed(rng: &mut Rng, bed: Bed, clauses: &[String], bounds: &str, body: &str) -> Drawn {
    let names = format!("s, {}", bed.declared());
    let lines = lines(rng, &names, clauses, bounds, body);
    let levels = bed.levels(rng);
    let sum = rng.between(-9, 9) as i32;
    let lines = with_data(with_data(lines, "g", &levels), "s", &[sum]);
    (lines, [vec![sum], levels].concat())
}

/// One row or one column, its cells each by itself, taken over from a neighbour, or summed up.
fn along(rng: &mut Rng, bed: Bed) -> Drawn {
    let mut clauses = clauses(rng, "g");
    let down = rng.chance(50);
    let (length, others) = match down {
        true => (bed.rows, bed.columns),
        false => (bed.columns, bed.rows),
    };
    let fixed = 1 + rng.below(others);
    let cell = |far: &str| match down {
        true => format!("g(i{far}, {fixed})"),
        false => format!("g({fixed}, i{far})"),
    };
    let (own, before, after) = (cell(""), cell(" - 1"), cell(" + 1"));
    let (first, last, body) = match rng.below(7) {
        0 => (1, length, format!("{own} = 3*i")),
        1 => (1, length, format!("{own} = {own} - i")),
        2 => (2, length, format!("{own} = {before} + 1")),
        3 => (1, length - 1, format!("{own} = {after} - {own}")),
        4 => (
            1,
            length,
            format!("if ({own} > 2) then\n{own} = -{own}\nelse\ns = i\nend if"),
        ),
        _ => {
            let operation = rng.pick(&Operation::ALL);
            clauses.push(operation.clause("s"));
            (1, length, update(rng, operation, "s", &own))
        }
    };
    over_bed(rng, bed, &clauses, &format!("{first}, {last}"), &body)
}

/// All cells in element order, each by itself or from its neighbour in the column before.
fn all_cells(rng: &mut Rng, bed: Bed) -> Drawn {
    let clauses = clauses(rng, "g");
    let Bed { rows, columns } = bed;
    let row = format!("i - i/{rows}*{rows} + 1");
    let (own, before) = (
        format!("g({row}, i/{rows} + 1)"),
        format!("g({row}, i/{rows})"),
    );
    let (first, body) = match rng.below(4) {
        0 => (0, format!("{own} = {own} + i")),
        1 => (0, format!("if ({own} < 0) then\n{own} = 0\nend if")),
        2 => (rows, format!("{own} = {before}")),
        _ => (rows, format!("{own} = {own}*2 - {before}")),
    };
    let bounds = format!("{first}, {}", rows * columns - 1);
    over_bed(rng, bed, &clauses, &bounds, &body)
}

/// A grid and one that is turned: rows of the one are columns of the other.
fn turned(rng: &mut Rng, bed: Bed) -> Drawn {
    let clauses = [clauses(rng, "g"), clauses(rng, "h")].concat();
    let Bed { rows, columns } = bed;
    let row = 1 + rng.below(rows);
    let body = rng.pick(&[
        "h(i, %) = g(%, i)",
        "h(i, %) = g(%, i)\ng(%, i) = i",
        "g(%, i) = h(i, %) - i\nh(i, %) = g(%, i)*2",
        "h(i, %) = g(%, i)\nh(1, 1) = i",
    ]);
    let body = body.replace('%', &row.to_string());
    let names = format!("{}, h({columns}, {rows})", bed.declared());
    let lines = lines(rng, &names, &clauses, &format!("1, {columns}"), &body);
    let levels = bed.levels(rng);
    let lines = with_data(lines, "g", &levels);
    (lines, [levels, vec![0; rows * columns]].concat())
}

/// Cells by their row and column in other cells, of two arrays or of a grid; now and then one is outside.
fn at_places(rng: &mut Rng, bed: Bed, count: usize) -> Drawn {
    let operation = rng.pick(&Operation::ALL);
    let (numbers, reference) = rng.pick(&[
        ("r(#), c(#)", "g(r(i), c(i))"),
        ("k(#, 2)", "g(k(i, 1), k(i, 2))"),
    ]);
    let clauses = match rng.below(4) {
        0 => clauses(rng, "g"),
        _ => vec![operation.clause("g")],
    };
    let body = match rng.below(6) {
        0 => format!("{reference} = i"),
        1 => format!("x(i) = {reference}\n{reference} = i"),
        2 => format!("{reference} = {} + x(i)", reference.replace("(i", "((i)")),
        _ => update(rng, operation, reference, "x(i)"),
    };
    let body = match rng.below(5) {
        0 => format!("{body}\nif (i == 2) then\nx(1) = g(1, 1)\nend if"),
        _ => body,
    };
    let numbers = numbers.replace('#', &count.to_string());
    let names = format!("x({count}), {numbers}, {}", bed.declared());
    let lines = lines(rng, &names, &clauses, &format!("1, {count}"), &body);
    let mut places: Vec<i32> = [bed.rows, bed.columns]
        .into_iter()
        .flat_map(|bound| {
            (0..count)
                .map(|_| 1 + rng.below(bound) as i32)
                .collect::<Vec<_>>()
        })
        .collect();
    if rng.chance(20) {
        let place = rng.below(2 * count);
        let bound = [bed.rows, bed.columns][place / count] as i32;
        places[place] = rng.pick(&[0, -1, bound + 1, bound + 2]);
    }
    let amounts: Vec<i32> = (0..count).map(|_| rng.between(-3, 5) as i32).collect();
    let levels = bed.levels(rng);
    let lines = with_data(with_data(lines, "x", &amounts), "g", &levels);
    // Both arrays, or the grid, have first all rows and then all columns.
    let lines = match numbers.starts_with('k') {
        true => with_data(lines, "k", &places),
        false => {
            let (rows, columns) = places.split_at(count);
            with_data(with_data(lines, "r", rows), "c", columns)
        }
    };
    (lines, [amounts, places, levels].concat())
}

/// An update of a grid's cell, or what nearly is one, in one iteration or in all, at times beside an update.
fn nearly_updates(rng: &mut Rng, bed: Bed, count: usize) -> Drawn {
    const FORMS: [(Operation, &str); 16] = [
        (Operation::Sum, "g(1, 1) = g(1, 1) + i"),
        (Operation::Sum, "g(01, 1) = g(1, 001) - i"),
        (Operation::Sum, "g(1, 1) = g((1), 1) + i"),
        (Operation::Sum, "g(1, 1) = g(1, (1)) + i"),
        (Operation::Sum, "g(1, 1) = g(1, +1) - i"),
        (Operation::Sum, "g(1, i) = g(i, 1) + 2"),
        (Operation::Sum, "g(s*0 + 1, 1) = g(s*0 + 1, 1) + i"),
        (Operation::Sum, "g(1, 1) = i + g(1, 1)"),
        (Operation::Product, "g(1, 1) = g(1, 1)*3"),
        (Operation::Product, "g(1, 1) = g(1, 01)*(i + 2)"),
        (Operation::Product, "g(1, 1) = g(01, (1))*3"),
        (Operation::Product, "g(1, 1) = g(1, 1)*3/2"),
        (Operation::Maximum, "g(1, 1) = max(g(1, 1), 2*i)"),
        (Operation::Maximum, "g(1, 1) = max(g(1, 001), -i)"),
        (Operation::Maximum, "g(1, 1) = max(g(1, (1)), i)"),
        (Operation::Maximum, "g(1, 1) = max(i, g(1, 1))"),
    ];
    let (operation, form) = rng.pick(&FORMS);
    let at = rng.between(1, count as i64 + 1);
    let body = match rng.below(3) {
        0 => form.to_string(),
        1 => format!("if (i == {at}) then\n{form}\nend if"),
        _ => {
            let own = update(rng, operation, "g(1, 1)", "i");
            format!("if (i == {at}) then\n{form}\nelse\n{own}\nend if")
        }
    };
    let clauses = [operation.clause("g")];
    over_bed(rng, bed, &clauses, &format!("1, {count}"), &body)
}

/// A grid that each iteration sets before it reads it, or not all of it.
fn scratch(rng: &mut Rng, count: usize) -> Drawn {
    let clauses = lastprivate(rng, "z", COPIED);
    let body = rng.pick(&[
        "z(1, 2) = i*2\nz(2, 1) = z(1, 2) + 1\na(i) = z(2, 1)",
        "z(1, 2) = i*2\na(i) = z(2, 1)",
        "a(i) = z(2, 3)\nz(2, 3) = i",
        "z(2, i - i/3*3 + 1) = i\na(i) = z(2, 2)",
        "if (i > 2) then\nz(1, 1) = i\nend if\na(i) = z(1, 1)",
    ]);
    let names = format!("z(2, 3), a({count})");
    let lines = lines(rng, &names, &clauses, &format!("1, {count}"), body);
    let cells: Vec<i32> = (0..6).map(|_| rng.between(-9, 9) as i32).collect();
    let lines = with_data(lines, "z", &cells);
    (lines, [cells, vec![0; count]].concat())
}

/// The first iterations keep old levels of a row, the others put new ones in their place.
fn old_levels(rng: &mut Rng, count: usize) -> Drawn {
    let clauses = lastprivate(rng, "g", COPIED);
    let half = count.div_ceil(2);
    let column = format!("i - i/{half}*{half} + 1");
    let test = rng.pick(&["i <= %", "i <= %", "i > %", "i /= %"]);
    let test = test.replace('%', &half.to_string());
    let body =
        format!("if ({test}) then\nb(i, 1) = g(1, {column})\nelse\ng(1, {column}) = 10*i\nend if");
    let names = format!("g(2, {half}), b({count}, 1)");
    let lines = lines(rng, &names, &clauses, &format!("1, {count}"), &body);
    let bed = Bed {
        rows: 2,
        columns: half,
    };
    let levels = bed.levels(rng);
    let lines = with_data(lines, "g", &levels);
    (lines, [levels, vec![0; count]].concat())
}

/// What may be done with a reference.
const USES: [&str; 9] = [
    "@ = i",
    "s = @",
    "s = s + @",
    "@ = @ + 1",
    "@ = max(@, i)",
    "if (@ > 0) then\ns = 1\nend if",
    "g(@, 1) = 2",
    "g(1, @) = 2",
    "s = 1\ns = s*(@ + 1)",
];

/// A use of this reference, in one iteration or in all.
fn used(rng: &mut Rng, reference: &str, count: usize) -> String {
    let body = rng.pick(&USES).replace('@', reference);
    let at = rng.between(1, count as i64 + 1);
    match rng.chance(60) {
        true => format!("if (i == {at}) then\n{body}\nend if"),
        false => body,
    }
}

/// Subscripts outside one bound, of which many would make the number of another cell of the grid, or outside both.
fn out_of_bounds(rng: &mut Rng, bed: Bed, count: usize) -> Drawn {
    let clauses = [clauses(rng, "g"), clauses(rng, "s")].concat();
    let Bed { rows, columns } = bed;
    let subscripts = rng.pick(&[
        format!("{}, 1", rows + 1),
        format!("{}, 1", 2 * rows),
        format!("0, {columns}"),
        format!("-1, {columns}"),
        format!("1, {}", columns + 1),
        format!("{rows}, 0"),
        format!("{}, 0", rows + 1),
        format!("0, {}", columns + 1),
        "i, 1".to_string(),
        "1, i".to_string(),
        "i, i".to_string(),
        format!("i, {columns} - i"),
        format!("i - 2, {columns}"),
        "2147483647, 1".to_string(),
        "1, 2147483647 + 1".to_string(),
        "65536*65536 + 1, 1".to_string(),
        format!("1, 65536*65536/{columns} + 1"),
    ]);
    let body = used(rng, &format!("g({subscripts})"), count);
    over_bed(rng, bed, &clauses, &format!("1, {count}"), &body)
}

/// A row or a column that is outside at entry and that an iteration sets, or the other way round: speculation and the
/// serial run may meet different faults.
fn bound_moved(rng: &mut Rng, bed: Bed, count: usize) -> Drawn {
    let clauses = [clauses(rng, "s"), clauses(rng, "g")].concat();
    let (bound, cell) = rng.pick(&[
        (bed.rows, "g(s, 1)"),
        (bed.columns, "g(1, s)"),
        (bed.rows.min(bed.columns), "g(s, s)"),
    ]);
    let good = 1 + rng.below(bound);
    let bad = rng.pick(&[0, bound + 1, bound + 2]);
    let at = rng.between(1, count as i64);
    let (entry, body) = match rng.chance(50) {
        true => (
            bad,
            format!("if (i == {at}) then\ns = {good}\nelse\n{cell} = i\nend if"),
        ),
        false => (
            good,
            format!("{cell} = {cell} - i\nif (i == {at}) then\ns = {bad}\nend if"),
        ),
    };
    let names = format!("s, {}", bed.declared());
    let lines = lines(rng, &names, &clauses, &format!("1, {count}"), &body);
    let levels = bed.levels(rng);
    let cells = [vec![entry as i32], levels].concat();
    let lines = with_data(with_data(lines, "g", &cells[1..]), "s", &cells[..1]);
    (lines, cells)
}

/// Faults in one subscript or in both: which one is told goes by the order in which they are worked out and tested.
fn faults_in_subscripts(rng: &mut Rng, bed: Bed, count: usize) -> Drawn {
    const FIRST: [&str; 7] = ["1", "1", "9", "g(9, 1)", "g(1, 1)", "12/s", "s"];
    const SECOND: [&str; 8] = [
        "1",
        "1/0",
        "12/s",
        "rdiv(1, s)",
        "g(1, 9)",
        "g(1, 1)/s",
        "9",
        "g(1, 12/s)",
    ];
    let clauses = [clauses(rng, "g"), clauses(rng, "s")].concat();
    let (first, second) = (rng.pick(&FIRST), rng.pick(&SECOND));
    let body = used(rng, &format!("g({first}, {second})"), count);
    let at = rng.between(1, count as i64);
    let body = match rng.below(3) {
        0 => body,
        1 => format!("{body}\nif (i == {at}) then\ns = 0\nend if"),
        _ => format!("if (i == {at}) then\ns = 1\nend if\n{body}"),
    };
    over_bed(rng, bed, &clauses, &format!("1, {count}"), &body)
}
