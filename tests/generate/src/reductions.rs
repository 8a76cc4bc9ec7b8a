//! Loops of totals, products and peaks (document 02, Point 6), and what is next to them: the update of another
//! clause, words that nearly are an update, an ordinary access beside updates, a fault in a remainder.

use crate::layout::Layout;
use crate::lines::{lastprivate, lines, with_data, Operation};
use crate::loops::Loop;
use crate::rng::Rng;
use crate::subscripts::with_grids;

/// Percent of the names in `lastprivate` that are in `firstprivate` too.
const COPIED: u32 = 70;

/// A loop of a random kind.
pub fn reductions(rng: &mut Rng) -> Loop {
    let count = 1 + rng.below(14);
    let (lines, cells) = match rng.below(19) {
        0..=3 => all_three(rng, count),
        4 => at_places(rng, count),
        5 => by_some_iterations(rng, count),
        6 | 7 => of_another_clause(rng, count),
        8..=10 => nearly_updates(rng, count),
        11..=13 => met_once(rng, count),
        14 | 15 => beside_old_values(rng, count),
        16 | 17 => faults_in_remainders(rng, count),
        _ => read_before_grown(rng, count),
    };
    let lines = with_grids(rng, lines);
    let layout = rng.pick(&[Layout::PLAIN, Layout::VARIED, Layout::ODD]);
    let processors = 1 + rng.below(8);
    Loop::of_lines(lines, processors, cells, layout, rng)
}

type Drawn = (Vec<String>, Vec<i32>);

/// An update of a reference by a cell, in one of several forms.
pub fn update(rng: &mut Rng, operation: Operation, reference: &str, cell: &str) -> String {
    let forms: &[&str] = match operation {
        Operation::Sum => &["@ + #", "@ - #", "@ - 2*# + i", "@ - (#)"],
        Operation::Product => &[
            "@*#",
            "@*(#)",
            "@*(# + 4)*3",
            "@*(2*# - 1)",
            "@*max(#, 1)",
            "@*rdiv(#, 1)*(-1)",
        ],
        Operation::Maximum => &[
            "max(@, #)",
            "max(@, -#)",
            "max(@, 2*# - i)",
            "max(@, max(#, -i))",
            "max(@, (#))",
        ],
    };
    let form = rng.pick(forms);
    let right = form.replace('@', reference).replace('#', cell);
    format!("{reference} = {right}")
}

/// An entry value of a cell with updates: now and then at an end of the range, for a product not 0.
fn entry(rng: &mut Rng, operation: Operation) -> i32 {
    match (operation, rng.below(6)) {
        (Operation::Product, 0) => rng.pick(&[46341, i32::MAX, -i32::MAX, 65536]),
        (Operation::Product, _) => rng.pick(&[1, 1, -1, 2, 3, 7]),
        (_, 0) => rng.pick(&[i32::MAX, -i32::MAX, 0]),
        (_, _) => rng.between(-99, 20) as i32,
    }
}

/// What iterations take in: small numbers without 0, negative ones alone, or any.
fn amounts(rng: &mut Rng, count: usize) -> Vec<i32> {
    let kind = rng.below(4);
    (0..count)
        .map(|_| match kind {
            0 => rng.pick(&[-3, -2, -1, 1, 2, 3, 5]),
            1 => rng.between(-90, -1) as i32,
            2 => rng.between(1, 9) as i32,
            _ => rng.between(-4, 9) as i32,
        })
        .collect()
}

/// A sum, a product and a maximum of the same numbers, and at times an iteration that does something else with
/// one of them, or may fault.
fn all_three(rng: &mut Rng, count: usize) -> Drawn {
    const NAMES: [&str; 3] = ["s", "p", "m"];
    const OTHERS: [&str; 10] = [
        "a(i) = m",
        "a(i) = p",
        "a(i) = s",
        "m = p",
        "p = i*p",
        "m = max(i, m)",
        "s = i + s",
        "p = p + i",
        "s = max(s, i)",
        "p = p*(60/a(i))",
    ];
    let mut statements = Vec::new();
    let mut clauses = Vec::new();
    let mut cells = Vec::new();
    for (name, operation) in NAMES.into_iter().zip(Operation::ALL) {
        for _ in 0..1 + rng.below(2) {
            statements.push(update(rng, operation, name, "a(i)"));
        }
        clauses.push(operation.clause(name));
        cells.push(entry(rng, operation));
    }
    if rng.chance(50) {
        let at = rng.between(1, count as i64 + 2);
        let other = rng.pick(&OTHERS);
        statements.push(format!("if (i == {at}) then\n{other}\nend if"));
    }
    rng.shuffle(&mut statements);
    let names = format!("s, p, m, a({count})");
    let body = statements.join("\n");
    let mut lines = lines(rng, &names, &clauses, &format!("1, {count}"), &body);
    for (name, value) in NAMES.iter().zip(&cells) {
        lines = with_data(lines, name, &[*value]);
    }
    let amounts = amounts(rng, count);
    cells.extend(&amounts);
    (with_data(lines, "a", &amounts), cells)
}

/// Cells of one name, chosen by numbers: some get several updates, some none.
fn at_places(rng: &mut Rng, count: usize) -> Drawn {
    let operation = rng.pick(&Operation::ALL);
    let length = 1 + rng.below(5);
    let update = update(rng, operation, "x(k(i))", "a(i)");
    let body = match rng.below(4) {
        0 => format!("{update}\na(i) = i"),
        _ => update,
    };
    let clauses = [operation.clause("x")];
    let names = format!("x({length}), k({count}), a({count})");
    let lines = lines(rng, &names, &clauses, &format!("1, {count}"), &body);
    let kept: Vec<i32> = (0..length).map(|_| entry(rng, operation)).collect();
    let mut places: Vec<i32> = (0..count).map(|_| 1 + rng.below(length) as i32).collect();
    if rng.chance(10) {
        places[rng.below(count)] = rng.pick(&[0, length as i32 + 1]);
    }
    let amounts = amounts(rng, count);
    let lines = with_data(with_data(lines, "x", &kept), "k", &places);
    let lines = with_data(lines, "a", &amounts);
    (lines, [kept, places, amounts].concat())
}

/// Two names that some iterations update, so that some processors have nothing to give.
fn by_some_iterations(rng: &mut Rng, count: usize) -> Drawn {
    let [one, other] = [0; 2].map(|_| rng.pick(&Operation::ALL));
    let clauses = match one == other {
        true => vec![one.clause("x, y")],
        false => vec![one.clause("x"), other.clause("y")],
    };
    let test = rng.pick(&["i <= %", "i > %", "i == %", "a(i) > 0"]);
    let test = test.replace('%', &rng.between(0, count as i64).to_string());
    let [first, second] = [
        update(rng, one, "x", "a(i)"),
        update(rng, other, "y", "a(i)"),
    ];
    let body = format!("if ({test}) then\n{first}\nelse\n{second}\nend if");
    let names = format!("x, y, a({count})");
    let lines = lines(rng, &names, &clauses, &format!("1, {count}"), &body);
    let kept = [entry(rng, one), entry(rng, other)];
    let amounts = amounts(rng, count);
    let lines = with_data(with_data(lines, "x", &kept[..1]), "y", &kept[1..]);
    let lines = with_data(lines, "a", &amounts);
    (lines, [kept.to_vec(), amounts].concat())
}

/// A name with the update of any clause, in one iteration or in all, at times beside its own.
fn of_another_clause(rng: &mut Rng, count: usize) -> Drawn {
    let [clause, used] = [0; 2].map(|_| rng.pick(&Operation::ALL));
    let other = update(rng, used, "x", "a(i)");
    let at = rng.between(1, count as i64 + 2);
    let body = match rng.below(4) {
        0 => other,
        1 => format!("if (i == {at}) then\n{other}\nend if"),
        _ => {
            let own = update(rng, clause, "x", "a(i)");
            format!("if (i == {at}) then\n{other}\nelse\n{own}\nend if")
        }
    };
    one_name(rng, clause, count, &body)
}

/// A loop with x in one `reduction` clause and numbers in a.
fn one_name(rng: &mut Rng, operation: Operation, count: usize, body: &str) -> Drawn {
    let clauses = [operation.clause("x")];
    let names = format!("x, a({count})");
    let lines = lines(rng, &names, &clauses, &format!("1, {count}"), body);
    let kept = [entry(rng, operation)];
    let amounts = amounts(rng, count);
    let lines = with_data(with_data(lines, "x", &kept), "a", &amounts);
    (lines, [kept.to_vec(), amounts].concat())
}

/// Words that nearly are an update, in one iteration or in all.
fn nearly_updates(rng: &mut Rng, count: usize) -> Drawn {
    const PRODUCTS: &[&str] = &[
        "x*a(i)/2",
        "x*a(i)/(3)",
        "x*5/2*a(i)",
        "x/1*a(i)",
        "x*a(i) + 1",
        "x*a(i) - i",
        "a(i)*x",
        "(x)*a(i)",
        "-x*a(i)",
        "+x*a(i)",
        "(x*a(i))",
        "x*a(i)*(1) + 0",
        "1*x*a(i)",
    ];
    const MAXIMA: &[&str] = &[
        "max(a(i), x)",
        "max((x), a(i))",
        "max(x + 0, a(i))",
        "max(+x, a(i))",
        "+max(x, a(i))",
        "-max(x, a(i))",
        "(max(x, a(i)))",
        "max(x, a(i)) + 0",
        "max(x, a(i))*(1)",
        "max(x, a(i)) + max(x, i)",
        "max(max(x, a(i)), i)",
        "1*max(x, a(i))",
    ];
    const SUMS: &[&str] = &["a(i) + x", "(x) + a(i)", "+x + a(i)", "-x - a(i)"];
    let operation = match rng.below(5) {
        0 => Operation::Sum,
        1 | 2 => Operation::Product,
        _ => Operation::Maximum,
    };
    let near = rng.pick(match operation {
        Operation::Sum => SUMS,
        Operation::Product => PRODUCTS,
        Operation::Maximum => MAXIMA,
    });
    let at = rng.between(1, count as i64 + 2);
    let body = match rng.below(4) {
        0 => format!("x = {near}"),
        1 => format!("if (i == {at}) then\nx = {near}\nend if"),
        _ => {
            let own = update(rng, operation, "x", "a(i)");
            format!("if (i == {at}) then\nx = {near}\nelse\n{own}\nend if")
        }
    };
    one_name(rng, operation, count, &body)
}

/// Updates, and one iteration that reads or writes the cell: perhaps the one that updates it, and it alone.
fn met_once(rng: &mut Rng, count: usize) -> Drawn {
    let operation = rng.pick(&Operation::ALL);
    let at = rng.between(1, count as i64 + 2);
    let own = update(rng, operation, "x", "a(i)");
    let of_itself = update(rng, operation, "x", "x");
    let access = rng.pick(&["a(i) = x", "x = i", "x = i - x", of_itself.as_str()]);
    let body = match rng.below(3) {
        0 => format!("if (i == {at}) then\n{access}\nelse\n{own}\nend if"),
        1 => format!("{own}\nif (i == {at}) then\n{access}\nend if"),
        _ => format!("if (i == {at}) then\n{own}\n{access}\nend if"),
    };
    one_name(rng, operation, count, &body)
}

/// Updates that take in an old value, which a late iteration overwrites, or an earlier one.
fn beside_old_values(rng: &mut Rng, count: usize) -> Drawn {
    let operation = rng.pick(&Operation::ALL);
    let mut clauses = lastprivate(rng, "z", COPIED);
    clauses.push(operation.clause("x"));
    let at = rng.pick(&[count, count, count.div_ceil(2)]);
    let own = update(rng, operation, "x", "z");
    let body = format!("{own}\nif (i == {at}) then\nz = z - 3\nend if");
    let lines = lines(rng, "x, z", &clauses, &format!("1, {count}"), &body);
    let cells = vec![entry(rng, operation), rng.between(-9, 9) as i32];
    let lines = with_data(with_data(lines, "x", &cells[..1]), "z", &cells[1..]);
    (lines, cells)
}

/// A remainder that may fault: a subscript that may be outside or a divisor that may be 0.
fn faults_in_remainders(rng: &mut Rng, count: usize) -> Drawn {
    let operation = rng.pick(&Operation::ALL);
    let cell = rng.pick(&["a(a(i) + 4)", "(12/a(i))", "rdiv(i, a(i) + 9)", "a(i + 1)"]);
    let body = update(rng, operation, "x", cell);
    one_name(rng, operation, count, &body)
}

/// A product or a maximum that is read: speculation has it as at entry, the serial run as it has grown.
fn read_before_grown(rng: &mut Rng, count: usize) -> Drawn {
    let (operation, own, start) = rng.pick(&[
        (Operation::Product, "x = x*2", 1),
        (Operation::Product, "x = x*(-3)", 1),
        (Operation::Maximum, "x = max(x, i)", 0),
        (Operation::Maximum, "x = max(x, 3*i - 9)", -9),
    ]);
    let read = rng.pick(&[
        "a(x) = i",
        "a(1) = 12/x",
        "a(x + 1) = x",
        "a(2) = 12/(x - 8)",
    ]);
    let body = match rng.chance(50) {
        true => format!("{own}\n{read}"),
        false => format!("{read}\n{own}"),
    };
    let clauses = [operation.clause("x")];
    let lines = lines(rng, "x, a(9)", &clauses, &format!("1, {count}"), &body);
    let mut cells = vec![0; 10];
    cells[0] = start;
    (with_data(lines, "x", &cells[..1]), cells)
}
