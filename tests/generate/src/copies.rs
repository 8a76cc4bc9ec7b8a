//! Loops in which iterations read an old value and others overwrite it (document 02, Point 5): in both
//! clauses, whether one passes depends on whether it is read above a writer; in `lastprivate` alone most
//! are run again.

use crate::layout::Layout;
use crate::lines::{lastprivate, lines, with_data};
use crate::loops::Loop;
use crate::rng::Rng;
use crate::subscripts::with_grids;

/// Percent of the names in `lastprivate` that are in `firstprivate` too.
const COPIED: u32 = 70;

/// A loop of a random kind.
pub fn copies(rng: &mut Rng) -> Loop {
    let count = 1 + rng.below(14);
    let (lines, cells) = match rng.below(10) {
        0 => read_early(rng, count),
        1 => read_ahead(rng, count),
        2 => met_at_places(rng, count),
        3 => met_through_numbers(rng, count),
        4 => levels_renewed(rng, count),
        5 => scratch_beside(rng, count),
        6 => sum_of_old_values(rng, count),
        _ => spoiled(rng, count),
    };
    let lines = with_grids(rng, lines);
    let layout = rng.pick(&[Layout::PLAIN, Layout::VARIED, Layout::ODD]);
    let processors = 1 + rng.below(8);
    Loop::of_lines(lines, processors, cells, layout, rng)
}

type Drawn = (Vec<String>, Vec<i32>);

/// The clauses of these names, each in `lastprivate`.
fn clauses(rng: &mut Rng, names: &[&str]) -> Vec<String> {
    let clauses = names.iter().map(|name| lastprivate(rng, name, COPIED));
    clauses.collect::<Vec<_>>().concat()
}

/// An iteration about the middle, and one from some before it to some after it.
fn two_about_the_middle(rng: &mut Rng, count: usize) -> (i64, i64) {
    let one = rng.between(0, count as i64);
    (one, one + rng.between(-1, 3))
}

/// The first iterations read z, the last ones write it.
fn read_early(rng: &mut Rng, count: usize) -> Drawn {
    let clauses = clauses(rng, &["z"]);
    let (until, from) = two_about_the_middle(rng, count);
    let read = rng.pick(&["a(i) = z", "a(i) = z*2 - i", "a(i) = i/(z*z + 1)"]);
    let read = format!("if (i <= {until}) then\n{read}\nend if");
    let write = rng.pick(&[
        "z = i",
        "z = 2*i\na(i) = z",
        "z = 4\nz = z + i",
        "z = z - 1",
    ]);
    let write = format!("if (i >= {from}) then\n{write}\nend if");
    let body = match rng.below(4) {
        0 => format!("{write}\n{read}"),
        _ => format!("{read}\n{write}"),
    };
    let names = format!("z, a({count})");
    let lines = lines(rng, &names, &clauses, &format!("1, {count}"), &body);
    let mut cells = vec![0; count + 1];
    cells[0] = rng.between(-9, 9) as i32;
    (with_data(lines, "z", &cells[..1]), cells)
}

/// Each iteration reads the old value of a cell that a later one overwrites, or at times one that an
/// earlier one wrote.
fn read_ahead(rng: &mut Rng, count: usize) -> Drawn {
    let clauses = clauses(rng, &["a"]);
    let far = rng.between(0, 3);
    let way = rng.pick(&["+", "+", "+", "-"]);
    let body = rng.pick(&[
        "a(i) = a(i # %)",
        "a(i) = a(i # %) - a(i)",
        "a(i) = a(i)/2 + a(i # %)/2",
        "if (a(i # %) > a(i)) then\na(i) = a(i # %)\nend if",
    ]);
    let body = body.replace('#', way).replace('%', &far.to_string());
    let length = count + 6;
    let cells: Vec<i32> = (0..length).map(|_| rng.between(-9, 9) as i32).collect();
    let bounds = format!("4, {}", count + 3);
    let lines = lines(rng, &format!("a({length})"), &clauses, &bounds, &body);
    (with_data(lines, "a", &cells), cells)
}

/// Two to four iterations, perhaps the same ones, read or write one cell, or both, in either order.
fn met_at_places(rng: &mut Rng, count: usize) -> Drawn {
    let clauses = clauses(rng, &["z"]);
    let mut body = "a(i) = i".to_string();
    for _ in 0..2 + rng.below(3) {
        let at = rng.between(1, count as i64);
        let relation = rng.pick(&["==", "==", "==", ">="]);
        let action = rng.pick(&[
            "a(i) = z",
            "a(i) = z",
            "z = 3*i",
            "z = z - 1",
            "z = 5\na(i) = z",
        ]);
        body += &format!("\nif (i {relation} {at}) then\n{action}\nend if");
    }
    let names = format!("z, a({count})");
    let lines = lines(rng, &names, &clauses, &format!("1, {count}"), &body);
    (lines, vec![0; count + 1])
}

/// Each iteration writes one cell and reads another, both by numbers in arrays: mostly its own and one
/// that is higher.
fn met_through_numbers(rng: &mut Rng, count: usize) -> Drawn {
    let clauses = clauses(rng, &["a"]);
    let most = count as i64;
    let disturbed = rng.pick(&[0, 0, 10, 30]);
    let mut number = |lowest: i64, highest: i64| match rng.chance(disturbed) {
        true => rng.between(1, most) as i32,
        false => rng.between(lowest, highest) as i32,
    };
    let written: Vec<i32> = (1..=most).map(|own| number(own, own)).collect();
    let read: Vec<i32> = (1..=most).map(|own| number(own, most)).collect();
    let names = format!("a({count}), k({count}), l({count})");
    let body = rng.pick(&["a(k(i)) = a(l(i)) + i", "a(k(i)) = i - a(l(i))"]);
    let lines = lines(rng, &names, &clauses, &format!("1, {count}"), body);
    let lines = with_data(with_data(lines, "k", &written), "l", &read);
    (lines, [vec![0; count], written, read].concat())
}

/// The first iterations keep old levels, the others put new ones in their place.
fn levels_renewed(rng: &mut Rng, count: usize) -> Drawn {
    let clauses = clauses(rng, &["a"]);
    let half = (count as i64 + 1) / 2;
    let test = rng.pick(&["i <= %", "i <= %", "i > %", "i /= %"]);
    let test = test.replace('%', &half.to_string());
    let body = format!(
        "if ({test}) then\nb(i) = a(i - i/{half}*{half} + 1)\nelse\na(i - i/{half}*{half} + 1) = 10*i\nend if"
    );
    let names = format!("a({half}), b({count})");
    let lines = lines(rng, &names, &clauses, &format!("1, {count}"), &body);
    let mut cells: Vec<i32> = (0..half).map(|_| rng.between(1, 99) as i32).collect();
    let lines = with_data(lines, "a", &cells);
    cells.resize(half as usize + count, 0);
    (lines, cells)
}

/// An old value and a scratch cell beside it, which each iteration sets before reading it, or not all do.
fn scratch_beside(rng: &mut Rng, count: usize) -> Drawn {
    let clauses = clauses(rng, &["z", "y"]);
    let (until, from) = two_about_the_middle(rng, count);
    let always = rng.pick(&["1", "1", "1", "2"]);
    let body = format!(
        "if (i >= {always}) then\ny = 3*i\nend if\nif (i <= {until}) then\ny = z + i\nend if\na(i) = y\n\
         if (i >= {from}) then\nz = y\nend if"
    );
    let names = format!("y, z, a({count})");
    let lines = lines(rng, &names, &clauses, &format!("1, {count}"), &body);
    (lines, vec![0; count + 2])
}

/// A sum that takes in an old value, which the last iteration, or an earlier one, overwrites.
fn sum_of_old_values(rng: &mut Rng, count: usize) -> Drawn {
    let mut clauses = clauses(rng, &["z"]);
    clauses.push("reduction(+:s)".to_string());
    let at = rng.pick(&[count, count, count.div_ceil(2)]);
    let sign = rng.pick(&["+", "-", "-"]);
    let body = format!("s = s {sign} z*i\nif (i == {at}) then\nz = 0\nend if");
    let lines = lines(rng, "s, z", &clauses, &format!("1, {count}"), &body);
    let cells = [0, 7];
    (with_data(lines, "z", &cells[1..]), cells.to_vec())
}

/// A subscript or a divisor that early iterations use and later ones make a bad one, or not so late.
fn spoiled(rng: &mut Rng, count: usize) -> Drawn {
    let clauses = clauses(rng, &["k", "a"]);
    let until = rng.between(0, count as i64);
    let from = until + rng.between(-4, 3);
    let used = rng.pick(&["a(k) = i", "a(1) = 12/k", "a(2) = a(k)"]);
    let bad = rng.pick(&["0", "9", "k - 2"]);
    let body =
        format!("if (i <= {until}) then\n{used}\nend if\nif (i >= {from}) then\nk = {bad}\nend if");
    let lines = lines(rng, "k, a(2)", &clauses, &format!("1, {count}"), &body);
    let cells = [2, 4, 6];
    let lines = with_data(lines, "k", &cells[..1]);
    (with_data(lines, "a", &cells[1..]), cells.to_vec())
}
