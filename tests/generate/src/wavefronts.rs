//! Loops with more iterations than the others, of which few or many depend on each other (document 02,
//! Point 7). Their subscripts stand in cells, too many for data lines: they are lent.

use crate::layout::Layout;
use crate::lines::{lastprivate, lines, Operation};
use crate::loops::Loop;
use crate::rng::Rng;
use crate::subscripts::with_grids;

/// Percent of the loops with subscripts in cells whose last few go beyond their array.
const SPOILED: u32 = 10;

/// A loop of a random kind, and the cells to lend.
pub fn wavefronts(rng: &mut Rng) -> (Loop, Vec<i32>) {
    let most = rng.pick(&[4, 20, 60, 60, 300]);
    let count = 1 + rng.below(most);
    let (lines, cells) = match rng.below(8) {
        0 => strides(rng, count),
        1 => halves(rng, count),
        2 => sweep(rng, count),
        3 => many_readers(rng, count),
        _ => through_numbers(rng, count),
    };
    let lines = with_grids(rng, lines);
    let layout = rng.pick(&[Layout::PLAIN, Layout::VARIED]);
    let processors = 1 + rng.below(8);
    let loaded = vec![0; cells.len()];
    let drawn = Loop::of_lines(lines, processors, loaded, layout, rng);
    (drawn, cells)
}

type Drawn = (Vec<String>, Vec<i32>);

/// Clauses for a name that iterations meet at.
fn clauses(rng: &mut Rng, name: &str) -> Vec<String> {
    match rng.below(6) {
        0 => Vec::new(),
        1 => vec![format!("shared({name})")],
        2 => lastprivate(rng, name, 50),
        _ => vec![rng.pick(&Operation::ALL).clause(name)],
    }
}

/// Values to begin with.
fn values(rng: &mut Rng, count: usize) -> Vec<i32> {
    (0..count).map(|_| rng.between(-9, 9) as i32).collect()
}

/// Subscripts of an array of this length.
fn numbers(rng: &mut Rng, count: usize, length: usize) -> Vec<i32> {
    (0..count)
        .map(|_| rng.between(1, length as i64) as i32)
        .collect()
}

/// Each iteration takes over from one that is some way before it, or after it.
fn strides(rng: &mut Rng, count: usize) -> Drawn {
    let clauses = clauses(rng, "a");
    let far = 1 + rng.below(count);
    let body = match rng.chance(70) {
        true => format!("a(i) = a(i - {far}) + i"),
        false => format!("a(i - {far}) = a(i) + i"),
    };
    let length = count + far;
    let bounds = format!("{}, {length}", far + 1);
    let lines = lines(rng, &format!("a({length})"), &clauses, &bounds, &body);
    (lines, values(rng, length))
}

/// Each iteration reads what the one at half its number wrote.
fn halves(rng: &mut Rng, count: usize) -> Drawn {
    let clauses = clauses(rng, "a");
    let length = count + 1;
    let body = rng.pick(&["a(i) = a(i/2) + 1", "a(i) = a(rdiv(i, 2)) - a(1)"]);
    let names = format!("a({length})");
    let lines = lines(rng, &names, &clauses, &format!("2, {length}"), body);
    (lines, values(rng, length))
}

/// The cells of a rectangle by rows, each from its neighbours above and to the left; its upper and left borders
/// are given.
fn sweep(rng: &mut Rng, count: usize) -> Drawn {
    let clauses = clauses(rng, "a");
    let width = 1 + rng.below(20.min(count));
    let place = |before: usize| format!("a(i + i/{width} + {})", width + 2 - before);
    let body = format!("{} = {} + {}", place(0), place(1), place(width + 1));
    let length = (count.div_ceil(width) + 1) * (width + 1);
    let bounds = format!("0, {}", count - 1);
    let lines = lines(rng, &format!("a({length})"), &clauses, &bounds, &body);
    (lines, values(rng, length))
}

/// A few cells that many iterations read and some write, some of them after reading them.
fn many_readers(rng: &mut Rng, count: usize) -> Drawn {
    let clauses = clauses(rng, "a");
    let length = 1 + rng.below(4);
    let every = 2 + rng.below(count.div_ceil(2));
    let turn = format!("i/{every}*{every} == i");
    let read = rng.pick(&["b(i) = a(k(i))", "b(i) = b(i) + a(k(i))*i"]);
    let write = rng.pick(&["a(k(i)) = i", "a(l(i)) = b(i)", "a(l(i)) = a(l(i)) + 1"]);
    let body = format!("{read}\nif ({turn}) then\n{write}\nend if");
    let names = format!("k({count}), l({count}), b({count}), a({length})");
    let lines = lines(rng, &names, &clauses, &format!("1, {count}"), &body);
    let mut cells = [numbers(rng, count, length), numbers(rng, count, length)].concat();
    cells.extend(values(rng, count + length));
    (lines, cells)
}

/// Each iteration reads and writes, or updates, cells by numbers: of few cells, so that most iterations depend on
/// another, or of many.
fn through_numbers(rng: &mut Rng, count: usize) -> Drawn {
    let clauses = clauses(rng, "a");
    let length = rng.pick(&[2, count.div_ceil(4) + 1, count + 1, 4 * count, 300]);
    let length = length.min(1000);
    let body = rng.pick(&[
        "a(k(i)) = i",
        "a(k(i)) = a(l(i)) + i",
        "a(k(i)) = a(k(i)) + i",
        "a(k(i)) = a(k(i)) - a(l(i))",
        "a(k(i)) = a(k(i)) * 3",
        "a(k(i)) = max(a(k(i)), a(l(i)))",
        "b = 2\na(k(i)) = b\na(l(i)) = b + i",
        "if (a(k(i)) > a(l(i))) then\na(k(i)) = a(l(i))\nelse\na(l(i)) = i\nend if",
        "a(k(i)) = a(l(i))\nif (i > 2) then\na(l(i)) = a(k(i - 1))\nend if",
        "if (k(i) < l(i)) then\na(k(i)) = a(l(i)) - 1\nend if",
    ]);
    let body = match rng.chance(10) {
        // A subscript is itself written.
        true => format!("{body}\nk(l(i) - l(i)/{count}*{count} + 1) = 1"),
        false => body.to_string(),
    };
    let names = format!("k({count}), l({count}), a({length}), b");
    let lines = lines(rng, &names, &clauses, &format!("1, {count}"), &body);
    let mut cells = [numbers(rng, count, length), numbers(rng, count, length)].concat();
    if rng.chance(SPOILED) {
        let last = rng.below(count.div_ceil(4));
        cells[count - 1 - last] = rng.pick(&[0, length as i32 + 1]);
    }
    cells.extend(values(rng, length + 1));
    (lines, cells)
}
