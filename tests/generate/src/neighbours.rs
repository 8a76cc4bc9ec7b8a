//! Loops whose iterations meet mainly between neighbours (document 02, Point 3): tested by blocks,
//! whether one passes depends on where the blocks begin.

use crate::layout::Layout;
use crate::lines::{lastprivate, lines, with_data, Operation};
use crate::loops::Loop;
use crate::rng::Rng;
use crate::subscripts::with_grids;

/// Percent of these loops that are tested by blocks.
const BY_BLOCKS: u32 = 80;

/// A loop of a random kind.
pub fn neighbours(rng: &mut Rng) -> Loop {
    let count = 1 + rng.below(16);
    let (lines, cells) = match rng.below(8) {
        0 => recurrence(rng, count),
        1 => scratch_of_the_one_before(rng, count),
        2 => scratch_set_now_and_then(rng, count),
        3 => one_meeting(rng, count),
        4 => cells_in_runs(rng, count),
        5 => running_value(rng, count),
        6 => sum_meets_once(rng, count),
        _ => subscript_carried(rng, count),
    };
    let lines = with_grids(rng, lines);
    let layout = rng.pick(&[Layout::PLAIN, Layout::VARIED, Layout::ODD]);
    let processors = 1 + rng.below(8);
    let drawn = Loop::of_lines(lines, processors, cells, layout, rng);
    drawn.with_blocks(rng.chance(BY_BLOCKS))
}

type Drawn = (Vec<String>, Vec<i32>);

/// Clauses for a name that iterations hand on.
fn clauses(rng: &mut Rng, name: &str) -> Vec<String> {
    match rng.below(8) {
        0 => Vec::new(),
        1 => vec![format!("shared({name})")],
        2..=4 => lastprivate(rng, name, 50),
        _ => vec![rng.pick(&Operation::ALL).clause(name)],
    }
}

/// Each iteration reads what one of the last few, or the next few, writes.
fn recurrence(rng: &mut Rng, count: usize) -> Drawn {
    let clauses = clauses(rng, "a");
    let length = count + 6;
    let far = rng.between(1, 3);
    let way = rng.pick(&["+", "-"]);
    let more = rng.pick(&["+ 1", "- i", "*2", "/2"]);
    let body = format!("a(i) = a(i {way} {far}) {more}");
    let bounds = format!("4, {}", count + 3);
    let cells: Vec<i32> = (0..length).map(|_| rng.between(-9, 9) as i32).collect();
    let names = format!("a({length})");
    let lines = with_data(lines(rng, &names, &clauses, &bounds, &body), "a", &cells);
    (lines, cells)
}

/// A scratch cell that each iteration reads as the one before left it, and then sets.
fn scratch_of_the_one_before(rng: &mut Rng, count: usize) -> Drawn {
    let clauses = clauses(rng, "z");
    let body = rng.pick(&[
        "a(i) = z\nz = 3*i",
        "a(i) = z\nz = a(i) + i",
        "z = z*2 - i\na(i) = z",
        "if (z > i) then\nz = 0\nend if\na(i) = z\nz = 2*i",
    ]);
    let names = format!("z, a({count})");
    let lines = lines(rng, &names, &clauses, &format!("1, {count}"), body);
    (lines, vec![0; count + 1])
}

/// A scratch cell that every second, third, ... iteration sets and all read.
fn scratch_set_now_and_then(rng: &mut Rng, count: usize) -> Drawn {
    let clauses = clauses(rng, "z");
    let every = rng.between(2, 5);
    let at = rng.between(0, every - 1);
    let body = format!("if (i - i/{every}*{every} == {at}) then\nz = i\nend if\na(i) = z");
    let names = format!("z, a({count})");
    let lines = lines(rng, &names, &clauses, &format!("1, {count}"), &body);
    (lines, vec![0; count + 1])
}

/// One iteration writes a cell and one of its neighbours reads it; no others meet.
fn one_meeting(rng: &mut Rng, count: usize) -> Drawn {
    let clauses = clauses(rng, "z");
    let at = rng.between(1, count as i64);
    let other = at + rng.pick(&[-1, 1, 1, 2]);
    let body = format!(
        "a(i) = i\nif (i == {at}) then\nz = 7\nend if\nif (i == {other}) then\na(i) = z\nend if"
    );
    let names = format!("z, a({count})");
    let lines = lines(rng, &names, &clauses, &format!("1, {count}"), &body);
    (lines, vec![0; count + 1])
}

/// Runs of neighbours share a cell each.
fn cells_in_runs(rng: &mut Rng, count: usize) -> Drawn {
    let clauses = clauses(rng, "a");
    let body = rng.pick(&[
        "a(k(i)) = a(k(i))*2 + i",
        "a(k(i)) = i",
        "a(k(i)) = a(k(i)) + i",
        "a(k(i)) = a(k(i)) - 2*i",
        "a(k(i)) = a(k(i))*(i + 1)",
        "a(k(i)) = max(a(k(i)), 5 - i)",
        "a(k(i)) = i - a(k(i))",
    ]);
    let mut number = 1;
    let mut index = Vec::new();
    while index.len() < count {
        index.extend(vec![number; 1 + rng.below(4)]);
        number += 1;
    }
    index.truncate(count);
    let names = format!("a({count}), k({count})");
    let lines = lines(rng, &names, &clauses, &format!("1, {count}"), body);
    let lines = with_data(lines, "k", &index);
    (lines, [vec![0; count], index].concat())
}

/// A value kept in one cell by ordinary assignments.
fn running_value(rng: &mut Rng, count: usize) -> Drawn {
    let clauses = clauses(rng, "s");
    let body = rng.pick(&[
        "s = i + s",
        "s = s - 2*i",
        "s = max(s, 5 - i)",
        "s = max(i, s)",
        "s = s*3 + i",
        "s = (s) - i",
        "s = i - s",
        "s = i",
    ]);
    let lines = lines(rng, "s", &clauses, &format!("1, {count}"), body);
    (lines, vec![0])
}

/// A sum or a maximum, and one iteration that reads or writes it: an obstacle in one block too.
fn sum_meets_once(rng: &mut Rng, count: usize) -> Drawn {
    let at = rng.between(1, count as i64 + 2);
    let access = rng.pick(&["a(i) = s", "s = i", "s = i - s"]);
    let (operation, right) = rng.pick(&[
        (Operation::Sum, "s + i"),
        (Operation::Sum, "s - i"),
        (Operation::Maximum, "max(s, i)"),
    ]);
    let body = format!("if (i == {at}) then\n{access}\nelse\ns = {right}\nend if");
    let names = format!("s, a({count})");
    let bounds = format!("1, {count}");
    let clauses = [operation.clause("s")];
    let lines = lines(rng, &names, &clauses, &bounds, &body);
    (lines, vec![0; count + 1])
}

/// A subscript that each iteration takes from the one before: at entry it is outside the array, so a
/// block that does not set it first stops at a fault.
fn subscript_carried(rng: &mut Rng, count: usize) -> Drawn {
    let clauses = clauses(rng, "k");
    let every = rng.between(2, 6);
    let body = format!("if (i - i/{every}*{every} == 1) then\nk = i\nend if\na(k) = i");
    let names = format!("k, a({count})");
    let lines = lines(rng, &names, &clauses, &format!("1, {count}"), &body);
    (lines, vec![0; count + 1])
}
