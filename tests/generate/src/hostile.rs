//! Loops in which speculation and the serial run meet different faults: one faults where the other
//! does not. Each comes with the cells to lend.

use crate::layout::Layout;
use crate::lines::{directive, lastprivate, Operation};
use crate::loops::Loop;
use crate::rng::Rng;
use crate::subscripts::with_grids;

/// A hostile loop of a random kind.
pub fn hostile(rng: &mut Rng) -> Loop {
    let first = rng.between(-5, 5);
    let count = rng.between(2, 12);
    let last = first + count - 1;
    let (lines, cells) = match rng.below(8) {
        0 => subscript_made_good(rng, first, last),
        1 => divisor_made_good(rng, first, last),
        2 => sum_read_too_early(rng, first, last),
        3 => divisor_made_zero(rng, first, last),
        4 => subscript_made_bad(rng, first, last),
        5 => sum_grows_outside(rng, first, last),
        6 => guard_opened(rng, first, last),
        _ => guard_closed(rng, first, last),
    };
    let lines = with_grids(rng, lines);
    let layout = rng.pick(&[Layout::PLAIN, Layout::VARIED]);
    Loop::of_lines(lines, 1 + rng.below(8), cells, layout, rng)
}

type Drawn = (Vec<String>, Vec<i32>);

fn lines(text: &str) -> Vec<String> {
    text.lines().map(|line| line.trim().to_string()).collect()
}

/// Any clauses for a name.
fn clauses(rng: &mut Rng, name: &str) -> Vec<String> {
    match rng.below(5) {
        0 => Vec::new(),
        1 => vec![format!("shared({name})")],
        2 | 3 => lastprivate(rng, name, 50),
        _ => vec![rng.pick(&Operation::ALL).clause(name)],
    }
}

/// Document 01's example: k is outside at entry; an early iteration sets it.
fn subscript_made_good(rng: &mut Rng, first: i64, last: i64) -> Drawn {
    let clauses = clauses(rng, "k");
    let directive = directive(rng, &clauses);
    let good = rng.between(1, 4);
    let text = format!(
        "integer k, a(4)
         data k /9/
         {directive}
         do i = {first}, {last}
         if (i == {first}) then
         k = {good}
         else
         a(k) = i
         end if
         end do"
    );
    (lines(&text), vec![9, 0, 0, 0, 0])
}

/// z is 0 at entry, the first iterations set it, all divide by it afterwards.
fn divisor_made_good(rng: &mut Rng, first: i64, last: i64) -> Drawn {
    let clauses = clauses(rng, "z");
    let directive = directive(rng, &clauses);
    let until = rng.between(first, last);
    let divide = rng.pick(&["100/z", "rdiv(100, z)", "z/z", "1 + 7/(2*z)"]);
    let text = format!(
        "integer a(3), z
         {directive}
         do j = {first}, {last}
         if (j <= {until}) then
         z = 3
         end if
         a(2) = {divide}
         end do"
    );
    (lines(&text), vec![0, 0, 0, 0])
}

/// The sum or the maximum is at least 1 when it is read serially, but speculation reads it as at entry.
fn sum_read_too_early(rng: &mut Rng, first: i64, last: i64) -> Drawn {
    let (operation, right) = rng.pick(&[
        (Operation::Sum, "s + 1"),
        (Operation::Sum, "s + 2"),
        (Operation::Sum, "s - (-1)"),
        (Operation::Sum, "s - 0 + 2"),
        (Operation::Maximum, "max(s, i + 6)"),
    ]);
    let directive = directive(rng, &[operation.clause("s")]);
    let text = format!(
        "integer s, a(30)
         {directive}
         do i = {first}, {last}
         s = {right}
         a(s) = i
         end do"
    );
    (lines(&text), vec![0; 31])
}

/// All iterations divide by z, which an iteration sets to 0.
fn divisor_made_zero(rng: &mut Rng, first: i64, last: i64) -> Drawn {
    let clauses = clauses(rng, "z");
    let directive = directive(rng, &clauses);
    let at = rng.between(first, last);
    let text = format!(
        "integer z, a(12)
         data z /5/
         {directive}
         do i = {first}, {last}
         a(i - {first} + 1) = 10/z
         if (i == {at}) then
         z = 0
         end if
         end do"
    )
    .replace("- -", "+ ");
    let mut cells = vec![0; 13];
    cells[0] = 5;
    (lines(&text), cells)
}

/// k is inside at entry; an iteration moves it outside.
fn subscript_made_bad(rng: &mut Rng, first: i64, last: i64) -> Drawn {
    let clauses = [clauses(rng, "k"), lastprivate(rng, "a", 50)].concat();
    let directive = directive(rng, &clauses);
    let at = rng.between(first, last);
    let bad = rng.pick(&["5", "0", "-1", "k + 4", "2147483647"]);
    let text = format!(
        "integer a(4), k
         data a /4*7/
         data k /2/
         {directive}
         do i = {first}, {last}
         a(k) = i
         if (i == {at}) then
         k = {bad}
         end if
         end do"
    );
    (lines(&text), vec![7, 7, 7, 7, 2])
}

/// The sum or the maximum grows beyond the array serially; speculation reads it as at entry.
fn sum_grows_outside(rng: &mut Rng, first: i64, last: i64) -> Drawn {
    let length = rng.between(1, 12);
    let (operation, right) = rng.pick(&[
        (Operation::Sum, "s + 1"),
        (Operation::Sum, "s - (-1)"),
        (Operation::Maximum, "max(s, i + 6)"),
    ]);
    let directive = directive(rng, &[operation.clause("s")]);
    let text = format!(
        "integer s, a({length})
         {directive}
         do i = {first}, {last}
         a(s + 1) = i
         s = {right}
         end do"
    );
    (lines(&text), vec![0; length as usize + 1])
}

/// The fault stands behind a guard that an early iteration opens.
fn guard_opened(rng: &mut Rng, first: i64, last: i64) -> Drawn {
    let clauses = clauses(rng, "g");
    let directive = directive(rng, &clauses);
    let relation = rng.pick(&[">", ">=", "/="]);
    let text = format!(
        "integer g, a(4)
         {directive}
         do i = {first}, {last}
         if (g {relation} 0) then
         a(9) = 1
         end if
         g = 1
         end do"
    );
    (lines(&text), vec![0; 5])
}

/// The fault stands behind a guard that is open at entry and that the first iteration closes.
fn guard_closed(rng: &mut Rng, first: i64, last: i64) -> Drawn {
    let clauses = clauses(rng, "g");
    let directive = directive(rng, &clauses);
    let text = format!(
        "integer g, a(4)
         data g /1/
         {directive}
         do i = {first}, {last}
         if (i == {first}) then
         g = 0
         end if
         if (g == 1) then
         a(1) = 1/(g - 1)
         end if
         end do"
    );
    (lines(&text), vec![1, 0, 0, 0, 0])
}
