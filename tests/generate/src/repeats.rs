//! Loops of many cells that are given by copies: their printed form (document 02, Point 8) is far longer than the text,
//! or about as long as a text may be.

use crate::layout::{write_text, Layout};
use crate::lend::extreme;
use crate::rng::Rng;
use crate::subscripts::extents;

/// Such a text.
pub fn repeats(rng: &mut Rng) -> Vec<u8> {
    let lines = if rng.chance(40) {
        near_the_limit(rng)
    } else {
        many_cells(rng)
    };
    let layout = rng.pick(&[Layout::PLAIN, Layout::VARIED, Layout::ODD]);
    write_text(&lines, &layout, rng)
}

/// Its printed form has 2,048 bytes, or some more or fewer.
fn near_the_limit(rng: &mut Rng) -> Vec<String> {
    let name = "q".repeat(1 + rng.below(8));
    let value = rng.below(10);
    // A second extent and subscript are as long as two copies.
    let (cells, [before, after]) = match rng.below(4) {
        0 => (483 + rng.below(3), ["", ", 1"]),
        1 => (483 + rng.below(3), ["1, ", ""]),
        _ => (485 + rng.below(3), ["", ""]),
    };
    let text = format!(
        "integer a({before}{cells}{after}), {name}\n\
         data a /{cells}*{value}/\n\
         !$omp parallel do num_threads(2)\n\
         do i = 1, 9\n\
         a({before}i{after}) = i\n\
         end do"
    );
    text.lines().map(str::to_string).collect()
}

/// Up to four names with as many cells as may be, or fewer.
fn many_cells(rng: &mut Rng) -> Vec<String> {
    let mut left = match rng.below(4) {
        0 => 4096,
        1 => 1 + rng.below(60),
        2 => 1 + rng.below(600),
        _ => 1 + rng.below(4096),
    };
    let mut names = Vec::new();
    let mut lines = Vec::new();
    for name in ["a", "k", "bed", "level_20"] {
        if left == 0 {
            break;
        }
        let cells = if rng.chance(40) {
            left
        } else {
            1 + rng.below(left)
        };
        left -= cells;
        let (rows, columns) = extents(rng, cells);
        let is_grid = rng.chance(40);
        names.push(match is_grid {
            true => format!("{name}({rows}, {columns})"),
            false => format!("{name}({cells})"),
        });
        if rng.chance(85) {
            lines.push(format!("data {name} /{}/", items(rng, cells)));
        }
    }
    rng.shuffle(&mut lines);
    lines.insert(0, format!("integer {}", names.join(", ")));
    let statement = match names[0].contains(',') {
        true => "a(1, 01) = a(001, 1) + 001",
        false => "a(1) = a(1) + 001",
    };
    let body = [
        "!$omp parallel do num_threads(3) shared(a)",
        "do i = 1, 4",
        statement,
        "end do",
    ];
    lines.extend(body.map(str::to_string));
    lines
}

/// So many values, by a few items.
fn items(rng: &mut Rng, cells: usize) -> String {
    let mut items = Vec::new();
    let mut left = cells;
    while left > 0 {
        let copies = match rng.below(4) {
            0 if items.len() < 40 => 1,
            1 | 2 if items.len() < 40 => 1 + rng.below(left),
            _ => left,
        };
        left -= copies;
        let sign = rng.pick(&["", "", "-", "+"]);
        let literal = match rng.below(3) {
            0 => extreme(rng).unsigned_abs().min(i32::MAX as u32),
            1 => 0,
            _ => rng.below(100) as u32,
        };
        items.push(match copies {
            1 if rng.chance(80) => format!("{sign}{literal}"),
            _ => format!("{copies}*{sign}{literal}"),
        });
    }
    items.join(", ")
}
