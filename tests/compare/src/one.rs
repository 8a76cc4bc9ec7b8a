//! One text: what the product and the reference answer, and leave in what is lent, on the text's own data.

use std::fmt::Debug;

use reference::{read, workspace_needed, Answer, Refusal};

use crate::product;
use crate::services::ARRANGEMENTS;
use crate::tally::short;

/// The reference's Plan looks at every pair of iterations; of more than these it is not asked.
const PAIRED: u32 = 10_000;
/// Bytes that are enough for every printed form.
const ROOM: usize = 65_535;

/// Prints both answers of each service; whether they are the same.
pub fn show(file: &str) -> bool {
    let Ok(text) = std::fs::read(file) else {
        println!("{file} cannot be read");
        return false;
    };
    let checked = reference::check(&text);
    let bounded = reference::bounds(&text);
    let mut same = beside("Check", &product::check(&text), &checked);
    same &= beside("Bounds", &product::bounds(&text), &bounded);
    same &= show_form(&text);
    same &= show_grids(&text);
    if let (Ok((cells, processors)), Ok(bounds)) = (checked, bounded) {
        let words = workspace_needed(cells, processors);
        same &= show_on_data(&text, cells, words, bounds.iterations);
    }
    println!(
        "{}",
        if same {
            "nothing differs"
        } else {
            "they DIFFER"
        }
    );
    same
}

/// Print, with enough bytes lent.
fn show_form(text: &[u8]) -> bool {
    let print = |print: fn(&[u8], &mut [u8]) -> Result<u32, Refusal>| {
        let mut bytes = vec![0; ROOM];
        let answer = print(text, &mut bytes);
        bytes.truncate(answer.unwrap_or(0) as usize);
        (answer, String::from_utf8_lossy(&bytes).into_owned())
    };
    beside("Print", &print(product::print), &print(reference::print))
}

/// Rows and Columns of each grid, on cells that hold their own numbers.
fn show_grids(text: &[u8]) -> bool {
    let Ok(program) = read(text) else {
        return true;
    };
    let numbers: Vec<i32> = (0..program.cell_count() as i32).collect();
    let names = program.names.iter();
    let mut same = true;
    for grid in names.filter(|declared| declared.grid().is_some()) {
        for arrangement in &ARRANGEMENTS {
            let name = grid.name.as_bytes();
            let (mut by_product, mut by_reference) = (numbers.clone(), numbers.clone());
            let one = (arrangement.service)(text, &mut by_product, name);
            let other = (arrangement.reference)(&program, &mut by_reference, name);
            let of = format!("{} of {}", arrangement.name, grid.name);
            same &= beside(&of, &(one, by_product), &(other, by_reference));
        }
    }
    same
}

/// Load, and on the cells that the reference loads Run under the empty schedule and Plan.
fn show_on_data(text: &[u8], count: usize, words: usize, iterations: u32) -> bool {
    let load = |load: fn(&[u8], &mut [i32]) -> Result<(), Refusal>| {
        let mut cells = vec![0; count];
        (load(text, &mut cells), cells)
    };
    let loaded = load(reference::load);
    let mut same = beside("Load", &load(product::load), &loaded);
    let (_, data) = loaded;
    type Run = fn(&[u8], &mut [i32], &mut [u32], &[u8]) -> Result<Answer, Refusal>;
    let run = |run: Run| {
        let (mut cells, mut workspace) = (data.clone(), vec![0; words]);
        (run(text, &mut cells, &mut workspace, &[]), cells)
    };
    same &= beside("Run", &run(product::run), &run(reference::run));
    type Plan = fn(&[u8], &[i32], &mut [u32], &mut [u16]) -> Result<u32, Refusal>;
    let plan = |plan: Plan| {
        let (mut workspace, mut list) = (vec![0; words], vec![0; iterations as usize]);
        (plan(text, &data, &mut workspace, &mut list), list)
    };
    let planned = plan(product::plan);
    if iterations > PAIRED {
        println!("Plan\n  the product:   {}", short(&planned));
        println!("  the reference: not asked, {iterations} iterations are too many for it");
        return same;
    }
    same & beside("Plan", &planned, &plan(reference::plan))
}

/// Prints both answers of a service; whether they are the same.
fn beside<T: PartialEq + Debug>(service: &str, answer: &T, expected: &T) -> bool {
    let same = answer == expected;
    println!("{service}{}", if same { "" } else { ": DIFFERENT" });
    println!("  the product:   {}", short(answer));
    println!("  the reference: {}", short(expected));
    same
}
