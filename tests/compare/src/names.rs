//! Bounds and Name: the tables, and random texts.

use generate::ranges::range;
use generate::tables::names::{bounds_rows, name_rows, Found};
use generate::tables::text_rows;
use generate::wavefronts::wavefronts;
use generate::{damage, lend, Rng};
use reference::{read, Bounds, NameCells};

use crate::groups::refused;
use crate::runs::{all_often, drawn_to_run};
use crate::services::{bounds, name, TAKEN};
use crate::tally::{Tally, Text};

/// How many random loops are asked about, every other one damaged, and how many texts with bounds near their
/// limits.
const TEXTS: u64 = 20_000;
const RANGES: u64 = 6_000;
/// How many names of each clause, and how many bytes that are no declared name, must be asked for at least.
const FLOORS: [(&str, usize); 7] = [
    ("shared", 45_000),
    ("in lastprivate alone", 7_000),
    ("a sum", 8_000),
    ("in both clauses", 12_500),
    ("a product", 5_500),
    ("a maximum", 6_200),
    ("not declared", 200_000),
];
/// How many names must be found that take no subscript, one and two.
const SUBSCRIPTS: [(&str, usize); 3] = [("none", 29_000), ("one", 29_000), ("two", 24_000)];
/// How many texts must have bounds of each kind.
const BOUNDS: [(&str, usize); 6] = [
    ("no iterations", 580),
    ("no iterations, by blocks", 560),
    ("1 iteration", 460),
    ("1 iteration, by blocks", 380),
    ("more iterations", 5_600),
    ("more iterations, by blocks", 4_600),
];

/// The tables of names and of bounds.
pub fn table() -> bool {
    let mut tally = Tally::new("tables of names and bounds");
    for row in name_rows() {
        let found = |found: Found| NameCells {
            first: found.first,
            cells: found.cells,
            subscripts: found.subscripts,
            clause: found.clause,
            rows: found.rows,
            columns: found.columns,
        };
        let expected = row.expected.map(found);
        let expected = expected.map_err(|(number, line)| refused(number, line));
        let mut text = tally.next(&row.name, &row.text);
        name(&mut text, (&row.asked, b""), expected);
    }
    for row in bounds_rows() {
        let found = |(from, iterations, blocks)| Bounds {
            from,
            iterations,
            blocks,
        };
        let expected = row.expected.map(found);
        let expected = expected.map_err(|(number, line)| refused(number, line));
        bounds(&mut tally.next(&row.name, &row.text), expected);
    }
    tally.report()
}

/// Bounds, and Name for its names, its variable and other bytes, as the reference answers.
fn describe_as_reference(text: &mut Text, rng: &mut Rng) {
    bounds(text, reference::bounds(text.text));
    let program = read(text.text);
    let names: Vec<&str> = match &program {
        Ok(program) => {
            let declared = program.names.iter().map(|declared| &declared.name[..]);
            declared.chain([&program.variable[..]]).collect()
        }
        Err(_) => Vec::new(),
    };
    for (asked, after) in lend::asked(rng, text.text, &names) {
        let expected = match &program {
            Ok(program) => program.cells_of(&asked),
            Err(refusal) => Err(*refusal),
        };
        name(text, (&asked, &after), expected);
    }
}

/// The texts of Check's tables, random loops, every other one damaged, and loops with bounds near their limits.
/// Names of each clause and bounds of each kind must be frequent.
pub fn random_names() -> bool {
    let (last, ranges) = (TEXTS - 1, RANGES - 1);
    let group = format!("names of the tables and the seeds 0 to {last}, of ranges 0 to {ranges}");
    let mut tally = Tally::new(&group);
    let mut rng = Rng::new(6);
    for row in text_rows() {
        describe_as_reference(&mut tally.next(&row.name, &row.text), &mut rng);
    }
    for seed in 0..TEXTS {
        let mut rng = Rng::new(seed);
        let made = match rng.below(8) {
            0 => wavefronts(&mut rng).0,
            _ => drawn_to_run(&mut rng),
        };
        let mut bytes = made.text();
        if seed % 2 == 1 {
            bytes = damage::damage(&bytes, &mut rng);
        }
        let name = format!("seed {seed}");
        describe_as_reference(&mut tally.next(&name, &bytes), &mut rng);
    }
    for seed in 0..RANGES {
        let mut rng = Rng::new(seed);
        let bytes = range(&mut rng);
        let name = format!("seed {seed}, a range");
        describe_as_reference(&mut tally.next(&name, &bytes), &mut rng);
    }
    let good = tally.report();
    let often = all_often(&tally, "Name", &FLOORS) & all_often(&tally, "Bounds", &BOUNDS);
    good & often & all_often(&tally, TAKEN, &SUBSCRIPTS)
}
