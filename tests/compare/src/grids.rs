//! Rows and Columns (document 02, Point 9): the table, and random texts; and grids beside arrays with the places of their
//! cells written out.

use generate::repeats::repeats;
use generate::subscripts::as_arrays;
use generate::tables::grids::arrange_rows;
use generate::{damage, grids, lend, Loop, Rng};
use reference::program::Program;
use reference::{check, read, workspace_needed, Refusal};

use crate::groups::refused;
use crate::product;
use crate::runs::{all_often, drawn_to_run, workspace};
use crate::services::{arrange, Arrangement, ARRANGEMENTS};
use crate::tally::{Tally, Text};

/// How many random texts are rearranged, and how many loops over grids are run beside the same loop over arrays.
const TEXTS: u64 = 6_000;
const LOOPS: u64 = 6_000;
/// Percent of the texts that are damaged, and of the names for which too few cells are lent or too many.
const DAMAGED: u32 = 15;
const MISCOUNTED: u32 = 8;
/// How often each answer must be given at least.
const ANSWERS: [(&str, usize); 7] = [
    ("done", 11_500),
    ("refused  1", 90),
    ("refused  2", 2_500),
    ("refused  3", 680),
    ("refused  4", 160),
    ("refused  5", 7_800),
    ("refused 13", 78_000),
];
/// What is counted of grids that are rearranged, by their extents.
const EXTENTS: &str = "Rearranged:";
const KINDS: [(&str, usize); 6] = [
    ("one by one", 1_250),
    ("one row", 1_950),
    ("one column", 2_300),
    ("as many rows as columns", 1_250),
    ("other extents", 4_400),
    ("over 1,000 cells", 160),
];
/// What is counted of loops that are run beside arrays.
const WRITTEN_OUT: &str = "Over grids and over arrays: Run";
const RUNS: [(&str, usize); 3] = [("passed", 1_650), ("rerun", 880), ("divided by zero", 70)];
const SEEN: &str = "Over grids and over arrays:";
const VIEWS: [(&str, usize); 2] = [("looked at", 3_000), ("planned", 2_600)];

/// The table of rearrangements.
pub fn table() -> bool {
    let mut tally = Tally::new("table of rows and columns");
    for row in arrange_rows() {
        let mut text = tally.next(&row.name, &row.text);
        for (arrangement, expected) in ARRANGEMENTS.iter().zip([&row.rows, &row.columns]) {
            let expected = expected.as_deref();
            let expected = expected.map_err(|&(number, line)| refused(number, line));
            let asked: (&[u8], &[u8]) = (&row.asked, b"");
            arrange(&mut text, arrangement, asked, &row.cells, expected);
        }
    }
    tally.report()
}

/// A text, often with a grid: of any generator, a loop over grids, or one of many cells.
fn drawn_to_arrange(rng: &mut Rng) -> Vec<u8> {
    let text = match rng.below(8) {
        0 => repeats(rng),
        1..=4 => grids::grids(rng).text(),
        _ => drawn_to_run(rng).text(),
    };
    match rng.chance(DAMAGED) {
        true => damage::damage(&text, rng),
        false => text,
    }
}

/// What is known of a text: the program, if it is accepted.
type Known = Result<Program, Refusal>;

/// What the reference leaves in these cells: numbers 1 to 4, 5, and then as the program says.
fn expected(
    known: &Known,
    one: &Arrangement,
    name: &[u8],
    cells: &[i32],
) -> Result<Vec<i32>, Refusal> {
    let program = known.as_ref().map_err(|refusal| *refusal)?;
    if cells.len() != program.cell_count() {
        return Err(refused(5, 0));
    }
    let mut after = cells.to_vec();
    (one.reference)(program, &mut after, name)?;
    Ok(after)
}

/// Both services for these bytes, as the reference answers; and where they are done, one after the other, either way
/// round, which restores the cells.
fn arrange_as_reference(text: &mut Text, known: &Known, asked: (&[u8], &[u8]), cells: &[i32]) {
    let [rows, columns] = &ARRANGEMENTS;
    for (one, inverse) in [(rows, columns), (columns, rows)] {
        let after = expected(known, one, asked.0, cells);
        arrange(
            text,
            one,
            asked,
            cells,
            after.as_deref().map_err(|refusal| *refusal),
        );
        if after.is_ok() {
            let mut restored = cells.to_vec();
            let there = (one.service)(text.text, &mut restored, asked.0);
            let back = (inverse.service)(text.text, &mut restored, asked.0);
            let both = format!("{} and then {}", one.name, inverse.name);
            let answers = (there, back, restored);
            text.compare(&both, &answers, &(Ok(()), Ok(()), cells.to_vec()));
        }
    }
}

/// By Name's answer alone: the cell of row r and column c, found among the others of its column, comes to stand among
/// those of its row, and every other cell stays.
fn arrange_as_named(text: &mut Text, asked: &[u8], cells: &[i32]) {
    let Ok(named) = product::name(text.text, asked) else {
        return;
    };
    if named.subscripts != 2 {
        return;
    }
    let [first, m, n] = [named.first, named.rows, named.columns].map(|number| number as usize);
    let mut after = cells.to_vec();
    let answer = product::rows(text.text, &mut after, asked);
    let mut expected = cells.to_vec();
    for place in 0..m * n {
        let (row, column) = (place / n, place % n);
        expected[first + place] = cells[first + column * m + row];
    }
    text.compare("Rows and Name", &(answer, after), &(Ok(()), expected));
    let word = match (m, n) {
        (1, 1) => "one by one",
        _ if m * n > 1000 => "over 1,000 cells",
        (1, _) => "one row",
        (_, 1) => "one column",
        _ if m == n => "as many rows as columns",
        _ => "other extents",
    };
    text.count(EXTENTS, Ok(word));
}

/// Random texts, for their names in upper and lower case and other bytes, with as many cells as are asked for or not.
fn random_arrangements() -> bool {
    let mut tally = Tally::new(&format!("rows and columns of the seeds 0 to {}", TEXTS - 1));
    for seed in 0..TEXTS {
        let mut rng = Rng::new(seed);
        let bytes = drawn_to_arrange(&mut rng);
        let name = format!("seed {seed}");
        let mut text = tally.next(&name, &bytes);
        let known = read(&bytes);
        let names: Vec<&str> = match &known {
            Ok(program) => {
                let declared = program.names.iter().map(|declared| &declared.name[..]);
                declared.chain([&program.variable[..]]).collect()
            }
            Err(_) => Vec::new(),
        };
        let count = known.as_ref().map_or(3, Program::cell_count);
        for (asked, behind) in lend::asked(&mut rng, &bytes, &names) {
            let lent = match rng.chance(MISCOUNTED) {
                true => rng.pick(&[count + 1, count - 1, 0, 2 * count]),
                false => count,
            };
            let cells = lend::cells(&mut rng, lent);
            arrange_as_reference(&mut text, &known, (&asked, &behind), &cells);
            if lent == count {
                arrange_as_named(&mut text, &asked, &cells);
            }
        }
    }
    let good = tally.report();
    let often = ARRANGEMENTS.map(|one| all_often(&tally, one.name, &ANSWERS));
    good & !often.contains(&false) & all_often(&tally, EXTENTS, &KINDS)
}

/// A loop, often over grids.
fn drawn_with_grids(rng: &mut Rng) -> Loop {
    match rng.chance(60) {
        true => grids::grids(rng),
        false => drawn_to_run(rng),
    }
}

/// A loop over grids and the same loop over arrays, in which `g(e, f)` of m rows is `g((e) + m*((f) - 1))`: where no
/// subscript is outside its bound, Run, Look and Plan answer and leave the same. That is how Fortran orders elements.
fn compare_written_out(tally: &mut Tally, seed: u64) {
    let mut rng = Rng::new(seed);
    let made = drawn_with_grids(&mut rng);
    let bytes = made.text();
    let arrays = as_arrays(&bytes).filter(|arrays| check(arrays).is_ok());
    let (Some(arrays), true) = (arrays, bytes.len() <= 2048) else {
        return;
    };
    let any = lend::cells(&mut rng, made.cells.len());
    let cells = if rng.chance(80) { &made.cells } else { &any };
    let name = format!("seed {seed}, written out");
    let mut text = tally.next(&name, &bytes);
    let outside = |fault: Refusal| fault.number == 9;
    let serial = reference::serial(&bytes, cells).expect("a good text");
    let schedule = lend::schedule(&mut rng, made.processors);
    let words = workspace(&mut rng, cells.len(), made.processors);
    if !serial.outcome.is_err_and(outside) {
        let run = |text: &[u8]| {
            let (mut cells, mut words) = (cells.clone(), words.clone());
            let answer = product::run(text, &mut cells, &mut words, &schedule);
            (answer, cells)
        };
        let ran = run(&bytes);
        text.compare("Run, written out", &run(&arrays), &ran);
        let word = match ran.0 {
            Ok(answer) if answer.passed => "passed",
            Ok(_) => "rerun",
            Err(_) => "divided by zero",
        };
        text.count(WRITTEN_OUT, Ok(word));
        let iterations = product::bounds(&bytes).map_or(0, |bounds| bounds.iterations);
        let plan = |text: &[u8]| {
            let mut list = vec![7; iterations as usize];
            let answer = product::plan(text, cells, &mut words.clone(), &mut list);
            (answer, list)
        };
        text.compare("Plan, written out", &plan(&arrays), &plan(&bytes));
        text.count(SEEN, Ok("planned"));
    }
    let needed = workspace_needed(cells.len(), made.processors);
    let state = reference::stepped(&bytes, cells, needed, &schedule).expect("a good text");
    let mut faults = state.processors.iter().filter_map(|record| record.fault);
    if !faults.any(outside) {
        let look = |text: &[u8]| {
            let mut view = vec![7; 2 * cells.len()];
            let answer = product::look(text, cells, &mut words.clone(), &schedule, &mut view);
            (answer, view)
        };
        text.compare("Look, written out", &look(&arrays), &look(&bytes));
        text.count(SEEN, Ok("looked at"));
    }
}

fn random_loops() -> bool {
    let mut tally = Tally::new(&format!(
        "grids written out, of the seeds 0 to {}",
        LOOPS - 1
    ));
    (0..LOOPS).for_each(|seed| compare_written_out(&mut tally, seed));
    let good = tally.report();
    good & all_often(&tally, WRITTEN_OUT, &RUNS) & all_often(&tally, SEEN, &VIEWS)
}

/// Random texts: Rows and Columns, and loops over grids beside loops over arrays.
pub fn random_grids() -> bool {
    random_arrangements() & random_loops()
}
