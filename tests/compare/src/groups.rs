//! The groups of texts that are compared.

use generate::tables::{arguments, data, text_rows};
use generate::{
    copies, damage, grids as over_grids, hostile, lend, neighbours, noise, reductions, Knobs, Loop,
    Rng,
};
use reference::Refusal;

use crate::division;
use crate::fortran;
use crate::grids;
use crate::names;
use crate::plans;
use crate::prints;
use crate::runs;
use crate::services::{check, check_and_load, load, look, run, Lent};
use crate::tally::Tally;

/// A group by its name; whether nothing differed.
pub type Group = (&'static str, fn() -> bool);

/// All groups.
pub const GROUPS: [Group; 21] = [
    ("tables", tables),
    ("lent", lent),
    ("run-table", runs::table),
    ("look-table", runs::views),
    ("plan-table", plans::table),
    ("name-table", names::table),
    ("print-table", prints::table),
    ("grid-table", grids::table),
    ("runs", runs::random_runs),
    ("looks", runs::random_looks),
    ("plans", plans::random_plans),
    ("names", names::random_names),
    ("prints", prints::random_prints),
    ("grids", grids::random_grids),
    ("refusals", runs::random_refusals),
    ("quotient", division::quotients),
    ("rdiv", division::rounded_quotients),
    ("fortran", fortran::second_opinion),
    ("loops", loops),
    ("damaged", damaged),
    ("noise", any_bytes),
];

/// How many loops, damaged loops and texts that are no loops are drawn.
const LOOPS: u64 = 25_000;
const DAMAGED: u64 = 40_000;
const NOISE: u64 = 20_000;

pub fn refused(number: u32, line: u32) -> Refusal {
    Refusal { number, line, v: 0 }
}

/// The tables written by hand: against their own answers and against the reference.
fn tables() -> bool {
    let mut tally = Tally::new("tables");
    let mut rng = Rng::new(1);
    for row in text_rows() {
        let mut text = tally.next(&row.name, &row.text);
        let expected = row.expected.map_err(|(number, line)| refused(number, line));
        check(&mut text, expected);
        check_and_load(&mut text, &mut rng);
    }
    for row in data::load_rows() {
        let mut text = tally.next(&row.name, &row.text);
        load(&mut text, &vec![77; row.cells.len()], Ok(()), &row.cells);
        check_and_load(&mut text, &mut rng);
    }
    tally.report()
}

/// Numbers 1 to 8, by the table of what is lent.
fn lent() -> bool {
    let mut tally = Tally::new("what is lent");
    let mut rng = Rng::new(2);
    for row in arguments::rows() {
        let mut text = tally.next(row.name, row.text.as_bytes());
        let line = u32::from(row.load == 3);
        let before = vec![77; row.cells];
        match row.load {
            0 => load(&mut text, &before, Ok(()), &vec![0; row.cells]),
            number => load(&mut text, &before, Err(refused(number, line)), &before),
        }
        let lent = Lent {
            cells: &before,
            workspace: &lend::workspace(&mut rng, row.workspace),
            schedule: &row.schedule,
        };
        if row.look != 0 {
            look(&mut text, &lent, row.view, Err(refused(row.look, line)));
        }
        if row.run != 0 {
            run(&mut text, &lent, Err(refused(row.run, line)), &before);
        }
        if row.look == 0 {
            runs::look_as_reference(&mut text, &lent);
        }
        if row.run == 0 {
            runs::run_as_reference(&mut text, &lent);
        }
    }
    tally.report()
}

/// A random loop, at times a hostile one, one whose neighbours meet, one that overwrites old values, one of sums,
/// products and maxima or one over grids.
pub fn drawn(rng: &mut Rng) -> Loop {
    match rng.below(24) {
        0 | 1 => hostile::hostile(rng),
        2 => neighbours::neighbours(rng),
        3 => copies::copies(rng),
        4 | 5 => reductions::reductions(rng),
        6 | 7 => over_grids::grids(rng),
        _ => {
            let knobs = Knobs::mixed(rng);
            Loop::random(rng, &knobs)
        }
    }
}

/// Random loops: against what their maker knows of them and against the reference.
fn loops() -> bool {
    let mut tally = Tally::new(&format!("loops of the seeds 0 to {}", LOOPS - 1));
    for seed in 0..LOOPS {
        let mut rng = Rng::new(seed);
        let name = format!("seed {seed}");
        let made = drawn(&mut rng);
        let bytes = made.text();
        let mut text = tally.next(&name, &bytes);
        check_and_load(&mut text, &mut rng);
        if bytes.len() <= 2048 {
            check(&mut text, Ok((made.cells.len(), made.processors)));
            load(&mut text, &vec![77; made.cells.len()], Ok(()), &made.cells);
        }
    }
    tally.report()
}

/// Random loops with bytes, tokens or lines taken out, doubled, swapped or changed.
fn damaged() -> bool {
    let mut tally = Tally::new(&format!("damaged loops of the seeds 0 to {}", DAMAGED - 1));
    for seed in 0..DAMAGED {
        let mut rng = Rng::new(seed);
        let text = drawn(&mut rng).text();
        let text = damage::damage(&text, &mut rng);
        check_and_load(&mut tally.next(&format!("seed {seed}"), &text), &mut rng);
    }
    tally.report()
}

/// Tokens in any order, and arbitrary bytes.
fn any_bytes() -> bool {
    let mut tally = Tally::new(&format!("noise of the seeds 0 to {}", NOISE - 1));
    for seed in 0..NOISE {
        let mut rng = Rng::new(seed);
        let text = if rng.chance(50) {
            noise::soup(&mut rng)
        } else {
            noise::bytes(&mut rng)
        };
        check_and_load(&mut tally.next(&format!("seed {seed}"), &text), &mut rng);
    }
    tally.report()
}
