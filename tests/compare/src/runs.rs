//! Look and Run under many schedules.

use generate::tables::looks;
use generate::tables::runs::{rows, Ran};
use generate::{
    copies, damage, grids, hostile, lend, neighbours, reductions, Copied, Loop, Rng, Turned,
};
use reference::program::{Declared, Program};
use reference::syntax::{Class, Operation, Words};
use reference::{read, run_serially, workspace_needed, Answer, Kind, Refusal, Serial};

use crate::groups::drawn;
use crate::plans::plan_as_reference;
use crate::services::{look, run, Lent, LentToPlan};
use crate::tally::{Tally, Text};

/// How many random loops are run and looked at, each for several numbers of processors and under
/// several schedules.
const RUNS: u64 = 9_000;
const LOOKS: u64 = 3_000;
/// How many runs that update cells must pass, be run again and fault, for each operation, and for all three
/// together in passed and repeated runs.
const UPDATING: [(&str, usize); 3] = [("passed", 5_500), ("rerun", 3_000), ("faults", 600)];
const ALL_UPDATING: [(&str, usize); 2] = [("passed", 2_500), ("rerun", 1_200)];
/// How many runs that access cells of a grid (document 02, Point 9), and that update one, must end so.
const OVER_GRIDS: [(&str, usize); 3] = [("passed", 16_000), ("rerun", 15_500), ("faults", 6_300)];
const UPDATED_GRIDS: [(&str, usize); 3] = [("passed", 3_100), ("rerun", 2_600), ("faults", 640)];
/// In how many loops at least the word must turn from rerun to passed once the names in `lastprivate` alone
/// stand in both clauses.
const TURNED: usize = 700;
/// How many random texts, damaged or not, are run, looked at and planned with too little lent or too much.
const REFUSALS: u64 = 10_000;
/// How often at least a list must be refused for its length.
const LISTS: usize = 800;

/// A workspace large enough, with anything in it and at times some words to spare.
pub fn workspace(rng: &mut Rng, cells: usize, processors: usize) -> Vec<u32> {
    let spare = rng.below(3);
    lend::workspace(rng, workspace_needed(cells, processors) + spare)
}

/// The empty schedule, turns backward, and some random ones.
fn schedules(rng: &mut Rng, processors: usize, random: usize) -> Vec<Vec<u8>> {
    let mut schedules = vec![Vec::new(), lend::backward_turns(processors, 20)];
    schedules.extend((0..random).map(|_| lend::schedule(rng, processors)));
    schedules
}

/// The table of runs, each row under many schedules.
pub fn table() -> bool {
    let mut tally = Tally::new("table of runs, schedules of the seed 3");
    let mut rng = Rng::new(3);
    for row in rows() {
        let mut text = tally.next(&row.name, &row.text);
        let (cells, processors) = reference::check(&row.text).expect("a good text");
        let ended = |passed, &pairs, &cells| {
            Ok(Answer {
                passed,
                pairs,
                cells,
            })
        };
        let (expected, after) = match &row.expected {
            Ran::Passed(pairs, written, after) => (ended(true, pairs, written), after),
            Ran::Rerun(pairs, written, after) => (ended(false, pairs, written), after),
            &Ran::Fault(number, line, v) => (Err(Refusal { number, line, v }), &row.cells),
        };
        for schedule in schedules(&mut rng, processors, 20) {
            let lent = Lent {
                cells: &row.cells,
                workspace: &workspace(&mut rng, cells, processors),
                schedule: &schedule,
            };
            run(&mut text, &lent, expected, after);
        }
    }
    tally.report()
}

/// The table of views.
pub fn views() -> bool {
    let mut tally = Tally::new("table of views");
    let mut rng = Rng::new(4);
    for row in looks::rows() {
        let mut text = tally.next(&row.name, &row.text);
        let (cells, processors) = reference::check(&row.text).expect("a good text");
        let words: Vec<u32> = row
            .view
            .iter()
            .flat_map(|&(value, marks)| [value as u32, marks])
            .collect();
        let lent = Lent {
            cells: &row.cells,
            workspace: &workspace(&mut rng, cells, processors),
            schedule: &row.schedule,
        };
        look(&mut text, &lent, words.len(), Ok(&words));
    }
    tally.report()
}

/// Run as the serial run settles it: demand 3.
pub fn run_as_reference(text: &mut Text, lent: &Lent) {
    let serial = reference::serial(text.text, lent.cells).expect("a good text");
    run_as_settled(text, lent, &serial);
}

fn run_as_settled(text: &mut Text, lent: &Lent, serial: &Serial) {
    match serial.outcome {
        Err(fault) => run(text, lent, Err(fault), lent.cells),
        Ok(()) => {
            let answer = Answer {
                passed: serial.passes(),
                pairs: serial.pairs,
                cells: serial.cells,
            };
            run(text, lent, Ok(answer), &serial.cells_after);
        }
    }
}

/// Look as the reference does.
pub fn look_as_reference(text: &mut Text, lent: &Lent) {
    let mut view = vec![0; 2 * lent.cells.len()];
    let mut words = lent.workspace.to_vec();
    let answer = reference::look(text.text, lent.cells, &mut words, lent.schedule, &mut view);
    answer.expect("a good text and enough lent");
    look(text, lent, view.len(), Ok(&view));
}

/// A random loop, often one in which speculation and the serial run meet different faults, one whose
/// neighbours meet, one that overwrites old values, one of sums, products and maxima or one over grids.
pub fn drawn_to_run(rng: &mut Rng) -> Loop {
    match rng.below(32) {
        0..=7 => hostile::hostile(rng),
        8..=10 => neighbours::neighbours(rng),
        11..=17 => copies::copies(rng),
        18..=22 => reductions::reductions(rng),
        23..=26 => grids::grids(rng),
        _ => drawn(rng),
    }
}

/// The loop of a seed, the numbers of processors to run it for, its own, a small and any other one, and the
/// seed's source for the rest.
fn loop_of(seed: u64) -> (Loop, [usize; 3], Rng) {
    let mut rng = Rng::new(seed);
    let made = drawn_to_run(&mut rng);
    let numbers = [made.processors, 1 + rng.below(3), 1 + rng.below(8)];
    (made, numbers, rng)
}

/// Each loop of the seeds, for several numbers of processors, with the cells of its data or any others,
/// under schedules.
fn random(tally: &mut Tally, seeds: u64, compare: fn(&mut Text, &Lent)) {
    for seed in 0..seeds {
        let (made, numbers, mut rng) = loop_of(seed);
        for processors in numbers {
            let bytes = made.with_processors(processors).text();
            if bytes.len() > 2048 {
                continue;
            }
            let name = format!("seed {seed}, {processors} processors");
            let mut text = tally.next(&name, &bytes);
            let count = made.cells.len();
            for schedule in schedules(&mut rng, processors, 2) {
                let any = lend::cells(&mut rng, count);
                let lent = Lent {
                    cells: if rng.chance(80) { &made.cells } else { &any },
                    workspace: &workspace(&mut rng, count, processors),
                    schedule: &schedule,
                };
                compare(&mut text, &lent);
            }
        }
    }
}

/// What is counted of loops with minus updates, and with those of products and maxima.
const MINUS: &str = "With minus updates a loop";
const NEW: &str = "With product and maximum updates a loop";

/// The serial run as if these words made no update: nothing but the marks, and so the word passed or rerun, may
/// differ (document 02, Points 1 and 6).
fn compare_without_updates(
    text: &mut Text,
    (program, cells): (&Program, &[i32]),
    now: &Serial,
    words: &[Words],
    counted: &'static str,
) {
    let without = program.without_updates(words);
    let passed_before = if without == *program {
        now.passes()
    } else {
        let before = run_serially(&without, cells);
        text.compare("the serial run", &now.ending(), &before.ending());
        before.passes()
    };
    let word = match (passed_before, now.passes()) {
        (false, true) => "now passes",
        (true, false) => "passes no more",
        _ => "has the same word",
    };
    text.count(counted, Ok(word));
}

/// What is counted of runs in which cells are updated, by the operation of their clauses.
pub const UPDATED: [(&str, Operation); 3] = [
    ("Sums updated: Run", Operation::Sum),
    ("Products updated: Run", Operation::Product),
    ("Maxima updated: Run", Operation::Maximum),
];
const ALL_THREE: &str = "All three updated: Run";

/// The operations by which a serial run updates cells.
pub fn operations_of(program: &Program, serial: &Serial) -> Vec<Operation> {
    let classes = program.cell_classes();
    let updates = serial
        .accesses
        .iter()
        .filter(|access| access.kind == Kind::Update);
    let updated: Vec<Class> = updates
        .map(|access| classes[usize::from(access.cell)])
        .collect();
    let operations = UPDATED.iter().map(|(_, operation)| *operation);
    operations
        .filter(|&operation| updated.contains(&Class::Reduction(operation)))
        .collect()
}

/// What is counted of runs that access cells of a grid, and that update one.
pub const GRIDS: &str = "Grids: Run";
const GRIDS_UPDATED: &str = "Grids updated: Run";

/// The kinds of accesses that a serial run makes to cells of grids.
pub fn kinds_in_grids(program: &Program, serial: &Serial) -> Vec<Kind> {
    let in_grid = |declared: &Declared| vec![declared.grid().is_some(); declared.length()];
    let in_grid: Vec<bool> = program.names.iter().flat_map(in_grid).collect();
    let accesses = serial.accesses.iter();
    let theirs = accesses.filter(|access| in_grid[usize::from(access.cell)]);
    theirs.map(|access| access.kind).collect()
}

/// Counts how a run with updates ends, for each operation and for all three together, and one with accesses to grids.
fn count_updates(text: &mut Text, program: &Program, serial: &Serial) {
    let word = match (serial.outcome, serial.passes()) {
        (Err(_), _) => "faults",
        (Ok(()), true) => "passed",
        (Ok(()), false) => "rerun",
    };
    let kinds = kinds_in_grids(program, serial);
    if !kinds.is_empty() {
        text.count(GRIDS, Ok(word));
    }
    if kinds.contains(&Kind::Update) {
        text.count(GRIDS_UPDATED, Ok(word));
    }
    let operations = operations_of(program, serial);
    for (counted, operation) in UPDATED {
        if operations.contains(&operation) {
            text.count(counted, Ok(word));
        }
    }
    if operations.len() == UPDATED.len() {
        text.count(ALL_THREE, Ok(word));
    }
}

/// Run as the serial run settles it; counted is which of speculation and serial run meet a fault.
fn run_and_count(text: &mut Text, lent: &Lent) {
    let program = read(text.text).expect("a good text");
    let serial = run_serially(&program, lent.cells);
    run_as_settled(text, lent, &serial);
    let run = (&program, lent.cells);
    compare_without_updates(text, run, &serial, &[Words::Minus], MINUS);
    compare_without_updates(text, run, &serial, &[Words::Times, Words::Max], NEW);
    count_updates(text, &program, &serial);
    let words = lent.workspace.len();
    let trial = reference::trial(text.text, lent.cells, words, lent.schedule);
    let records = trial.expect("a good text and enough lent").processors;
    let speculation = records.iter().any(|record| record.fault.is_some());
    let word = match (speculation, serial.outcome.is_err()) {
        (false, false) => "in neither",
        (true, false) => "in speculation alone",
        (false, true) => "in the serial run alone",
        (true, true) => "in both",
    };
    text.count("A fault", Ok(word));
}

/// Run over the cells of the loop's data, held to its serial run, which is returned.
fn run_on_data(tally: &mut Tally, seed: u64, made: &Loop, rng: &mut Rng) -> Serial {
    let bytes = made.text();
    let serial = reference::serial(&bytes, &made.cells).expect("a good text");
    let name = format!("seed {seed}, {} processors", made.processors);
    let lent = Lent {
        cells: &made.cells,
        workspace: &workspace(rng, made.cells.len(), made.processors),
        schedule: &lend::schedule(rng, made.processors),
    };
    run_as_settled(&mut tally.next(&name, &bytes), &lent, &serial);
    serial
}

/// One loop over the same cells, without the clause and for its numbers of processors. "Of what Run answers
/// and leaves in the cells, the processor count may change that result alone, and only in these texts"
/// (document 02, Point 3). What passes by iterations, without the clause, passes by blocks (P3.13).
fn compare_processors(tally: &mut Tally, seed: u64) {
    let (made, numbers, mut rng) = loop_of(seed);
    let bytes = made.text();
    if bytes.len() > 2048 {
        return;
    }
    let iterations = run_on_data(tally, seed, &made.with_blocks(false), &mut rng);
    let runs = numbers.map(|p| run_on_data(tally, seed, &made.with_processors(p), &mut rng));
    let name = format!("seed {seed}, processors {numbers:?}");
    let mut text = tally.next(&name, &bytes);
    for (ran, processors) in runs.iter().zip(numbers) {
        let what = format!("{processors} processors and iterations by themselves");
        text.compare(&what, &ran.ending(), &iterations.ending());
        if !made.by_blocks || iterations.passes() {
            text.compare(&what, &ran.passes(), &iterations.passes());
        }
    }
    if made.by_blocks {
        let words = runs.map(|ran| ran.passes());
        let word = match (words.contains(&true), words.contains(&false)) {
            (true, true) => "whose word differs",
            (true, false) if !iterations.passes() => "that passes by blocks alone",
            _ => "with one word",
        };
        text.count("By blocks a loop", Ok(word));
    }
}

/// One loop over the same cells with its `lastprivate` names in that clause alone, as drawn, and in both
/// clauses (document 02, Point 5): fault, cells and counts are the same, and what passes with fewer names in
/// both clauses passes with more.
fn compare_copies(tally: &mut Tally, seed: u64) {
    let (made, _, mut rng) = loop_of(seed);
    let loops = [Copied::None, Copied::AsDrawn, Copied::All].map(|copied| made.with_copied(copied));
    if loops.iter().any(|made| made.text().len() > 2048) {
        return;
    }
    let [plain, drawn, copied] = loops
        .each_ref()
        .map(|made| run_on_data(tally, seed, made, &mut rng));
    let name = format!("seed {seed}, lastprivate names in both clauses");
    let bytes = loops[2].text();
    let mut text = tally.next(&name, &bytes);
    for (fewer, more) in [(&plain, &drawn), (&drawn, &copied)] {
        text.compare(
            "more names in both clauses",
            &more.ending(),
            &fewer.ending(),
        );
        if fewer.passes() {
            text.compare("more names in both clauses", &more.passes(), &true);
        }
    }
    let word = match (plain.passes(), drawn.passes()) {
        _ if !made.has_copied() => "without them",
        _ if drawn.outcome.is_err() => "that faults",
        (_, false) => "that reruns",
        (false, true) => "that passes by them alone",
        (true, true) => "that passes either way",
    };
    text.count("Names in both clauses: a loop", Ok(word));
    let word = match (plain.passes(), copied.passes()) {
        (false, true) => "turned from rerun to passed",
        _ => "unchanged",
    };
    text.count("From lastprivate alone to both clauses: word", Ok(word));
}

/// One loop over the same cells with the operations of its `reduction` clauses as drawn and exchanged, so that
/// what was an update is ordinary and the other way round (document 02, Point 6): fault, cells and counts are
/// the same, for the serial run goes by no clause.
fn compare_operations(tally: &mut Tally, seed: u64) {
    let (made, _, mut rng) = loop_of(seed);
    let loops =
        [Turned::AsDrawn, Turned::Once, Turned::Twice].map(|turned| made.with_turned(turned));
    if !made.has_reductions() || loops.iter().any(|made| made.text().len() > 2048) {
        return;
    }
    let runs = loops
        .each_ref()
        .map(|made| run_on_data(tally, seed, made, &mut rng));
    let name = format!("seed {seed}, operations exchanged");
    let bytes = loops[0].text();
    let mut text = tally.next(&name, &bytes);
    for turned in &runs[1..] {
        text.compare("other operations", &turned.ending(), &runs[0].ending());
    }
    let [drawn, once, twice] = runs.map(|ran| ran.passes());
    let word = match (drawn, once || twice) {
        (true, false) => "that passes by its own operations alone",
        (true, true) => "that passes by others too",
        (false, true) => "that passes by others alone",
        (false, false) => "that passes by none",
    };
    text.count("Operations exchanged: a loop", Ok(word));
}

/// Random loops: Run against the serial run. Each end, each way in which speculation and the serial run
/// are at odds, each operation's updates, accesses to grids, loops that pass for some numbers of processors alone,
/// by names in both clauses or by their own operations must be frequent.
pub fn random_runs() -> bool {
    let mut tally = Tally::new(&format!("runs of the seeds 0 to {}", RUNS - 1));
    random(&mut tally, RUNS, run_and_count);
    let good = tally.report();
    let has = |service, answers: &[&str], percent| tally.has(service, answers, percent);
    let frequent = has("Run", &["passed"], 20)
        & has("Run", &["rerun"], 20)
        & has("Run", &["refused  9", "refused 10"], 20)
        & has("A fault", &["in speculation alone"], 2)
        & has("A fault", &["in the serial run alone"], 2)
        & has(MINUS, &["now passes"], 3)
        & has(NEW, &["now passes"], 5);
    let updated = UPDATED.map(|(updated, _)| all_often(&tally, updated, &UPDATING));
    let updated = !updated.contains(&false) & all_often(&tally, ALL_THREE, &ALL_UPDATING);
    let grids = all_often(&tally, GRIDS, &OVER_GRIDS);
    let grids = grids & all_often(&tally, GRIDS_UPDATED, &UPDATED_GRIDS);
    good & frequent & updated & grids & random_blocks() & random_copies() & random_operations()
}

/// Whether each of these answers was given at least so often.
pub fn all_often(tally: &Tally, counted: &str, answers: &[(&str, usize)]) -> bool {
    let often = |&(answer, least): &(&str, usize)| tally.has_times(counted, answer, least);
    answers.iter().map(often).fold(true, |all, one| all & one)
}

fn random_operations() -> bool {
    let mut tally = Tally::new(&format!("operations of the seeds 0 to {}", RUNS - 1));
    (0..RUNS).for_each(|seed| compare_operations(&mut tally, seed));
    let own = "that passes by its own operations alone";
    tally.report() & tally.has("Operations exchanged: a loop", &[own], 18)
}

fn random_blocks() -> bool {
    let mut tally = Tally::new(&format!("blocks of the seeds 0 to {}", RUNS - 1));
    (0..RUNS).for_each(|seed| compare_processors(&mut tally, seed));
    tally.report() & tally.has("By blocks a loop", &["whose word differs"], 15)
}

fn random_copies() -> bool {
    let mut tally = Tally::new(&format!("copies of the seeds 0 to {}", RUNS - 1));
    (0..RUNS).for_each(|seed| compare_copies(&mut tally, seed));
    let good = tally.report();
    let (alone, reruns) = ("that passes by them alone", "that reruns");
    let both = [alone, reruns, "that passes either way", "that faults"];
    let loops = "Names in both clauses: a loop";
    let word = "From lastprivate alone to both clauses: word";
    good & tally.has(loops, &both, 35)
        & tally.has(loops, &[alone], 6)
        & tally.has(loops, &[reruns], 10)
        & tally.has_times(word, "turned from rerun to passed", TURNED)
}

/// Random loops: Look against the reference's.
pub fn random_looks() -> bool {
    let mut tally = Tally::new(&format!("views of the seeds 0 to {}", LOOKS - 1));
    random(&mut tally, LOOKS, look_as_reference);
    tally.report()
}

/// As many as wanted, or at times one less or one more.
fn about(rng: &mut Rng, wanted: usize) -> usize {
    match rng.below(8) {
        0 => wanted.saturating_sub(1),
        1 => wanted + 1,
        _ => wanted,
    }
}

/// Random loops, every other one damaged, with what is lent at times too short or too long and schedules
/// that at times name a processor too many: Look, Run and Plan against the reference's.
pub fn random_refusals() -> bool {
    let mut tally = Tally::new(&format!("things lent, seeds 0 to {}", REFUSALS - 1));
    for seed in 0..REFUSALS {
        let mut rng = Rng::new(seed);
        let mut bytes = drawn_to_run(&mut rng).text();
        if rng.chance(50) {
            bytes = damage::damage(&bytes, &mut rng);
        }
        let (count, processors) = reference::check(&bytes).unwrap_or((3, 2));
        let named = processors + usize::from(rng.chance(20));
        let lent_cells = about(&mut rng, count);
        let words = about(&mut rng, workspace_needed(count, processors));
        let shown = about(&mut rng, 2 * count);
        let lent = Lent {
            cells: &lend::cells(&mut rng, lent_cells),
            workspace: &lend::workspace(&mut rng, words),
            schedule: &lend::schedule(&mut rng, named),
        };
        let name = format!("seed {seed}");
        let mut text = tally.next(&name, &bytes);
        let mut cells = lent.cells.to_vec();
        let mut left = lent.workspace.to_vec();
        let expected = reference::run(&bytes, &mut cells, &mut left, lent.schedule);
        run(&mut text, &lent, expected, &cells);
        let mut left = lent.workspace.to_vec();
        let mut view = vec![0; shown];
        let expected = reference::look(&bytes, lent.cells, &mut left, lent.schedule, &mut view);
        look(&mut text, &lent, shown, expected.map(|()| &view[..]));
        let iterations = read(&bytes).map_or(5, |program| program.iteration_count() as usize);
        let numbers = about(&mut rng, iterations);
        let lent = LentToPlan {
            cells: lent.cells,
            workspace: lent.workspace,
            list: &lend::list(&mut rng, numbers),
        };
        plan_as_reference(&mut text, &lent);
    }
    tally.report() & tally.has_times("Plan", "refused 11", LISTS)
}
