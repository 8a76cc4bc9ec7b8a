//! Plan: the table, and random loops.

use generate::tables::plans::{rows, Planned};
use generate::wavefronts::wavefronts;
use generate::{lend, Copied, Loop, Rng, Turned};
use reference::{read, run_in_order, run_serially, workspace_needed, Refusal};

use crate::groups::refused;
use crate::runs::{all_often, drawn_to_run, workspace};
use crate::services::{plan, stages_word, LentToPlan};
use crate::tally::{Tally, Text};

/// How many random loops are planned, each with other clauses and other numbers of processors too: as `runs`
/// draws them, and with more iterations.
const PLANS: u64 = 9_000;
const LONGER: u64 = 4_000;
/// In how many random orders within its stages each loop is run.
const ORDERS: usize = 2;
/// How many loops at least must have a plan of each kind, end in a fault, and have more than one stage and end
/// otherwise when they are run backward.
const FLOORS: [(&str, usize); 5] = [
    ("no stages", 30),
    ("1 stage", 1_300),
    ("some stages", 3_500),
    ("a stage for each iteration", 4_000),
    ("a fault", 1_600),
];
const TELLING: usize = 5_500;

/// The table of plans.
pub fn table() -> bool {
    let mut tally = Tally::new("table of plans");
    let mut rng = Rng::new(5);
    for row in rows() {
        let mut text = tally.next(&row.name, &row.text);
        let spare = rng.below(3);
        let words = row.workspace.unwrap_or_else(|| {
            let (cells, processors) = reference::check(&row.text).expect("a good text");
            workspace_needed(cells, processors) + spare
        });
        let lent = LentToPlan {
            cells: &row.cells,
            workspace: &lend::workspace(&mut rng, words),
            list: &lend::list(&mut rng, row.list),
        };
        let expected = match &row.expected {
            Planned::Stages(stages, list) => Ok((*stages, &list[..])),
            &Planned::Fault(number, line, v) => Err(Refusal { number, line, v }),
            &Planned::Refused(number, line) => Err(refused(number, line)),
        };
        plan(&mut text, &lent, expected);
    }
    tally.report()
}

/// What the reference's Plan answers, and the list that it leaves.
fn reference_plan(text: &[u8], lent: &LentToPlan) -> (Result<u32, Refusal>, Vec<u16>) {
    let mut words = lent.workspace.to_vec();
    let mut list = lent.list.to_vec();
    let answer = reference::plan(text, lent.cells, &mut words, &mut list);
    (answer, list)
}

/// Plan as the reference does.
pub fn plan_as_reference(text: &mut Text, lent: &LentToPlan) {
    let (answer, list) = reference_plan(text.text, lent);
    plan(text, lent, answer.map(|stages| (stages, &list[..])));
}

/// The loop with other clauses, and for other numbers of processors. Its plan is the same: "clauses decide only
/// which assignments are updates and by which operation" (S1), and an update changes the cell that its assignment
/// would read and write.
fn alike(made: &Loop, rng: &mut Rng) -> [Loop; 5] {
    [
        made.with_processors(1 + rng.below(8)),
        made.with_blocks(!made.by_blocks),
        made.with_copied(rng.pick(&[Copied::None, Copied::All])),
        made.with_turned(rng.pick(&[Turned::Once, Turned::Twice])),
        made.without_clauses().with_processors(1 + rng.below(8)),
    ]
}

/// One loop over these cells: Plan against the reference's, for the texts that are alike too. "Running the stages
/// in turn, the iterations of a stage in any order, must give the serial cells".
fn compare_plans(tally: &mut Tally, name: &str, made: &Loop, cells: &[i32], rng: &mut Rng) {
    let bytes = made.text();
    if bytes.len() > 2048 {
        return;
    }
    let program = read(&bytes).expect("a good text");
    let iterations = program.iteration_count() as usize;
    let mut text = tally.next(name, &bytes);
    let lent = LentToPlan {
        cells,
        workspace: &workspace(rng, cells.len(), made.processors),
        list: &lend::list(rng, iterations),
    };
    let (answer, list) = reference_plan(&bytes, &lent);
    let expected = answer.map(|stages| (stages, &list[..]));
    plan(&mut text, &lent, expected);
    let word = answer.map_or("a fault", |stages| stages_word(stages, iterations));
    text.count("A loop with", Ok(word));
    if answer.is_ok() {
        let serial = (Ok(()), run_serially(&program, cells).cells_after);
        for _ in 0..ORDERS {
            let order = lend::order(rng, &list);
            let ran = run_in_order(&program, cells, &order);
            text.compare("the stages in turn", &ran, &serial);
        }
        let order: Vec<u32> = (0..iterations as u32).rev().collect();
        let word = match run_in_order(&program, cells, &order) == serial {
            true => "ends the same",
            false => "ends otherwise",
        };
        text.count("Backward a loop", Ok(word));
    }
    for other in alike(made, rng) {
        let bytes = other.text();
        if bytes.len() > 2048 {
            continue;
        }
        let mut text = tally.next(name, &bytes);
        let lent = LentToPlan {
            cells,
            workspace: &workspace(rng, cells.len(), other.processors),
            list: &lend::list(rng, iterations),
        };
        plan(&mut text, &lent, expected);
    }
}

/// Random loops: Plan against the reference's. Plans of all kinds must be frequent, and so must be loops in which
/// the order tells.
pub fn random_plans() -> bool {
    let (last, longer) = (PLANS - 1, LONGER - 1);
    let group = format!("plans of the seeds 0 to {last}, of longer loops 0 to {longer}");
    let mut tally = Tally::new(&group);
    for seed in 0..PLANS {
        let mut rng = Rng::new(seed);
        let made = drawn_to_run(&mut rng);
        let any = lend::cells(&mut rng, made.cells.len());
        let cells = if rng.chance(80) { &made.cells } else { &any };
        compare_plans(&mut tally, &format!("seed {seed}"), &made, cells, &mut rng);
    }
    for seed in 0..LONGER {
        let mut rng = Rng::new(seed);
        let (made, cells) = wavefronts(&mut rng);
        let name = format!("seed {seed}, longer");
        compare_plans(&mut tally, &name, &made, &cells, &mut rng);
    }
    let good = tally.report();
    let often = all_often(&tally, "A loop with", &FLOORS);
    good & often & tally.has_times("Backward a loop", "ends otherwise", TELLING)
}
