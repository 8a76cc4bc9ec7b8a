//! Properties of many random loops, and of texts that are no loops.

use generate::copies::copies;
use generate::damage::damage;
use generate::grids::grids;
use generate::hostile::hostile;
use generate::layout::split_tokens;
use generate::neighbours::neighbours;
use generate::reductions::reductions;
use generate::subscripts::{as_arrays, bracketed};
use generate::wavefronts::wavefronts;
use generate::{lend, noise, Copied, Knobs, Loop, Rng, Turned};
use reference::syntax::{Class, Operation, Words};
use reference::{
    check, columns, depend, load, look, lrpd, plan, read, rows, run, run_in_order, run_serially,
    serial, share, stepped, touches, trial, workspace_needed, Answer, Kind, Refusal, Serial,
    Speculation, Trial,
};

const LOOPS: u64 = 4000;

/// A loop and cells to lend for a seed: mostly those of its data, sometimes anything.
fn draw(seed: u64) -> (Loop, Vec<i32>, Rng) {
    let mut rng = Rng::new(seed);
    let drawn = match rng.below(26) {
        0..=4 => hostile(&mut rng),
        5..=7 => neighbours(&mut rng),
        8..=10 => copies(&mut rng),
        11..=14 => reductions(&mut rng),
        15..=17 => grids(&mut rng),
        _ => {
            let knobs = Knobs::mixed(&mut rng);
            Loop::random(&mut rng, &knobs)
        }
    };
    let cells = if rng.chance(80) {
        drawn.cells.clone()
    } else {
        lend::cells(&mut rng, drawn.cells.len())
    };
    (drawn, cells, rng)
}

/// The loops of all seeds whose text is not too long.
fn loops() -> impl Iterator<Item = (u64, Loop, Vec<i32>, Rng)> {
    (0..LOOPS)
        .map(|seed| {
            let (drawn, cells, rng) = draw(seed);
            (seed, drawn, cells, rng)
        })
        .filter(|(_, drawn, _, _)| drawn.text().len() <= 2048)
}

fn show(text: &[u8]) -> String {
    String::from_utf8_lossy(text).into_owned()
}

#[test]
fn random_loops_are_accepted_and_loaded_as_drawn() {
    for (seed, drawn, _, _) in loops() {
        let text = drawn.text();
        let expected = Ok((drawn.cells.len(), drawn.processors));
        assert_eq!(check(&text), expected, "seed {seed}\n{}", show(&text));
        let mut cells = vec![77; drawn.cells.len()];
        assert_eq!(load(&text, &mut cells), Ok(()));
        assert_eq!(cells, drawn.cells, "seed {seed}\n{}", show(&text));
    }
}

/// What the serial run settles: Run's answer and the cells it leaves.
fn settled(serial: &Serial, lent: &[i32]) -> (Result<Answer, Refusal>, Vec<i32>) {
    match serial.outcome {
        Err(fault) => (Err(fault), lent.to_vec()),
        Ok(()) => {
            let answer = Answer {
                passed: serial.passes(),
                pairs: serial.pairs,
                cells: serial.cells,
            };
            (Ok(answer), serial.cells_after.clone())
        }
    }
}

/// Demand 3: under every schedule and for every P, Run does what the serial run settles.
#[test]
fn run_does_what_the_serial_run_settles() {
    let mut ran = 0;
    for (seed, drawn, lent, mut rng) in loops() {
        for processors in [drawn.processors, 1, 2, 3, 8] {
            let text = drawn.with_processors(processors).text();
            if text.len() > 2048 {
                continue;
            }
            let settled = settled(&serial(&text, &lent).unwrap(), &lent);
            for schedule in schedules(&mut rng, processors) {
                let mut cells = lent.clone();
                let mut workspace = vec![1; workspace_needed(lent.len(), processors)];
                let answer = run(&text, &mut cells, &mut workspace, &schedule);
                assert_eq!(
                    (answer, cells),
                    settled,
                    "seed {seed} {schedule:?}\n{}",
                    show(&text)
                );
                assert!(workspace.iter().all(|&word| word == 0));
                ran += 1;
            }
        }
    }
    println!("{ran} runs");
}

fn schedules(rng: &mut Rng, processors: usize) -> Vec<Vec<u8>> {
    vec![
        Vec::new(),
        lend::backward_turns(processors, 12),
        lend::schedule(rng, processors),
        lend::schedule(rng, processors),
    ]
}

/// Document 02, Point 3: "Of what Run answers and leaves in the cells, the processor count may change
/// that result alone, and only in these texts." What passes by iterations passes by blocks (P3.13).
#[test]
fn blocks_change_the_word_alone() {
    let mut differing = 0;
    let mut now_pass = 0;
    for (seed, drawn, lent, _) in loops() {
        let words = |by_blocks| -> Vec<bool> {
            let drawn = drawn.with_blocks(by_blocks);
            let one = serial(&drawn.with_processors(1).text(), &lent);
            let Ok(one) = one else {
                return Vec::new();
            };
            let word = |processors| {
                let text = drawn.with_processors(processors).text();
                let ran = serial(&text, &lent).unwrap();
                assert_eq!(ran.ending(), one.ending(), "seed {seed}\n{}", show(&text));
                ran.passes()
            };
            (1..=8).map(word).collect()
        };
        // Too long with the clause: nothing to compare.
        let (blocks, iterations) = (words(true), words(false));
        if blocks.is_empty() {
            continue;
        }
        assert!(iterations.iter().all(|word| *word == iterations[0]));
        assert!(!iterations[0] || blocks.iter().all(|word| *word));
        differing += u32::from(blocks.contains(&true) && blocks.contains(&false));
        now_pass += u32::from(blocks.contains(&true) && !iterations[0]);
    }
    println!("words that differ by P: {differing}; passed by blocks alone: {now_pass}");
    assert!(differing > 300 && now_pass >= differing);
}

/// With P over n every iteration is a block of its own (P3.5): the trial by blocks is the one by
/// iterations.
#[test]
fn many_processors_test_by_iterations() {
    let mut compared = 0;
    for (seed, drawn, lent, mut rng) in loops() {
        let eight = drawn.with_processors(8);
        let [blocks, iterations] = [true, false].map(|clause| eight.with_blocks(clause).text());
        if read(&iterations).unwrap().iteration_count() > 8 || blocks.len() > 2048 {
            continue;
        }
        let schedule = lend::schedule(&mut rng, 8);
        let tried = |text: &[u8]| trial(text, &lent, usize::MAX, &schedule).unwrap();
        assert_eq!(tried(&blocks), tried(&iterations), "seed {seed}");
        compared += 1;
    }
    assert!(compared > 1000);
}

/// Document 02, Point 5: a name in both clauses changes the word alone, and what passes with fewer such names
/// passes with more.
#[test]
fn copies_change_the_word_alone() {
    let mut turned = [0; 2];
    for (seed, drawn, lent, _) in loops() {
        let texts = [Copied::None, Copied::AsDrawn, Copied::All]
            .map(|copied| drawn.with_copied(copied).text());
        // Too long with the clauses: nothing to compare.
        if texts.iter().any(|text| text.len() > 2048) {
            continue;
        }
        let ran = texts.map(|text| serial(&text, &lent).unwrap());
        for (fewer, more, place) in [(&ran[0], &ran[1], 0), (&ran[1], &ran[2], 1)] {
            assert_eq!(fewer.ending(), more.ending(), "seed {seed}");
            assert!(!fewer.passes() || more.passes(), "seed {seed}");
            turned[place] += u32::from(more.passes() && !fewer.passes());
        }
    }
    println!("rerun and then passed, as drawn and by all names: {turned:?}");
    assert!(turned[0] > 200 && turned[1] > 70);
}

/// Document 02, Point 5: "The record of a cell now holds the lowest-numbered iteration that writes it and the
/// highest-numbered that so reads it; with Point 3's clause, blocks." Kept access by access in the order of
/// the schedule, it tells the obstacle of a copy-in cell (P5.7).
#[test]
fn the_record_of_a_cell_tells_its_obstacle() {
    let mut met = [0; 2];
    for (seed, drawn, lent, mut rng) in loops() {
        let text = drawn.text();
        let program = read(&text).unwrap();
        let number = |iteration: u32| match drawn.by_blocks {
            false => iteration as usize,
            true => (0..drawn.processors)
                .find(|&p| {
                    share(program.iteration_count(), p, program.processors).contains(&iteration)
                })
                .unwrap(),
        };
        let schedule = lend::schedule(&mut rng, drawn.processors);
        let trial = trial(&text, &lent, usize::MAX, &schedule).unwrap();
        let mut writers = vec![Vec::new(); lent.len()];
        let mut lowest_writer = vec![usize::MAX; lent.len()];
        let mut highest_reader = vec![None; lent.len()];
        for access in &trial.accesses {
            let (cell, by) = (usize::from(access.cell), number(access.iteration));
            match access.kind {
                Kind::Read if !writers[cell].contains(&by) => {
                    highest_reader[cell] = highest_reader[cell].max(Some(by));
                }
                Kind::Write => {
                    writers[cell].push(by);
                    lowest_writer[cell] = lowest_writer[cell].min(by);
                }
                _ => {}
            }
        }
        let classes = program.cell_classes();
        for cell in (0..lent.len()).filter(|&cell| classes[cell] == Class::CopyIn) {
            let above = highest_reader[cell].is_some_and(|reader| reader > lowest_writer[cell]);
            assert_eq!(trial.obstacles[cell], above, "seed {seed}\n{}", show(&text));
            met[usize::from(above)] += 1;
        }
    }
    println!("copy-in cells without and with an obstacle: {met:?}");
    assert!(met[0] > 5000 && met[1] > 400);
}

/// How often a loop reran without the updates of these words and passes with them, and the other way round.
/// Nothing else of the serial run differs.
fn words_without_updates(without: &[Words]) -> [u32; 2] {
    let mut words = [0; 2];
    for (seed, drawn, lent, _) in loops() {
        let text = drawn.text();
        let program = read(&text).unwrap();
        let now = run_serially(&program, &lent);
        let before = run_serially(&program.without_updates(without), &lent);
        assert_eq!(
            now.ending(),
            before.ending(),
            "seed {seed}\n{}",
            show(&text)
        );
        words[0] += u32::from(now.passes() && !before.passes());
        words[1] += u32::from(!now.passes() && before.passes());
    }
    println!("{without:?}: rerun before and passed now, passed before and rerun now: {words:?}");
    words
}

/// Document 02, Point 1: "their cells are the serial run's as before"; so are counts and faults (P1.8).
/// A loop that reran may pass, and one that passed may rerun (P1.7).
#[test]
fn minus_updates_leave_the_serial_run_as_it_was() {
    let words = words_without_updates(&[Words::Minus]);
    assert!(words[0] > 100 && words[1] > 10);
}

/// The same of document 02, Point 6.
#[test]
fn product_and_maximum_updates_leave_the_serial_run_as_it_was() {
    for new in [Words::Times, Words::Max] {
        let words = words_without_updates(&[new]);
        assert!(words[0] > 100 && words[1] > 10);
    }
}

/// Document 02, Point 6: "Each name has the update of its own clause only." With the operations of its clauses
/// exchanged a loop has the same fault, cells and counts; only the word may be another.
#[test]
fn operations_change_the_word_alone() {
    let mut words = [0; 2];
    for (seed, drawn, lent, _) in loops() {
        let texts = [Turned::AsDrawn, Turned::Once, Turned::Twice]
            .map(|turned| drawn.with_turned(turned).text());
        // Too long with other operations: nothing to compare.
        if texts.iter().any(|text| text.len() > 2048) {
            continue;
        }
        let [drawn, once, twice] = texts.map(|text| serial(&text, &lent).unwrap());
        for turned in [&once, &twice] {
            assert_eq!(turned.ending(), drawn.ending(), "seed {seed}");
        }
        let by_others = once.passes() || twice.passes();
        words[0] += u32::from(drawn.passes() && !by_others);
        words[1] += u32::from(!drawn.passes() && by_others);
    }
    println!("passed by their own operations alone, by others alone: {words:?}");
    assert!(words[0] > 350 && words[1] > 50);
}

/// Document 02, Point 6: "The merge of partial results is shown for any operation that is commutative,
/// associative and has a neutral number". Each processor's result is gathered from its accesses in the order of
/// the schedule, and in a passed run all of them, merged in any order, give the serial run's cell.
#[test]
fn partial_results_merge_in_any_order() {
    let mut merged = [0; 3];
    let mut telling = [0; 3];
    for (seed, drawn, lent, mut rng) in loops() {
        let text = drawn.text();
        let program = read(&text).unwrap();
        let schedule = lend::schedule(&mut rng, drawn.processors);
        let trial = trial(&text, &lent, usize::MAX, &schedule).unwrap();
        let cells_after = serial(&text, &lent).unwrap().cells_after;
        for (cell, class) in program.cell_classes().into_iter().enumerate() {
            let partial: Vec<_> = trial.partial.iter().map(|partial| partial[cell]).collect();
            let Class::Reduction(operation) = class else {
                assert!(partial.iter().all(Option::is_none));
                continue;
            };
            let (combine, neutral): (fn(i32, i32) -> i32, i32) = match operation {
                Operation::Sum => (i32::wrapping_add, 0),
                Operation::Product => (i32::wrapping_mul, 1),
                Operation::Maximum => (i32::max, -2_147_483_648),
            };
            let mut results = vec![neutral; drawn.processors];
            let updates = trial
                .accesses
                .iter()
                .filter(|access| usize::from(access.cell) == cell && access.kind == Kind::Update);
            let mut updated = false;
            for access in updates {
                let mut shares = (0..drawn.processors)
                    .map(|p| share(program.iteration_count(), p, program.processors));
                let by = shares.position(|share| share.contains(&access.iteration));
                let result = &mut results[by.unwrap()];
                *result = combine(*result, access.value);
                updated = true;
            }
            let kept: Vec<_> = results
                .iter()
                .map(|&result| Some((operation, result)))
                .collect();
            assert_eq!(partial, kept, "seed {seed}");
            if updated && trial.passes() {
                rng.shuffle(&mut results);
                let after = results.into_iter().fold(lent[cell], combine);
                assert_eq!(after, cells_after[cell], "seed {seed}\n{}", show(&text));
                merged[operation as usize] += 1;
                telling[operation as usize] += u32::from(![0, lent[cell]].contains(&after));
            }
        }
    }
    println!("cells merged by sums, products and maxima: {merged:?}; to neither 0 nor what they were: {telling:?}");
    assert!(merged.iter().all(|&cells| cells > 250));
    assert!(telling.iter().all(|&cells| cells > 150));
}

/// The loops of all seeds, and as many with more iterations.
fn loops_to_plan() -> impl Iterator<Item = (u64, Loop, Vec<i32>, Rng)> {
    let longer = (0..LOOPS).map(|seed| {
        let mut rng = Rng::new(seed);
        let (drawn, cells) = wavefronts(&mut rng);
        (seed, drawn, cells, rng)
    });
    loops().chain(longer)
}

/// Plan with as much lent as it asks for.
fn planned(drawn: &Loop, lent: &[i32]) -> (Result<u32, Refusal>, Vec<u16>) {
    let text = drawn.text();
    let mut workspace = vec![1; workspace_needed(lent.len(), drawn.processors)];
    let mut list = vec![0; read(&text).unwrap().iteration_count() as usize];
    let answer = plan(&text, lent, &mut workspace, &mut list);
    (answer, list)
}

/// Document 02, Point 7: "Running the stages in turn, the iterations of a stage in any order, must give the serial
/// cells". Backward, a loop with more than one stage often gives others.
#[test]
fn stages_in_turn_give_the_serial_cells() {
    let mut backward = [0; 2];
    for (seed, drawn, lent, mut rng) in loops_to_plan() {
        let (Ok(stages), list) = planned(&drawn, &lent) else {
            continue;
        };
        let program = read(&drawn.text()).unwrap();
        let serial = (Ok(()), run_serially(&program, &lent).cells_after);
        for _ in 0..4 {
            let order = lend::order(&mut rng, &list);
            let ran = run_in_order(&program, &lent, &order);
            assert_eq!(
                ran,
                serial,
                "seed {seed} {order:?}\n{}",
                show(&drawn.text())
            );
        }
        let order: Vec<u32> = (0..list.len() as u32).rev().collect();
        let other = run_in_order(&program, &lent, &order) != serial;
        assert!(stages > 1 || !other);
        backward[0] += u32::from(stages > 1);
        backward[1] += u32::from(other);
    }
    println!(
        "more than one stage: {}, other cells backward: {}",
        backward[0], backward[1]
    );
    assert!(backward[0] > 4000 && backward[1] > 2000);
}

/// "no plan that stages the higher of two dependent iterations later has fewer stages": such a plan is Plan's own,
/// and in it each iteration above stage 1 depends on a lower one of the stage before, so that a chain of dependent
/// iterations goes through all stages.
#[test]
fn no_plan_has_fewer_stages() {
    for (seed, drawn, lent, _) in loops_to_plan() {
        let (Ok(stages), list) = planned(&drawn, &lent) else {
            continue;
        };
        let accesses = serial(&drawn.text(), &lent).unwrap().accesses;
        let touches = touches(&accesses, list.len() as u32);
        for (higher, &stage) in list.iter().enumerate() {
            let on: Vec<u16> = (0..higher)
                .filter(|&lower| depend(&touches[lower], &touches[higher]))
                .map(|lower| list[lower])
                .collect();
            assert!(on.iter().all(|&lower| lower < stage), "seed {seed}");
            assert!(stage == 1 || on.contains(&(stage - 1)), "seed {seed}");
            assert!(
                stage >= 1 && usize::from(stage) <= higher + 1,
                "seed {seed}"
            );
        }
        assert_eq!(
            list.iter().max().map_or(0, |&stage| u32::from(stage)),
            stages
        );
    }
}

/// The number of processors and all clauses but those that make updates change nothing (7.4), and those change
/// nothing in the list: an update touches and changes the cell that its assignment would read and write.
#[test]
fn clauses_leave_the_stages() {
    for (seed, drawn, lent, _) in loops_to_plan().filter(|(seed, ..)| seed % 4 == 0) {
        let expected = planned(&drawn, &lent);
        for other in [
            drawn.with_processors(9 - drawn.processors),
            drawn.with_blocks(!drawn.by_blocks),
            drawn.with_copied(Copied::None),
            drawn.with_copied(Copied::All),
            drawn.with_turned(Turned::Once),
            drawn.without_clauses(),
        ] {
            if other.text().len() <= 2048 {
                let text = show(&other.text());
                assert_eq!(planned(&other, &lent), expected, "seed {seed}\n{text}");
            }
        }
    }
}

/// The updates of each operation are frequent in loops that pass, rerun and fault, and so are all three in one
/// loop.
#[test]
fn updates_of_each_operation_are_frequent() {
    let mut ends = [[0; 3]; 4];
    for (_, drawn, lent, _) in loops() {
        let text = drawn.text();
        let classes = read(&text).unwrap().cell_classes();
        let ran = serial(&text, &lent).unwrap();
        let end = match ran.outcome {
            Err(_) => 2,
            Ok(()) if ran.passes() => 0,
            Ok(()) => 1,
        };
        let updates = |operation| {
            ran.accesses.iter().any(|access| {
                access.kind == Kind::Update
                    && classes[usize::from(access.cell)] == Class::Reduction(operation)
            })
        };
        let found = [Operation::Sum, Operation::Product, Operation::Maximum].map(updates);
        for (operation, found) in found.into_iter().enumerate() {
            ends[operation][end] += u32::from(found);
        }
        ends[3][end] += u32::from(found == [true; 3]);
    }
    println!("sums, products, maxima, all three: passed, rerun, faults: {ends:?}");
    let often = |&[passed, rerun, faults]: &[u32; 3]| passed > 200 && rerun > 100 && faults > 30;
    assert!(ends[..3].iter().all(often));
    assert!(ends[3][0] > 60 && ends[3][1] > 30);
}

/// The mixture has a good share of each end, and of speculation and serial run at odds.
#[test]
fn all_ends_are_frequent() {
    let mut ends = [0; 4];
    let mut at_odds = [0; 2];
    for (_, drawn, lent, _) in loops() {
        let text = drawn.text();
        let serial = serial(&text, &lent).unwrap();
        let end = match serial.outcome {
            Err(fault) if fault.number == 9 => 2,
            Err(_) => 3,
            Ok(()) if serial.passes() => 0,
            Ok(()) => 1,
        };
        ends[end] += 1;
        let schedule = lend::backward_turns(drawn.processors, 30);
        let trial = trial(&text, &lent, usize::MAX, &schedule).unwrap();
        let faults = trial.processors.iter().any(|p| p.fault.is_some());
        at_odds[0] += u32::from(faults && serial.outcome.is_ok());
        at_odds[1] += u32::from(!faults && serial.outcome.is_err());
    }
    println!("passed, rerun, 9, 10: {ends:?}; only trial, only serial faults: {at_odds:?}");
    assert!(ends[0] > 1000 && ends[1] > 500 && ends[2] > 200 && ends[3] > 80);
    assert!(at_odds[0] > 80 && at_odds[1] > 80);
}

/// Running on iteration by iteration is running on by steps.
#[test]
fn running_on_is_taking_steps() {
    for (seed, drawn, lent, mut rng) in loops() {
        let program = read(&drawn.text()).unwrap();
        let schedule = lend::schedule(&mut rng, drawn.processors);
        let mut one = Speculation::begin(&program, &lent);
        one.follow(&schedule);
        let mut other = one.clone();
        one.run_on();
        other.run_on_by_steps();
        assert_eq!(Trial::of(one), Trial::of(other), "seed {seed}");
    }
}

/// Look shows the shared cells and marks of the stepped state, and a schedule long enough for all
/// processors, whatever its order, ends where the trial ends under the same schedule.
#[test]
fn look_shows_the_stepped_state() {
    for (seed, drawn, lent, mut rng) in loops() {
        let text = drawn.text();
        let schedule = lend::schedule(&mut rng, drawn.processors);
        let words = workspace_needed(lent.len(), drawn.processors);
        let state = stepped(&text, &lent, words, &schedule).unwrap();
        let mut view = vec![9; 2 * lent.len()];
        look(&text, &lent, &mut vec![1; words], &schedule, &mut view).unwrap();
        let expected: Vec<u32> = state
            .shared
            .iter()
            .zip(&state.marks)
            .flat_map(|(&value, &marks)| [value as u32, marks])
            .collect();
        assert_eq!(view, expected, "seed {seed}");
        if state.processors.iter().all(|processor| processor.is_idle()) {
            assert_eq!(state, trial(&text, &lent, words, &schedule).unwrap());
        }
    }
}

/// What the trial's parts have to do with one another.
#[test]
fn the_parts_of_a_trial_agree() {
    for (seed, drawn, lent, mut rng) in loops() {
        let text = drawn.text();
        let schedule = lend::schedule(&mut rng, drawn.processors);
        let words = workspace_needed(lent.len(), drawn.processors);
        let trial = trial(&text, &lent, words, &schedule).unwrap();
        let written = trial.marks.iter().filter(|&&marks| marks & 9 != 0).count();
        assert_eq!(trial.cells as usize, written, "seed {seed}");
        assert!(trial.pairs >= trial.cells);
        for processor in &trial.processors {
            assert!(processor.is_idle(), "seed {seed}");
            assert!(processor.fault.is_some() || processor.is_finished());
        }
    }
}

/// `lrpd` prints what Load and Run with an empty schedule give.
#[test]
fn lrpd_prints_the_run() {
    for (_, drawn, _, _) in loops().take(500) {
        let text = drawn.text();
        let printed = show(&lrpd(&text));
        let mut cells = drawn.cells.clone();
        let words = workspace_needed(cells.len(), drawn.processors);
        let first = match run(&text, &mut cells, &mut vec![0; words], &[]) {
            _ if cells.len() > 128 => "! refused 5 0 0".to_string(),
            Ok(answer) if answer.passed => format!("! passed {} {}", answer.pairs, answer.cells),
            Ok(answer) => format!("! rerun {} {}", answer.pairs, answer.cells),
            Err(Refusal { number, line, v }) => format!("! refused {number} {line} {v}"),
        };
        assert_eq!(printed.lines().next(), Some(first.as_str()));
        let values: Vec<i32> = printed
            .lines()
            .skip(1)
            .flat_map(|line| line.split('/').nth(1).unwrap().split(','))
            .map(|value| value.parse().unwrap())
            .collect();
        assert!(first.starts_with("! refused") && values.is_empty() || values == cells);
    }
}

/// Document 02, Point 9: "stored in Fortran's element order, first subscript fastest". Where no subscript is outside its
/// bound, a loop over grids makes the accesses of the one in which each is an array and the place of each cell is written
/// out, `g((e) + m*((f) - 1))`.
#[test]
fn a_grid_is_an_array_with_its_places_written_out() {
    let mut compared = [0; 4];
    for (seed, drawn, lent, mut rng) in loops() {
        let text = drawn.text();
        let Some(arrays) = as_arrays(&text).filter(|arrays| check(arrays).is_ok()) else {
            continue;
        };
        let one = serial(&text, &lent).unwrap();
        let other = serial(&arrays, &lent).unwrap();
        let outside = |fault: &Refusal| fault.number == 9;
        if one.outcome.is_err_and(|fault| outside(&fault)) {
            compared[0] += 1;
            continue;
        }
        assert_eq!(one, other, "seed {seed}\n{}", show(&text));
        compared[match one.outcome {
            Err(_) => 1,
            Ok(()) if one.passes() => 2,
            Ok(()) => 3,
        }] += 1;
        let schedule = lend::schedule(&mut rng, drawn.processors);
        let words = workspace_needed(lent.len(), drawn.processors);
        let state = stepped(&text, &lent, words, &schedule).unwrap();
        let mut faults = state.processors.iter().filter_map(|one| one.fault);
        if !faults.any(|fault| outside(&fault)) {
            let written_out = stepped(&arrays, &lent, words, &schedule).unwrap();
            assert_eq!(state, written_out, "seed {seed}\n{}", show(&text));
        }
    }
    println!("outside, divided by zero, passed, rerun: {compared:?}");
    assert!(compared.iter().all(|&loops| loops > 40) && compared[2] + compared[3] > 700);
}

/// "One after the other, either way round, restores the cells", "every other cell unchanged"; and by rows a(r, c) comes
/// right before a(r, c + 1), which Name's extents tell.
#[test]
fn rows_and_columns_undo_each_other() {
    let (mut done, mut moved, mut refused) = (0, 0, 0);
    for (seed, drawn, _, mut rng) in loops() {
        let text = drawn.text();
        let program = read(&text).unwrap();
        for (asked, _) in lend::asked(&mut rng, &text, &["g", "s"]) {
            let named = program.cells_of(&asked);
            if named.map_or(0, |named| named.subscripts) != 2 {
                let lent = lend::cells(&mut rng, drawn.cells.len());
                let refusal = Err(Refusal {
                    number: 13,
                    line: 0,
                    v: 0,
                });
                for service in [rows, columns] {
                    let mut cells = lent.clone();
                    assert_eq!(service(&text, &mut cells, &asked), refusal);
                    assert_eq!(cells, lent);
                }
                refused += 1;
            }
        }
        for declared in &program.names {
            let Some((m, n)) = declared.grid() else {
                continue;
            };
            let lent: Vec<i32> = (0..drawn.cells.len() as i32).collect();
            let name = declared.name.to_uppercase();
            let arrange = |cells: &[i32], service: fn(&[u8], &mut [i32], &[u8]) -> _| {
                let mut cells = cells.to_vec();
                assert_eq!(service(&text, &mut cells, name.as_bytes()), Ok(()));
                cells
            };
            let (by_rows, back) = (arrange(&lent, rows), arrange(&lent, columns));
            assert_eq!(arrange(&by_rows, columns), lent, "seed {seed}");
            assert_eq!(arrange(&back, rows), lent, "seed {seed}");
            let cells = declared.first_cell..declared.first_cell + m * n;
            for cell in (0..lent.len()).filter(|cell| !cells.contains(cell)) {
                assert_eq!((by_rows[cell], back[cell]), (lent[cell], lent[cell]));
            }
            for row in 0..m {
                for column in 0..n {
                    let at = by_rows[declared.first_cell + row * n + column];
                    assert_eq!(at as usize, declared.first_cell + row + column * m);
                }
            }
            done += 1;
            moved += u32::from(by_rows != lent);
        }
    }
    println!("rearranged, of these with cells that move, refused: {done}, {moved}, {refused}");
    assert!(done > 1500 && moved > 300 && refused > 10_000);
}

/// Damaged texts and noise: some answer, never a panic, and the same refusal from every service.
#[test]
fn any_bytes_get_an_answer() {
    let mut refused = [0; 5];
    for seed in 0..20_000u64 {
        let mut rng = Rng::new(seed);
        let text = match seed % 10 {
            0 => noise::bytes(&mut rng),
            1 => noise::soup(&mut rng),
            _ => damage(&draw(seed).0.text(), &mut rng),
        };
        match check(&text) {
            Ok((cells, processors)) => {
                refused[0] += 1;
                assert!((1..=4096).contains(&cells) && (1..=8).contains(&processors));
            }
            Err(Refusal { number, line, v }) => {
                refused[number as usize] += 1;
                let newlines = text.iter().filter(|&&byte| byte == b'\n').count() as u32;
                assert!(number == 1 && line == 0 || (1..=newlines + 1).contains(&line));
                assert_eq!(v, 0);
                let refusal = Err(Refusal { number, line, v });
                assert_eq!(load(&text, &mut [0; 5000]), refusal);
            }
        }
    }
    println!("good, 1, 2, 3, 4: {refused:?}");
    assert!(refused.iter().all(|&count| count > 10));
}

/// How damaged texts with such a line end: good, or with the number that they are refused at that line with.
fn ends_of_damaged(wanted: impl Fn(&str) -> bool) -> [u32; 5] {
    let mut ends = [0; 5];
    for seed in 0..20_000u64 {
        let (drawn, _, mut rng) = draw(seed);
        let text = damage(&drawn.text(), &mut rng);
        let shown = show(&text).to_lowercase();
        let has = |number: u32| shown.lines().nth(number as usize - 1).is_some_and(&wanted);
        match check(&text) {
            Ok(_) if shown.lines().any(&wanted) => ends[0] += 1,
            Err(refusal) if refusal.line > 0 && has(refusal.line) => {
                ends[refusal.number as usize] += 1;
            }
            _ => {}
        }
    }
    ends
}

/// Damaged directives with `firstprivate` in them end in every way.
#[test]
fn damaged_clauses_end_in_every_way() {
    let ends =
        ends_of_damaged(|line| line.contains("!$omp parallel do") && line.contains("firstprivate"));
    println!("directives with firstprivate: good, 1, 2, 3, 4: {ends:?}");
    assert!(ends[0] > 1000 && ends[2] > 500 && ends[3] > 500 && ends[4] > 10);
}

/// Damaged directives with `reduction` in them, and other lines with `max`, end in every way.
#[test]
fn damaged_reductions_end_in_every_way() {
    let is_directive = |line: &str| line.contains("!$omp");
    let clauses = ends_of_damaged(|line| is_directive(line) && line.contains("reduction"));
    println!("directives with reduction: good, 1, 2, 3, 4: {clauses:?}");
    assert!(clauses[0] > 1000 && clauses[2] > 500 && clauses[3] > 500 && clauses[4] > 10);
    let maxima = ends_of_damaged(|line| !is_directive(line) && line.contains("max"));
    println!("other lines with max: good, 1, 2, 3, 4: {maxima:?}");
    assert!(maxima[0] > 1000 && maxima[2] > 1000 && maxima[3] > 40 && maxima[4] > 2);
}

/// Damaged declarations and statements with a second extent or subscript end in every way.
#[test]
fn damaged_grids_end_in_every_way() {
    let has_two = |line: &str| {
        let tokens = split_tokens(line);
        let is_function = |word: &str| word == "max" || word == "rdiv" || word == "if";
        let mut words = (0..tokens.len()).filter(|&place| !is_function(tokens[place]));
        let two = |place| bracketed(&tokens, place).is_some_and(|list| list.items.len() > 1);
        !line.contains("!$omp") && words.any(two)
    };
    let declares = |line: &str| line.trim_start().starts_with("integer");
    let declared = ends_of_damaged(|line| declares(line) && has_two(line));
    println!("declarations of grids: good, 1, 2, 3, 4: {declared:?}");
    assert!(declared[0] > 1000 && declared[2] > 40 && declared[3] > 10 && declared[4] > 40);
    let used = ends_of_damaged(|line| !declares(line) && has_two(line));
    println!("statements with grids: good, 1, 2, 3, 4: {used:?}");
    assert!(used[0] > 1000 && used[2] > 200 && used[3] > 200 && used[4] > 10);
}
