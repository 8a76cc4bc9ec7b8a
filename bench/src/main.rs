//! Run's time beside that of two serial interpreters, Plan's beside Run's, and how both grow.
//!
//!     bench                     the times
//!     bench WHICH LOOP TIMES    one alone, so many times, for a profiler: WHICH is run, plain, strong or plan,
//!                               LOOP is turns, shortest or forms

mod clock;
mod loops;
mod product;

use clock::thread_time;
use interpreters::postfix::{Fault, Loop};
use interpreters::reader;
use interpreters::three_address::{self, Program};
use loops::{forms, shortest, turns, wide, Timed};
use std::fmt;
use std::time::Duration;

/// The size of the loops that are compared.
const ITERATIONS: u32 = 65_535;
const CELLS: usize = 4_096;

/// A loop with so many iterations, cells and processors.
type Make = fn(u32, usize, usize) -> Timed;

const LOOPS: [(&str, Make); 3] = [("turns", turns), ("shortest", shortest), ("forms", forms)];

/// One call: the processor time, reading included, and the cells that are left.
type Call = fn(&Timed) -> (Duration, Vec<i32>);

const CALLS: [(&str, Call); 3] = [
    ("run", time_run),
    ("plain", time_plain),
    ("strong", time_strong),
];

/// How often each is timed: an odd number has a median, and each of three begins a third of the rounds.
const ROUNDS: usize = 99;

fn main() {
    let words: Vec<String> = std::env::args().skip(1).collect();
    match &words[..] {
        [] => measure(),
        [which, name, times] => profile(which, name, times.parse().expect("how often")),
        _ => panic!("bench, or bench WHICH LOOP TIMES"),
    }
}

/// One alone, so many times, for a profiler.
fn profile(which: &str, name: &str, times: usize) {
    let call = match which {
        "plan" => time_plan,
        _ => named(&CALLS, which),
    };
    let timed = named(&LOOPS, name)(ITERATIONS, CELLS, 1);
    for _ in 0..times {
        call(&timed);
    }
}

fn named<T: Copy>(all: &[(&str, T)], name: &str) -> T {
    let found = all.iter().find(|(known, _)| *known == name);
    found
        .unwrap_or_else(|| panic!("nothing has the name {name}"))
        .1
}

fn measure() {
    assert_aligned();
    println!("Processor time in ms, and ratios: median (best) of {ROUNDS} rounds");
    println!("\n{ITERATIONS} iterations, {CELLS} cells, P = 1:");
    println!(
        "  {:8}{:>18}{:>18}{:>18}{:>18}{:>18}",
        "", "run", "plain", "strong", "run / plain", "run / strong"
    );
    for (name, make) in LOOPS {
        compare(name, &make(ITERATIONS, CELLS, 1));
    }
    println!("  All left the same cells in every round.");
    println!("\nRun, the loop `turns` as it grows:");
    grow();
    println!("\nPlan and Run, P = 1, the loop `turns` as it grows, then `wide` with as many accesses in longer iterations:");
    println!(
        "{:49}{:>18}{:>18}{:>18}  ns / access",
        "", "plan", "run", "plan / run"
    );
    grow_plans();
}

/// The interpreters begin a page, or their time would change from build to build.
fn assert_aligned() {
    let plain: fn(&Loop, &mut [i32]) -> Result<(), Fault> = Loop::run;
    let strong: fn(&mut Program, &mut [i32]) -> Result<(), Fault> = Program::run;
    assert!(
        (plain as usize | strong as usize).is_multiple_of(4_096),
        "built without the flags of bench/.cargo/config.toml"
    );
}

/// Times all three on a loop and compares the cells that each call leaves.
fn compare(name: &str, timed: &Timed) {
    let (_, expected) = time_plain(timed);
    let times = take_turns(CALLS.len(), |which| {
        let (by, call) = CALLS[which];
        let (time, cells) = call(timed);
        assert!(cells == expected, "other cells of {name} by {by}");
        time
    });
    let (run, plain, strong) = (times[0], times[1], times[2]);
    let (by_plain, by_strong) = (run.over(plain), run.over(strong));
    println!("  {name:8}{run:.3}{plain:.3}{strong:.3}{by_plain:.2}{by_strong:.2}");
}

/// Times Run on `turns` with other numbers of iterations, cells and processors.
fn grow() {
    let mut sizes = Vec::new();
    sizes.extend([0, 4_096, 16_384, 32_768, ITERATIONS].map(|count| (count, CELLS, 1)));
    sizes.extend([64, 256, 1_024, CELLS].map(|count| (ITERATIONS, count, 1)));
    sizes.extend([1, 2, 4, 8].map(|count| (ITERATIONS, CELLS, count)));
    let loops: Vec<Timed> = sizes.iter().map(|&(i, c, p)| turns(i, c, p)).collect();
    let times = take_turns(loops.len(), |which| time_run(&loops[which]).0);
    for ((iterations, cells, processors), time) in sizes.iter().zip(times) {
        println!("  {iterations:6} iterations, {cells:5} cells, P = {processors}:{time:.3}");
    }
}

/// How many accesses an iteration of `turns` makes, and a statement of `wide`.
const IN_TURNS: u32 = 4;
const IN_WIDE: u32 = 2;

/// Times Plan, and Run beside it, on `turns` with other numbers of iterations and cells, and on `wide` with as many
/// accesses in fewer and longer iterations. An access should take the same time in all of them.
fn grow_plans() {
    let mut loops = Vec::new();
    let grown = [4_096, 16_384, 32_768, ITERATIONS].map(|count| (count, CELLS));
    let spread = [64, 256, 1_024, CELLS].map(|count| (ITERATIONS, count));
    for (iterations, cells) in grown.into_iter().chain(spread) {
        loops.push((turns(iterations, cells, 1), IN_TURNS));
    }
    for statements in [1, 10, 100] {
        let timed = wide(ITERATIONS / statements, CELLS, statements as usize);
        loops.push((timed, IN_WIDE * statements));
    }
    // Each iteration changes a cell that every other changes.
    for (timed, _) in &loops {
        assert!(plan(timed)
            .1
            .into_iter()
            .map(u32::from)
            .eq(1..=timed.iterations));
    }
    let times = take_turns(2 * loops.len(), |which| {
        let (timed, _) = &loops[which / 2];
        let call = if which % 2 == 0 { time_plan } else { time_run };
        call(timed).0
    });
    for ((timed, accesses), times) in loops.iter().zip(times.chunks(2)) {
        let (plan, run) = (times[0], times[1]);
        let ratio = plan.over(run);
        let each = 1e6 * plan.median / f64::from(timed.iterations * accesses);
        let (iterations, cells) = (timed.iterations, timed.cells.len());
        println!(
            "  {iterations:6} iterations of {accesses:3} accesses, {cells:5} cells:{plan:.3}{run:.3}{ratio:.2}{each:13.1}"
        );
    }
}

/// Times each of so many in every round; another begins in each.
fn take_turns(count: usize, mut time: impl FnMut(usize) -> Duration) -> Vec<Figures> {
    let mut times = vec![Vec::new(); count];
    for round in 0..ROUNDS {
        for turn in 0..count {
            let which = (round + turn) % count;
            times[which].push(time(which));
        }
    }
    times.into_iter().map(Figures::of).collect()
}

/// What is told of a row of times, in ms, or of two rows' ratio.
#[derive(Clone, Copy)]
struct Figures {
    median: f64,
    best: f64,
}

impl Figures {
    fn of(mut times: Vec<Duration>) -> Figures {
        times.sort_unstable();
        Figures {
            median: 1000.0 * times[times.len() / 2].as_secs_f64(),
            best: 1000.0 * times[0].as_secs_f64(),
        }
    }

    fn over(self, other: Figures) -> Figures {
        Figures {
            median: self.median / other.median,
            best: self.best / other.best,
        }
    }
}

impl fmt::Display for Figures {
    /// In 18 characters, with as many digits as asked for.
    fn fmt(&self, out: &mut fmt::Formatter) -> fmt::Result {
        let digits = out.precision().unwrap_or(2);
        let best = format!("({:.digits$})", self.best);
        write!(out, "{:9.digits$}{best:>9}", self.median)
    }
}

/// Run.
fn time_run(timed: &Timed) -> (Duration, Vec<i32>) {
    let mut cells = timed.cells.clone();
    let mut workspace = vec![1; product::workspace_words(cells.len(), timed.processors)];
    let start = thread_time();
    let answer = product::run(timed.text.as_bytes(), &mut cells, &mut workspace);
    let time = thread_time() - start;
    assert!(answer.number == 0 && answer.rerun == 0, "{answer:?}");
    (time, cells)
}

/// Plan, which leaves the cells.
fn time_plan(timed: &Timed) -> (Duration, Vec<i32>) {
    (plan(timed).0, timed.cells.clone())
}

/// Plan: its time, and the stages.
fn plan(timed: &Timed) -> (Duration, Vec<u16>) {
    let mut workspace = vec![1; product::workspace_words(timed.cells.len(), timed.processors)];
    let mut list = vec![0; timed.iterations as usize];
    let start = thread_time();
    let answer = product::plan(
        timed.text.as_bytes(),
        &timed.cells,
        &mut workspace,
        &mut list,
    );
    let time = thread_time() - start;
    assert!(answer.number == 0, "{answer:?}");
    (time, list)
}

/// The plain interpreter.
fn time_plain(timed: &Timed) -> (Duration, Vec<i32>) {
    time_serial(timed, Loop::run)
}

/// The stronger interpreter.
fn time_strong(timed: &Timed) -> (Duration, Vec<i32>) {
    time_serial(timed, |read, cells| three_address::prepare(read).run(cells))
}

fn time_serial(
    timed: &Timed,
    run: fn(&Loop, &mut [i32]) -> Result<(), Fault>,
) -> (Duration, Vec<i32>) {
    let mut cells = timed.cells.clone();
    let start = thread_time();
    let read = reader::read(&timed.text);
    assert_eq!(read.cells, cells.len());
    let outcome = run(&read, &mut cells);
    let time = thread_time() - start;
    assert_eq!(outcome, Ok(()));
    (time, cells)
}
