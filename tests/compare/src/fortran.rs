//! A second opinion that nobody here wrote: the cells that Run leaves, beside those that gfortran's
//! reading of the same loop leaves, and each grid as Rows rearranges it, beside Fortran's `transpose`. Loops that fault
//! are left out. Where Fortran's directive means the same, the loop is run by it too, in threads: sums, products and
//! maxima are then gfortran's own reductions.

use generate::{lend, Rng};
use reference::program::Program;
use reference::syntax::Operation;
use reference::{fortran_of_all, read, run_serially, workspace_needed, Threads};
use std::io;
use std::path::{Path, PathBuf};
use std::process::Command;

use crate::product;
use crate::runs::{drawn_to_run, kinds_in_grids, operations_of, GRIDS, UPDATED};
use crate::tally::Tally;

/// How many random loops are drawn, and how many of those that don't fault are compiled together.
const LOOPS: u64 = 3_000;
const TOGETHER: usize = 100;
/// The most cells of a loop that is compiled: each is set in a line of its own.
const CELLS: usize = 200;
/// How many loops with names in both clauses (document 02, Point 5) must be among those that pass.
const COPIED: usize = 300;
/// How many loops with updates of each operation (Point 6) must be among those that pass, and among those that
/// run in threads too.
const UPDATING: usize = 130;
const IN_THREADS: usize = 100;
/// How many loops that access grids (Point 9) must be among those that pass, are run again, and run in threads too.
const OVER_GRIDS: [usize; 3] = [400, 420, 140];
/// What is counted of loops with names in both clauses.
const BOTH: &str = "Names in both clauses: Run";

/// A loop that Run carried to its end.
struct Ran {
    name: String,
    text: Vec<u8>,
    before: Vec<i32>,
    /// The cells that Run leaves, and then those of each grid as Rows leaves them.
    after: Vec<i32>,
    passed: bool,
    /// Whether it has names in both clauses.
    copied: bool,
    /// The operations by which it updates cells.
    operations: Vec<Operation>,
    /// Whether it accesses cells of a grid.
    over_grids: bool,
}

/// Compares random loops, if gfortran is there.
pub fn second_opinion() -> bool {
    if Command::new("gfortran").arg("--version").output().is_err() {
        println!("fortran: gfortran is missing, nothing is compared");
        return true;
    }
    match folder() {
        Ok(folder) => compare_all(&folder),
        Err(error) => {
            println!("fortran: no folder to compile in: {error}");
            false
        }
    }
}

/// A folder beside this program, below the target folder.
fn folder() -> io::Result<PathBuf> {
    let folder = std::env::current_exe()?.with_file_name("fortran");
    std::fs::create_dir_all(&folder)?;
    Ok(folder)
}

fn compare_all(folder: &Path) -> bool {
    let loops: Vec<Ran> = (0..LOOPS).filter_map(run_drawn).collect();
    let in_threads = |ran: &Ran| fortran_of(&[ran], Threads::Many).is_some();
    let all: Vec<&Ran> = loops.iter().collect();
    let some: Vec<&Ran> = loops.iter().filter(|ran| in_threads(ran)).collect();
    let serially = compare_in("Run and gfortran", &all, Threads::One, folder);
    let in_threads = compare_in("Run and gfortran's threads", &some, Threads::Many, folder);
    let (Some(serially), Some(in_threads)) = (serially, in_threads) else {
        return false;
    };
    let [passed, rerun, both_ways] = OVER_GRIDS;
    let mut often = serially.has_times(BOTH, "passed", COPIED)
        & serially.has_times(GRIDS, "passed", passed)
        & serially.has_times(GRIDS, "rerun", rerun)
        & in_threads.has_times(GRIDS, "passed", both_ways);
    for (updated, _) in UPDATED {
        often &= serially.has_times(updated, "passed", UPDATING);
        often &= in_threads.has_times(updated, "passed", IN_THREADS);
    }
    often
}

/// Compares the loops with gfortran's; `None` if something differs or goes wrong.
fn compare_in(name: &str, loops: &[&Ran], threads: Threads, folder: &Path) -> Option<Tally> {
    let mut tally = Tally::new(&format!("{name}, seeds 0 to {}", LOOPS - 1));
    let mut good = true;
    for some in loops.chunks(TOGETHER) {
        match cells_by_fortran(some, threads, folder) {
            Ok(opinions) => compare(&mut tally, some, &opinions),
            Err(complaint) => {
                println!("FORTRAN from {}: {complaint}", some[0].name);
                good = false;
            }
        }
    }
    (tally.report() & good).then_some(tally)
}

/// The loop of a seed as Run leaves it; `None` if it is refused or Fortran has no such loop.
fn run_drawn(seed: u64) -> Option<Ran> {
    let mut rng = Rng::new(seed);
    let made = drawn_to_run(&mut rng);
    let text = made.text();
    let count = made.cells.len();
    let before = if rng.chance(70) {
        made.cells.clone()
    } else {
        lend::cells(&mut rng, count)
    };
    let mut workspace = lend::workspace(&mut rng, workspace_needed(count, made.processors));
    let schedule = lend::schedule(&mut rng, made.processors);
    let mut after = before.clone();
    let answer = product::run(&text, &mut after, &mut workspace, &schedule).ok()?;
    let program = read(&text).expect("a good text");
    let serial = run_serially(&program, &before);
    let ran = Ran {
        name: format!("seed {seed}"),
        passed: answer.passed,
        copied: made.has_copied(),
        operations: operations_of(&program, &serial),
        over_grids: !kinds_in_grids(&program, &serial).is_empty(),
        after: with_rows(&text, &program, after),
        text,
        before,
    };
    let fits = count <= CELLS && fortran_of(&[&ran], Threads::One).is_some();
    fits.then_some(ran)
}

/// The cells, and then those of each grid as Rows leaves them.
fn with_rows(text: &[u8], program: &Program, cells: Vec<i32>) -> Vec<i32> {
    let mut all = cells.clone();
    let names = program.names.iter();
    for grid in names.filter(|declared| declared.grid().is_some()) {
        let mut by_rows = cells.clone();
        if product::rows(text, &mut by_rows, grid.name.as_bytes()).is_ok() {
            all.extend(&by_rows[grid.first_cell..][..grid.length()]);
        }
    }
    all
}

/// The loops in one program; `None` if one of them is not in Fortran.
fn fortran_of(loops: &[&Ran], threads: Threads) -> Option<String> {
    let texts: Vec<(&[u8], &[i32])> = loops
        .iter()
        .map(|ran| (&ran.text[..], &ran.before[..]))
        .collect();
    fortran_of_all(&texts, threads)
}

/// The cells that the compiled loops print, loop by loop; or what went wrong.
fn cells_by_fortran(
    loops: &[&Ran],
    threads: Threads,
    folder: &Path,
) -> Result<Vec<Vec<i32>>, String> {
    let source = fortran_of(loops, threads).ok_or("a loop that Fortran has not")?;
    let program = compile(&source, threads, folder)?;
    // Threads that wait do nothing meanwhile: there may be more of them than processors.
    let ran = Command::new(program)
        .env("OMP_WAIT_POLICY", "passive")
        .env("OMP_DYNAMIC", "false")
        .output()
        .map_err(of_io)?;
    let printed = String::from_utf8_lossy(&ran.stdout);
    let mut cells: Vec<Vec<i32>> = Vec::new();
    for line in printed.lines() {
        match (line.trim().parse(), cells.last_mut()) {
            (Ok(value), Some(last)) => last.push(value),
            _ => cells.push(Vec::new()),
        }
    }
    if ran.status.success() {
        return Ok(cells);
    }
    let last = cells.len().saturating_sub(1);
    let complaint = String::from_utf8_lossy(&ran.stderr);
    Err(format!("{} stops: {complaint}", loops[last].name))
}

fn compile(source: &str, threads: Threads, folder: &Path) -> Result<PathBuf, String> {
    let (file, program) = (folder.join("loops.f90"), folder.join("loops"));
    std::fs::write(&file, source).map_err(of_io)?;
    let compiled = Command::new("gfortran")
        .args(match threads {
            Threads::One => &[][..],
            Threads::Many => &["-fopenmp"],
        })
        .args(["-fwrapv", "-fcheck=bounds", "-w", "-o"])
        .args([&program, &file])
        .output()
        .map_err(of_io)?;
    if compiled.status.success() {
        return Ok(program);
    }
    Err(String::from_utf8_lossy(&compiled.stderr).into_owned())
}

fn of_io(error: io::Error) -> String {
    error.to_string()
}

fn compare(tally: &mut Tally, loops: &[&Ran], opinions: &[Vec<i32>]) {
    for (index, ran) in loops.iter().enumerate() {
        let mut text = tally.next(&ran.name, &ran.text);
        let word = if ran.passed { "passed" } else { "rerun" };
        text.count("Run", Ok(word));
        if ran.copied {
            text.count(BOTH, Ok(word));
        }
        if ran.over_grids {
            text.count(GRIDS, Ok(word));
        }
        for (updated, operation) in UPDATED {
            if ran.operations.contains(&operation) {
                text.count(updated, Ok(word));
            }
        }
        let opinion = opinions.get(index).cloned().unwrap_or_default();
        text.compare(
            "the cells of Run, and by rows, and gfortran",
            &ran.after,
            &opinion,
        );
    }
}
