//! Document 01, "Services and answers": Check, Load, Look and Run, with the trial and the serial run
//! that Run is made of. Document 02, Point 7: Plan; Point 8: Print. (`grids` has the two of Point 9.)

use crate::plan::stages;
use crate::printed::printed;
use crate::program::Program;
use crate::reader::read;
use crate::serial::{run_serially, Serial};
use crate::steps::Speculation;
use crate::trial::Trial;
use crate::{Answer, Refusal};

/// "workspace under" so many "words of 32 bits" is 6. Document 02, Point 5: it "becomes 4,352 + 64 × P +
/// N × (4 + 8 × P) words", for every text (P5.8).
pub fn workspace_needed(cells: usize, processors: usize) -> usize {
    4352 + 64 * processors + cells * (4 + 8 * processors)
}

/// "Check takes the text and answers N and P."
pub fn check(text: &[u8]) -> Result<(usize, usize), Refusal> {
    let program = read(text)?;
    Ok((program.cell_count(), program.processors as usize))
}

/// "Load fills the cells from the data."
pub fn load(text: &[u8], cells: &mut [i32]) -> Result<(), Refusal> {
    let program = read_for(text, cells.len())?;
    cells.copy_from_slice(&program.data_cells());
    Ok(())
}

/// "Look takes text, cells, workspace, schedule and a view; it writes for each cell in turn two
/// 32-bit words, the shared value and then the marks, as they are after the schedule's bytes,
/// without running on, and leaves the cells." (READING 90)
pub fn look(
    text: &[u8],
    cells: &[i32],
    workspace: &mut [u32],
    schedule: &[u8],
    view: &mut [u32],
) -> Result<(), Refusal> {
    let program = read_to_step(text, cells.len(), workspace.len(), schedule)?;
    if view.len() != 2 * cells.len() {
        return Err(Refusal::of_text(8, 0));
    }
    let seen = take_steps(&program, cells, schedule);
    for (words, (&value, &marks)) in view.chunks_mut(2).zip(seen.shared.iter().zip(&seen.marks)) {
        words[0] = value as u32;
        words[1] = marks;
    }
    workspace.fill(0);
    Ok(())
}

/// "Run answers passed or rerun, then the serial run's two write counts, pairs first".
pub fn run(
    text: &[u8],
    cells: &mut [i32],
    workspace: &mut [u32],
    schedule: &[u8],
) -> Result<Answer, Refusal> {
    let program = read_to_step(text, cells.len(), workspace.len(), schedule)?;
    // "After any other end of Look or Run the workspace is all zero", after 9 and 10 too
    // (READING 88, 89).
    workspace.fill(0);
    let trial = run_trial(&program, cells, schedule);
    if trial.passes() {
        cells.copy_from_slice(&trial.merged());
        return Ok(Answer {
            passed: true,
            pairs: trial.pairs,
            cells: trial.cells,
        });
    }
    // "Otherwise the cells return to entry and the serial run follows; if that faults, they return
    // to entry again." They have not been touched here.
    let serial = run_serially(&program, cells);
    serial.outcome?;
    cells.copy_from_slice(&serial.cells_after);
    Ok(Answer {
        passed: false,
        pairs: serial.pairs,
        cells: serial.cells,
    })
}

/// Plan "takes text, cells, workspace and a list of n 16-bit numbers. It leaves the cells as found, writes
/// each iteration's stage and answers the number of stages; a refusal leaves the list as found." (7.1, 7.2)
pub fn plan(
    text: &[u8],
    cells: &[i32],
    workspace: &mut [u32],
    list: &mut [u16],
) -> Result<u32, Refusal> {
    let program = read_to_run(text, cells.len(), workspace.len())?;
    // "New: 11, list length not n, after 6, workspace as found."
    if list.len() != program.iteration_count() as usize {
        return Err(Refusal::of_text(11, 0));
    }
    // "Faults are answered as in Run, and workspace ends as there." (7.7)
    workspace.fill(0);
    let serial = run_serially(&program, cells);
    serial.outcome?;
    let stages = stages(&serial.accesses, program.iteration_count());
    list.copy_from_slice(&stages);
    // "The number of stages is the highest stage", 0 without iterations (7.5).
    Ok(stages.into_iter().max().map_or(0, u32::from))
}

/// Print writes a text in its printed form into the bytes lent. "The answer is the length; the rest of the lent
/// bytes is unchanged." (8.8)
pub fn print(text: &[u8], bytes: &mut [u8]) -> Result<u32, Refusal> {
    let form = printed(text)?;
    // "New: 12, bytes lent fewer than the printed form, after 4; a refusal writes nothing."
    let lent = bytes.get_mut(..form.len());
    lent.ok_or(Refusal::of_text(12, 0))?.copy_from_slice(&form);
    Ok(form.len() as u32)
}

/// The trial: the schedule's bytes, then on to the end. It refuses as Run does (READING 93).
pub fn trial(
    text: &[u8],
    cells: &[i32],
    workspace_len: usize,
    schedule: &[u8],
) -> Result<Trial, Refusal> {
    let program = read_to_step(text, cells.len(), workspace_len, schedule)?;
    Ok(run_trial(&program, cells, schedule))
}

/// The schedule's bytes without running on: what Look sees, and the rest of the state.
pub fn stepped(
    text: &[u8],
    cells: &[i32],
    workspace_len: usize,
    schedule: &[u8],
) -> Result<Trial, Refusal> {
    let program = read_to_step(text, cells.len(), workspace_len, schedule)?;
    Ok(take_steps(&program, cells, schedule))
}

/// The serial run of a text on the cells as lent. It refuses 1 to 5; a fault is its outcome.
pub fn serial(text: &[u8], cells: &[i32]) -> Result<Serial, Refusal> {
    let program = read_for(text, cells.len())?;
    Ok(run_serially(&program, cells))
}

fn take_steps(program: &Program, cells: &[i32], schedule: &[u8]) -> Trial {
    let mut speculation = Speculation::begin(program, cells);
    speculation.follow(schedule);
    Trial::of(speculation)
}

fn run_trial(program: &Program, cells: &[i32], schedule: &[u8]) -> Trial {
    let mut speculation = Speculation::begin(program, cells);
    speculation.follow(schedule);
    speculation.run_on();
    Trial::of(speculation)
}

/// Numbers 1 to 5: "cells lent not exactly N" is 5.
pub(crate) fn read_for(text: &[u8], cells: usize) -> Result<Program, Refusal> {
    let program = read(text)?;
    if cells != program.cell_count() {
        return Err(Refusal::of_text(5, 0));
    }
    Ok(program)
}

/// Numbers 1 to 6, in their order.
fn read_to_run(text: &[u8], cells: usize, workspace: usize) -> Result<Program, Refusal> {
    let program = read_for(text, cells)?;
    if workspace < workspace_needed(cells, program.processors as usize) {
        return Err(Refusal::of_text(6, 0));
    }
    Ok(program)
}

/// Numbers 1 to 7, in their order (READING 87).
fn read_to_step(
    text: &[u8],
    cells: usize,
    workspace: usize,
    schedule: &[u8],
) -> Result<Program, Refusal> {
    let program = read_to_run(text, cells, workspace)?;
    // "a schedule byte of P or more", wherever it stands (READING 73)
    if schedule
        .iter()
        .any(|&byte| u32::from(byte) >= program.processors)
    {
        return Err(Refusal::of_text(7, 0));
    }
    Ok(program)
}
