//! RULES 11 (document 01, "Program"): what `lrpd` prints for a standard input.

use crate::reader::read;
use crate::services::{check, load, run, workspace_needed};
use crate::Refusal;

/// "lends 128 cells (the first N if N is less)"
const CELLS_LENT: usize = 128;

/// What the program `lrpd` prints. "A refusal prints only `! refused` and its three numbers."
pub fn lrpd(input: &[u8]) -> Vec<u8> {
    let printed = run_and_print(input).unwrap_or_else(|refusal| {
        let Refusal { number, line, v } = refusal;
        format!("! refused {number} {line} {v}\n")
    });
    printed.into_bytes()
}

/// Check, Load and Run in that order (READING 94).
fn run_and_print(text: &[u8]) -> Result<String, Refusal> {
    let (needed, processors) = check(text)?;
    let mut cells = vec![0; needed.min(CELLS_LENT)];
    load(text, &mut cells)?;
    let mut workspace = vec![0; workspace_needed(needed, processors)];
    let answer = run(text, &mut cells, &mut workspace, &[])?;
    let result = if answer.passed { "passed" } else { "rerun" };
    let comment = format!("! {result} {} {}\n", answer.pairs, answer.cells);
    Ok(comment + &data_lines(text, &cells))
}

/// "a data line per name", with every cell (READING 95), those of a grid in its element order (P9.5).
fn data_lines(text: &[u8], cells: &[i32]) -> String {
    let program = read(text).expect("a text that has run");
    program
        .names
        .iter()
        .map(|declared| {
            let values = &cells[declared.first_cell..][..declared.length()];
            let values: Vec<String> = values.iter().map(i32::to_string).collect();
            format!("data {} /{}/\n", declared.name, values.join(","))
        })
        .collect()
}
