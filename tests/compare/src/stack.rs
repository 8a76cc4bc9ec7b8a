//! How much stack the services need: the deepest texts are read in processes of their own with less
//! and less stack.

use generate::tables::forms::longest;
use generate::tables::limits::deep_rows;
use generate::tables::{text_rows, TextRow};
use reference::{read, workspace_needed, Refusal};
use std::io;
use std::process::{Command, Stdio};

use crate::product;

/// The stack that no text may need, in KiB.
const MOST: u64 = 1 << 16;
/// A stack in which no process starts, in KiB.
const LEAST: u64 = 8;

/// The texts to measure: an ordinary one, the one with the longest printed form, then those with brackets as deep as
/// the bytes allow.
fn rows() -> Vec<TextRow> {
    let mut rows = text_rows();
    rows.truncate(1);
    let [text, _] = longest();
    rows.push(TextRow::good("the longest printed form", text, 4096, 1));
    rows.extend(deep_rows());
    rows
}

/// Prints the need of each text; whether none needs more than `limit` KiB.
pub fn measure(limit: u64) -> bool {
    let mut most = 0;
    for (index, row) in rows().iter().enumerate() {
        match needed(index) {
            Ok(Some(need)) => {
                println!("  {need} KiB: {}", row.name);
                most = most.max(need);
            }
            Ok(None) => {
                println!("  over {MOST} KiB, or a wrong answer: {}", row.name);
                return false;
            }
            Err(error) => {
                println!("  no process: {error}");
                return false;
            }
        }
    }
    println!("stack: at most {most} KiB with the process's own start, of {limit} KiB");
    most <= limit
}

/// The least stack in KiB with which a process reads the text, found by halving.
fn needed(index: usize) -> io::Result<Option<u64>> {
    if !enough(index, MOST)? {
        return Ok(None);
    }
    let (mut little, mut much) = (LEAST, MOST);
    while much - little > 4 {
        let middle = (little + much) / 2;
        if enough(index, middle)? {
            much = middle;
        } else {
            little = middle;
        }
    }
    Ok(Some(much))
}

/// Whether a process with so much stack reads the text.
fn enough(index: usize, stack: u64) -> io::Result<bool> {
    let status = Command::new("sh")
        .args([
            "-c",
            "ulimit -s \"$1\" && exec \"$2\" stack-child \"$3\"",
            "sh",
        ])
        .arg(stack.to_string())
        .arg(std::env::current_exe()?)
        .arg(index.to_string())
        .stderr(Stdio::null())
        .status()?;
    Ok(status.success())
}

/// Every service on one of the texts, on this process's own stack; whether each answers as the table
/// says.
pub fn child(index: usize) -> bool {
    let row = &rows()[index];
    let numbers = |refusal: Refusal| (refusal.number, refusal.line);
    let done = row.expected.map(|_| ());
    let (count, processors) = row.expected.unwrap_or((0, 0));
    let mut cells = vec![0; count];
    let mut view = vec![0; 2 * count];
    let mut workspace = vec![0; workspace_needed(count, processors)];
    // A refused text may be too deep for the reference on this stack; any list will do for it.
    let iterations = |_| read(&row.text).map_or(0, |program| program.iteration_count());
    let mut list = vec![0; row.expected.map_or(0, iterations) as usize];
    let checked = product::check(&row.text).map_err(numbers);
    let bounded = product::bounds(&row.text).map_err(numbers);
    // The texts that are accepted declare it.
    let named = product::name(&row.text, b"a").map_err(numbers);
    let loaded = product::load(&row.text, &mut cells).map_err(numbers);
    let looked = product::look(&row.text, &cells, &mut workspace, &[], &mut view).map_err(numbers);
    let ran = product::run(&row.text, &mut cells, &mut workspace, &[]).map_err(numbers);
    let planned = product::plan(&row.text, &cells, &mut workspace, &mut list).map_err(numbers);
    let mut bytes = vec![0; 65_535];
    let printed = product::print(&row.text, &mut bytes).map_err(numbers);
    // The name is a grid's or, in a text that is accepted, another's.
    let arranged = [product::rows, product::columns].map(|service| {
        let arranged = service(&row.text, &mut cells, b"a").map_err(numbers);
        arranged == done || done.is_ok() && arranged == Err((13, 0))
    });
    let answers = [
        bounded.map(|_| ()),
        named.map(|_| ()),
        loaded,
        looked,
        ran.map(|_| ()),
        planned.map(|_| ()),
        printed.map(|_| ()),
    ];
    checked == row.expected && answers == [done; 7] && arranged == [true; 2]
}
