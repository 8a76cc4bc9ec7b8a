//! The services of the product on one text, each compared with an answer and with what it must leave
//! in the slices lent.

use std::fmt::{self, Debug, Formatter};

use generate::{lend, Rng};
use reference::program::Program;
use reference::{Answer, Bounds, NameCells, Refusal};

use crate::product;
use crate::tally::Text;

/// The elements with one more on either side, which must stay.
fn guarded<T: Copy>(elements: &[T], guard: T) -> Vec<T> {
    [&[guard], elements, &[guard]].concat()
}

const GUARD: i32 = 0x5eed_5eed;
const GUARD_WORD: u32 = 0x5eed_5eed;
const GUARD_NUMBER: u16 = 0x5eed;
/// A letter: read with a text or a name, it would change what they say.
const GUARD_BYTE: u8 = b'a';

/// Check.
pub fn check(text: &mut Text, expected: Result<(usize, usize), Refusal>) {
    let answer = product::check(text.text);
    text.count("Check", answer.map(|_| "done"));
    text.compare("Check", &answer, &expected);
}

/// A word for the bounds of a loop.
fn bounds_word(bounds: Bounds) -> &'static str {
    match (bounds.iterations, bounds.blocks) {
        (0, false) => "no iterations",
        (0, true) => "no iterations, by blocks",
        (1, false) => "1 iteration",
        (1, true) => "1 iteration, by blocks",
        (_, false) => "more iterations",
        (_, true) => "more iterations, by blocks",
    }
}

/// Bounds.
pub fn bounds(text: &mut Text, expected: Result<Bounds, Refusal>) {
    let lent = guarded(text.text, GUARD_BYTE);
    let answer = product::bounds(&lent[1..=text.text.len()]);
    text.count("Bounds", answer.map(bounds_word));
    text.compare("Bounds", &answer, &expected);
    text.compare("Bounds' text", &lent, &guarded(text.text, GUARD_BYTE));
}

/// The words for the clauses, by their numbers.
const CLAUSES: [&str; 6] = [
    "shared",
    "in lastprivate alone",
    "a sum",
    "in both clauses",
    "a product",
    "a maximum",
];
const UNDECLARED: &str = "not declared";
/// What is counted of names that are found.
pub const TAKEN: &str = "Name: subscripts taken";

/// Name, asked for these bytes, behind which others stand that are not part of them.
pub fn name(text: &mut Text, (asked, after): (&[u8], &[u8]), expected: Result<NameCells, Refusal>) {
    let lent = guarded(text.text, GUARD_BYTE);
    let lent_name = [&[GUARD_BYTE], asked, after, &[GUARD_BYTE]].concat();
    let before = (lent.clone(), lent_name.clone());
    let answer = product::name(&lent[1..=text.text.len()], &lent_name[1..=asked.len()]);
    let word = |found: NameCells| CLAUSES.get(found.clause as usize).copied();
    let counted = match answer {
        Ok(found) => Ok(word(found).unwrap_or("of an unknown clause")),
        Err(refusal) if (refusal.number, refusal.line) == (3, 0) => Ok(UNDECLARED),
        Err(refusal) => Err(refusal),
    };
    text.count("Name", counted);
    if let Ok(found) = answer {
        let words = ["none", "one", "two"];
        let word = words.get(found.subscripts as usize);
        text.count(TAKEN, Ok(word.unwrap_or(&"more")));
    }
    let service = format!("Name of {:?}", asked.escape_ascii().to_string());
    text.compare(&service, &answer, &expected);
    text.compare("Name's bytes", &(lent, lent_name), &before);
}

/// Load into these cells, which are `after` in the end.
pub fn load(text: &mut Text, before: &[i32], expected: Result<(), Refusal>, after: &[i32]) {
    let mut cells = guarded(before, GUARD);
    let answer = product::load(text.text, &mut cells[1..=before.len()]);
    text.count("Load", answer.map(|()| "done"));
    text.compare("Load", &(answer, cells), &(expected, guarded(after, GUARD)));
}

/// Check and Load as the reference answers. Load is lent as many cells as it asks for, then one more
/// or one less, and for a refused text any number.
pub fn check_and_load(text: &mut Text, rng: &mut Rng) {
    let checked = reference::check(text.text);
    check(text, checked);
    let counts = match checked {
        Ok((cells, _)) => vec![cells, if rng.chance(50) { cells + 1 } else { cells - 1 }],
        Err(_) => vec![rng.below(20)],
    };
    for count in counts {
        let before = lend::cells(rng, count);
        let mut after = before.clone();
        let expected = reference::load(text.text, &mut after);
        load(text, &before, expected, &after);
    }
}

/// Bytes that are shown as a text is.
#[derive(PartialEq)]
struct Shown(Vec<u8>);

impl Debug for Shown {
    fn fmt(&self, to: &mut Formatter) -> fmt::Result {
        write!(to, "\"{}\"", self.0.escape_ascii())
    }
}

/// A word for a printed form of so many bytes.
fn form_word(length: u32) -> &'static str {
    match length {
        0..2048 => "under 2,048 bytes",
        2048 => "2,048 bytes",
        2049 => "2,049 bytes",
        _ => "over 2,049 bytes",
    }
}

/// Print into these bytes, which begin with the printed form in the end if it is done.
pub fn print(text: &mut Text, lent: &[u8], expected: Result<&[u8], Refusal>) {
    let lent_text = guarded(text.text, GUARD_BYTE);
    let mut bytes = guarded(lent, GUARD_BYTE);
    let answer = product::print(&lent_text[1..=text.text.len()], &mut bytes[1..=lent.len()]);
    text.count("Print", answer.map(form_word));
    let mut after = guarded(lent, GUARD_BYTE);
    if let Ok(form) = expected {
        after[1..=form.len()].copy_from_slice(form);
    }
    let length = expected.map(|form| form.len() as u32);
    let service = format!("Print into {} bytes", lent.len());
    text.compare(&service, &(answer, Shown(bytes)), &(length, Shown(after)));
    text.compare("Print's text", &lent_text, &guarded(text.text, GUARD_BYTE));
}

/// What Look and Run are lent: cells, words of workspace with anything in them, and a schedule.
pub struct Lent<'l> {
    pub cells: &'l [i32],
    pub workspace: &'l [u32],
    pub schedule: &'l [u8],
}

/// The product's service and the reference's, of a text or a program, cells and a name.
type OfText = fn(&[u8], &mut [i32], &[u8]) -> Result<(), Refusal>;
type OfProgram = fn(&Program, &mut [i32], &[u8]) -> Result<(), Refusal>;

/// A service that rearranges one grid (document 02, Point 9).
pub struct Arrangement {
    pub name: &'static str,
    pub service: OfText,
    pub reference: OfProgram,
}

/// Each is the other's inverse.
pub const ARRANGEMENTS: [Arrangement; 2] = [
    Arrangement {
        name: "Rows",
        service: product::rows,
        reference: Program::rows,
    },
    Arrangement {
        name: "Columns",
        service: product::columns,
        reference: Program::columns,
    },
];

/// Rows or Columns of the grid that these bytes name, behind which others stand that are not part of them. It leaves
/// `after` in the cells if it is done, else the cells as they are.
pub fn arrange(
    text: &mut Text,
    arrangement: &Arrangement,
    (asked, behind): (&[u8], &[u8]),
    before: &[i32],
    expected: Result<&[i32], Refusal>,
) {
    let mut cells = guarded(before, GUARD);
    let lent = guarded(text.text, GUARD_BYTE);
    let lent_name = [&[GUARD_BYTE], asked, behind, &[GUARD_BYTE]].concat();
    let found = (lent.clone(), lent_name.clone());
    let answer = (arrangement.service)(
        &lent[1..=text.text.len()],
        &mut cells[1..=before.len()],
        &lent_name[1..=asked.len()],
    );
    text.count(arrangement.name, answer.map(|()| "done"));
    let after = guarded(expected.unwrap_or(before), GUARD);
    let asked = asked.escape_ascii();
    let service = format!("{} of \"{asked}\"", arrangement.name);
    text.compare(&service, &(answer, cells), &(expected.map(|_| ()), after));
    let service = format!("{}' bytes", arrangement.name);
    text.compare(&service, &(lent, lent_name), &found);
}

/// The workspace after an answer: as found after 1 to 8 and 11, else zero.
fn workspace_after(before: &[u32], number: Option<u32>) -> Vec<u32> {
    match number {
        Some(1..=8 | 11) => before.to_vec(),
        _ => vec![0; before.len()],
    }
}

/// Run, which leaves `after` in the cells.
pub fn run(text: &mut Text, lent: &Lent, expected: Result<Answer, Refusal>, after: &[i32]) {
    let mut cells = guarded(lent.cells, GUARD);
    let mut workspace = guarded(lent.workspace, GUARD_WORD);
    let answer = product::run(
        text.text,
        &mut cells[1..=lent.cells.len()],
        &mut workspace[1..=lent.workspace.len()],
        lent.schedule,
    );
    let word = |answer: Answer| if answer.passed { "passed" } else { "rerun" };
    text.count("Run", answer.map(word));
    let number = expected.err().map(|refusal| refusal.number);
    let left = guarded(&workspace_after(lent.workspace, number), GUARD_WORD);
    let service = format!("Run under {:?}", lent.schedule);
    text.compare(
        &service,
        &(answer, cells),
        &(expected, guarded(after, GUARD)),
    );
    text.compare("Run's workspace", &workspace, &left);
}

/// Look into so many words, which hold `view` in the end where Look is done.
pub fn look(text: &mut Text, lent: &Lent, shown: usize, expected: Result<&[u32], Refusal>) {
    let before = vec![99; shown];
    let mut view = guarded(&before, GUARD_WORD);
    let mut workspace = guarded(lent.workspace, GUARD_WORD);
    let answer = product::look(
        text.text,
        lent.cells,
        &mut workspace[1..=lent.workspace.len()],
        lent.schedule,
        &mut view[1..=shown],
    );
    text.count("Look", answer.map(|()| "done"));
    let number = expected.err().map(|refusal| refusal.number);
    let left = guarded(&workspace_after(lent.workspace, number), GUARD_WORD);
    let seen = guarded(expected.unwrap_or(&before), GUARD_WORD);
    let service = format!("Look after {:?}", lent.schedule);
    text.compare(&service, &(answer, view), &(expected.map(|_| ()), seen));
    text.compare("Look's workspace", &workspace, &left);
}

/// What Plan is lent: cells, words of workspace and a list, both with anything in them.
pub struct LentToPlan<'l> {
    pub cells: &'l [i32],
    pub workspace: &'l [u32],
    pub list: &'l [u16],
}

/// A word for a number of stages of so many iterations.
pub fn stages_word(stages: u32, iterations: usize) -> &'static str {
    match stages {
        0 => "no stages",
        1 => "1 stage",
        _ if stages as usize == iterations => "a stage for each iteration",
        _ => "some stages",
    }
}

/// Plan, which answers a number of stages and writes a list of them, or leaves the list.
pub fn plan(text: &mut Text, lent: &LentToPlan, expected: Result<(u32, &[u16]), Refusal>) {
    let cells = guarded(lent.cells, GUARD);
    let mut workspace = guarded(lent.workspace, GUARD_WORD);
    let mut list = guarded(lent.list, GUARD_NUMBER);
    let answer = product::plan(
        text.text,
        &cells[1..=lent.cells.len()],
        &mut workspace[1..=lent.workspace.len()],
        &mut list[1..=lent.list.len()],
    );
    let word = |stages| stages_word(stages, lent.list.len());
    text.count("Plan", answer.map(word));
    let number = expected.err().map(|refusal| refusal.number);
    let left = guarded(&workspace_after(lent.workspace, number), GUARD_WORD);
    let written = guarded(expected.map_or(lent.list, |(_, list)| list), GUARD_NUMBER);
    let stages = expected.map(|(stages, _)| stages);
    text.compare("Plan", &(answer, list), &(stages, written));
    text.compare("Plan's cells", &cells, &guarded(lent.cells, GUARD));
    text.compare("Plan's workspace", &workspace, &left);
}
