//! What the program lrpd prints, read back: its comment and data lines in the place of a text's own data lines make a
//! text again, which is printed (document 02, Point 8), loaded and run.

use std::io::{self, Write};
use std::path::{Path, PathBuf};
use std::process::{Command, Stdio};

use generate::tables::prints;
use generate::variants::{begins, Written};
use generate::{damage, Rng};
use reference::{check, load, lrpd, run, workspace_needed, Refusal};

use crate::prints::{drawn_to_print, print_as_reference};
use crate::product;
use crate::runs::{all_often, drawn_to_run};
use crate::tally::{Tally, Text};

/// How many texts are drawn; every so many is damaged.
const TEXTS: u64 = 1_500;
const DAMAGED: u64 = 10;
/// What is counted, and how often it must be seen at least.
const PRINTED: &str = "lrpd printed";
const PRINTS: [(&str, usize); 3] = [("passed", 360), ("rerun", 450), ("refused", 320)];
const BACK: &str = "Read back:";
const BACKS: [(&str, usize); 2] = [("printed", 820), ("refused  4", 1)];

/// The program.
struct Lrpd(PathBuf);

impl Lrpd {
    /// What it prints of a text.
    fn prints(&self, text: &[u8]) -> io::Result<Vec<u8>> {
        let mut command = Command::new(&self.0);
        let piped = command.stdin(Stdio::piped()).stdout(Stdio::piped());
        let mut child = piped.spawn()?;
        // A text that is too long need not be read to its end.
        let written = child.stdin.take().map(|mut input| input.write_all(text));
        match written {
            Some(Err(error)) if error.kind() != io::ErrorKind::BrokenPipe => Err(error),
            _ => Ok(child.wait_with_output()?.stdout),
        }
    }

    /// The same without the line of a fault.
    fn prints_lineless(&self, text: &[u8]) -> io::Result<String> {
        let printed = String::from_utf8_lossy(&self.prints(text)?).into_owned();
        Ok(match printed.split(' ').collect::<Vec<_>>()[..] {
            ["!", "refused", number @ ("9" | "10"), _, v] => format!("{number} {v}"),
            _ => printed,
        })
    }
}

/// Compares what a program prints of the texts in its table, in these files and of drawn ones.
pub fn compared(program: &str, files: &[String]) -> bool {
    let program = Path::new(program).canonicalize();
    let compared = program.and_then(|program| compare_texts(&Lrpd(program), files));
    compared.unwrap_or_else(|error| {
        println!("read-back: {error}");
        false
    })
}

fn compare_texts(program: &Lrpd, files: &[String]) -> io::Result<bool> {
    let mut tally = Tally::new(&format!(
        "read back, the table, files and seeds 0 to {}",
        TEXTS - 1
    ));
    let mut rng = Rng::new(8);
    for (name, text, output) in prints::ROWS {
        let printed = program.prints(text.as_bytes())?;
        let mut lent = tally.next(name, text.as_bytes());
        lent.compare("lrpd", &printed, &output.as_bytes().to_vec());
        compare_text(program, &mut tally, name, text.as_bytes(), &mut rng)?;
    }
    for file in files {
        let text = std::fs::read(file)?;
        compare_text(program, &mut tally, file, &text, &mut rng)?;
    }
    for seed in 0..TEXTS {
        let mut rng = Rng::new(seed);
        let mut text = match rng.below(5) {
            0 => drawn_to_print(&mut rng),
            _ => drawn_to_run(&mut rng).text(),
        };
        if seed % DAMAGED == 0 {
            text = damage::damage(&text, &mut rng);
        }
        compare_text(
            program,
            &mut tally,
            &format!("seed {seed}"),
            &text,
            &mut rng,
        )?;
    }
    let good = tally.report();
    Ok(good & all_often(&tally, PRINTED, &PRINTS) & all_often(&tally, BACK, &BACKS))
}

/// One text: what is printed of it, of its form, and of it with what was printed.
fn compare_text(
    program: &Lrpd,
    tally: &mut Tally,
    name: &str,
    text: &[u8],
    rng: &mut Rng,
) -> io::Result<()> {
    let printed = program.prints(text)?;
    let mut lent = tally.next(name, text);
    lent.compare("lrpd", &printed, &lrpd(text));
    let is = |word: &&str| printed.starts_with(format!("! {word} ").as_bytes());
    let word = ["passed", "rerun"].into_iter().find(is);
    lent.count(PRINTED, Ok(word.unwrap_or("refused")));
    if compare_form(program, &mut lent, rng)?.is_err() || word.is_none() {
        return Ok(());
    }
    let name = format!("{name}, with what was printed");
    let again = with_data(text, &printed);
    let mut back = tally.next(&name, &again);
    let form = compare_form(program, &mut back, rng)?;
    back.count(BACK, form.map(|()| "printed"));
    if form.is_ok() {
        let after = after_run(text);
        let mut cells = vec![77; after.len()];
        let loaded = product::load(&again, &mut cells);
        back.compare("Load", &(loaded, cells), &(Ok(()), after));
    }
    Ok(())
}

/// Print; and of a text's form, if that fits, lrpd prints the same as of the text, but for the line of a fault.
fn compare_form(program: &Lrpd, text: &mut Text, rng: &mut Rng) -> io::Result<Result<(), Refusal>> {
    let form = print_as_reference(text, rng);
    if let Some(form) = form.as_ref().ok().filter(|form| form.len() <= 2048) {
        let printed = program.prints_lineless(text.text)?;
        let of_form = program.prints_lineless(form)?;
        text.compare("lrpd of the form", &of_form, &printed);
    }
    Ok(form.map(|_| ()))
}

/// The text with these lines in the place of its own data lines.
fn with_data(text: &[u8], lines: &[u8]) -> Vec<u8> {
    let mut written = Written::of(text);
    written.lines.retain(|line| !begins(line, &["data"]));
    let is_directive = |line: &String| begins(line, &["!$omp"]);
    let place = written.lines.iter().position(is_directive);
    let place = place.expect("a directive");
    written.lines.splice(place..place, Written::of(lines).lines);
    written.text()
}

/// The cells that a run leaves, on the text's own data.
fn after_run(text: &[u8]) -> Vec<i32> {
    let (count, processors) = check(text).expect("a good text");
    let mut cells = vec![0; count];
    load(text, &mut cells).expect("as many cells");
    let mut workspace = vec![0; workspace_needed(count, processors)];
    run(text, &mut cells, &mut workspace, &[]).expect("no fault");
    cells
}
