//! Compares the product, linked as C links it, with the reference.
//!
//!     compare              every group of texts
//!     compare GROUP..      some of them: tables, lent, run-table, look-table, plan-table,
//!                          name-table, print-table, grid-table, runs, looks, plans, names, prints,
//!                          grids, refusals, quotient, rdiv, fortran, loops, damaged, noise
//!     compare stack KIB    how much stack the services need; whether it is at most so much
//!     compare text FILE    what both answer for one text, on its own data
//!     compare explain PROGRAM [FILE..]
//!                          what the example explain says of these texts and of drawn loops
//!     compare read-back PROGRAM [FILE..]
//!                          what the program lrpd prints of these texts and of drawn ones, read back
//!
//! The exit status is 0 only if nothing differs.

mod division;
mod explain;
mod fortran;
mod grids;
mod groups;
mod names;
mod one;
mod plans;
mod prints;
mod product;
mod read_back;
mod runs;
mod services;
mod stack;
mod tally;

use groups::GROUPS;
use std::process::ExitCode;
use std::thread;

/// Both readers are recursive: 2,048 bytes can hold nearly as many brackets.
const STACK: usize = 256 << 20;

fn main() -> ExitCode {
    let words: Vec<String> = std::env::args().skip(1).collect();
    let words: Vec<&str> = words.iter().map(String::as_str).collect();
    let good = match words[..] {
        ["stack-child", index] => index.parse().is_ok_and(stack::child),
        ["stack", limit] => limit.parse().is_ok_and(stack::measure),
        ["explain", program, ref files @ ..] => on_a_big_stack({
            let program = program.to_string();
            let files: Vec<String> = files.iter().map(|file| file.to_string()).collect();
            move || explain::explained(&program, &files)
        }),
        ["read-back", program, ref files @ ..] => on_a_big_stack({
            let program = program.to_string();
            let files: Vec<String> = files.iter().map(|file| file.to_string()).collect();
            move || read_back::compared(&program, &files)
        }),
        ["text", file] => on_a_big_stack({
            let file = file.to_string();
            move || one::show(&file)
        }),
        _ => on_a_big_stack({
            let names: Vec<String> = words.iter().map(|word| word.to_string()).collect();
            move || compare(&names)
        }),
    };
    if good {
        ExitCode::SUCCESS
    } else {
        ExitCode::FAILURE
    }
}

fn on_a_big_stack(work: impl FnOnce() -> bool + Send + 'static) -> bool {
    let thread = thread::Builder::new().stack_size(STACK).spawn(work);
    thread.is_ok_and(|thread| thread.join().unwrap_or(false))
}

/// Compares the groups of these names, or all.
fn compare(names: &[String]) -> bool {
    let known = |name: &String| GROUPS.iter().any(|(group, _)| group == name);
    if let Some(name) = names.iter().find(|name| !known(name)) {
        println!("no group has the name {name}");
        return false;
    }
    let wanted = |group: &str| names.is_empty() || names.iter().any(|name| name == group);
    let mut good = true;
    for (_, run) in GROUPS.iter().filter(|(group, _)| wanted(group)) {
        good &= run();
    }
    good
}
