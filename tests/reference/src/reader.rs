//! RULES 1.14, the text as a whole: "Number 1 is tested first. Then the first bad line counts, and in it 2
//! before 3 before 4."

use crate::draft::Draft;
use crate::lines::{sort_line, split_lines, Broken, TEXT_LIMIT};
use crate::order::Order;
use crate::parser::parse_line;
use crate::program::Program;
use crate::syntax::Written;
use crate::Refusal;

/// Brackets may nest as deep as 2,048 bytes allow, and must still be read to tell 2 from 4
/// (READING 45). Texts with deeper ones than this are read on a larger stack.
const DEPTH_ON_ANY_STACK: usize = 64;
const LARGE_STACK: usize = 64 << 20;

/// Reads a text, or says why it is refused (1 to 4).
pub fn read(text: &[u8]) -> Result<Program, Refusal> {
    if text.len() > TEXT_LIMIT {
        return Err(Refusal::of_text(1, 0));
    }
    if open_brackets(text) <= DEPTH_ON_ANY_STACK {
        return read_lines(text);
    }
    std::thread::scope(|scope| {
        std::thread::Builder::new()
            .stack_size(LARGE_STACK)
            .spawn_scoped(scope, || read_lines(text))
            .expect("a thread")
            .join()
            .expect("a reader that does not panic")
    })
}

/// The most brackets open together in the bytes of one line.
fn open_brackets(text: &[u8]) -> usize {
    let mut open: usize = 0;
    let mut most = 0;
    for byte in text {
        match byte {
            b'(' => open += 1,
            b')' => open = open.saturating_sub(1),
            b'\n' => open = 0,
            _ => {}
        }
        most = most.max(open);
    }
    most
}

fn read_lines(text: &[u8]) -> Result<Program, Refusal> {
    let lines = split_lines(text);
    let mut order = Order::start();
    let mut draft = Draft::default();
    for (line, number) in lines.iter().zip(1u32..) {
        let last = number as usize == lines.len();
        let written = judge_form(line, &mut order)
            .ok()
            .filter(|_| !last || order.may_end())
            .ok_or(Refusal::of_text(2, number))?;
        if let Some(written) = written {
            judge_rest(&written, number, &draft)?;
            draft.add(number, &written.form);
        }
    }
    Ok(draft.finish())
}

/// The line's own form and its place in the order. The caller adds "an unfinished text at its last
/// line", which is the last counted line (READING 2) and comes before that line's 3 and 4
/// (READING 3).
fn judge_form(line: &[u8], order: &mut Order) -> Result<Option<Written>, Broken> {
    let written = parse_line(&sort_line(line)?)?;
    if let Some(written) = &written {
        order.take(&written.form)?;
    }
    Ok(written)
}

/// "in it 2 before 3 before 4"
fn judge_rest(written: &Written, number: u32, draft: &Draft) -> Result<(), Refusal> {
    if !draft.names_hold(&written.form) {
        Err(Refusal::of_text(3, number))
    } else if !draft.limits_hold(written) {
        Err(Refusal::of_text(4, number))
    } else {
        Ok(())
    }
}
