//! The product as C calls it (include/lrpd.h), behind functions with the reference's signatures. All
//! foreign calls of the tests stand here.

use reference::{Answer, Bounds, NameCells, Refusal};

#[repr(C)]
struct CheckAnswer {
    number: u32,
    line: u32,
    v: i32,
    cells: u32,
    processors: u32,
}

#[repr(C)]
struct DoneAnswer {
    number: u32,
    line: u32,
    v: i32,
}

#[repr(C)]
struct RunAnswer {
    number: u32,
    line: u32,
    v: i32,
    rerun: u32,
    pairs: u32,
    cells: u32,
}

#[repr(C)]
struct PlanAnswer {
    number: u32,
    line: u32,
    v: i32,
    stages: u32,
}

#[repr(C)]
struct PrintAnswer {
    number: u32,
    line: u32,
    v: i32,
    length: u32,
}

#[repr(C)]
struct BoundsAnswer {
    number: u32,
    line: u32,
    v: i32,
    from: i32,
    iterations: u32,
    blocks: u32,
}

#[repr(C)]
struct NameAnswer {
    number: u32,
    line: u32,
    v: i32,
    first: u32,
    cells: u32,
    subscripts: u32,
    clause: u32,
    rows: u32,
    columns: u32,
}

extern "C" {
    fn lrpd_check(text: *const u8, length: usize) -> CheckAnswer;
    fn lrpd_bounds(text: *const u8, length: usize) -> BoundsAnswer;
    fn lrpd_name(text: *const u8, length: usize, name: *const u8, name_length: usize)
        -> NameAnswer;
    fn lrpd_load(text: *const u8, length: usize, cells: *mut i32, count: usize) -> DoneAnswer;
    fn lrpd_look(
        text: *const u8,
        length: usize,
        cells: *const i32,
        count: usize,
        workspace: *mut u32,
        words: usize,
        schedule: *const u8,
        steps: usize,
        view: *mut u32,
        shown: usize,
    ) -> DoneAnswer;
    fn lrpd_run(
        text: *const u8,
        length: usize,
        cells: *mut i32,
        count: usize,
        workspace: *mut u32,
        words: usize,
        schedule: *const u8,
        steps: usize,
    ) -> RunAnswer;
    fn lrpd_plan(
        text: *const u8,
        length: usize,
        cells: *const i32,
        count: usize,
        workspace: *mut u32,
        words: usize,
        list: *mut u16,
        room: usize,
    ) -> PlanAnswer;
    fn lrpd_print(text: *const u8, length: usize, bytes: *mut u8, room: usize) -> PrintAnswer;
    fn lrpd_rows(
        text: *const u8,
        length: usize,
        cells: *mut i32,
        count: usize,
        name: *const u8,
        name_length: usize,
    ) -> DoneAnswer;
    fn lrpd_columns(
        text: *const u8,
        length: usize,
        cells: *mut i32,
        count: usize,
        name: *const u8,
        name_length: usize,
    ) -> DoneAnswer;
}

/// Check: N and P.
pub fn check(text: &[u8]) -> Result<(usize, usize), Refusal> {
    // SAFETY: the pointer and the length are one slice's, which is only read.
    let answer = unsafe { lrpd_check(text.as_ptr(), text.len()) };
    let sizes = (answer.cells as usize, answer.processors as usize);
    let refused = refusal(answer.number, answer.line, answer.v);
    if refused.is_err() {
        assert_eq!(sizes, (0, 0), "sizes beside a refusal");
    }
    refused.map(|()| sizes)
}

/// Bounds: where v begins, how many iterations there are, and whether blocks are tested.
pub fn bounds(text: &[u8]) -> Result<Bounds, Refusal> {
    // SAFETY: the pointer and the length are one slice's, which is only read.
    let answer = unsafe { lrpd_bounds(text.as_ptr(), text.len()) };
    assert!(answer.blocks <= 1, "blocks is 0 or 1");
    let refused = refusal(answer.number, answer.line, answer.v);
    if refused.is_err() {
        let numbers = (answer.from, answer.iterations, answer.blocks);
        assert_eq!(numbers, (0, 0, 0), "bounds beside a refusal");
    }
    refused.map(|()| Bounds {
        from: answer.from,
        iterations: answer.iterations,
        blocks: answer.blocks == 1,
    })
}

/// Name: the cells, the extents and the clause of the name that the bytes spell.
pub fn name(text: &[u8], asked: &[u8]) -> Result<NameCells, Refusal> {
    // SAFETY: each pointer and length are one slice's, which is only read.
    let answer = unsafe { lrpd_name(text.as_ptr(), text.len(), asked.as_ptr(), asked.len()) };
    let refused = refusal(answer.number, answer.line, answer.v);
    if refused.is_err() {
        let numbers = [answer.first, answer.cells, answer.subscripts, answer.clause];
        assert_eq!(numbers, [0; 4], "cells beside a refusal");
        let extents = (answer.rows, answer.columns);
        assert_eq!(extents, (0, 0), "extents beside a refusal");
    }
    refused.map(|()| NameCells {
        first: answer.first,
        cells: answer.cells,
        subscripts: answer.subscripts,
        clause: answer.clause,
        rows: answer.rows,
        columns: answer.columns,
    })
}

/// Load: fills the cells.
pub fn load(text: &[u8], cells: &mut [i32]) -> Result<(), Refusal> {
    // SAFETY: each pointer and length are one slice's; the cells are lent alone.
    let answer = unsafe { lrpd_load(text.as_ptr(), text.len(), cells.as_mut_ptr(), cells.len()) };
    refusal(answer.number, answer.line, answer.v)
}

/// Look: the view after the schedule's bytes.
pub fn look(
    text: &[u8],
    cells: &[i32],
    workspace: &mut [u32],
    schedule: &[u8],
    view: &mut [u32],
) -> Result<(), Refusal> {
    // SAFETY: each pointer and length are one slice's; the workspace and the view are lent alone.
    let answer = unsafe {
        lrpd_look(
            text.as_ptr(),
            text.len(),
            cells.as_ptr(),
            cells.len(),
            workspace.as_mut_ptr(),
            workspace.len(),
            schedule.as_ptr(),
            schedule.len(),
            view.as_mut_ptr(),
            view.len(),
        )
    };
    refusal(answer.number, answer.line, answer.v)
}

/// Run: passed or rerun, and the write counts.
pub fn run(
    text: &[u8],
    cells: &mut [i32],
    workspace: &mut [u32],
    schedule: &[u8],
) -> Result<Answer, Refusal> {
    // SAFETY: each pointer and length are one slice's; the cells and the workspace are lent alone.
    let answer = unsafe {
        lrpd_run(
            text.as_ptr(),
            text.len(),
            cells.as_mut_ptr(),
            cells.len(),
            workspace.as_mut_ptr(),
            workspace.len(),
            schedule.as_ptr(),
            schedule.len(),
        )
    };
    let ran = Answer {
        passed: answer.rerun == 0,
        pairs: answer.pairs,
        cells: answer.cells,
    };
    assert!(answer.rerun <= 1, "rerun is 0 or 1");
    let refused = refusal(answer.number, answer.line, answer.v);
    if refused.is_err() {
        let numbers = (answer.rerun, answer.pairs, answer.cells);
        assert_eq!(numbers, (0, 0, 0), "counts beside a refusal");
    }
    refused.map(|()| ran)
}

/// Plan: the number of stages; each iteration's goes to the list.
pub fn plan(
    text: &[u8],
    cells: &[i32],
    workspace: &mut [u32],
    list: &mut [u16],
) -> Result<u32, Refusal> {
    // SAFETY: each pointer and length are one slice's; the workspace and the list are lent alone.
    let answer = unsafe {
        lrpd_plan(
            text.as_ptr(),
            text.len(),
            cells.as_ptr(),
            cells.len(),
            workspace.as_mut_ptr(),
            workspace.len(),
            list.as_mut_ptr(),
            list.len(),
        )
    };
    let refused = refusal(answer.number, answer.line, answer.v);
    if refused.is_err() {
        assert_eq!(answer.stages, 0, "stages beside a refusal");
    }
    refused.map(|()| answer.stages)
}

/// Print: the length of the printed form, which goes to the bytes.
pub fn print(text: &[u8], bytes: &mut [u8]) -> Result<u32, Refusal> {
    // SAFETY: each pointer and length are one slice's; the bytes are lent alone.
    let answer = unsafe { lrpd_print(text.as_ptr(), text.len(), bytes.as_mut_ptr(), bytes.len()) };
    let refused = refusal(answer.number, answer.line, answer.v);
    if refused.is_err() {
        assert_eq!(answer.length, 0, "a length beside a refusal");
    }
    refused.map(|()| answer.length)
}

/// Rows: the cells of the grid that the bytes spell into row order.
pub fn rows(text: &[u8], cells: &mut [i32], name: &[u8]) -> Result<(), Refusal> {
    // SAFETY: each pointer and length are one slice's; the cells are lent alone.
    let answer = unsafe {
        lrpd_rows(
            text.as_ptr(),
            text.len(),
            cells.as_mut_ptr(),
            cells.len(),
            name.as_ptr(),
            name.len(),
        )
    };
    refusal(answer.number, answer.line, answer.v)
}

/// Columns: and back.
pub fn columns(text: &[u8], cells: &mut [i32], name: &[u8]) -> Result<(), Refusal> {
    // SAFETY: each pointer and length are one slice's; the cells are lent alone.
    let answer = unsafe {
        lrpd_columns(
            text.as_ptr(),
            text.len(),
            cells.as_mut_ptr(),
            cells.len(),
            name.as_ptr(),
            name.len(),
        )
    };
    refusal(answer.number, answer.line, answer.v)
}

/// Number 0 is no refusal, and then line and v are 0.
fn refusal(number: u32, line: u32, v: i32) -> Result<(), Refusal> {
    if number == 0 {
        assert_eq!((line, v), (0, 0), "line and v without a refusal");
        return Ok(());
    }
    Err(Refusal { number, line, v })
}
