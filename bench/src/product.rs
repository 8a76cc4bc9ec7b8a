//! The product's Run and Plan as C calls them (include/lrpd.h).

#[repr(C)]
#[derive(Debug, Clone, Copy, PartialEq, Eq)]
pub struct RunAnswer {
    pub number: u32,
    pub line: u32,
    pub v: i32,
    pub rerun: u32,
    pub pairs: u32,
    pub cells: u32,
}

#[repr(C)]
#[derive(Debug, Clone, Copy, PartialEq, Eq)]
pub struct PlanAnswer {
    pub number: u32,
    pub line: u32,
    pub v: i32,
    pub stages: u32,
}

extern "C" {
    fn lrpd_run(
        text: *const u8,
        length: usize,
        cells: *mut i32,
        count: usize,
        workspace: *mut u32,
        words: usize,
        schedule: *const u8,
        steps: usize,
    ) -> RunAnswer;
    fn lrpd_plan(
        text: *const u8,
        length: usize,
        cells: *const i32,
        count: usize,
        workspace: *mut u32,
        words: usize,
        list: *mut u16,
        room: usize,
    ) -> PlanAnswer;
}

/// Run with an empty schedule.
pub fn run(text: &[u8], cells: &mut [i32], workspace: &mut [u32]) -> RunAnswer {
    let schedule: &[u8] = &[];
    // SAFETY: each pointer and length are one slice's; the cells and the workspace are lent alone.
    unsafe {
        lrpd_run(
            text.as_ptr(),
            text.len(),
            cells.as_mut_ptr(),
            cells.len(),
            workspace.as_mut_ptr(),
            workspace.len(),
            schedule.as_ptr(),
            schedule.len(),
        )
    }
}

/// Plan.
pub fn plan(text: &[u8], cells: &[i32], workspace: &mut [u32], list: &mut [u16]) -> PlanAnswer {
    // SAFETY: each pointer and length are one slice's; the workspace and the list are lent alone.
    unsafe {
        lrpd_plan(
            text.as_ptr(),
            text.len(),
            cells.as_ptr(),
            cells.len(),
            workspace.as_mut_ptr(),
            workspace.len(),
            list.as_mut_ptr(),
            list.len(),
        )
    }
}

/// The words of workspace that Run and Plan ask for.
pub fn workspace_words(cells: usize, processors: usize) -> usize {
    4352 + 64 * processors + cells * (4 + 8 * processors)
}
