//! Cases with answers written by hand from documents 01 and 02 and the project's reading of them (entries
//! are named as "READING 44" and "P1.2"; tests/README.md says which section of docs/RULES.md has each), none of
//! them computed.

pub mod arguments;
pub mod blocks;
mod cases;
pub mod copies;
pub mod data;
pub mod declarations;
pub mod directives;
pub mod do_lines;
pub mod forms;
pub mod from_fortran;
pub mod grids;
pub mod limits;
pub mod looks;
pub mod names;
pub mod pairs;
pub mod plans;
pub mod precedence;
pub mod prints;
pub mod reductions;
pub mod runs;
pub mod statements;
pub mod texts;

/// A text and what Check answers.
#[derive(Debug, Clone)]
pub struct TextRow {
    /// What the row shows; for a line in a frame, the line itself.
    pub name: String,
    pub text: Vec<u8>,
    /// N and P, or the number and line of the refusal.
    pub expected: Result<(usize, usize), (u32, u32)>,
}

impl TextRow {
    /// A row whose text is accepted with N and P.
    pub fn good(name: &str, text: impl Into<Vec<u8>>, cells: usize, processors: usize) -> Self {
        TextRow {
            name: name.to_string(),
            text: text.into(),
            expected: Ok((cells, processors)),
        }
    }

    /// A row whose text is refused with a number and a line.
    pub fn bad(name: &str, text: impl Into<Vec<u8>>, number: u32, line: u32) -> Self {
        TextRow {
            name: name.to_string(),
            text: text.into(),
            expected: Err((number, line)),
        }
    }
}

/// All rows that Check answers.
pub fn text_rows() -> Vec<TextRow> {
    let mut rows = texts::rows();
    rows.extend(declarations::rows());
    rows.extend(data::rows());
    rows.extend(directives::rows());
    rows.extend(do_lines::rows());
    rows.extend(statements::rows());
    rows.extend(limits::rows());
    rows.extend(precedence::rows());
    rows.extend(from_fortran::rows());
    rows.extend(grids::text_rows());
    rows
}
