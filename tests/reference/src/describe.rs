//! RULES 9.2 b and c: Bounds and Name, two services beside those of the documents, which say what an accepted text
//! declares.

use crate::program::{Declared, Program};
use crate::reader::read;
use crate::syntax::{Class, Grouping, Operation};
use crate::Refusal;

/// What Bounds answers.
#[derive(Debug, Clone, Copy, PartialEq, Eq)]
pub struct Bounds {
    /// m of `do v = m, n`.
    pub from: i32,
    /// n - m + 1. "If n < m there are no iterations."
    pub iterations: u32,
    /// Whether the text has the clause `schedule(static)`.
    pub blocks: bool,
}

/// What Name answers.
#[derive(Debug, Clone, Copy, PartialEq, Eq)]
pub struct NameCells {
    /// The first of its cells, from 0, "in declared order".
    pub first: u32,
    /// How many it has.
    pub cells: u32,
    /// How many subscripts it takes: none as `z` does, one as `a(n)`, two as a grid.
    pub subscripts: u32,
    /// The number of its clause.
    pub clause: u32,
    /// The bound of its first subscript, if it takes one: an array's length, the rows of a grid; else 0.
    pub rows: u32,
    /// The bound of its second subscript, if it takes two; else 0.
    pub columns: u32,
}

/// Bounds takes the text. It refuses as Check does.
pub fn bounds(text: &[u8]) -> Result<Bounds, Refusal> {
    let program = read(text)?;
    Ok(Bounds {
        from: program.first,
        iterations: program.iteration_count(),
        blocks: program.grouping == Grouping::Blocks,
    })
}

/// Name takes the text and bytes that spell a name. It refuses as Check does, then with number 3 and line 0.
pub fn name(text: &[u8], asked: &[u8]) -> Result<NameCells, Refusal> {
    read(text)?.cells_of(asked)
}

impl Program {
    /// The cells of the declared name that these bytes spell: "Upper case reads as lower case." v is
    /// undeclared, and a blank is no part of a name.
    pub fn cells_of(&self, asked: &[u8]) -> Result<NameCells, Refusal> {
        let declared = self.declared(asked).ok_or(Refusal::of_text(3, 0))?;
        let extent = |place: usize| {
            declared
                .extents
                .get(place)
                .map_or(0, |&extent| extent as u32)
        };
        Ok(NameCells {
            first: declared.first_cell as u32,
            cells: declared.length() as u32,
            subscripts: declared.extents.len() as u32,
            clause: number_of(declared.class),
            rows: extent(0),
            columns: extent(1),
        })
    }

    /// The declared name that these bytes spell, all of them.
    pub(crate) fn declared(&self, asked: &[u8]) -> Option<&Declared> {
        let spelt = asked.to_ascii_lowercase();
        let mut names = self.names.iter();
        names.find(|declared| declared.name.as_bytes() == spelt)
    }
}

/// The number of a clause. "A name in no clause is shared."
fn number_of(class: Class) -> u32 {
    match class {
        Class::Shared => 0,
        Class::Lastprivate => 1,
        Class::Reduction(Operation::Sum) => 2,
        Class::CopyIn => 3,
        Class::Reduction(Operation::Product) => 4,
        Class::Reduction(Operation::Maximum) => 5,
    }
}
