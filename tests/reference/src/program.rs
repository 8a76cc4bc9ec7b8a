//! A loop that has been read: what its names, bounds and statements stand for.

use crate::syntax::{Class, Condition, Expression, Grouping, Named, Update, Words};

/// A loop without fault of form, name or limit.
#[derive(Debug, Clone, PartialEq, Eq)]
pub struct Program {
    /// The names in declared order.
    pub names: Vec<Declared>,
    /// P, "the processors".
    pub processors: u32,
    /// What the test takes as one iteration.
    pub grouping: Grouping,
    /// v, the loop's variable.
    pub variable: String,
    /// m of `do v = m, n`.
    pub first: i32,
    /// n of `do v = m, n`.
    pub last: i32,
    /// The statements of the loop.
    pub body: Vec<Statement>,
}

/// A declared name.
#[derive(Debug, Clone, PartialEq, Eq)]
pub struct Declared {
    /// The name in lower case.
    pub name: String,
    /// The number of its first cell, from 0, "in declared order".
    pub first_cell: usize,
    /// The bounds of the subscripts that it takes: none of a single cell, the length of an array, rows and columns
    /// of a grid. `a(1)` is an array too (READING 31), and `g(1, 1)` a grid (P9.2).
    pub extents: Vec<usize>,
    /// How its cells are treated.
    pub class: Class,
    /// The values of its data line, if it has one.
    pub data: Option<Vec<i32>>,
}

impl Declared {
    /// How many cells it has.
    pub fn length(&self) -> usize {
        self.extents.iter().product()
    }

    /// The rows and columns of a grid; nothing else has any (P9.2).
    pub fn grid(&self) -> Option<(usize, usize)> {
        match self.extents[..] {
            [rows, columns] => Some((rows, columns)),
            _ => None,
        }
    }
}

/// What a name in a statement stands for.
#[derive(Debug, Clone, Copy, PartialEq, Eq)]
pub enum Place {
    /// v
    Variable,
    /// The declared name with this index.
    Name(usize),
}

/// A statement and the line it stands on (for `if`, the line of `if`).
#[derive(Debug, Clone, PartialEq, Eq)]
pub struct Statement {
    /// Its line, from 1.
    pub line: u32,
    /// What it does.
    pub action: Action,
}

/// What a statement does.
#[derive(Debug, Clone, PartialEq, Eq)]
pub enum Action {
    /// An ordinary assignment.
    Assign {
        target: Named<Place>,
        value: Expression<Place>,
    },
    /// An update, and its right side as an ordinary assignment would work it out.
    Update {
        target: Named<Place>,
        update: Update<Place>,
        value: Expression<Place>,
    },
    /// `if (e rel e) then`, with `else` or without.
    If {
        condition: Condition<Place>,
        then: Vec<Statement>,
        otherwise: Option<Vec<Statement>>,
    },
}

impl Program {
    /// N, "the number of cells".
    pub fn cell_count(&self) -> usize {
        self.names.iter().map(Declared::length).sum()
    }

    /// n, "the iterations". "If n < m there are no iterations."
    pub fn iteration_count(&self) -> u32 {
        let count = i64::from(self.last) - i64::from(self.first) + 1;
        u32::try_from(count.max(0)).expect("iterations within their limit")
    }

    /// "v being m + index"
    pub fn variable_at(&self, iteration: u32) -> i32 {
        i32::try_from(i64::from(self.first) + i64::from(iteration)).expect("v between m and n")
    }

    /// The loop as it would be read if these words made no update.
    pub fn without_updates(&self, words: &[Words]) -> Program {
        Program {
            body: without_updates(&self.body, words),
            ..self.clone()
        }
    }

    /// The class of each cell.
    pub fn cell_classes(&self) -> Vec<Class> {
        self.names
            .iter()
            .flat_map(|declared| std::iter::repeat_n(declared.class, declared.length()))
            .collect()
    }

    /// The cells as the data fill them. "Cells without data start at 0." (READING 53)
    pub fn data_cells(&self) -> Vec<i32> {
        self.names
            .iter()
            .flat_map(|declared| match &declared.data {
                Some(values) => values.clone(),
                None => vec![0; declared.length()],
            })
            .collect()
    }
}

fn without_updates(body: &[Statement], words: &[Words]) -> Vec<Statement> {
    let without = |statement: &Statement| Statement {
        line: statement.line,
        action: match &statement.action {
            Action::Update {
                target,
                update,
                value,
            } if words.contains(&update.words) => Action::Assign {
                target: target.clone(),
                value: value.clone(),
            },
            Action::If {
                condition,
                then,
                otherwise,
            } => Action::If {
                condition: condition.clone(),
                then: without_updates(then, words),
                otherwise: otherwise
                    .as_deref()
                    .map(|otherwise| without_updates(otherwise, words)),
            },
            action => action.clone(),
        },
    };
    body.iter().map(without).collect()
}
