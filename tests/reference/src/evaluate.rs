//! RULES 2.5 and 3.3, one iteration of the loop: statements in order, expressions from the left. What an access does
//! is left to a [`Memory`], of the serial run or of a step.

use crate::integers::{divide_rounded, divide_truncated};
use crate::program::{Action, Place, Program, Statement};
use crate::syntax::{
    Condition, Expression, Factor, Joint, Named, Operation, Relation, Scaling, Term, Update,
};
use crate::Refusal;

/// What cell accesses do. Each may also say that the iteration pauses here.
pub trait Memory {
    /// An ordinary read.
    fn read(&mut self, cell: usize) -> Result<i32, Paused>;
    /// An ordinary write.
    fn write(&mut self, cell: usize, value: i32) -> Result<(), Paused>;
    /// "one access that updates"
    fn update(&mut self, cell: usize, operation: Operation, operand: i32) -> Result<(), Paused>;
}

/// The iteration goes no further in this step.
#[derive(Debug, Clone, Copy, PartialEq, Eq)]
pub struct Paused;

/// Why an iteration did not come to its end.
#[derive(Debug, Clone, Copy, PartialEq, Eq)]
pub enum Stop {
    /// The step is over.
    Paused,
    /// A fault: its number (9 or 10), the line of the statement or `if`, and v (READING 91).
    Fault(Refusal),
}

/// Why an expression has no value.
enum NoValue {
    Paused,
    /// "subscript outside its array", or outside its own bound of a grid
    Subscript,
    /// "zero divisor"
    Divisor,
}

impl From<Paused> for NoValue {
    fn from(_: Paused) -> Self {
        NoValue::Paused
    }
}

/// Runs one iteration, for which v has the value `variable`.
pub fn run_iteration<M: Memory>(
    program: &Program,
    variable: i32,
    memory: &mut M,
) -> Result<(), Stop> {
    let mut iteration = Iteration {
        program,
        variable,
        memory,
    };
    iteration.block(&program.body)
}

struct Iteration<'a, M> {
    program: &'a Program,
    variable: i32,
    memory: &'a mut M,
}

/// Statements.
impl<M: Memory> Iteration<'_, M> {
    fn block(&mut self, statements: &[Statement]) -> Result<(), Stop> {
        statements
            .iter()
            .try_for_each(|statement| self.statement(statement))
    }

    fn statement(&mut self, statement: &Statement) -> Result<(), Stop> {
        let done = match &statement.action {
            Action::Assign { target, value } => self.assign(target, value),
            Action::Update { target, update, .. } => self.update(target, update),
            Action::If {
                condition,
                then,
                otherwise,
            } => match self.condition(condition) {
                Ok(true) => return self.block(then),
                Ok(false) => return self.block(otherwise.as_deref().unwrap_or(&[])),
                Err(why) => Err(why),
            },
        };
        done.map_err(|why| self.stop(why, statement.line))
    }

    fn stop(&self, why: NoValue, line: u32) -> Stop {
        let number = match why {
            NoValue::Paused => return Stop::Paused,
            NoValue::Subscript => 9,
            NoValue::Divisor => 10,
        };
        Stop::Fault(Refusal {
            number,
            line,
            v: self.variable,
        })
    }

    /// "The right side is worked out first, from the left, then the left subscript, then the
    /// write." (READING 58, 59)
    fn assign(&mut self, target: &Named<Place>, value: &Expression<Place>) -> Result<(), NoValue> {
        let value = self.expression(value)?;
        let cell = self.cell(target)?;
        Ok(self.memory.write(cell, value)?)
    }

    /// "Its subscript comes first, then the remainder, then one access that updates." (READING 66,
    /// 67, 68; P6.5)
    fn update(&mut self, target: &Named<Place>, update: &Update<Place>) -> Result<(), NoValue> {
        let cell = self.cell(target)?;
        let operand = self.expression(&update.operand)?;
        let operation = update.words.operation();
        Ok(self.memory.update(cell, operation, operand)?)
    }

    /// "`if` works out its left e, then its right, then goes by rel."
    fn condition(&mut self, condition: &Condition<Place>) -> Result<bool, NoValue> {
        let left = self.expression(&condition.left)?;
        let right = self.expression(&condition.right)?;
        Ok(match condition.relation {
            Relation::Equal => left == right,
            Relation::Unequal => left != right,
            Relation::Less => left < right,
            Relation::LessOrEqual => left <= right,
            Relation::Greater => left > right,
            Relation::GreaterOrEqual => left >= right,
        })
    }
}

/// Expressions. "Sum, difference, product and negation wrap at 32 bits, two's complement."
impl<M: Memory> Iteration<'_, M> {
    fn expression(&mut self, expression: &Expression<Place>) -> Result<i32, NoValue> {
        let mut value = self.term(&expression.first)?;
        if expression.negative {
            value = value.wrapping_neg();
        }
        for (joint, term) in &expression.others {
            let right = self.term(term)?;
            value = match joint {
                Joint::Plus => value.wrapping_add(right),
                Joint::Minus => value.wrapping_sub(right),
            };
        }
        Ok(value)
    }

    /// "a divisor [is tested] against zero, as soon as it is worked out" (READING 56)
    fn term(&mut self, term: &Term<Place>) -> Result<i32, NoValue> {
        let mut value = self.factor(&term.first)?;
        for (scaling, factor) in &term.others {
            let right = self.factor(factor)?;
            value = match scaling {
                Scaling::Times => value.wrapping_mul(right),
                Scaling::Over => divide_truncated(value, right).ok_or(NoValue::Divisor)?,
            };
        }
        Ok(value)
    }

    fn factor(&mut self, factor: &Factor<Place>) -> Result<i32, NoValue> {
        match factor {
            Factor::Literal(value) => {
                Ok(i32::try_from(*value).expect("a literal within its limit"))
            }
            Factor::Named(named) if named.name == Place::Variable => Ok(self.variable),
            Factor::Named(named) => {
                let cell = self.cell(named)?;
                Ok(self.memory.read(cell)?)
            }
            Factor::Rdiv(dividend, divisor) => {
                let dividend = self.expression(dividend)?;
                let divisor = self.expression(divisor)?;
                divide_rounded(dividend, divisor).ok_or(NoValue::Divisor)
            }
            // "left first" (P6.8)
            Factor::Max(one, other) => {
                let one = self.expression(one)?;
                let other = self.expression(other)?;
                Ok(one.max(other))
            }
            Factor::Brackets(inner) => self.expression(inner),
        }
    }

    /// The cell a reference stands for. "A subscript is tested against its array [...] as soon as
    /// it is worked out" (READING 57), on the wrapped value (READING 60); arrays are "numbered
    /// from 1". Document 02, Point 9: "Both subscripts are worked out, then each is tested against its own
    /// bound", the first one first (P9.4); "stored in Fortran's element order, first subscript fastest" (P9.5).
    fn cell(&mut self, named: &Named<Place>) -> Result<usize, NoValue> {
        let Place::Name(index) = named.name else {
            unreachable!("v is no cell")
        };
        let program = self.program;
        let declared = &program.names[index];
        let place = match (&named.subscripts[..], &declared.extents[..]) {
            ([], []) => 0,
            ([subscript], [length]) => from_0(self.expression(subscript)?, *length)?,
            ([row, column], [rows, columns]) => {
                let (row, column) = (self.expression(row)?, self.expression(column)?);
                let (row, column) = (from_0(row, *rows)?, from_0(column, *columns)?);
                row + column * rows
            }
            _ => unreachable!("as many subscripts as the name takes"),
        };
        Ok(declared.first_cell + place)
    }
}

/// A subscript from 1 to its bound, counted from 0.
fn from_0(subscript: i32, bound: usize) -> Result<usize, NoValue> {
    match usize::try_from(subscript) {
        Ok(number) if (1..=bound).contains(&number) => Ok(number - 1),
        _ => Err(NoValue::Subscript),
    }
}
