//! A loop in postfix order, and its serial run: cells in place, no marks, no counts.

use std::cmp::Ordering;

#[derive(Debug, Clone, Copy, PartialEq, Eq)]
pub enum Relation {
    Equal,
    Unequal,
    Less,
    LessOrEqual,
    Greater,
    GreaterOrEqual,
}

/// Operands are taken from the stack of pending values, results put there.
#[derive(Debug, Clone, Copy)]
pub enum Operation {
    Literal(i32),
    Variable,
    /// Reads a single cell.
    Cell(u32),
    /// Reads a cell of an array, given its first cell and its length, by the subscript.
    Element(u32, i32),
    Negative,
    Sum,
    Difference,
    Product,
    Quotient,
    Rounded,
    /// Writes a single cell.
    Store(u32),
    /// Writes a cell of an array; the subscript lies above the value.
    StoreElement(u32, i32),
    /// Goes on at the place given unless the relation holds.
    Unless(Relation, u32),
    /// Goes on at the place given.
    Jump(u32),
}

pub struct Loop {
    pub cells: usize,
    pub first: i32,
    pub last: i32,
    pub code: Vec<Operation>,
}

#[derive(Debug, Clone, Copy, PartialEq, Eq)]
pub enum Fault {
    Subscript,
    Divisor,
}

/// The pending values of an iteration.
struct Pending {
    values: [i32; 32],
    depth: usize,
}

impl Pending {
    fn put(&mut self, value: i32) {
        self.values[self.depth] = value;
        self.depth += 1;
    }

    fn take(&mut self) -> i32 {
        self.depth -= 1;
        self.values[self.depth]
    }

    /// Both operands, the left first.
    fn both(&mut self) -> (i32, i32) {
        let right = self.take();
        (self.take(), right)
    }
}

impl Loop {
    /// The serial run.
    #[inline(never)]
    pub fn run(&self, cells: &mut [i32]) -> Result<(), Fault> {
        let mut pending = Pending {
            values: [0; 32],
            depth: 0,
        };
        for variable in self.first..=self.last {
            self.iteration(variable, cells, &mut pending)?;
        }
        Ok(())
    }

    #[inline(always)]
    fn iteration(&self, v: i32, cells: &mut [i32], pending: &mut Pending) -> Result<(), Fault> {
        let mut place = 0;
        while let Some(&operation) = self.code.get(place) {
            place += 1;
            match operation {
                Operation::Literal(value) => pending.put(value),
                Operation::Variable => pending.put(v),
                Operation::Cell(cell) => pending.put(cells[cell as usize]),
                Operation::Element(first, length) => {
                    let cell = element(first, length, pending.take())?;
                    pending.put(cells[cell]);
                }
                Operation::Store(cell) => cells[cell as usize] = pending.take(),
                Operation::StoreElement(first, length) => {
                    let cell = element(first, length, pending.take())?;
                    cells[cell] = pending.take();
                }
                Operation::Unless(relation, other) => {
                    let (left, right) = pending.both();
                    if !relation.holds(left, right) {
                        place = other as usize;
                    }
                }
                Operation::Jump(other) => place = other as usize,
                Operation::Negative => {
                    let value = pending.take();
                    pending.put(value.wrapping_neg());
                }
                Operation::Sum => {
                    let (left, right) = pending.both();
                    pending.put(left.wrapping_add(right));
                }
                Operation::Difference => {
                    let (left, right) = pending.both();
                    pending.put(left.wrapping_sub(right));
                }
                Operation::Product => {
                    let (left, right) = pending.both();
                    pending.put(left.wrapping_mul(right));
                }
                Operation::Quotient => {
                    let (left, right) = pending.both();
                    pending.put(left.wrapping_div(divisor(right)?));
                }
                Operation::Rounded => {
                    let (left, right) = pending.both();
                    pending.put(rounded(left, divisor(right)?));
                }
            }
        }
        Ok(())
    }
}

/// The cell that a subscript names.
fn element(first: u32, length: i32, subscript: i32) -> Result<usize, Fault> {
    if subscript < 1 || subscript > length {
        return Err(Fault::Subscript);
    }
    Ok(first as usize + (subscript - 1) as usize)
}

pub(crate) fn divisor(value: i32) -> Result<i32, Fault> {
    if value == 0 {
        return Err(Fault::Divisor);
    }
    Ok(value)
}

/// The nearest whole number, halves to even.
pub(crate) fn rounded(left: i32, right: i32) -> i32 {
    let (left, right) = (i64::from(left), i64::from(right));
    let sign = if (left < 0) == (right < 0) { 1 } else { -1 };
    let size = left.abs() / right.abs();
    let doubled = 2 * (left.abs() % right.abs());
    let up = match doubled.cmp(&right.abs()) {
        Ordering::Less => 0,
        Ordering::Equal => size % 2,
        Ordering::Greater => 1,
    };
    ((size + up) * sign) as i32
}

impl Relation {
    pub(crate) fn holds(self, left: i32, right: i32) -> bool {
        match self {
            Relation::Equal => left == right,
            Relation::Unequal => left != right,
            Relation::Less => left < right,
            Relation::LessOrEqual => left <= right,
            Relation::Greater => left > right,
            Relation::GreaterOrEqual => left >= right,
        }
    }
}
