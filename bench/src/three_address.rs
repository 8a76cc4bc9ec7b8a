//! A loop in three-address code, and its serial run over one memory: stronger than postfix order, for an
//! operand is a place in the memory and takes no operation of its own.

use crate::postfix::{divisor, rounded, Fault, Loop, Operation, Relation};
use std::iter::Peekable;
use std::ops::{Index, IndexMut};
use std::slice::Iter;

/// The cells come first, then the variable, the pending values and the literals.
struct Memory([i32; PLACES]);

/// Room for 4,096 cells and what 2,048 bytes of text can ask for besides.
const PLACES: usize = 8_192;

type Place = u16;

/// At most so many values are pending at a time.
const PENDING: Place = 32;

/// Where there is a result, its place comes first, then the operands' places. Sixteen bytes each, so that a
/// shift finds one.
#[derive(Clone, Copy)]
#[repr(align(16))]
enum Instruction {
    Copy(Place, Place),
    Negative(Place, Place),
    Sum(Place, Place, Place),
    Difference(Place, Place, Place),
    Product(Place, Place, Place),
    Quotient(Place, Place, Place),
    Rounded(Place, Place, Place),
    /// Reads a cell of an array: the result, the subscript, the first cell and the length.
    Element(Place, Place, Place, u16),
    /// Writes a cell of an array: the value, the subscript, the first cell and the length.
    StoreElement(Place, Place, Place, u16),
    /// Goes on at the instruction given unless the relation holds.
    Unless(Relation, Place, Place, u32),
    /// Goes on at the instruction given.
    Jump(u32),
}

pub struct Program {
    first: i32,
    last: i32,
    variable: Place,
    code: Vec<Instruction>,
    memory: Box<Memory>,
}

/// The loop in three-address code.
pub fn prepare(read: &Loop) -> Program {
    let variable = read.cells as Place;
    let mut writer = Writer {
        operations: read.code.iter().peekable(),
        operands: Vec::new(),
        variable,
        literal: variable + 1 + PENDING,
        code: Vec::new(),
        memory: Box::new(Memory([0; PLACES])),
    };
    // Jumps are written with the operation they go to, which then becomes its first instruction.
    let mut starts = Vec::new();
    while let Some(&operation) = writer.operations.next() {
        starts.push(writer.code.len() as u32);
        writer.write(operation);
    }
    starts.push(writer.code.len() as u32);
    for instruction in &mut writer.code {
        if let Instruction::Unless(.., other) | Instruction::Jump(other) = instruction {
            *other = starts[*other as usize];
        }
    }
    Program {
        first: read.first,
        last: read.last,
        variable,
        code: writer.code,
        memory: writer.memory,
    }
}

struct Writer<'l> {
    /// The operations that are left.
    operations: Peekable<Iter<'l, Operation>>,
    /// Where the pending values stand.
    operands: Vec<Place>,
    variable: Place,
    /// The place of the next literal.
    literal: Place,
    code: Vec<Instruction>,
    memory: Box<Memory>,
}

impl Writer<'_> {
    fn write(&mut self, operation: Operation) {
        match operation {
            Operation::Literal(value) => {
                assert!(usize::from(self.literal) < PLACES);
                self.memory[self.literal] = value;
                self.operands.push(self.literal);
                self.literal += 1;
            }
            Operation::Variable => self.operands.push(self.variable),
            Operation::Cell(cell) => self.operands.push(cell as Place),
            Operation::Element(first, length) => {
                let subscript = self.take();
                let to = self.result();
                let (first, length) = (first as Place, length as u16);
                self.code
                    .push(Instruction::Element(to, subscript, first, length));
            }
            Operation::Negative => {
                let value = self.take();
                let to = self.result();
                self.code.push(Instruction::Negative(to, value));
            }
            Operation::Sum => self.two(Instruction::Sum),
            Operation::Difference => self.two(Instruction::Difference),
            Operation::Product => self.two(Instruction::Product),
            Operation::Quotient => self.two(Instruction::Quotient),
            Operation::Rounded => self.two(Instruction::Rounded),
            Operation::Store(cell) => {
                let (value, to) = (self.take(), cell as Place);
                if value != to {
                    self.code.push(Instruction::Copy(to, value));
                }
            }
            Operation::StoreElement(first, length) => {
                let subscript = self.take();
                let value = self.take();
                let (first, length) = (first as Place, length as u16);
                self.code
                    .push(Instruction::StoreElement(value, subscript, first, length));
            }
            Operation::Unless(relation, other) => {
                let right = self.take();
                let left = self.take();
                self.code
                    .push(Instruction::Unless(relation, left, right, other));
            }
            Operation::Jump(other) => self.code.push(Instruction::Jump(other)),
        }
    }

    /// An operation with two operands.
    fn two(&mut self, instruction: fn(Place, Place, Place) -> Instruction) {
        let right = self.take();
        let left = self.take();
        let to = self.result();
        self.code.push(instruction(to, left, right));
    }

    fn take(&mut self) -> Place {
        self.operands.pop().expect("an operand")
    }

    /// The place of a result: the cell that is written with it, or that of a pending value.
    fn result(&mut self) -> Place {
        let depth = self.operands.len() as Place;
        assert!(depth < PENDING);
        let to = match self.operations.peek() {
            Some(&&Operation::Store(cell)) => cell as Place,
            _ => self.variable + 1 + depth,
        };
        self.operands.push(to);
        to
    }
}

impl Program {
    /// The serial run. The cells are copied in and out, after a fault too.
    #[inline(never)]
    pub fn run(&mut self, cells: &mut [i32]) -> Result<(), Fault> {
        self.memory.0[..cells.len()].copy_from_slice(cells);
        let outcome = self.iterations();
        cells.copy_from_slice(&self.memory.0[..cells.len()]);
        outcome
    }

    #[inline(always)]
    fn iterations(&mut self) -> Result<(), Fault> {
        for variable in self.first..=self.last {
            self.memory[self.variable] = variable;
            iteration(&self.code, &mut self.memory)?;
        }
        Ok(())
    }
}

#[inline(always)]
fn iteration(code: &[Instruction], memory: &mut Memory) -> Result<(), Fault> {
    let mut place = 0;
    while let Some(instruction) = code.get(place) {
        place += 1;
        match *instruction {
            Instruction::Copy(to, value) => memory[to] = memory[value],
            Instruction::Negative(to, value) => memory[to] = memory[value].wrapping_neg(),
            Instruction::Sum(to, left, right) => {
                memory[to] = memory[left].wrapping_add(memory[right]);
            }
            Instruction::Difference(to, left, right) => {
                memory[to] = memory[left].wrapping_sub(memory[right]);
            }
            Instruction::Product(to, left, right) => {
                memory[to] = memory[left].wrapping_mul(memory[right]);
            }
            Instruction::Quotient(to, left, right) => {
                memory[to] = memory[left].wrapping_div(divisor(memory[right])?);
            }
            Instruction::Rounded(to, left, right) => {
                memory[to] = rounded(memory[left], divisor(memory[right])?);
            }
            Instruction::Element(to, subscript, first, length) => {
                memory[to] = memory[element(first, length, memory[subscript])?];
            }
            Instruction::StoreElement(value, subscript, first, length) => {
                let cell = element(first, length, memory[subscript])?;
                memory[cell] = memory[value];
            }
            Instruction::Unless(relation, left, right, other) => {
                if !relation.holds(memory[left], memory[right]) {
                    place = other as usize;
                }
            }
            Instruction::Jump(other) => place = other as usize,
        }
    }
    Ok(())
}

/// The place of the cell that a subscript names.
fn element(first: Place, length: u16, subscript: i32) -> Result<Place, Fault> {
    let offset = (subscript as u32).wrapping_sub(1);
    if offset >= u32::from(length) {
        return Err(Fault::Subscript);
    }
    Ok(first + offset as Place)
}

/// No place is outside; taking the remainder saves the test.
impl Index<Place> for Memory {
    type Output = i32;

    fn index(&self, place: Place) -> &i32 {
        &self.0[usize::from(place) % PLACES]
    }
}

impl IndexMut<Place> for Memory {
    fn index_mut(&mut self, place: Place) -> &mut i32 {
        &mut self.0[usize::from(place) % PLACES]
    }
}
