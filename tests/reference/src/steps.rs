//! RULES 4 (document 01, "Steps"): processors that move as a schedule says. An iteration is paused by not
//! keeping it: each step works it out again from its start, giving back the values that the accesses
//! made so far gave, and then makes one access more.

use crate::accesses::{Access, Kind};
use crate::evaluate::{run_iteration, Memory, Paused, Stop};
use crate::groups::group_of;
use crate::program::Program;
use crate::syntax::{Class, Operation};
use crate::Refusal;
use std::ops::Range;

/// The iterations of a processor: "index floor(n × p / P) up to below floor(n × (p + 1) / P)".
pub fn share(iterations: u32, processor: usize, processors: u32) -> Range<u32> {
    let from = |p: u64| (u64::from(iterations) * p / u64::from(processors)) as u32;
    from(processor as u64)..from(processor as u64 + 1)
}

/// The record of one processor.
#[derive(Debug, Clone, PartialEq, Eq)]
pub struct Processor {
    /// The index of the iteration it stands at; when finished, the one after its last.
    pub iteration: u32,
    /// Where its iterations end.
    pub end: u32,
    /// The accesses its present iteration has made.
    pub made: Vec<Access>,
    /// "A fault stops its processor for good."
    pub fault: Option<Refusal>,
}

impl Processor {
    /// It has run all its iterations.
    pub fn is_finished(&self) -> bool {
        self.iteration == self.end
    }

    /// It does nothing any more: "A finished processor does nothing."
    pub fn is_idle(&self) -> bool {
        self.fault.is_some() || self.is_finished()
    }
}

/// How far one move of a processor goes.
#[derive(Debug, Clone, Copy, PartialEq, Eq)]
enum Reach {
    /// "up to and including its next cell access, or ends its iteration if none is left"
    Step,
    /// To the end of its iteration: the same as steps of no one else between.
    Iteration,
}

/// Speculation under way.
#[derive(Debug, Clone)]
pub struct Speculation<'a> {
    pub program: &'a Program,
    /// The class of each cell.
    pub classes: Vec<Class>,
    /// The cells at entry.
    pub entry: &'a [i32],
    /// The cells as they are: "Shared cells are read and written in place."
    pub shared: Vec<i32>,
    /// The record of each processor.
    pub processors: Vec<Processor>,
    /// All accesses in the order made.
    pub accesses: Vec<Access>,
}

impl<'a> Speculation<'a> {
    /// Before any step. A processor without iterations is finished from the start (READING 71).
    pub fn begin(program: &'a Program, entry: &'a [i32]) -> Self {
        let processors = (0..program.processors as usize)
            .map(|p| share(program.iteration_count(), p, program.processors))
            .map(|iterations| Processor {
                iteration: iterations.start,
                end: iterations.end,
                made: Vec::new(),
                fault: None,
            })
            .collect();
        Speculation {
            program,
            classes: program.cell_classes(),
            entry,
            shared: entry.to_vec(),
            processors,
            accesses: Vec::new(),
        }
    }

    /// "A schedule is a list of bytes. In order, each names the processor that takes one step".
    pub fn follow(&mut self, schedule: &[u8]) {
        for &byte in schedule {
            self.advance(usize::from(byte), Reach::Step);
        }
    }

    /// "After the list, processors run to their end in number order."
    pub fn run_on(&mut self) {
        for processor in 0..self.processors.len() {
            while !self.processors[processor].is_idle() {
                self.advance(processor, Reach::Iteration);
            }
        }
    }

    /// The same by single steps; the tests compare the two.
    pub fn run_on_by_steps(&mut self) {
        for processor in 0..self.processors.len() {
            while !self.processors[processor].is_idle() {
                self.advance(processor, Reach::Step);
            }
        }
    }

    /// One move of one processor; nothing if it is finished or stopped (READING 72). The step after
    /// the last access ends the iteration (READING 69), and a fault shows in the step that meets
    /// it, which makes no access (READING 70).
    fn advance(&mut self, processor: usize, reach: Reach) {
        let record = &mut self.processors[processor];
        if record.is_idle() {
            return;
        }
        let mut worker = Worker {
            classes: &self.classes,
            entry: self.entry,
            shared: &mut self.shared,
            accesses: &mut self.accesses,
            iteration: record.iteration,
            group: group_of(self.program, record.iteration),
            made: &mut record.made,
            asked: 0,
            reach,
        };
        let variable = self.program.variable_at(record.iteration);
        match run_iteration(self.program, variable, &mut worker) {
            Ok(()) => {
                record.iteration += 1;
                record.made.clear();
            }
            Err(Stop::Paused) => {}
            Err(Stop::Fault(fault)) => record.fault = Some(fault),
        }
    }
}

/// The memory that one move of one processor works on.
struct Worker<'a> {
    classes: &'a [Class],
    entry: &'a [i32],
    shared: &'a mut [i32],
    accesses: &'a mut Vec<Access>,
    iteration: u32,
    /// The iterations that the test takes as one with this one.
    group: Range<u32>,
    /// The accesses this iteration has made, those of this move included.
    made: &'a mut Vec<Access>,
    /// How many accesses the iteration has asked for since its start.
    asked: usize,
    reach: Reach,
}

impl Worker<'_> {
    /// An access of the iteration: one of those made already, or the next one.
    fn access(&mut self, kind: Kind, cell: usize, given: i32) -> Result<i32, Paused> {
        let place = self.asked;
        self.asked += 1;
        if let Some(made) = self.made.get(place) {
            assert_eq!((made.kind, usize::from(made.cell)), (kind, cell));
            return Ok(made.value);
        }
        let value = match kind {
            Kind::Read => self.look_up(cell),
            Kind::Write => self.store(cell, given),
            // "Updates gather in a sum per processor", or another partial result, taken from the list.
            Kind::Update => given,
        };
        let access = Access {
            kind,
            cell: cell as u16,
            iteration: self.iteration,
            value,
        };
        self.made.push(access);
        self.accesses.push(access);
        match self.reach {
            Reach::Step => Err(Paused),
            Reach::Iteration => Ok(value),
        }
    }

    /// "Shared cells are read and written in place. Other cells are read as written earlier in this
    /// iteration, else as at entry"; an update by the same iteration is not seen (READING 74). Document
    /// 02, Point 3: "private reads give what the block wrote before, else the entry value" (P3.6). Copy-in
    /// cells are read as lastprivate ones (P5.5).
    fn look_up(&self, cell: usize) -> i32 {
        if self.classes[cell] == Class::Shared {
            return self.shared[cell];
        }
        let written = self.accesses.iter().rev().find(|access| {
            access.kind == Kind::Write
                && usize::from(access.cell) == cell
                && self.group.contains(&access.iteration)
        });
        written.map_or(self.entry[cell], |access| access.value)
    }

    /// "writes stay private", taken from the list.
    fn store(&mut self, cell: usize, value: i32) -> i32 {
        if self.classes[cell] == Class::Shared {
            self.shared[cell] = value;
        }
        value
    }
}

impl Memory for Worker<'_> {
    fn read(&mut self, cell: usize) -> Result<i32, Paused> {
        self.access(Kind::Read, cell, 0)
    }

    fn write(&mut self, cell: usize, value: i32) -> Result<(), Paused> {
        self.access(Kind::Write, cell, value).map(|_| ())
    }

    fn update(&mut self, cell: usize, operation: Operation, operand: i32) -> Result<(), Paused> {
        assert_eq!(self.classes[cell], Class::Reduction(operation));
        self.access(Kind::Update, cell, operand).map(|_| ())
    }
}

#[cfg(test)]
mod tests {
    use super::share;

    #[test]
    fn examples_of_document_01() {
        assert_eq!((share(5, 0, 2), share(5, 1, 2)), (0..2, 2..5));
        assert_eq!((share(1, 0, 2), share(1, 1, 2)), (0..0, 0..1));
    }

    #[test]
    fn shares_follow_one_another_and_lose_nothing() {
        for iterations in [0, 1, 7, 8, 9, 63, 65_535] {
            for processors in 1..=8 {
                let mut reached = 0;
                for p in 0..processors as usize {
                    let share = share(iterations, p, processors);
                    assert_eq!(share.start, reached);
                    reached = share.end;
                }
                assert_eq!(reached, iterations);
            }
        }
    }
}
