//! The body of a random loop. Statements keep to the roles of the names; conflict has some disregard
//! them, danger has some subscripts and divisors that may fault.

use crate::builder::{Builder, Name, Role, Shape};
use crate::lines::{open_brackets, Operation};
use crate::subscripts::numbered;

/// References.
impl Builder<'_> {
    /// The number of the iteration's own cell, 1 in the first iteration.
    fn own_number(&mut self) -> String {
        let v = &self.variable;
        let plain = match self.first - 1 {
            0 => v.clone(),
            less if less > 0 => format!("{v} - {less}"),
            more => format!("{v} + {}", -more),
        };
        match self.rng.below(12) {
            0 => format!("+{plain}"),
            1 => format!("({plain})"),
            2 => format!("2 - 2 + {plain}"),
            3 => format!("rdiv(2*({plain}), 2)"),
            4 => format!("-(-({plain}))"),
            5 => format!("max({plain}, 1)"),
            _ => plain,
        }
    }

    /// The cell of a name that has this number, from 1 in its element order.
    fn cell(&self, index: usize, number: &str) -> String {
        let Name { name, shape, .. } = &self.names[index];
        match *shape {
            Shape::Grid { rows, columns } => numbered(name, (rows, columns), number),
            _ => format!("{name}({number})"),
        }
    }

    /// A subscript that is always inside a bound of this size.
    fn safe_subscript(&mut self, length: usize) -> String {
        let indexes: Vec<usize> = (0..self.names.len())
            .filter(|&one| self.names[one].role == Role::Index)
            .collect();
        let long_enough = length >= self.iterations.max(1);
        match self.rng.below(6) {
            0 | 1 if long_enough => self.own_number(),
            2 if long_enough && !indexes.is_empty() => {
                let index = self.rng.pick(&indexes);
                let number = self.own_number();
                self.cell(index, &number)
            }
            3 => format!("({})", 1 + self.rng.below(length)),
            4 => format!("{} - 1", 2 + self.rng.below(length)),
            _ => (1 + self.rng.below(length)).to_string(),
        }
    }

    /// A subscript that may be anything.
    fn wild_subscript(&mut self) -> String {
        match self.rng.below(5) {
            0 => self.expression(1),
            1 => format!("{} + 1", self.own_number().trim_start_matches('+')),
            2 => format!("{} - 1", self.own_number().trim_start_matches('+')),
            3 => self.rng.between(0, 7).to_string(),
            _ => self.factor(0),
        }
    }

    /// A reference to a name that is never outside its array or grid, unless danger has it.
    fn any_reference(&mut self, index: usize) -> String {
        let Name {
            name,
            shape,
            values,
            ..
        } = self.names[index].clone();
        match shape {
            Shape::Single => name,
            Shape::Array => format!("{name}({})", self.any_subscript(values.len())),
            Shape::Grid { rows, columns } => {
                let [row, column] = [rows, columns].map(|bound| self.any_subscript(bound));
                format!("{name}({row}, {column})")
            }
        }
    }

    /// A subscript that is inside a bound of this size, unless danger has it.
    fn any_subscript(&mut self, bound: usize) -> String {
        if self.rng.chance(self.knobs.danger) {
            self.wild_subscript()
        } else {
            self.safe_subscript(bound)
        }
    }

    /// The reference an iteration may make to a name with a role of its own cell.
    fn own_reference(&mut self, index: usize) -> String {
        let number = if self.rng.chance(self.knobs.danger / 2) {
            self.wild_subscript()
        } else {
            self.own_number()
        };
        match self.names[index].role {
            Role::Own {
                through: Some(through),
            } => self.cell(index, &self.cell(through, &number)),
            _ => self.cell(index, &number),
        }
    }

    /// A reference that an iteration may read to a name of which it writes its own cell: that one or a
    /// higher one.
    fn reference_ahead(&mut self, index: usize) -> String {
        let higher = self.names[index].values.len() - self.iterations.max(1);
        let number = self.own_number();
        let more = self.rng.below(higher + 1);
        self.cell(index, &format!("{number} + {more}"))
    }

    /// A reference that the roles allow to be read here, if there is one.
    fn readable(&mut self) -> Option<String> {
        let index = self.rng.below(self.names.len());
        if self.rng.chance(self.knobs.conflict) {
            return Some(self.any_reference(index));
        }
        match self.names[index].role {
            Role::Own { .. } => Some(self.own_reference(index)),
            Role::Ahead => Some(self.reference_ahead(index)),
            Role::Fixed | Role::Index => Some(self.any_reference(index)),
            Role::Temporary | Role::Updated(_) if self.written.is_empty() => None,
            Role::Temporary | Role::Updated(_) => Some(self.rng.pick(&self.written)),
        }
    }
}

/// Expressions.
impl Builder<'_> {
    fn expression(&mut self, depth: usize) -> String {
        let sign = self.rng.pick(&["", "", "", "", "", "-", "-", "+"]);
        sign.to_string() + &self.terms(depth)
    }

    /// An expression without a sign before it.
    fn terms(&mut self, depth: usize) -> String {
        let mut text = self.term(depth);
        while self.rng.chance(35) {
            let joint = self.rng.pick(&[" + ", " - "]);
            text = text + joint + &self.term(depth);
        }
        text
    }

    fn term(&mut self, depth: usize) -> String {
        let mut text = self.factor(depth);
        while self.rng.chance(25) {
            if self.rng.chance(60) {
                text = format!("{text}*{}", self.factor(depth));
            } else {
                text = format!("{text}/{}", self.divisor(depth));
            }
        }
        text
    }

    fn factor(&mut self, depth: usize) -> String {
        match self.rng.below(11) {
            0..=1 => self.literal(),
            2 => self.variable.clone(),
            8 if depth > 0 => {
                let dividend = self.expression(depth - 1);
                format!("rdiv({dividend}, {})", self.halving(depth - 1))
            }
            9 if depth > 0 => format!("({})", self.expression(depth - 1)),
            10 if depth > 0 => self.maximum(depth - 1),
            _ => match self.readable() {
                Some(reference) => reference,
                None => self.literal(),
            },
        }
    }

    fn maximum(&mut self, depth: usize) -> String {
        let [one, other] = [0; 2].map(|_| self.expression(depth));
        format!("max({one}, {other})")
    }

    /// Factors joined by `*`.
    fn factors(&mut self, depth: usize) -> String {
        let mut text = self.multiplier(depth);
        while self.rng.chance(25) {
            text = format!("{text}*{}", self.multiplier(depth));
        }
        text
    }

    /// Any factor, every other time one that is not 0; an odd one leaves a product all its bits.
    fn multiplier(&mut self, depth: usize) -> String {
        match self.rng.below(8) {
            0..=2 => self.rng.pick(&["3", "5", "7", "2", "(-1)"]).to_string(),
            3 if depth > 0 => format!("(2*{} + 1)", self.factor(depth - 1)),
            4 if depth > 0 => format!("({})", self.expression(depth - 1)),
            _ => self.factor(depth),
        }
    }

    fn literal(&mut self) -> String {
        match self.rng.below(20) {
            0 => "2147483647".to_string(),
            1 => (self.rng.bits() % 2_147_483_648).to_string(),
            _ => self.rng.below(10).to_string(),
        }
    }

    /// A divisor of rdiv, every other time one that often leaves a half.
    fn halving(&mut self, depth: usize) -> String {
        match self.rng.below(8) {
            0..=2 => "2".to_string(),
            3 => self.rng.pick(&["-2", "4", "6"]).to_string(),
            _ => self.divisor(depth),
        }
    }

    /// A factor that is not zero, unless danger has it. A square and 1 is never 0, wrapped or not.
    fn divisor(&mut self, depth: usize) -> String {
        if self.rng.chance(self.knobs.danger) {
            return self.factor(depth);
        }
        let v = &self.variable;
        match self.rng.below(8) {
            0 => format!("({v}*{v} + 1)"),
            1 => format!("(-{})", 1 + self.rng.below(3)),
            _ => (1 + self.rng.below(7)).to_string(),
        }
    }
}

/// Statements.
impl Builder<'_> {
    /// Some statements, with `if`s nested as deep as `nesting`.
    pub fn block(&mut self, nesting: usize) {
        for _ in 0..self.rng.below(self.knobs.statements + 1) {
            let size: usize = self.lines.iter().map(|line| line.len() + 1).sum();
            if size < self.knobs.size {
                self.statement(nesting);
            }
        }
    }

    /// One statement.
    pub fn statement(&mut self, nesting: usize) {
        if nesting > 0 && self.rng.chance(30) {
            return self.if_block(nesting - 1);
        }
        if self.rng.chance(self.knobs.conflict) {
            let index = self.rng.below(self.names.len());
            return self.meddle(index);
        }
        let writable: Vec<usize> = (0..self.names.len())
            .filter(|&one| !matches!(self.names[one].role, Role::Fixed | Role::Index))
            .collect();
        let index = self.rng.pick(&writable);
        match self.names[index].role {
            Role::Own { .. } => {
                let target = self.own_reference(index);
                self.assign(&target);
            }
            Role::Ahead => {
                let target = self.own_reference(index);
                let old = self.reference_ahead(index);
                let operation = self.rng.pick(&Operation::ALL);
                self.combine(&target, operation, &old);
            }
            Role::Temporary => {
                let target = self.temporary(index);
                self.assign(&target);
                self.written.push(target);
            }
            Role::Updated(operation) => {
                let target = self.any_reference(index);
                self.combine(&target, operation, &target);
            }
            Role::Fixed | Role::Index => unreachable!("not written"),
        }
    }

    /// A temporary cell: by literal subscripts, so that the same cell is met again.
    fn temporary(&mut self, index: usize) -> String {
        let name = &self.names[index];
        if name.shape == Shape::Single {
            return name.name.clone();
        }
        let number = 1 + self.rng.below(name.values.len());
        self.cell(index, &number.to_string())
    }

    fn assign(&mut self, target: &str) {
        let value = self.expression(self.knobs.brackets);
        self.add_one_that_fits([format!("{target} = {value}"), format!("{target} = 1")]);
    }

    /// Something added to a cell's value, taken from it, multiplied with it or compared with it; an update, if
    /// that cell is the target and the operation its clause's.
    fn combine(&mut self, target: &str, operation: Operation, cell: &str) {
        let depth = self.knobs.brackets;
        let lines = match operation {
            Operation::Sum => {
                let remainder = self.terms(depth);
                let sign = self.rng.pick(&["+", "-", "-"]);
                [
                    format!("{target} = {cell} {sign} {remainder}"),
                    format!("{target} = {cell} {sign} 1"),
                ]
            }
            Operation::Product => [
                format!("{target} = {cell}*{}", self.factors(depth)),
                format!("{target} = {cell}*3"),
            ],
            Operation::Maximum => [
                format!("{target} = max({cell}, {})", self.expression(depth)),
                format!("{target} = max({cell}, 1)"),
            ],
        };
        self.add_one_that_fits(lines);
    }

    /// Adds the first of the lines whose brackets are within their limit, or none.
    fn add_one_that_fits(&mut self, lines: [String; 2]) {
        let mut fitting = lines.into_iter().filter(|line| open_brackets(line) <= 8);
        self.lines.extend(fitting.next());
    }

    fn if_block(&mut self, nesting: usize) {
        let relation = self.rng.pick(&["==", "/=", "<", "<=", ">", ">="]);
        let left = match self.rng.below(3) {
            0 => self.expression(self.knobs.brackets),
            _ => self.variable.clone(),
        };
        let right = match self.rng.below(3) {
            0 => self.expression(self.knobs.brackets),
            _ => self.middle(),
        };
        let (left, right) = match open_brackets(&left).max(open_brackets(&right)) {
            0..=8 => (left, right),
            _ => (self.variable.clone(), self.middle()),
        };
        self.lines
            .push(format!("if ({left} {relation} {right}) then"));
        let written = self.written.len();
        self.block(nesting);
        self.written.truncate(written);
        if self.rng.chance(40) {
            self.lines.push("else".to_string());
            self.block(nesting);
            self.written.truncate(written);
        }
        self.lines.push("end if".to_string());
    }

    /// A value that the variable passes.
    fn middle(&mut self) -> String {
        let value = self.first + self.rng.below(self.iterations + 1) as i64;
        value.min(2_147_483_647).to_string()
    }

    /// A statement that disregards the name's role: an assignment, an update of any operation, or an
    /// assignment that nearly is one.
    fn meddle(&mut self, index: usize) {
        let target = self.any_reference(index);
        let line = match self.rng.below(10) {
            0..=3 => self.near_sum(index, &target),
            4 | 5 => self.near_product(index, &target),
            6 | 7 => self.near_maximum(index, &target),
            _ => format!("{target} = {}", self.terms(self.knobs.brackets.min(1))),
        };
        self.add_one_that_fits([line, format!("{target} = 1")]);
    }

    /// The first cell of an array or a grid by two references that are not the same token for token; of a single
    /// cell the same reference twice.
    fn two_references(&mut self, index: usize, target: &str) -> [String; 2] {
        let Name { name, shape, .. } = &self.names[index];
        let other = self.rng.pick(&["(1)", "+1"]);
        let pair = match shape {
            Shape::Single => return [target.to_string(), target.to_string()],
            Shape::Array => ["1".to_string(), other.to_string()],
            Shape::Grid { .. } => {
                let other = self
                    .rng
                    .pick(&[format!("1, {other}"), format!("{other}, 1")]);
                ["1, 1".to_string(), other]
            }
        };
        pair.map(|subscripts| format!("{name}({subscripts})"))
    }

    fn near_sum(&mut self, index: usize, target: &str) -> String {
        let more = self.terms(self.knobs.brackets.min(1));
        let sign = self.rng.pick(&["+", "-"]);
        match self.rng.below(12) {
            0 => format!("{target} = -{target} {sign} {more}"),
            1 => format!("{target} = ({target}) {sign} {more}"),
            2 => format!("{target} = +{target} {sign} {more}"),
            3 => format!("{target} = {more} {sign} {target}"),
            4 => format!("{target} = {target}*2 {sign} {more}"),
            5 => format!("{target} = {target}"),
            6 => format!("{target} = ({target} {sign} {more})"),
            7 => format!("{target} = {target} {sign} {target}"),
            8 => {
                let [one, other] = self.two_references(index, target);
                format!("{one} = {other} {sign} {more}")
            }
            _ => format!("{target} = {target} {sign} {more}"),
        }
    }

    fn near_product(&mut self, index: usize, target: &str) -> String {
        let depth = self.knobs.brackets.min(1);
        let more = self.factors(depth);
        match self.rng.below(14) {
            0 => format!("{target} = {target}*{more}/{}", self.divisor(depth)),
            1 => format!("{target} = {target}/{}*{more}", self.divisor(depth)),
            2 => format!("{target} = {target}*{more} + {}", self.term(depth)),
            3 => format!("{target} = {target}*{more} - {}", self.term(depth)),
            4 => format!("{target} = {more}*{target}"),
            5 => format!("{target} = ({target})*{more}"),
            6 => format!("{target} = -{target}*{more}"),
            7 => format!("{target} = +{target}*{more}"),
            8 => format!("{target} = ({target}*{more})"),
            9 => format!("{target} = {target}*{target}"),
            10 => {
                let [one, other] = self.two_references(index, target);
                format!("{one} = {other}*{more}")
            }
            _ => format!("{target} = {target}*{more}"),
        }
    }

    fn near_maximum(&mut self, index: usize, target: &str) -> String {
        let more = self.expression(self.knobs.brackets.min(1));
        match self.rng.below(15) {
            0 => format!("{target} = max({more}, {target})"),
            1 => format!("{target} = max(({target}), {more})"),
            2 => format!("{target} = max({target} + 0, {more})"),
            3 => format!("{target} = max(+{target}, {more})"),
            4 => format!("{target} = +max({target}, {more})"),
            5 => format!("{target} = -max({target}, {more})"),
            6 => format!("{target} = (max({target}, {more}))"),
            7 => format!("{target} = max({target}, {more}) + 0"),
            8 => format!("{target} = max({target}, {more})*(1)"),
            9 => format!("{target} = max(max({target}, {more}), {more})"),
            10 => format!("{target} = max({target}, {target})"),
            11 => {
                let [one, other] = self.two_references(index, target);
                format!("{one} = max({other}, {more})")
            }
            _ => format!("{target} = max({target}, {more})"),
        }
    }
}
