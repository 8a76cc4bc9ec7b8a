//! How a random loop is drawn: its names, each with a role that keeps iterations apart, and the lines
//! that declare them. The body's lines are drawn in `body`.

use crate::lend::extreme;
use crate::lines::{self, Operation};
use crate::loops::{Knobs, Loop};
use crate::rng::Rng;

/// How the iterations use a name, unless a statement breaks the role.
#[derive(Debug, Clone, Copy, PartialEq, Eq)]
pub enum Role {
    /// Each iteration uses the cell of its own number only, or the one that number has in an
    /// index array.
    Own { through: Option<usize> },
    /// Each iteration writes the cell of its own number only, and reads that one or a higher one.
    Ahead,
    /// Only read.
    Fixed,
    /// Only read; holds each cell number once.
    Index,
    /// Written before it is read in each iteration.
    Temporary,
    /// Only updated, by this operation.
    Updated(Operation),
}

/// How a name is declared.
#[derive(Debug, Clone, Copy, PartialEq, Eq)]
pub enum Shape {
    Single,
    Array,
    /// Document 02, Point 9.
    Grid {
        rows: usize,
        columns: usize,
    },
}

/// Percent of the names with subscripts that take two.
const GRIDS: u32 = 35;

/// A name and what it is used for.
#[derive(Debug, Clone)]
pub struct Name {
    pub name: String,
    pub role: Role,
    pub shape: Shape,
    /// A value for each cell; of a grid in its element order.
    pub values: Vec<i32>,
    pub has_data: bool,
    pub clause: &'static str,
}

const SHARED: &str = "shared";
const LASTPRIVATE: &str = "lastprivate";
/// In `lastprivate` and `firstprivate`.
const COPIED: &str = "both";
const SUM: &str = "reduction +";
const PRODUCT: &str = "reduction *";
const MAXIMUM: &str = "reduction max";
/// Shared by standing in no clause.
const UNNAMED: &str = "";

/// How a list of names is written, and the names of which clauses stand in it. A `firstprivate` clause
/// stands between the signs that [`Loop`] replaces.
const LISTS: [(&str, &[&str], &str); 7] = [
    ("shared(", &[SHARED], ")"),
    ("lastprivate(", &[LASTPRIVATE, COPIED], ")"),
    ("reduction(+:", &[SUM], ")"),
    ("reduction(*:", &[PRODUCT], ")"),
    ("reduction(max:", &[MAXIMUM], ")"),
    ("{firstprivate(", &[COPIED], ")}"),
    ("[firstprivate(", &[LASTPRIVATE], ")]"),
];

/// The clause of an operation.
fn clause_of(operation: Operation) -> &'static str {
    match operation {
        Operation::Sum => SUM,
        Operation::Product => PRODUCT,
        Operation::Maximum => MAXIMUM,
    }
}

/// A loop being drawn.
pub struct Builder<'r> {
    pub rng: &'r mut Rng,
    pub knobs: Knobs,
    pub names: Vec<Name>,
    pub variable: String,
    pub first: i64,
    pub iterations: usize,
    pub lines: Vec<String>,
    /// References to temporary cells that are surely written by now in the iteration.
    pub written: Vec<String>,
}

/// Declarations.
impl<'r> Builder<'r> {
    /// Draws the bounds; the rest is drawn by [`Builder::build`].
    pub fn new(rng: &'r mut Rng, knobs: Knobs) -> Self {
        let iterations = if rng.chance(4) {
            0
        } else {
            1 + rng.below(knobs.iterations)
        };
        let first = match rng.below(10) {
            0 => rng.between(-30, 30),
            1 => 2_147_483_647 - iterations.max(1) as i64 + rng.between(0, 1),
            2 => -2_147_483_640 + rng.between(-6, 6),
            3 => 0,
            _ => 1,
        };
        Builder {
            rng,
            knobs,
            names: Vec::new(),
            variable: String::new(),
            first,
            iterations,
            lines: Vec::new(),
            written: Vec::new(),
        }
    }

    /// Draws names, their lines and the body.
    pub fn build(mut self) -> Loop {
        self.choose_names();
        self.integer_lines();
        self.data_lines();
        self.directive();
        self.do_line();
        if !self.rng.chance(3) {
            self.statement(self.knobs.nesting);
            self.block(self.knobs.nesting);
        }
        self.lines.push("end do".to_string());
        let processors = match self.rng.below(4) {
            0 => 1,
            1 => 2,
            _ => 1 + self.rng.below(8),
        };
        let cells = self.names.iter().flat_map(|n| n.values.clone()).collect();
        Loop::of_lines(self.lines, processors, cells, self.knobs.layout, self.rng)
    }

    fn choose_names(&mut self) {
        const POOL: [&str; 38] = [
            "a",
            "b",
            "c",
            "k",
            "s",
            "t",
            "x",
            "y",
            "z",
            "i",
            "j",
            "n",
            "a1",
            "a_",
            "x_2y",
            "sum",
            "parallel",
            "num_threads",
            "shared",
            "lastprivate",
            "firstprivate",
            "reduction",
            "schedule",
            "static",
            "omp",
            "elseif",
            "call",
            "program",
            "integers",
            "do1",
            "endi",
            "if_",
            "thens",
            "rdiv2",
            "max2",
            "min",
            "while",
            "abcdefghijklmnopqrstuvwxyz_1234",
        ];
        let mut pool = POOL.to_vec();
        if self.rng.chance(60) {
            pool.truncate(12);
        }
        self.rng.shuffle(&mut pool);
        self.variable = pool.pop().expect("a name").to_string();
        let most = self.knobs.names.min(pool.len()).min(16);
        for name in pool.into_iter().take(1 + self.rng.below(most)) {
            let declared = self.choose_name(name.to_string());
            self.names.push(declared);
        }
    }

    fn choose_name(&mut self, name: String) -> Name {
        let indexes: Vec<usize> = (0..self.names.len())
            .filter(|&one| self.names[one].role == Role::Index)
            .collect();
        let role = match self.rng.below(20) {
            0..=3 if indexes.is_empty() => Role::Own { through: None },
            0..=3 => {
                let through = self.rng.pick(&indexes);
                let through = self.rng.chance(60).then_some(through);
                Role::Own { through }
            }
            4 | 5 => Role::Temporary,
            6..=11 => Role::Updated(self.operation()),
            12..=15 => Role::Ahead,
            // The first name is one that statements may write.
            _ if self.names.is_empty() => Role::Own { through: None },
            16 | 17 => Role::Fixed,
            _ => Role::Index,
        };
        let numbered = matches!(role, Role::Own { .. } | Role::Ahead | Role::Index);
        let takes_subscripts = numbered || self.rng.chance(50);
        let length = match (numbered, takes_subscripts) {
            (true, _) if role == Role::Ahead => self.iterations.max(1) + 1 + self.rng.below(3),
            (true, _) => self.iterations.max(1) + self.rng.below(3),
            (false, true) => 1 + self.rng.below(6),
            (false, false) => 1,
        };
        let (shape, length) = match takes_subscripts {
            false => (Shape::Single, 1),
            true if self.rng.chance(GRIDS) => self.choose_extents(length),
            true => (Shape::Array, length),
        };
        let has_data = match role {
            Role::Index => true,
            // From 0 no product gets away.
            Role::Updated(Operation::Product) => self.rng.chance(90),
            _ => self.rng.chance(40),
        };
        let values = self.choose_values(role, length, has_data);
        Name {
            name,
            role,
            shape,
            values,
            has_data,
            clause: self.choose_clause(role),
        }
    }

    /// A grid of at least so many cells, in whole columns, and how many it has.
    fn choose_extents(&mut self, length: usize) -> (Shape, usize) {
        let rows = match self.rng.below(6) {
            0 | 1 => 1,
            2 | 3 => length,
            4 => 2,
            _ => 1 + self.rng.below(4),
        };
        let columns = length.div_ceil(rows);
        (Shape::Grid { rows, columns }, rows * columns)
    }

    /// Any operation, sums most often.
    fn operation(&mut self) -> Operation {
        match self.rng.below(7) {
            0 | 1 => Operation::Product,
            2 | 3 => Operation::Maximum,
            _ => Operation::Sum,
        }
    }

    fn choose_values(&mut self, role: Role, length: usize, has_data: bool) -> Vec<i32> {
        if !has_data {
            return vec![0; length];
        }
        if role == Role::Index {
            return self.choose_index(length);
        }
        let wide = self.rng.chance(20);
        (0..length)
            .map(|_| match wide {
                // -2147483648 cannot be given as data.
                true => extreme(self.rng).max(-i32::MAX),
                false if role == Role::Updated(Operation::Product) => {
                    self.rng.pick(&[-3, -1, 1, 2, 3, 5, 7])
                }
                false => self.rng.between(-4, 9) as i32,
            })
            .collect()
    }

    /// The numbers of the iterations' own cells in some order, and 1 for what is left over.
    fn choose_index(&mut self, length: usize) -> Vec<i32> {
        let count = self.iterations.max(1);
        let mut values: Vec<i32> = (1..=count as i32).collect();
        self.rng.shuffle(&mut values);
        values.resize(length, 1);
        if self.rng.chance(self.knobs.conflict) {
            let (from, to) = (self.rng.below(length), self.rng.below(length));
            values[to] = values[from];
        }
        if self.rng.chance(self.knobs.danger) {
            values[self.rng.below(length)] = self.rng.between(-1, length as i64 + 2) as i32;
        }
        values
    }

    fn choose_clause(&mut self, role: Role) -> &'static str {
        let reduction = clause_of(self.operation());
        if self.rng.chance(self.knobs.conflict / 2) {
            return self
                .rng
                .pick(&[UNNAMED, SHARED, LASTPRIVATE, COPIED, reduction]);
        }
        match (role, self.rng.below(10)) {
            (Role::Updated(operation), _) => clause_of(operation),
            (Role::Temporary, 0 | 1) => reduction,
            (Role::Temporary, 2..=5) => LASTPRIVATE,
            (Role::Temporary, _) => COPIED,
            (Role::Ahead, 0) => LASTPRIVATE,
            (Role::Ahead, _) => COPIED,
            (_, 0..=3) => UNNAMED,
            (_, 4..=6) => SHARED,
            (_, 7) => LASTPRIVATE,
            (_, 8) => COPIED,
            (_, _) => reduction,
        }
    }

    /// One or more lines with the names in their order.
    fn integer_lines(&mut self) {
        let mut line = String::new();
        for name in &self.names {
            if line.is_empty() {
                line = "integer ".to_string();
            } else if self.rng.chance(20) {
                self.lines.push(std::mem::take(&mut line));
                line = "integer ".to_string();
            } else {
                line += ", ";
            }
            line += &name.name;
            line += &match name.shape {
                Shape::Single => String::new(),
                Shape::Array => format!("({})", name.values.len()),
                Shape::Grid { rows, columns } => format!("({rows}, {columns})"),
            };
        }
        self.lines.push(line);
    }

    fn data_lines(&mut self) {
        let mut given: Vec<usize> = (0..self.names.len())
            .filter(|&one| self.names[one].has_data)
            .collect();
        self.rng.shuffle(&mut given);
        for index in given {
            let items = self.data_items(index);
            let line = format!("data {} /{items}/", self.names[index].name);
            self.lines.push(line);
        }
    }

    /// Runs of equal values often become repeats; a single value may too.
    fn data_items(&mut self, index: usize) -> String {
        let values = self.names[index].values.clone();
        let mut items = Vec::new();
        for run in values.chunk_by(|one, other| one == other) {
            let literal = self.signed(i64::from(run[0]));
            if run.len() > 1 && self.rng.chance(70) || self.rng.chance(5) {
                items.push(format!("{}*{literal}", run.len()));
            } else {
                items.extend(vec![literal; run.len()]);
            }
        }
        items.join(", ")
    }

    fn signed(&mut self, value: i64) -> String {
        if value >= 0 && self.rng.chance(10) {
            format!("+{value}")
        } else {
            value.to_string()
        }
    }

    /// Clauses in any order; the names of a clause in one list or in several.
    fn directive(&mut self) {
        let mut clauses = Vec::new();
        for (open, listed, close) in LISTS {
            let mut names: Vec<String> = self
                .names
                .iter()
                .filter(|name| listed.contains(&name.clause))
                .map(|name| name.name.clone())
                .collect();
            self.rng.shuffle(&mut names);
            while !names.is_empty() {
                let count = 1 + self.rng.below(names.len());
                let list = names.split_off(names.len() - count).join(", ");
                clauses.push(format!("{open}{list}{close}"));
            }
        }
        let line = lines::directive(self.rng, &clauses);
        self.lines.push(line);
    }

    fn do_line(&mut self) {
        let last = self.first + self.iterations as i64 - 1;
        let last = if self.iterations == 0 {
            (last - self.rng.between(0, 3)).max(-2_147_483_647)
        } else {
            last
        };
        let (first, last) = (self.signed(self.first), self.signed(last));
        self.lines
            .push(format!("do {} = {first}, {last}", self.variable));
    }
}
