//! The form of one line as a tree. The type `N` of a name is `String` as written, and
//! [`crate::program::Place`] once it is known what the name stands for.

/// A clause that lists names.
#[derive(Debug, Clone, Copy, PartialEq, Eq)]
pub enum Clause {
    Shared,
    Firstprivate,
    Lastprivate,
    Reduction(Operation),
}

/// What a `reduction` clause gathers: document 02, Point 6, has `*` and `max` beside `+`.
#[derive(Debug, Clone, Copy, PartialEq, Eq)]
pub enum Operation {
    /// `reduction(+:list)`
    Sum,
    /// `reduction(*:list)`
    Product,
    /// `reduction(max:list)`
    Maximum,
}

/// How the cells of a name are treated, by the clauses it stands in.
#[derive(Debug, Clone, Copy, PartialEq, Eq)]
pub enum Class {
    /// "A name in no clause is shared."
    Shared,
    /// In a `lastprivate` clause alone.
    Lastprivate,
    /// Document 02, Point 5: "A name may stand in `firstprivate` and `lastprivate` together."
    CopyIn,
    /// In a `reduction` clause.
    Reduction(Operation),
}

/// What the test takes as one iteration.
#[derive(Debug, Clone, Copy, PartialEq, Eq, Default)]
pub enum Grouping {
    /// Every iteration by itself.
    #[default]
    Iterations,
    /// Document 02, Point 3: "A text with the clause `schedule(static)` [...] is tested with each
    /// processor's block as one long iteration".
    Blocks,
}

/// The form of one line that is not skipped, with what its tokens come to.
#[derive(Debug, Clone, PartialEq, Eq)]
pub struct Written {
    /// What the line says.
    pub form: Form,
    /// The greatest literal in the line; 0 if there is none.
    pub greatest_literal: u64,
    /// The most brackets open together, the outer pair of `if` not counted (READING 44).
    pub open_brackets: usize,
}

/// "Each declaration, directive, statement, `else` and ending has one line of its own."
#[derive(Debug, Clone, PartialEq, Eq)]
pub enum Form {
    /// `integer`, and for each name its extents: none, a length, or the two of a grid (document 02, Point 9).
    Integer(Vec<(String, Vec<u64>)>),
    /// `data name /list/`
    Data { name: String, items: Vec<Item> },
    /// `!$omp parallel do`, the number in `num_threads`, the grouping that `schedule` asks for, and
    /// the lists of the other clauses.
    Directive {
        processors: u64,
        grouping: Grouping,
        lists: Vec<(Clause, Vec<String>)>,
    },
    /// `do v = m, n`
    Do {
        variable: String,
        first: Signed,
        last: Signed,
    },
    /// An assignment to a cell.
    Assign(Assignment<String>),
    /// `if (e rel e) then`
    If(Condition<String>),
    /// `else`
    Else,
    /// `end if` or `endif`
    EndIf,
    /// `end do` or `enddo`
    EndDo,
    /// `!$omp end parallel do`
    Closing,
}

/// An item of a data list: "a literal with optional sign, or `r*` before it for r copies".
#[derive(Debug, Clone, Copy, PartialEq, Eq)]
pub struct Item {
    /// The number of copies; 1 without `r*`.
    pub copies: u64,
    /// The value of each copy.
    pub value: Signed,
}

/// A literal with optional sign. The sign is not part of the literal (READING 39).
#[derive(Debug, Clone, Copy, PartialEq, Eq)]
pub struct Signed {
    /// Whether `-` stands before it.
    pub negative: bool,
    /// The literal's value.
    pub literal: u64,
}

impl Signed {
    /// The value, for a literal within the limit of literals.
    pub fn value(self) -> i32 {
        let size = i32::try_from(self.literal).expect("a literal within its limit");
        if self.negative {
            -size
        } else {
            size
        }
    }
}

/// `target = value`
#[derive(Debug, Clone, PartialEq, Eq)]
pub struct Assignment<N> {
    /// The reference on the left.
    pub target: Named<N>,
    /// The right side.
    pub value: Expression<N>,
    /// The right side again, if it has the words of an update.
    pub update: Option<Update<N>>,
}

/// What an assignment does to its cell if it is an update.
#[derive(Debug, Clone, PartialEq, Eq)]
pub struct Update<N> {
    /// The words that it has.
    pub words: Words,
    /// What is added, multiplied by or compared with: "the remainder of the line", by Point 1 "with the minus
    /// applied to its first term"; of a maximum the second argument.
    pub operand: Expression<N>,
}

/// The words of an update's right side, of which each operation has its own.
#[derive(Debug, Clone, Copy, PartialEq, Eq)]
pub enum Words {
    /// `x + e`: "begins with the same reference, token for token [...], followed by +"
    Plus,
    /// `x - e`: Point 1: "the same reference followed by - is now an update too".
    Minus,
    /// `x * e`: Point 6: "Product updates are `x = x * e`".
    Times,
    /// `max(x, e)`: Point 6: "Maximum updates are `x = max(x, e)`."
    Max,
}

impl Words {
    /// The clause whose names they update: Point 6: "Each name has the update of its own clause only."
    pub fn operation(self) -> Operation {
        match self {
            Words::Plus | Words::Minus => Operation::Sum,
            Words::Times => Operation::Product,
            Words::Max => Operation::Maximum,
        }
    }
}

/// `left rel right`
#[derive(Debug, Clone, PartialEq, Eq)]
pub struct Condition<N> {
    pub left: Expression<N>,
    pub relation: Relation,
    pub right: Expression<N>,
}

/// "rel is `==`, `/=`, `<`, `<=`, `>` or `>=`."
#[derive(Debug, Clone, Copy, PartialEq, Eq)]
pub enum Relation {
    Equal,
    Unequal,
    Less,
    LessOrEqual,
    Greater,
    GreaterOrEqual,
}

/// "Terms are joined by + and -, [...] from the left. One sign may begin an expression and applies
/// to its whole first term." (READING 54)
#[derive(Debug, Clone, PartialEq, Eq)]
pub struct Expression<N> {
    /// Whether the sign before the first term is `-`.
    pub negative: bool,
    pub first: Term<N>,
    pub others: Vec<(Joint, Term<N>)>,
}

/// What joins a term to the terms before it.
#[derive(Debug, Clone, Copy, PartialEq, Eq)]
pub enum Joint {
    Plus,
    Minus,
}

/// "factors [are joined] by * and /, both from the left"
#[derive(Debug, Clone, PartialEq, Eq)]
pub struct Term<N> {
    pub first: Factor<N>,
    pub others: Vec<(Scaling, Factor<N>)>,
}

/// What joins a factor to the factors before it.
#[derive(Debug, Clone, Copy, PartialEq, Eq)]
pub enum Scaling {
    Times,
    Over,
}

/// "A factor is a literal, v, a cell, `rdiv(e, e)`, or an expression in brackets." Document 02, Point 6:
/// "`max(e, e)` also becomes a factor".
#[derive(Debug, Clone, PartialEq, Eq)]
pub enum Factor<N> {
    Literal(u64),
    Named(Named<N>),
    Rdiv(Box<Expression<N>>, Box<Expression<N>>),
    Max(Box<Expression<N>>, Box<Expression<N>>),
    Brackets(Box<Expression<N>>),
}

/// A name with its subscripts, none, one or two: v or a cell. Document 02, Point 9: "Allow `a(m, n)` and cells `a(e, f)`".
#[derive(Debug, Clone, PartialEq, Eq)]
pub struct Named<N> {
    pub name: N,
    pub subscripts: Vec<Expression<N>>,
}
