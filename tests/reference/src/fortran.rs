//! A loop as a Fortran program, or as a procedure of one: the given cells are set, the loop runs, and every
//! cell is printed on a line of its own, a grid's as Fortran orders them. After them come the cells of each grid
//! again, by rows as Fortran's `transpose` has them. For `gfortran -fwrapv -fcheck=bounds`; a subscript outside its
//! array ends the program with status 2, a zero divisor with status 10.

use crate::accesses::Access;
use crate::program::{Action, Declared, Place, Program, Statement};
use crate::reader::read;
use crate::serial::run_serially;
use crate::syntax::{
    Class, Condition, Expression, Factor, Grouping, Joint, Named, Operation, Relation, Scaling,
    Term,
};

/// How Fortran runs a loop.
#[derive(Debug, Clone, Copy, PartialEq, Eq)]
pub enum Threads {
    /// Serially, without the directive.
    One,
    /// By the directive, with `-fopenmp`.
    Many,
}

/// The Fortran program for an accepted text and as many cells as it has, without its directive. `None` for
/// other texts and where Fortran has no such loop: an end of 2147483647, which the variable would pass
/// (READING 97), and a variable `concurrent`, for `do concurrent` begins another statement; and where a name hides
/// the function `transpose`.
pub fn fortran(text: &[u8], cells: &[i32]) -> Option<String> {
    let program = for_fortran(text, cells)?;
    let main = unused_name("loop", &program);
    Some(Printer::of(&program, Threads::One).unit("program", &main, cells))
}

/// The loops of several texts in one Fortran program, which prints a line `loop` before each loop's
/// cells; `None` for a loop that `fortran` refuses, and with threads for one whose directive means something
/// else in Fortran.
pub fn fortran_of_all(loops: &[(&[u8], &[i32])], threads: Threads) -> Option<String> {
    let mut procedures = String::new();
    let mut lines = Lines::default();
    lines.put(0, "program loops");
    for ((text, cells), number) in loops.iter().zip(1..) {
        let program = for_fortran(text, cells)?;
        if threads == Threads::Many && !means_the_same(&program, cells) {
            return None;
        }
        // Longer than any name of a text.
        let name = format!("the_loop_with_the_number_in_this_list_{number}");
        lines.put(1, "write (*, '(a)') 'loop'");
        lines.put(1, &format!("call {name}()"));
        procedures += &Printer::of(&program, threads).unit("subroutine", &name, cells);
    }
    lines.put(0, "end program loops");
    Some(lines.text + &procedures)
}

/// The loop of an accepted text, if Fortran has such a loop and the cells are as many as it has.
fn for_fortran(text: &[u8], cells: &[i32]) -> Option<Program> {
    let program = read(text).ok()?;
    let passes_the_end = program.iteration_count() > 0 && program.last == i32::MAX;
    let has_none =
        passes_the_end || program.variable == "concurrent" || is_used(TRANSPOSE, &program);
    (cells.len() == program.cell_count() && !has_none).then_some(program)
}

/// Whether the directive leaves the serial run's cells in Fortran too, whose threads have blocks of their own:
/// the loop passes by iterations, no name is in `lastprivate`, of which Fortran keeps what the last iteration
/// has, and cells of `reduction` names are only updated, for a thread reads its own partial result.
fn means_the_same(program: &Program, cells: &[i32]) -> bool {
    let by_iterations = Program {
        grouping: Grouping::Iterations,
        ..program.clone()
    };
    let serial = run_serially(&by_iterations, cells);
    let classes = program.cell_classes();
    let is_private = |class: &Class| matches!(class, Class::Lastprivate | Class::CopyIn);
    let is_ordinary = |access: &Access| {
        let class = classes[usize::from(access.cell)];
        matches!(class, Class::Reduction(_)) && access.is_ordinary()
    };
    serial.passes() && !classes.iter().any(is_private) && !serial.accesses.iter().any(is_ordinary)
}

/// A loop to print, and what the printed functions are called: names that the text does not use.
struct Printer<'a> {
    program: &'a Program,
    threads: Threads,
    /// `/`, with its zero divisor and the one quotient that traps.
    quotient: String,
    /// The identity, so that the compiler does not fold, and refuse, constants that wrap.
    same: String,
}

/// Text in pieces, between which a line may be broken.
type Pieces = Vec<String>;

/// A printed expression; a constant one is made of literals and signs alone.
struct Printed {
    pieces: Pieces,
    constant: bool,
}

impl<'a> Printer<'a> {
    fn of(program: &'a Program, threads: Threads) -> Self {
        Printer {
            program,
            threads,
            quotient: unused_name("quot", program),
            same: unused_name("same", program),
        }
    }

    /// A program or a subroutine of this name.
    fn unit(&self, kind: &str, name: &str, cells: &[i32]) -> String {
        let mut lines = Lines::default();
        lines.put(0, &format!("{kind} {name}"));
        lines.put(1, "implicit none");
        for declared in &self.program.names {
            lines.put(1, &declaration(declared));
        }
        lines.put(1, &format!("integer :: {}", self.program.variable));
        for declared in &self.program.names {
            self.set_cells(declared, cells, &mut lines);
        }
        if self.threads == Threads::Many {
            self.directive(&mut lines);
        }
        let Program { first, last, .. } = self.program;
        lines.put(
            1,
            &format!("do {} = {first}, {last}", self.program.variable),
        );
        self.block(&self.program.body, 2, &mut lines);
        lines.put(1, "end do");
        for declared in &self.program.names {
            lines.put(1, &format!("write (*, '(i0)') {}", declared.name));
        }
        let names = self.program.names.iter();
        for grid in names.filter(|declared| declared.grid().is_some()) {
            let name = &grid.name;
            lines.put(1, &format!("write (*, '(i0)') {TRANSPOSE}({name})"));
        }
        lines.put(0, "contains");
        lines.text += &QUOTIENT.replace("QUOTIENT", &self.quotient);
        lines.text += ROUNDED;
        lines.text += &SAME.replace("SAME", &self.same);
        lines.put(0, &format!("end {kind} {name}"));
        lines.text
    }

    /// The directive, a clause for each name on a line of its own.
    fn directive(&self, lines: &mut Lines) {
        let mut clauses = vec![format!("num_threads({})", self.program.processors)];
        if self.program.grouping == Grouping::Blocks {
            clauses.push("schedule(static)".to_string());
        }
        for Declared { name, class, .. } in &self.program.names {
            clauses.push(match class {
                Class::Shared => format!("shared({name})"),
                Class::Reduction(Operation::Sum) => format!("reduction(+:{name})"),
                Class::Reduction(Operation::Product) => format!("reduction(*:{name})"),
                Class::Reduction(Operation::Maximum) => format!("reduction(max:{name})"),
                Class::Lastprivate | Class::CopyIn => unreachable!("a loop without private names"),
            });
        }
        let clauses = clauses.join(" &\n!$omp ");
        lines.text += &format!("!$omp parallel do {clauses}\n");
    }

    fn set_cells(&self, declared: &Declared, cells: &[i32], lines: &mut Lines) {
        let values = &cells[declared.first_cell..][..declared.length()];
        for (place, value) in values.iter().enumerate() {
            let value = if *value == i32::MIN {
                "-2147483647 - 1".to_string()
            } else {
                value.to_string()
            };
            let subscripts = match declared.extents[..] {
                [] => String::new(),
                [rows, _] => format!("({}, {})", place % rows + 1, place / rows + 1),
                _ => format!("({})", place + 1),
            };
            lines.put(1, &format!("{}{subscripts} = {value}", declared.name));
        }
    }
}

/// Statements.
impl Printer<'_> {
    fn block(&self, statements: &[Statement], depth: usize, lines: &mut Lines) {
        for statement in statements {
            self.statement(statement, depth, lines);
        }
    }

    fn statement(&self, statement: &Statement, depth: usize, lines: &mut Lines) {
        match &statement.action {
            // An update as it is written: what it adds is not taken from the reference.
            Action::Assign { target, value } | Action::Update { target, value, .. } => {
                let right = self.expression(value).pieces;
                lines.put_pieces(depth, join(self.reference(target), " = ", right));
            }
            Action::If {
                condition,
                then,
                otherwise,
            } => {
                lines.put_pieces(depth, self.condition(condition));
                self.block(then, depth + 1, lines);
                if let Some(otherwise) = otherwise {
                    lines.put(depth, "else");
                    self.block(otherwise, depth + 1, lines);
                }
                lines.put(depth, "end if");
            }
        }
    }

    fn condition(&self, condition: &Condition<Place>) -> Pieces {
        let relation = match condition.relation {
            Relation::Equal => " == ",
            Relation::Unequal => " /= ",
            Relation::Less => " < ",
            Relation::LessOrEqual => " <= ",
            Relation::Greater => " > ",
            Relation::GreaterOrEqual => " >= ",
        };
        let left = self.expression(&condition.left).pieces;
        let both = join(left, relation, self.expression(&condition.right).pieces);
        join(vec!["if (".to_string()], "", join(both, ") then", vec![]))
    }

    fn reference(&self, named: &Named<Place>) -> Pieces {
        let name = match named.name {
            Place::Variable => &self.program.variable,
            Place::Name(index) => &self.program.names[index].name,
        };
        let subscripts = named.subscripts.iter();
        match named.subscripts[..] {
            [] => vec![name.clone()],
            _ => call(
                name,
                subscripts.map(|e| self.expression(e).pieces).collect(),
            ),
        }
    }
}

/// Expressions.
impl Printer<'_> {
    fn expression(&self, expression: &Expression<Place>) -> Printed {
        let mut value = self.term(&expression.first);
        if expression.negative {
            value.pieces.insert(0, "-".to_string());
        }
        for (joint, term) in &expression.others {
            let sign = match joint {
                Joint::Plus => " + ",
                Joint::Minus => " - ",
            };
            value = self.operation(value, sign, self.term(term));
        }
        value
    }

    fn term(&self, term: &Term<Place>) -> Printed {
        let mut value = self.factor(&term.first);
        for (scaling, factor) in &term.others {
            let right = self.factor(factor);
            value = match scaling {
                Scaling::Times => self.operation(value, " * ", right),
                Scaling::Over => unfolded(call(&self.quotient, vec![value.pieces, right.pieces])),
            };
        }
        value
    }

    fn factor(&self, factor: &Factor<Place>) -> Printed {
        match factor {
            Factor::Literal(value) => Printed {
                pieces: vec![value.to_string()],
                constant: true,
            },
            Factor::Named(named) => unfolded(self.reference(named)),
            Factor::Rdiv(dividend, divisor) => {
                let arguments = [dividend, divisor].map(|e| self.expression(e).pieces);
                unfolded(call("rdiv", arguments.to_vec()))
            }
            // Fortran's own, which the compiler folds.
            Factor::Max(one, other) => {
                let (one, other) = (self.expression(one), self.expression(other));
                Printed {
                    pieces: call("max", vec![one.pieces, other.pieces]),
                    constant: one.constant && other.constant,
                }
            }
            Factor::Brackets(inner) => {
                let inner = self.expression(inner);
                Printed {
                    pieces: call("", vec![inner.pieces]),
                    constant: inner.constant,
                }
            }
        }
    }

    /// `left sign right`, the left through the identity if both are constants.
    fn operation(&self, left: Printed, sign: &str, right: Printed) -> Printed {
        let left_pieces = if left.constant && right.constant {
            call(&self.same, vec![left.pieces])
        } else {
            left.pieces
        };
        unfolded(join(left_pieces, sign, right.pieces))
    }
}

fn unfolded(pieces: Pieces) -> Printed {
    Printed {
        pieces,
        constant: false,
    }
}

/// `name(arguments)`
fn call(name: &str, arguments: Vec<Pieces>) -> Pieces {
    let mut pieces = vec![format!("{name}(")];
    for (argument, number) in arguments.into_iter().zip(1..) {
        if number > 1 {
            pieces.push(", ".to_string());
        }
        pieces.extend(argument);
    }
    closed(pieces)
}

fn closed(mut pieces: Pieces) -> Pieces {
    pieces.push(")".to_string());
    pieces
}

fn join(mut left: Pieces, between: &str, right: Pieces) -> Pieces {
    left.push(between.to_string());
    left.extend(right);
    left
}

fn declaration(declared: &Declared) -> String {
    let extents: Vec<String> = declared.extents.iter().map(usize::to_string).collect();
    match extents.join(", ").as_str() {
        "" => format!("integer :: {}", declared.name),
        extents => format!("integer :: {}({extents})", declared.name),
    }
}

/// The wish, with underscores added until the text has no such name.
fn unused_name(wish: &str, program: &Program) -> String {
    let mut name = wish.to_string();
    while is_used(&name, program) {
        name.push('_');
    }
    name
}

fn is_used(name: &str, program: &Program) -> bool {
    name == program.variable || program.names.iter().any(|one| one.name == name)
}

/// Free-form lines, broken before Fortran's limit of 132 columns.
#[derive(Default)]
struct Lines {
    text: String,
}

const COLUMNS: usize = 100;

impl Lines {
    fn put(&mut self, depth: usize, line: &str) {
        self.put_pieces(depth, vec![line.to_string()]);
    }

    fn put_pieces(&mut self, depth: usize, pieces: Pieces) {
        let indent = "  ".repeat(depth);
        let mut line = indent.clone();
        for piece in pieces {
            if line.len() + piece.len() > COLUMNS {
                self.text += &line;
                self.text += " &\n";
                line = indent.clone() + "  ";
            }
            line += &piece;
        }
        self.text += &line;
        self.text += "\n";
    }
}

/// Fortran's own function, by which rows become columns.
const TRANSPOSE: &str = "transpose";

/// "`/` truncates toward zero", as in Fortran; −2147483648 / −1 is the negation, which wraps.
const QUOTIENT: &str = "\
  integer function QUOTIENT(dividend, divisor)
    integer, intent(in) :: dividend, divisor
    if (divisor == 0) error stop 10
    if (divisor == -1) then
      QUOTIENT = -dividend
    else
      QUOTIENT = dividend / divisor
    end if
  end function QUOTIENT
";

/// "rdiv gives the nearest whole number", halves "to the even neighbour" (document 02, Point 2): of the
/// sizes, in 64 bits.
const ROUNDED: &str = "\
  integer function rdiv(dividend, divisor)
    integer, intent(in) :: dividend, divisor
    integer(8) :: above, below, rounded, doubled
    if (divisor == 0) error stop 10
    above = dividend
    below = divisor
    if (above < 0) above = -above
    if (below < 0) below = -below
    rounded = above / below
    doubled = 2 * mod(above, below)
    if (doubled > below) rounded = rounded + 1
    if (doubled == below) rounded = 2 * ((rounded + 1) / 2)
    if ((dividend < 0) .neqv. (divisor < 0)) rounded = -rounded
    if (rounded == 2147483648_8) rounded = -rounded
    rdiv = rounded
  end function rdiv
";

const SAME: &str = "\
  integer function SAME(value)
    integer, intent(in) :: value
    SAME = value
  end function SAME
";
