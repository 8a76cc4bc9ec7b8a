//! The program that the lines so far make. Lines are added once they are judged.

use crate::names_limits::class_of;
use crate::program::{Action, Declared, Place, Program, Statement};
use crate::syntax::{Assignment, Class, Clause, Condition, Form, Grouping, Item};

/// What the lines so far have said.
#[derive(Default)]
pub struct Draft {
    pub names: Vec<Declared>,
    processors: u32,
    grouping: Grouping,
    pub variable: Option<String>,
    first: i32,
    last: i32,
    /// The statements of the loop that no open `if` holds.
    body: Vec<Statement>,
    /// The open `if`s, the innermost last.
    pub open_ifs: Vec<OpenIf>,
}

/// An `if` whose `end if` has not stood yet.
pub struct OpenIf {
    line: u32,
    condition: Condition<Place>,
    then: Vec<Statement>,
    otherwise: Option<Vec<Statement>>,
}

/// Building the program from lines that hold.
impl Draft {
    /// Adds a line for which names and limits hold.
    pub fn add(&mut self, line: u32, form: &Form) {
        match form {
            Form::Integer(declarations) => self.declare(declarations),
            Form::Data { name, items } => self.give_data(name, items),
            Form::Directive {
                processors,
                grouping,
                lists,
            } => {
                self.processors = *processors as u32;
                self.grouping = *grouping;
                self.classify(lists);
            }
            Form::Do {
                variable,
                first,
                last,
            } => {
                self.variable = Some(variable.clone());
                self.first = first.value();
                self.last = last.value();
            }
            Form::Assign(assignment) => self.add_assignment(line, assignment),
            Form::If(condition) => self.open_if(line, condition),
            Form::Else => self.innermost().otherwise = Some(Vec::new()),
            Form::EndIf => self.close_if(),
            Form::EndDo | Form::Closing => {}
        }
    }

    /// The index of a declared name.
    pub fn find(&self, name: &str) -> Option<usize> {
        self.names.iter().position(|declared| declared.name == name)
    }

    fn declare(&mut self, declarations: &[(String, Vec<u64>)]) {
        for (name, extents) in declarations {
            let first_cell = self.names.iter().map(Declared::length).sum();
            self.names.push(Declared {
                name: name.clone(),
                first_cell,
                extents: extents.iter().map(|&extent| extent as usize).collect(),
                class: Class::Shared,
                data: None,
            });
        }
    }

    fn give_data(&mut self, name: &str, items: &[Item]) {
        let values = items
            .iter()
            .flat_map(|item| std::iter::repeat_n(item.value.value(), item.copies as usize))
            .collect();
        let index = self.find(name).expect("a known name");
        self.names[index].data = Some(values);
    }

    fn classify(&mut self, lists: &[(Clause, Vec<String>)]) {
        for declared in &mut self.names {
            declared.class = class_of(&declared.name, lists).expect("clauses that go together");
        }
    }

    /// "An update is an assignment to a cell of a reduction name whose right side begins with the
    /// same reference"; the same words for other names are ordinary (READING 64). Document 02, Point 6: "Each
    /// name has the update of its own clause only." (P6.6)
    fn add_assignment(&mut self, line: u32, written: &Assignment<String>) {
        let Assignment {
            target,
            value,
            update,
        } = self.resolve_assignment(written).expect("known names");
        let class = match target.name {
            Place::Name(index) => self.names[index].class,
            Place::Variable => unreachable!("v is not assigned"),
        };
        let action = match update {
            Some(update) if class == Class::Reduction(update.words.operation()) => Action::Update {
                target,
                update,
                value,
            },
            _ => Action::Assign { target, value },
        };
        self.add_statement(Statement { line, action });
    }

    fn add_statement(&mut self, statement: Statement) {
        let block = match self.open_ifs.last_mut() {
            Some(open) => open.otherwise.as_mut().unwrap_or(&mut open.then),
            None => &mut self.body,
        };
        block.push(statement);
    }

    fn open_if(&mut self, line: u32, written: &Condition<String>) {
        let condition = self.resolve_condition(written).expect("known names");
        self.open_ifs.push(OpenIf {
            line,
            condition,
            then: Vec::new(),
            otherwise: None,
        });
    }

    fn innermost(&mut self) -> &mut OpenIf {
        self.open_ifs.last_mut().expect("an open `if`")
    }

    fn close_if(&mut self) {
        let open = self.open_ifs.pop().expect("an open `if`");
        self.add_statement(Statement {
            line: open.line,
            action: Action::If {
                condition: open.condition,
                then: open.then,
                otherwise: open.otherwise,
            },
        });
    }

    /// The program, once the text is finished.
    pub fn finish(self) -> Program {
        Program {
            names: self.names,
            processors: self.processors,
            grouping: self.grouping,
            variable: self.variable.expect("a `do` line"),
            first: self.first,
            last: self.last,
            body: self.body,
        }
    }
}
