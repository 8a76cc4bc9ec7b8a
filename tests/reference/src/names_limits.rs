//! RULES 1.12 and 1.13, numbers 3 and 4: what a line's names and sizes must be, judged "only by what stands up to it"
//! (READING 24).

use crate::draft::Draft;
use crate::program::{Declared, Place};
use crate::syntax::{
    Assignment, Class, Clause, Condition, Expression, Factor, Form, Item, Named, Signed, Term,
    Update, Written,
};

/// "Limits: literals to 2,147,483,647; names 16; array length 1 to 4,096; N to 4,096; P 1 to 8;
/// n to 65,535; `if` depth 8; brackets open together in a statement 8"; document 02, Point 9: "m × n up to 4,096"
const LITERAL_LIMIT: u64 = 2_147_483_647;
const NAME_LIMIT: usize = 16;
const LENGTH_LIMIT: u128 = 4096;
const CELL_LIMIT: u128 = 4096;
const PROCESSOR_LIMIT: u64 = 8;
const ITERATION_LIMIT: i64 = 65_535;
const IF_LIMIT: usize = 8;
const BRACKET_LIMIT: usize = 8;

/// Names: number 3.
impl Draft {
    /// Whether no name in the line gives number 3.
    pub fn names_hold(&self, form: &Form) -> bool {
        match form {
            Form::Integer(declarations) => {
                self.all_new(declarations.iter().map(|(name, _)| name.as_str()))
            }
            Form::Data { name, items } => self.data_holds(name, items),
            Form::Directive { lists, .. } => self.lists_hold(lists),
            Form::Do { variable, .. } => self.find(variable).is_none(),
            Form::Assign(assignment) => self.resolve_assignment(assignment).is_some(),
            Form::If(condition) => self.resolve_condition(condition).is_some(),
            Form::Else | Form::EndIf | Form::EndDo | Form::Closing => true,
        }
    }

    /// "name [...] declared [...] twice", in one line or in two.
    fn all_new<'n>(&self, names: impl Iterator<Item = &'n str>) -> bool {
        let names: Vec<&str> = names.collect();
        all_different(&names) && names.iter().all(|name| self.find(name).is_none())
    }

    /// "name unknown, [...] given data twice, [...] data of the wrong count". Counts are added
    /// exactly, a repeat over the literal limit too (READING 49, 50, 51).
    fn data_holds(&self, name: &str, items: &[Item]) -> bool {
        let count = items
            .iter()
            .fold(0u64, |count, item| count.saturating_add(item.copies));
        self.find(name).is_some_and(|index| {
            let declared = &self.names[index];
            declared.data.is_none() && count == declared.length() as u64
        })
    }

    /// "name unknown, [...] in two clauses or twice in one" (READING 33)
    fn lists_hold(&self, lists: &[(Clause, Vec<String>)]) -> bool {
        let mut names = lists.iter().flat_map(|(_, names)| names);
        names.all(|name| self.find(name).is_some() && class_of(name, lists).is_some())
    }
}

/// The class of a name by all the clauses it stands in, each as often as it does; `None` gives number 3.
/// Document 02, Point 5: "A name in firstprivate alone is 3 at the directive; two clauses are no fault for
/// this pair" (P5.1, P5.2). Two `reduction` clauses are one, of one operation or of two (P6.1).
pub fn class_of(name: &str, lists: &[(Clause, Vec<String>)]) -> Option<Class> {
    let places = |(clause, names): &(Clause, Vec<String>)| {
        let times = names.iter().filter(|one| *one == name).count();
        vec![*clause; times]
    };
    let clauses: Vec<Clause> = lists.iter().flat_map(places).collect();
    match clauses[..] {
        [] | [Clause::Shared] => Some(Class::Shared),
        [Clause::Lastprivate] => Some(Class::Lastprivate),
        [Clause::Firstprivate, Clause::Lastprivate]
        | [Clause::Lastprivate, Clause::Firstprivate] => Some(Class::CopyIn),
        [Clause::Reduction(operation)] => Some(Class::Reduction(operation)),
        _ => None,
    }
}

fn all_different(names: &[&str]) -> bool {
    (1..names.len()).all(|later| !names[..later].contains(&names[later]))
}

/// What the names of a statement stand for; `None` where one gives number 3.
impl Draft {
    /// "v [...] assigned" is 3 (READING 36).
    pub fn resolve_assignment(&self, written: &Assignment<String>) -> Option<Assignment<Place>> {
        let target = self.resolve_named(&written.target)?;
        if target.name == Place::Variable {
            return None;
        }
        let update = match &written.update {
            Some(Update { words, operand }) => Some(Update {
                words: *words,
                operand: self.resolve_expression(operand)?,
            }),
            None => None,
        };
        Some(Assignment {
            target,
            value: self.resolve_expression(&written.value)?,
            update,
        })
    }

    pub fn resolve_condition(&self, written: &Condition<String>) -> Option<Condition<Place>> {
        Some(Condition {
            left: self.resolve_expression(&written.left)?,
            relation: written.relation,
            right: self.resolve_expression(&written.right)?,
        })
    }

    fn resolve_expression(&self, written: &Expression<String>) -> Option<Expression<Place>> {
        let mut others = Vec::new();
        for (joint, term) in &written.others {
            others.push((*joint, self.resolve_term(term)?));
        }
        Some(Expression {
            negative: written.negative,
            first: self.resolve_term(&written.first)?,
            others,
        })
    }

    fn resolve_term(&self, written: &Term<String>) -> Option<Term<Place>> {
        let mut others = Vec::new();
        for (scaling, factor) in &written.others {
            others.push((*scaling, self.resolve_factor(factor)?));
        }
        Some(Term {
            first: self.resolve_factor(&written.first)?,
            others,
        })
    }

    fn resolve_factor(&self, written: &Factor<String>) -> Option<Factor<Place>> {
        Some(match written {
            Factor::Literal(value) => Factor::Literal(*value),
            Factor::Named(named) => Factor::Named(self.resolve_named(named)?),
            Factor::Rdiv(dividend, divisor) => Factor::Rdiv(
                Box::new(self.resolve_expression(dividend)?),
                Box::new(self.resolve_expression(divisor)?),
            ),
            Factor::Max(one, other) => Factor::Max(
                Box::new(self.resolve_expression(one)?),
                Box::new(self.resolve_expression(other)?),
            ),
            Factor::Brackets(inner) => Factor::Brackets(Box::new(self.resolve_expression(inner)?)),
        })
    }

    /// "name unknown, [...] a subscript missing, or on a single cell or v" (READING 35, 36, 37). Document 02, Point 9:
    /// "One subscript where two belong, or two for one, is 3" (P9.2, P9.3).
    fn resolve_named(&self, written: &Named<String>) -> Option<Named<Place>> {
        let (name, taken) = if self.variable.as_ref() == Some(&written.name) {
            (Place::Variable, 0)
        } else {
            let index = self.find(&written.name)?;
            (Place::Name(index), self.names[index].extents.len())
        };
        if written.subscripts.len() != taken {
            return None;
        }
        let mut subscripts = Vec::new();
        for subscript in &written.subscripts {
            subscripts.push(self.resolve_expression(subscript)?);
        }
        Some(Named { name, subscripts })
    }
}

/// Limits: number 4.
impl Draft {
    /// Whether nothing in the line is over a limit.
    pub fn limits_hold(&self, line: &Written) -> bool {
        // A literal over the limit is 4 anywhere in a line (READING 39). A data repeat over it
        // has given 3 before (READING 49).
        line.greatest_literal <= LITERAL_LIMIT
            && match &line.form {
                Form::Integer(declarations) => self.declarations_fit(declarations),
                Form::Directive { processors, .. } => (1..=PROCESSOR_LIMIT).contains(processors),
                Form::Do { first, last, .. } => iterations_fit(*first, *last),
                Form::Assign(_) => line.open_brackets <= BRACKET_LIMIT,
                Form::If(_) => {
                    line.open_brackets <= BRACKET_LIMIT && self.open_ifs.len() < IF_LIMIT
                }
                Form::Data { .. } => true,
                Form::Else | Form::EndIf | Form::EndDo | Form::Closing => true,
            }
    }

    /// "names 16; array length 1 to 4,096; N to 4,096" (READING 28, 29, 30); N counts the cells of grids too (P9.1).
    fn declarations_fit(&self, declarations: &[(String, Vec<u64>)]) -> bool {
        let so_far: usize = self.names.iter().map(Declared::length).sum();
        let lengths: Vec<u128> = declarations
            .iter()
            .map(|(_, extents)| product(extents))
            .collect();
        lengths
            .iter()
            .all(|length| (1..=LENGTH_LIMIT).contains(length))
            && self.names.len() + declarations.len() <= NAME_LIMIT
            && so_far as u128 + lengths.iter().sum::<u128>() <= CELL_LIMIT
    }
}

/// How many cells these extents make: 1 if there are none; "m x n is taken exactly" (P9.1). An extent of 0 makes none.
fn product(extents: &[u64]) -> u128 {
    extents.iter().map(|&extent| u128::from(extent)).product()
}

/// "n to 65,535", n - m + 1 taken exactly (READING 40).
fn iterations_fit(first: Signed, last: Signed) -> bool {
    i64::from(last.value()) - i64::from(first.value()) < ITERATION_LIMIT
}
