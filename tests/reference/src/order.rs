//! RULES 1.4 (document 01, "In this order stand"): which form of line may follow which. A line out of order has
//! a broken form (number 2), found where it shows (READING 11, 24, 25, 42).

use crate::lines::Broken;
use crate::syntax::Form;

/// What the last line that was not skipped belongs to.
#[derive(Debug, Clone, Copy, PartialEq, Eq)]
enum Stage {
    Start,
    Integers,
    Data,
    Directive,
    Body,
    Ended,
    Closed,
}

/// The place in the order that the lines so far have reached.
pub struct Order {
    stage: Stage,
    /// For each `if` that is open, the innermost last: whether its `else` has stood.
    open_ifs: Vec<bool>,
}

impl Order {
    /// Before the first line.
    pub fn start() -> Self {
        Order {
            stage: Stage::Start,
            open_ifs: Vec::new(),
        }
    }

    /// Whether the text may end here; if not, it is "unfinished".
    pub fn may_end(&self) -> bool {
        matches!(self.stage, Stage::Ended | Stage::Closed)
    }

    /// Takes the next line that is not skipped.
    pub fn take(&mut self, form: &Form) -> Result<(), Broken> {
        self.stage = match (self.stage, form) {
            (Stage::Start | Stage::Integers, Form::Integer(_)) => Stage::Integers,
            (Stage::Integers | Stage::Data, Form::Data { .. }) => Stage::Data,
            (Stage::Integers | Stage::Data, Form::Directive { .. }) => Stage::Directive,
            (Stage::Directive, Form::Do { .. }) => Stage::Body,
            (Stage::Body, Form::EndDo) if self.open_ifs.is_empty() => Stage::Ended,
            (Stage::Body, _) => {
                self.take_in_body(form)?;
                Stage::Body
            }
            (Stage::Ended, Form::Closing) => Stage::Closed,
            _ => return Err(Broken),
        };
        Ok(())
    }

    /// "`if (e rel e) then`, statements, optional `else` and statements, `end if`"
    fn take_in_body(&mut self, form: &Form) -> Result<(), Broken> {
        match form {
            Form::Assign(_) => Ok(()),
            Form::If(_) => {
                self.open_ifs.push(false);
                Ok(())
            }
            Form::Else => match self.open_ifs.last_mut() {
                Some(else_stood @ false) => {
                    *else_stood = true;
                    Ok(())
                }
                _ => Err(Broken),
            },
            Form::EndIf => self.open_ifs.pop().map(|_| ()).ok_or(Broken),
            _ => Err(Broken),
        }
    }
}
