//! RULES 1.4 to 1.11: the form of each line, read from its tokens. What breaks here is number 2; names and limits are
//! left to `names_limits`, so that "2 before 3 before 4" holds in every line (READING 23).

use crate::lines::{Broken, Line};
use crate::syntax::{
    Assignment, Clause, Condition, Expression, Factor, Form, Grouping, Item, Joint, Named,
    Operation, Relation, Scaling, Signed, Term, Update, Words, Written,
};
use crate::tokens::{literal_value, same_token, split_tokens, Token};

/// "The words integer, data, do, [...] are no names." Used as one they break the form (READING 21). Document
/// 02, Point 6: "max is no longer free as a name" (P6.2).
const RESERVED: [&str; 11] = [
    "integer", "data", "do", "end", "enddo", "endif", "if", "then", "else", "rdiv", "max",
];

/// "Names are a letter and up to 30 letters, digits or underscores." (READING 20)
const NAME_LENGTH: usize = 31;

/// Document 02, Point 9: "three or more, declared or used, are 2" (P9.3).
const MOST_SUBSCRIPTS: usize = 2;

/// The form of a line; `None` if the line is skipped.
pub fn parse_line(line: &Line) -> Result<Option<Written>, Broken> {
    let (content, directive) = match line {
        Line::Skipped => return Ok(None),
        Line::Directive(content) => (content, true),
        Line::Plain(content) => (content, false),
    };
    let tokens = split_tokens(content);
    let mut cursor = Cursor::at(&tokens);
    let form = if directive {
        cursor.directive_form()?
    } else {
        cursor.plain_form()?
    };
    cursor.expect_end()?;
    let outer_pairs = usize::from(matches!(form, Form::If(_)));
    Ok(Some(Written {
        form,
        greatest_literal: greatest_literal(&tokens),
        open_brackets: most_open(&tokens).saturating_sub(outer_pairs),
    }))
}

/// The greatest literal among the tokens.
fn greatest_literal(tokens: &[Token]) -> u64 {
    let values = tokens.iter().map(|token| match token {
        Token::Digits(digits) => literal_value(digits),
        _ => 0,
    });
    values.max().unwrap_or(0)
}

/// The most brackets open at one moment, every `(` counted (READING 44).
fn most_open(tokens: &[Token]) -> usize {
    let mut open: usize = 0;
    let mut most = 0;
    for token in tokens {
        match token {
            Token::Sign("(") => open += 1,
            Token::Sign(")") => open = open.saturating_sub(1),
            _ => {}
        }
        most = most.max(open);
    }
    most
}

type BoxedExpression = Box<Expression<String>>;

/// The tokens of a line and the place reached in them.
struct Cursor<'t> {
    tokens: &'t [Token<'t>],
    place: usize,
}

/// Single tokens.
impl<'t> Cursor<'t> {
    fn peek(&self) -> Option<Token<'t>> {
        self.tokens.get(self.place).copied()
    }

    fn next(&mut self) -> Option<Token<'t>> {
        let token = self.peek();
        self.place += usize::from(token.is_some());
        token
    }

    /// Takes the token if it is the next one.
    fn accept(&mut self, token: Token) -> bool {
        let found = self.peek() == Some(token);
        self.place += usize::from(found);
        found
    }

    fn accept_sign(&mut self, sign: &str) -> bool {
        self.accept(Token::Sign(sign))
    }

    fn expect_sign(&mut self, sign: &str) -> Result<(), Broken> {
        self.accept_sign(sign).then_some(()).ok_or(Broken)
    }

    fn expect_word(&mut self, word: &str) -> Result<(), Broken> {
        self.accept(Token::Word(word)).then_some(()).ok_or(Broken)
    }

    fn expect_end(&self) -> Result<(), Broken> {
        self.peek().is_none().then_some(()).ok_or(Broken)
    }

    fn literal(&mut self) -> Result<u64, Broken> {
        match self.next() {
            Some(Token::Digits(digits)) => Ok(literal_value(digits)),
            _ => Err(Broken),
        }
    }

    /// Whether the next token is a sign; if so, takes it and says whether it is `-`.
    fn optional_sign(&mut self) -> bool {
        let negative = self.accept_sign("-");
        if !negative {
            self.accept_sign("+");
        }
        negative
    }

    fn signed_literal(&mut self) -> Result<Signed, Broken> {
        let negative = self.optional_sign();
        let literal = self.literal()?;
        Ok(Signed { negative, literal })
    }

    fn name(&mut self) -> Result<String, Broken> {
        match self.next() {
            Some(Token::Word(word)) if is_name(word) => Ok(word.to_string()),
            _ => Err(Broken),
        }
    }

    /// One or more of something, parted by commas.
    fn list<T>(
        &mut self,
        mut item: impl FnMut(&mut Self) -> Result<T, Broken>,
    ) -> Result<Vec<T>, Broken> {
        let mut items = vec![item(self)?];
        while self.accept_sign(",") {
            items.push(item(self)?);
        }
        Ok(items)
    }
}

fn is_name(word: &str) -> bool {
    word.len() <= NAME_LENGTH && !RESERVED.contains(&word)
}

/// Lines.
impl Cursor<'_> {
    /// A line that is no directive. As reserved words are no names, its first word decides.
    fn plain_form(&mut self) -> Result<Form, Broken> {
        match self.peek() {
            Some(Token::Word("integer")) => self.integer_line(),
            Some(Token::Word("data")) => self.data_line(),
            Some(Token::Word("do")) => self.do_line(),
            Some(Token::Word("if")) => self.if_line(),
            Some(Token::Word("else")) => self.word_line(Form::Else),
            Some(Token::Word("enddo")) => self.word_line(Form::EndDo),
            Some(Token::Word("endif")) => self.word_line(Form::EndIf),
            Some(Token::Word("end")) => self.end_line(),
            _ => self.assignment(),
        }
    }

    /// `integer` and names, "`z` is one cell, `a(n)` is n cells" (READING 28); document 02, Point 9: "Allow `a(m, n)`",
    /// literals without sign (P9.1).
    fn integer_line(&mut self) -> Result<Form, Broken> {
        self.expect_word("integer")?;
        Ok(Form::Integer(self.list(Self::declaration)?))
    }

    fn declaration(&mut self) -> Result<(String, Vec<u64>), Broken> {
        Ok((self.name()?, self.one_or_two(Self::literal)?))
    }

    /// `data name /list/` (READING 47, 52)
    fn data_line(&mut self) -> Result<Form, Broken> {
        self.expect_word("data")?;
        let name = self.name()?;
        self.expect_sign("/")?;
        let items = self.list(Self::data_item)?;
        self.expect_sign("/")?;
        Ok(Form::Data { name, items })
    }

    /// "a literal with optional sign, or `r*` before it for r copies, r at least 1"; "a data repeat
    /// of 0 is 2" (READING 48).
    fn data_item(&mut self) -> Result<Item, Broken> {
        let copies = match self.tokens[self.place..] {
            [Token::Digits(repeat), Token::Sign("*"), ..] => {
                self.place += 2;
                literal_value(repeat)
            }
            _ => 1,
        };
        if copies == 0 {
            return Err(Broken);
        }
        let value = self.signed_literal()?;
        Ok(Item { copies, value })
    }

    /// `do v = m, n` "with literals, optional sign" (READING 41)
    fn do_line(&mut self) -> Result<Form, Broken> {
        self.expect_word("do")?;
        let variable = self.name()?;
        self.expect_sign("=")?;
        let first = self.signed_literal()?;
        self.expect_sign(",")?;
        let last = self.signed_literal()?;
        Ok(Form::Do {
            variable,
            first,
            last,
        })
    }

    /// `if (e rel e) then`
    fn if_line(&mut self) -> Result<Form, Broken> {
        self.expect_word("if")?;
        self.expect_sign("(")?;
        let left = self.expression()?;
        let relation = self.relation()?;
        let right = self.expression()?;
        self.expect_sign(")")?;
        self.expect_word("then")?;
        Ok(Form::If(Condition {
            left,
            relation,
            right,
        }))
    }

    fn relation(&mut self) -> Result<Relation, Broken> {
        match self.next() {
            Some(Token::Sign("==")) => Ok(Relation::Equal),
            Some(Token::Sign("/=")) => Ok(Relation::Unequal),
            Some(Token::Sign("<")) => Ok(Relation::Less),
            Some(Token::Sign("<=")) => Ok(Relation::LessOrEqual),
            Some(Token::Sign(">")) => Ok(Relation::Greater),
            Some(Token::Sign(">=")) => Ok(Relation::GreaterOrEqual),
            _ => Err(Broken),
        }
    }

    /// A line of one word.
    fn word_line(&mut self, form: Form) -> Result<Form, Broken> {
        self.next();
        Ok(form)
    }

    /// `end do` or `end if`
    fn end_line(&mut self) -> Result<Form, Broken> {
        self.expect_word("end")?;
        match self.next() {
            Some(Token::Word("do")) => Ok(Form::EndDo),
            Some(Token::Word("if")) => Ok(Form::EndIf),
            _ => Err(Broken),
        }
    }

    /// An assignment, and the update that it has the words of: of one at most, for no name is `max`.
    fn assignment(&mut self) -> Result<Form, Broken> {
        let start = self.place;
        let target = self.reference()?;
        let reference = &self.tokens[start..self.place];
        self.expect_sign("=")?;
        let right = &self.tokens[self.place..];
        let value = self.expression()?;
        self.expect_end()?;
        let update = sum_update(reference, right)
            .or_else(|| product_update(reference, right))
            .or_else(|| maximum_update(reference, right));
        Ok(Form::Assign(Assignment {
            target,
            value,
            update,
        }))
    }

    /// A directive's line after its five bytes: the opening or the closing one.
    fn directive_form(&mut self) -> Result<Form, Broken> {
        let closing = self.accept(Token::Word("end"));
        self.expect_word("parallel")?;
        self.expect_word("do")?;
        if closing {
            return Ok(Form::Closing);
        }
        self.clauses()
    }

    /// "`num_threads(p)` exactly once, and any of `shared(list)`, `lastprivate(list)`,
    /// `reduction(+:list)`, repeated or not. No commas stand between clauses" (READING 26, 27, 32);
    /// document 02, Point 3: "the clause `schedule(static)`, at most once" (P3.1 to P3.3); Point 5:
    /// `firstprivate(list)` as the others (P5.1); Point 6: "Add `reduction(*:list)` and
    /// `reduction(max:list)`" (P6.1).
    fn clauses(&mut self) -> Result<Form, Broken> {
        let mut threads = Vec::new();
        let mut lists = Vec::new();
        let mut schedules = Vec::new();
        while let Some(token) = self.next() {
            self.expect_sign("(")?;
            match token {
                Token::Word("num_threads") => threads.push(self.literal()?),
                Token::Word("shared") => lists.push((Clause::Shared, self.names()?)),
                Token::Word("firstprivate") => lists.push((Clause::Firstprivate, self.names()?)),
                Token::Word("lastprivate") => lists.push((Clause::Lastprivate, self.names()?)),
                Token::Word("reduction") => {
                    let operation = self.operation()?;
                    self.expect_sign(":")?;
                    lists.push((Clause::Reduction(operation), self.names()?));
                }
                Token::Word("schedule") => {
                    self.expect_word("static")?;
                    schedules.push(Grouping::Blocks);
                }
                _ => return Err(Broken),
            }
            self.expect_sign(")")?;
        }
        let grouping = match schedules[..] {
            [] => Grouping::Iterations,
            [once] => once,
            _ => return Err(Broken),
        };
        match threads[..] {
            [processors] => Ok(Form::Directive {
                processors,
                grouping,
                lists,
            }),
            _ => Err(Broken),
        }
    }

    fn operation(&mut self) -> Result<Operation, Broken> {
        match self.next() {
            Some(Token::Sign("+")) => Ok(Operation::Sum),
            Some(Token::Sign("*")) => Ok(Operation::Product),
            Some(Token::Word("max")) => Ok(Operation::Maximum),
            _ => Err(Broken),
        }
    }

    /// "a list is one or more names parted by commas"
    fn names(&mut self) -> Result<Vec<String>, Broken> {
        self.list(Self::name)
    }
}

/// "the same reference, token for token [...], followed by +" (READING 62, 63), or by - (P1.1), which applies to
/// the whole first term (P1.2). The right side has been read, so what remains of it is an expression.
fn sum_update(reference: &[Token], right: &[Token]) -> Option<Update<String>> {
    let (sign, remainder) = after(reference, right)?.split_first()?;
    let words = match sign {
        Token::Sign("+") => Words::Plus,
        Token::Sign("-") => Words::Minus,
        _ => return None,
    };
    let remainder = Cursor::at(remainder).expression().ok()?;
    let operand = Expression {
        negative: words == Words::Minus,
        ..remainder
    };
    Some(Update { words, operand })
}

/// Document 02, Point 6: "Product updates are `x = x * e`, where the remainder has no +, - or / outside
/// brackets" (P6.3).
fn product_update(reference: &[Token], right: &[Token]) -> Option<Update<String>> {
    let (sign, remainder) = after(reference, right)?.split_first()?;
    let joined_by_others = outside_brackets(remainder)
        .iter()
        .any(|token| matches!(token, Token::Sign("+" | "-" | "/")));
    if *sign != Token::Sign("*") || joined_by_others {
        return None;
    }
    let operand = Cursor::at(remainder).expression().ok()?;
    let words = Words::Times;
    Some(Update { words, operand })
}

/// Document 02, Point 6: "Maximum updates are `x = max(x, e)`", and nothing else stands on the line (P6.4).
fn maximum_update(reference: &[Token], right: &[Token]) -> Option<Update<String>> {
    let arguments = after(&[Token::Word("max"), Token::Sign("(")], right)?;
    let rest = after(&[Token::Sign(",")], after(reference, arguments)?)?;
    let mut cursor = Cursor::at(rest);
    let operand = cursor.expression().ok()?;
    cursor.expect_sign(")").ok()?;
    cursor.expect_end().ok()?;
    let words = Words::Max;
    Some(Update { words, operand })
}

/// What follows these tokens, if `tokens` begin with them, "a literal's leading zeros aside".
fn after<'t>(begin: &[Token], tokens: &'t [Token<'t>]) -> Option<&'t [Token<'t>]> {
    let (first, rest) = tokens.split_at_checked(begin.len())?;
    let mut pairs = begin.iter().zip(first);
    let same = pairs.all(|(one, other)| same_token(one, other));
    same.then_some(rest)
}

/// The tokens that stand in no brackets, of whatever kind, and are none.
fn outside_brackets<'t>(tokens: &[Token<'t>]) -> Vec<Token<'t>> {
    let mut open = 0;
    let mut outside = Vec::new();
    for token in tokens {
        match token {
            Token::Sign("(") => open += 1,
            Token::Sign(")") => open -= 1,
            _ if open == 0 => outside.push(*token),
            _ => {}
        }
    }
    outside
}

/// Expressions.
impl<'t> Cursor<'t> {
    /// Before the first of these tokens.
    fn at(tokens: &'t [Token<'t>]) -> Self {
        Cursor { tokens, place: 0 }
    }

    fn expression(&mut self) -> Result<Expression<String>, Broken> {
        let negative = self.optional_sign();
        let first = self.term()?;
        let mut others = Vec::new();
        while let Some(joint) = self.joint() {
            others.push((joint, self.term()?));
        }
        Ok(Expression {
            negative,
            first,
            others,
        })
    }

    fn joint(&mut self) -> Option<Joint> {
        if self.accept_sign("+") {
            Some(Joint::Plus)
        } else if self.accept_sign("-") {
            Some(Joint::Minus)
        } else {
            None
        }
    }

    fn term(&mut self) -> Result<Term<String>, Broken> {
        let first = self.factor()?;
        let mut others = Vec::new();
        while let Some(scaling) = self.scaling() {
            others.push((scaling, self.factor()?));
        }
        Ok(Term { first, others })
    }

    fn scaling(&mut self) -> Option<Scaling> {
        if self.accept_sign("*") {
            Some(Scaling::Times)
        } else if self.accept_sign("/") {
            Some(Scaling::Over)
        } else {
            None
        }
    }

    fn factor(&mut self) -> Result<Factor<String>, Broken> {
        match self.peek() {
            Some(Token::Digits(_)) => Ok(Factor::Literal(self.literal()?)),
            Some(Token::Word("rdiv")) => {
                let (dividend, divisor) = self.two_arguments()?;
                Ok(Factor::Rdiv(dividend, divisor))
            }
            Some(Token::Word("max")) => {
                let (one, other) = self.two_arguments()?;
                Ok(Factor::Max(one, other))
            }
            Some(Token::Word(_)) => Ok(Factor::Named(self.reference()?)),
            Some(Token::Sign("(")) => Ok(Factor::Brackets(self.in_brackets()?)),
            _ => Err(Broken),
        }
    }

    /// A word, and `(e, e)` after it.
    fn two_arguments(&mut self) -> Result<(BoxedExpression, BoxedExpression), Broken> {
        self.next();
        self.expect_sign("(")?;
        let one = self.expression()?;
        self.expect_sign(",")?;
        let other = self.expression()?;
        self.expect_sign(")")?;
        Ok((Box::new(one), Box::new(other)))
    }

    /// A name, and one or two subscripts in brackets if they follow, whatever the name is (P9.3).
    fn reference(&mut self) -> Result<Named<String>, Broken> {
        let name = self.name()?;
        let subscripts = self.one_or_two(Self::expression)?;
        Ok(Named { name, subscripts })
    }

    /// One or two things in brackets, parted by a comma; none if no bracket follows.
    fn one_or_two<T>(
        &mut self,
        item: impl FnMut(&mut Self) -> Result<T, Broken>,
    ) -> Result<Vec<T>, Broken> {
        if !self.accept_sign("(") {
            return Ok(Vec::new());
        }
        let items = self.list(item)?;
        self.expect_sign(")")?;
        match items.len() <= MOST_SUBSCRIPTS {
            true => Ok(items),
            false => Err(Broken),
        }
    }

    fn in_brackets(&mut self) -> Result<BoxedExpression, Broken> {
        self.expect_sign("(")?;
        let inner = self.expression()?;
        self.expect_sign(")")?;
        Ok(Box::new(inner))
    }
}
