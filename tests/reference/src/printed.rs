//! Document 02, Point 8: the one printed form of a text.

use crate::lines::{sort_line, split_lines, Line};
use crate::reader::read;
use crate::tokens::{literal_value, split_tokens, Token};
use crate::Refusal;

/// "Write a text in one form". A text that is not accepted is refused as Check refuses it.
pub fn printed(text: &[u8]) -> Result<Vec<u8>, Refusal> {
    read(text)?;
    let lines = split_lines(text).into_iter().filter_map(printed_line);
    // "a newline after every line"
    Ok(lines.map(|line| line + "\n").collect::<String>().into())
}

/// A line of an accepted text: "one blank between tokens", between any two of them and nowhere else (8.1).
fn printed_line(line: &[u8]) -> Option<String> {
    // "lower case": `sort_line` has seen to it.
    let tokens = match &sort_line(line).expect("an accepted line") {
        // "no comments or empty lines"
        Line::Skipped => return None,
        Line::Directive(content) => directive(&split_tokens(content))?,
        Line::Plain(content) => plain(&split_tokens(content)),
    };
    Some(tokens.join(" "))
}

/// "no closing directive"; "clauses and their names as they stood" (8.5).
fn directive(tokens: &[Token]) -> Option<Vec<String>> {
    match tokens {
        [Token::Word("end"), ..] => None,
        _ => Some([vec!["!$omp".to_string()], shown(tokens)].concat()),
    }
}

/// "two-word endings" (8.6), "data with every copy written out"; every other line is as it stood.
fn plain(tokens: &[Token]) -> Vec<String> {
    match tokens {
        [Token::Word("enddo")] => shown(&[Token::Word("end"), Token::Word("do")]),
        [Token::Word("endif")] => shown(&[Token::Word("end"), Token::Word("if")]),
        [Token::Word("data"), name, stroke, items @ .., last] => {
            let head = [Token::Word("data"), *name, *stroke];
            shown(&[&head, &written_out(items)[..], &[*last]].concat())
        }
        _ => shown(tokens),
    }
}

/// "each `r*` replaced by r copies of sign and literal" (8.4)
fn written_out<'t>(items: &[Token<'t>]) -> Vec<Token<'t>> {
    let comma = Token::Sign(",");
    let mut copies: Vec<&[Token]> = Vec::new();
    for item in items.split(|token| *token == comma) {
        match item {
            [Token::Digits(repeat), Token::Sign("*"), value @ ..] => {
                copies.extend(vec![value; literal_value(repeat) as usize]);
            }
            value => copies.push(value),
        }
    }
    copies.join(&comma)
}

/// The tokens' own bytes, "literals without leading zeros". Signs stay as they stood (8.2).
fn shown(tokens: &[Token]) -> Vec<String> {
    let bytes = |token: &Token| match token {
        // "A literal of zeros alone prints `0`." (8.3)
        Token::Digits(digits) => match digits.trim_start_matches('0') {
            "" => "0".to_string(),
            rest => rest.to_string(),
        },
        Token::Word(bytes) | Token::Sign(bytes) => bytes.to_string(),
    };
    tokens.iter().map(bytes).collect()
}
