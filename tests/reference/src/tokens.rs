//! RULES 1.2 (document 01, "The loop text"): the tokens of one line.

/// A token of a line in lower case.
#[derive(Debug, Clone, Copy, PartialEq, Eq)]
pub enum Token<'a> {
    /// "a letter, then letters, digits or underscores"
    Word(&'a str),
    /// A string of digits, leading zeros included.
    Digits(&'a str),
    /// `!$omp`, `==`, `/=`, `<=`, `>=` or a single sign.
    Sign(&'a str),
}

/// The tokens of more than one sign. They are tried before single signs: "the longest first".
const LONG_SIGNS: [&str; 5] = ["!$omp", "==", "/=", "<=", ">="];

/// The tokens of a line in lower case; "blanks between tokens are free".
pub fn split_tokens(line: &str) -> Vec<Token<'_>> {
    let mut tokens = Vec::new();
    let mut rest = line.trim_start_matches(' ');
    while !rest.is_empty() {
        let length = token_length(rest);
        let (token, after) = rest.split_at(length);
        tokens.push(name_token(token));
        rest = after.trim_start_matches(' ');
    }
    tokens
}

/// The bytes of the token that `rest`, which begins with no blank, begins with.
fn token_length(rest: &str) -> usize {
    let letters_on = |keep: fn(char) -> bool| rest.find(|c| !keep(c)).unwrap_or(rest.len());
    match rest.chars().next() {
        Some('a'..='z') => letters_on(|c| c.is_ascii_alphanumeric() || c == '_'),
        Some('0'..='9') => letters_on(|c| c.is_ascii_digit()),
        _ => LONG_SIGNS
            .iter()
            .find(|sign| rest.starts_with(*sign))
            .map_or(1, |sign| sign.len()),
    }
}

/// Which kind of token it is, by its first byte.
fn name_token(token: &str) -> Token<'_> {
    match token.chars().next() {
        Some('a'..='z') => Token::Word(token),
        Some('0'..='9') => Token::Digits(token),
        _ => Token::Sign(token),
    }
}

/// The value of a string of digits. Beyond the range of `u64` it stays at the greatest value,
/// which is over every limit of document 01. Leading zeros are free (READING 19).
pub fn literal_value(digits: &str) -> u64 {
    digits.bytes().fold(0u64, |value, digit| {
        value
            .saturating_mul(10)
            .saturating_add(u64::from(digit - b'0'))
    })
}

/// "token for token (a literal's leading zeros aside)" (READING 62)
pub fn same_token(one: &Token, other: &Token) -> bool {
    match (one, other) {
        (Token::Digits(one), Token::Digits(other)) => {
            one.trim_start_matches('0') == other.trim_start_matches('0')
        }
        _ => one == other,
    }
}

#[cfg(test)]
mod tests {
    use super::Token::{Digits, Sign, Word};
    use super::*;

    #[test]
    fn the_longest_token_is_taken() {
        assert_eq!(
            split_tokens("a2<=1_4 /= = 2a"),
            vec![
                Word("a2"),
                Sign("<="),
                Digits("1"),
                Sign("_"),
                Digits("4"),
                Sign("/="),
                Sign("="),
                Digits("2"),
                Word("a")
            ]
        );
    }

    #[test]
    fn literals_keep_their_value_beyond_every_limit() {
        assert_eq!(literal_value("00000000000000000000000000000000001"), 1);
        assert_eq!(literal_value("4294967297"), 4_294_967_297);
        assert_eq!(literal_value(&"9".repeat(2000)), u64::MAX);
    }

    #[test]
    fn leading_zeros_are_no_difference() {
        assert!(same_token(&Digits("0"), &Digits("000")));
        assert!(same_token(&Digits("010"), &Digits("10")));
        assert!(!same_token(&Digits("1"), &Digits("10")));
        assert!(!same_token(&Digits("1"), &Word("i")));
    }
}
