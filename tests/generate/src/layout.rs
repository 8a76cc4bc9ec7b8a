//! How a loop is written down: case, blanks, leading zeros, skipped lines and both spellings of
//! endings. None of it changes what the text says.

use crate::rng::Rng;

/// How much a text is varied, in percent for each place where it could be.
#[derive(Debug, Clone, Copy)]
pub struct Layout {
    pub upper_case: u32,
    pub extra_blank: u32,
    pub left_out_blank: u32,
    pub leading_zero: u32,
    pub skipped_line: u32,
    pub joined_ending: u32,
    pub closing_directive: u32,
    pub last_newline: u32,
}

impl Layout {
    /// As a careful person writes.
    pub const PLAIN: Layout = Layout {
        upper_case: 0,
        extra_blank: 0,
        left_out_blank: 50,
        leading_zero: 0,
        skipped_line: 0,
        joined_ending: 0,
        closing_directive: 0,
        last_newline: 100,
    };

    /// Anything that is allowed, now and then.
    pub const VARIED: Layout = Layout {
        upper_case: 20,
        extra_blank: 8,
        left_out_blank: 60,
        leading_zero: 5,
        skipped_line: 10,
        joined_ending: 50,
        closing_directive: 50,
        last_newline: 80,
    };

    /// Anything that is allowed, often.
    pub const ODD: Layout = Layout {
        upper_case: 50,
        extra_blank: 40,
        left_out_blank: 40,
        leading_zero: 25,
        skipped_line: 35,
        joined_ending: 50,
        closing_directive: 60,
        last_newline: 50,
    };
}

/// The tokens of a line: words, strings of digits, double signs and single signs.
pub fn split_tokens(line: &str) -> Vec<&str> {
    let mut tokens = Vec::new();
    let mut rest = line.trim_start_matches(' ');
    while let Some(first) = rest.chars().next() {
        let end = if first.is_ascii_alphabetic() {
            rest.find(|c: char| !c.is_ascii_alphanumeric() && c != '_')
        } else if first.is_ascii_digit() {
            rest.find(|c: char| !c.is_ascii_digit())
        } else if ["==", "/=", "<=", ">="].iter().any(|s| rest.starts_with(s)) {
            Some(2)
        } else if rest.to_ascii_lowercase().starts_with("!$omp") {
            Some(5)
        } else {
            Some(first.len_utf8())
        };
        let (token, after) = rest.split_at(end.unwrap_or(rest.len()));
        tokens.push(token);
        rest = after.trim_start_matches(' ');
    }
    tokens
}

/// Writes good lines down. How one line is written does not depend on the others.
pub fn write_text(lines: &[String], layout: &Layout, rng: &mut Rng) -> Vec<u8> {
    let mut written = Vec::new();
    for line in lines {
        add_skipped_lines(&mut written, layout, rng);
        written.push(write_line(line, layout, &mut Rng::new(rng.bits())));
    }
    add_skipped_lines(&mut written, layout, rng);
    if rng.chance(layout.closing_directive) {
        written.push(write_line("!$omp end parallel do", layout, rng));
        add_skipped_lines(&mut written, layout, rng);
    }
    let mut text = written.join("\n").into_bytes();
    if rng.chance(layout.last_newline) {
        text.push(b'\n');
    }
    text
}

fn add_skipped_lines(written: &mut Vec<String>, layout: &Layout, rng: &mut Rng) {
    const SKIPPED: [&str; 9] = [
        "",
        " ",
        "   ",
        "!",
        "! a comment",
        "  ! $omp no",
        "!$ omp",
        "!!$omp",
        "!$om",
    ];
    while rng.chance(layout.skipped_line) {
        written.push(rng.pick(&SKIPPED).to_string());
    }
}

fn write_line(line: &str, layout: &Layout, rng: &mut Rng) -> String {
    let mut written = String::new();
    if rng.chance(layout.extra_blank) {
        written += &" ".repeat(rng.below(4));
    }
    let tokens = split_tokens(line);
    for (place, token) in tokens.iter().enumerate() {
        if place > 0 {
            written += blanks_between(tokens[place - 1], token, line, layout, rng);
        }
        written += &write_token(token, layout, rng);
    }
    if rng.chance(layout.extra_blank) {
        written += " ";
    }
    written
}

/// A blank is "needed where two words would run together" and after the directive's five bytes.
/// `enddo` and `endif` are both read, in a line of their own.
fn blanks_between(
    before: &str,
    after: &str,
    line: &str,
    layout: &Layout,
    rng: &mut Rng,
) -> &'static str {
    if (line == "end do" || line == "end if") && rng.chance(layout.joined_ending) {
        return "";
    }
    let wordlike = |c: char| c.is_ascii_alphanumeric() || c == '_';
    let needed = before.ends_with(wordlike) && after.starts_with(wordlike) || before == "!$omp";
    if rng.chance(layout.extra_blank) {
        return ["  ", "   ", " "][rng.below(3)];
    }
    let left_out = rng.chance(layout.left_out_blank);
    if !needed && (left_out || before.ends_with('(') || after.starts_with([')', '(', ','])) {
        return "";
    }
    " "
}

fn write_token(token: &str, layout: &Layout, rng: &mut Rng) -> String {
    if token.starts_with(|c: char| c.is_ascii_digit()) {
        let zeros = if rng.chance(layout.leading_zero) {
            rng.below(4)
        } else {
            0
        };
        return "0".repeat(zeros) + token;
    }
    let raise = |c: char, rng: &mut Rng| {
        if rng.chance(layout.upper_case) {
            c.to_ascii_uppercase()
        } else {
            c
        }
    };
    token.chars().map(|c| raise(c, rng)).collect()
}
