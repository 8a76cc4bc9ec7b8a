//! Accepted texts written in another way: what is changed is what the printed form removes (document 02, Point 8), and
//! what the text says stays.

use crate::layout::split_tokens;
use crate::rng::Rng;

/// Writes a text in another way.
pub type Variant = fn(&mut Written, &mut Rng);

/// The kinds of variants.
pub const VARIANTS: [(&str, Variant); 10] = [
    ("case", change_case),
    ("blanks", change_blanks),
    ("comments", add_comments),
    ("empty lines", add_empty_lines),
    ("skipped lines taken out", take_out_skipped),
    ("endings", change_endings),
    ("the closing directive", change_closing),
    ("copies", change_copies),
    ("zeros", change_zeros),
    ("the last newline", change_newline),
];

/// The text in another way: of this kind.
pub fn vary(text: &[u8], variant: Variant, rng: &mut Rng) -> Vec<u8> {
    let mut written = Written::of(text);
    variant(&mut written, rng);
    written.text()
}

/// The text in another way: of most kinds together.
pub fn vary_all(text: &[u8], rng: &mut Rng) -> Vec<u8> {
    let mut written = Written::of(text);
    let mut variants = VARIANTS;
    rng.shuffle(&mut variants);
    for (_, variant) in variants {
        if rng.chance(80) {
            variant(&mut written, rng);
        }
    }
    written.text()
}

/// An accepted text by its lines.
#[derive(Debug, Clone)]
pub struct Written {
    pub lines: Vec<String>,
    /// Whether a newline ends the last line.
    pub ended: bool,
}

impl Written {
    pub fn of(text: &[u8]) -> Self {
        let text = std::str::from_utf8(text).expect("an accepted text");
        let lines = text.strip_suffix('\n').unwrap_or(text);
        Written {
            lines: lines.split('\n').map(str::to_string).collect(),
            ended: text.ends_with('\n'),
        }
    }

    pub fn text(&self) -> Vec<u8> {
        let end = if self.ended { "\n" } else { "" };
        (self.lines.join("\n") + end).into_bytes()
    }

    fn insert(&mut self, lines: &[&str], from: usize, rng: &mut Rng) {
        let place = from + rng.below(self.lines.len() + 1 - from);
        self.lines.insert(place, rng.pick(lines).to_string());
    }
}

/// The tokens of a line; none if it is skipped.
pub fn said(line: &str) -> Vec<&str> {
    let mut tokens = split_tokens(line);
    if tokens.first() == Some(&"!") {
        tokens.clear();
    }
    tokens
}

/// Whether a line begins with these words.
pub fn begins(line: &str, words: &[&str]) -> bool {
    let tokens = said(line);
    let mut pairs = tokens.iter().zip(words);
    tokens.len() >= words.len() && pairs.all(|(token, word)| token.eq_ignore_ascii_case(word))
}

fn is_ending(line: &str) -> bool {
    let endings = [&["enddo"][..], &["endif"], &["end", "do"], &["end", "if"]];
    endings
        .iter()
        .any(|words| begins(line, words) && said(line).len() == words.len())
}

fn change_case(written: &mut Written, rng: &mut Rng) {
    let upper = rng.pick(&[0, 50, 50, 100]);
    for line in &mut written.lines {
        let change = |letter: char| match rng.chance(upper) {
            true => letter.to_ascii_uppercase(),
            false => letter.to_ascii_lowercase(),
        };
        *line = line.chars().map(change).collect();
    }
}

/// Whether two tokens need a blank between them.
fn run_together(before: &str, after: &str) -> bool {
    let joined = [before, after].concat();
    before.starts_with('!') || split_tokens(&joined) != [before, after]
}

/// As few blanks as may be, or more.
fn change_blanks(written: &mut Written, rng: &mut Rng) {
    let most = rng.pick(&[0, 1, 1, 3]);
    for line in &mut written.lines {
        let tokens = said(line);
        let mut before = "";
        let mut changed = String::new();
        for token in &tokens {
            let needed = !before.is_empty() && run_together(before, token);
            changed += &" ".repeat(usize::from(needed) + rng.below(most + 1));
            changed += token;
            before = token;
        }
        changed += &" ".repeat(rng.below(most + 1));
        if !tokens.is_empty() {
            *line = changed;
        }
    }
}

fn add_comments(written: &mut Written, rng: &mut Rng) {
    const COMMENTS: [&str; 13] = [
        "!",
        "! A comment",
        "   ! end do",
        "!integer b",
        "! 2*1, 007 /",
        "!$om",
        "!$ omp",
        "! $omp parallel do",
        "!!$omp end parallel do",
        "!--",
        "!data a /1/",
        "! \\ \" ' ; ~ @ # % ^ & [ ] { } | ?",
        "!!",
    ];
    for _ in 0..1 + rng.below(4) {
        written.insert(&COMMENTS, 0, rng);
    }
}

fn add_empty_lines(written: &mut Written, rng: &mut Rng) {
    for _ in 0..1 + rng.below(4) {
        written.insert(&["", "", " ", "    "], 0, rng);
    }
}

fn take_out_skipped(written: &mut Written, _: &mut Rng) {
    written.lines.retain(|line| !said(line).is_empty());
}

/// One word for two, or two for one.
fn change_endings(written: &mut Written, rng: &mut Rng) {
    for line in &mut written.lines {
        if is_ending(line) && rng.chance(80) {
            let tokens = said(line);
            let joined = tokens.concat();
            let (end, what) = joined.split_at(3);
            let blanks = " ".repeat(usize::from(tokens.len() == 1));
            *line = format!("{end}{blanks}{what}");
        }
    }
}

fn change_closing(written: &mut Written, rng: &mut Rng) {
    const CLOSING: [&str; 3] = [
        "!$omp end parallel do",
        "!$OMP END PARALLEL DO",
        "  !$omp  end parallel   do ",
    ];
    let lines = &mut written.lines;
    match lines
        .iter()
        .position(|line| begins(line, &["!$omp", "end"]))
    {
        Some(place) => {
            lines.remove(place);
        }
        None => {
            let last = lines.iter().rposition(|line| !said(line).is_empty());
            written.insert(&CLOSING, last.map_or(0, |last| last + 1), rng);
        }
    }
}

/// An item of a data line: how many copies, the sign if it has one, and the literal.
#[derive(Debug, Clone, PartialEq, Eq)]
pub struct Item {
    pub copies: usize,
    pub sign: String,
    pub literal: String,
}

impl Item {
    /// Whether it gives the same as another, as it prints.
    pub fn gives_same(&self, other: &Item) -> bool {
        self.sign == other.sign && shortest(&self.literal) == shortest(&other.literal)
    }

    /// With `r*`.
    fn repeated(&self) -> String {
        format!("{}*{}{}", self.copies, self.sign, self.literal)
    }

    /// With `r*`, if it has more than one copy.
    pub fn short(&self) -> String {
        match self.copies {
            1 => format!("{}{}", self.sign, self.literal),
            _ => self.repeated(),
        }
    }
}

/// A literal without leading zeros.
pub fn shortest(literal: &str) -> &str {
    match literal.trim_start_matches('0') {
        "" => "0",
        rest => rest,
    }
}

/// The items of a data line.
pub fn items_of(line: &str) -> Option<Vec<Item>> {
    let tokens = said(line);
    if !begins(line, &["data"]) {
        return None;
    }
    let items = tokens[3..tokens.len() - 1].split(|token| *token == ",");
    let item = |tokens: &[&str]| {
        let repeat = tokens.get(1) == Some(&"*");
        let (literal, before) = tokens[2 * usize::from(repeat)..].split_last()?;
        Some(Item {
            copies: if repeat { tokens[0].parse().ok()? } else { 1 },
            sign: before.concat(),
            literal: literal.to_string(),
        })
    };
    items.map(item).collect()
}

/// The data line with these items, as they are written.
pub fn with_items(line: &str, items: &[String]) -> String {
    format!("data {} /{}/", said(line)[1], items.join(", "))
}

/// Items that give the same in a row are given by other numbers of copies.
fn change_copies(written: &mut Written, rng: &mut Rng) {
    for line in &mut written.lines {
        let Some(items) = items_of(line) else {
            continue;
        };
        let mut changed = Vec::new();
        for same in items.chunk_by(Item::gives_same) {
            let all = same.iter().map(|item| item.copies).sum();
            divide(&mut changed, &same[0], all, rng);
        }
        *line = with_items(line, &changed);
    }
}

/// So many copies of an item, by a few items.
fn divide(changed: &mut Vec<String>, item: &Item, all: usize, rng: &mut Rng) {
    let mut left = all;
    for piece in 0.. {
        if left == 0 {
            break;
        }
        let copies = match rng.below(3) {
            0 if piece < 4 => 1 + rng.below(left),
            1 if piece < 4 => 1,
            _ => left,
        };
        left -= copies;
        let item = Item {
            copies,
            ..item.clone()
        };
        let one = Item {
            copies: 1,
            ..item.clone()
        };
        match rng.below(3) {
            0 => changed.push(item.repeated()),
            1 if copies < 9 => changed.extend(vec![one.short(); copies]),
            _ => changed.push(item.short()),
        }
    }
}

/// Leading zeros come and go.
fn change_zeros(written: &mut Written, rng: &mut Rng) {
    let zeros = rng.pick(&[&[0][..], &[0, 1], &[0, 0, 1, 2, 9]]);
    for line in &mut written.lines {
        if said(line).is_empty() {
            continue;
        }
        let mut changed = String::new();
        let mut rest = line.as_str();
        while let Some(first) = rest.chars().next() {
            let of_word = changed.ends_with(|c: char| c.is_ascii_alphanumeric() || c == '_');
            let digits = rest.find(|c: char| !c.is_ascii_digit());
            let length = match digits.unwrap_or(rest.len()) {
                0 => first.len_utf8(),
                digits => digits,
            };
            let (piece, after) = rest.split_at(length);
            if first.is_ascii_digit() && !of_word {
                changed += &"0".repeat(rng.pick(zeros));
                changed += shortest(piece);
            } else {
                changed += piece;
            }
            rest = after;
        }
        *line = changed;
    }
}

fn change_newline(written: &mut Written, _: &mut Rng) {
    written.ended = !written.ended;
}
