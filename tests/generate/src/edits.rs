//! Accepted texts that are changed to say something else: whatever of this is accepted prints differently (document 02,
//! Point 8).

use std::ops::Range;

use crate::rng::Rng;
use crate::subscripts::bracketed;
use crate::variants::{begins, items_of, said, shortest, with_items, Item, Written};

/// Changes a text; nothing if it has no place for that.
pub type Edit = fn(&Written, &mut Rng) -> Option<Written>;

/// The kinds of edits.
pub const EDITS: [(&str, Edit); 33] = [
    ("another name", another_name),
    ("another name throughout", rename),
    ("another digit", another_digit),
    ("a digit more", longer_literal),
    ("another sign", another_sign),
    ("another operator", another_operator),
    ("another relation", another_relation),
    ("another function", another_function),
    ("a sign added", add_sign),
    ("a sign taken out", take_out_sign),
    ("brackets added", add_brackets),
    ("brackets taken out", take_out_brackets),
    ("subscripts swapped", swap_subscripts),
    ("extents swapped", swap_extents),
    ("clauses swapped", swap_clauses),
    ("names of a clause swapped", swap_listed),
    ("clauses joined", join_clauses),
    ("a clause split", split_clause),
    ("a clause added", add_clause),
    ("a clause taken out", take_out_clause),
    ("declared names swapped", swap_declared),
    ("declarations joined", join_declarations),
    ("declarations split", split_declarations),
    ("data lines swapped", swap_data_lines),
    ("a data line of zeros added", add_zeros),
    ("a data line taken out", take_out_data),
    ("items swapped", swap_items),
    ("copies moved", move_copies),
    ("a copy with another sign", sign_copy),
    ("an else added", add_else),
    ("an else taken out", take_out_else),
    ("statements swapped", swap_statements),
    ("a statement twice", double_statement),
];

/// The text changed in this way.
pub fn edit(text: &[u8], edit: Edit, rng: &mut Rng) -> Option<Vec<u8>> {
    let edited = edit(&Written::of(text), rng)?;
    Some(edited.text())
}

const SIGNS: [&str; 2] = ["+", "-"];
const OPERATORS: [&str; 4] = ["+", "-", "*", "/"];
const RELATIONS: [&str; 6] = ["==", "/=", "<", "<=", ">", ">="];

/// A line of the text, as its tokens.
type Line = (usize, Vec<String>);

fn owned(tokens: &[&str]) -> Vec<String> {
    tokens.iter().map(|token| token.to_string()).collect()
}

/// One of the things, if there is any.
fn any<T: Clone>(things: &[T], rng: &mut Rng) -> Option<T> {
    (!things.is_empty()).then(|| rng.pick(things))
}

/// Another one of the words.
fn other(words: &[&str], than: &str, rng: &mut Rng) -> Option<String> {
    let mut others = words.to_vec();
    others.retain(|word| !word.eq_ignore_ascii_case(than));
    any(&others, rng).map(str::to_string)
}

/// The lines that begin so.
fn lines_of(written: &Written, words: &[&str]) -> Vec<usize> {
    let lines = 0..written.lines.len();
    lines
        .filter(|&line| begins(&written.lines[line], words))
        .collect()
}

/// A line that begins so.
fn line_of(written: &Written, words: &[&str], rng: &mut Rng) -> Option<Line> {
    let line = any(&lines_of(written, words), rng)?;
    Some((line, owned(&said(&written.lines[line]))))
}

fn with_line(written: &Written, line: usize, tokens: &[String]) -> Written {
    let mut edited = written.clone();
    edited.lines[line] = tokens.join(" ");
    edited
}

/// A token that fits, by its line's tokens and its place, and those before and after it.
fn token_where(
    written: &Written,
    rng: &mut Rng,
    fits: impl Fn(&[&str], usize) -> bool,
) -> Option<(Line, usize)> {
    let mut places = Vec::new();
    for (line, text) in written.lines.iter().enumerate() {
        let tokens = said(text);
        let fitting = (0..tokens.len()).filter(|&place| fits(&tokens, place));
        places.extend(fitting.map(|place| (line, place)));
    }
    let (line, place) = any(&places, rng)?;
    Some(((line, owned(&said(&written.lines[line]))), place))
}

/// The text with another token in the place of one that fits.
fn replace(
    written: &Written,
    rng: &mut Rng,
    fits: impl Fn(&str) -> bool,
    new: impl Fn(&str, &mut Rng) -> Option<String>,
) -> Option<Written> {
    let fitting = |tokens: &[&str], place: usize| fits(tokens[place]);
    let ((line, mut tokens), place) = token_where(written, rng, fitting)?;
    tokens[place] = new(&tokens[place], rng)?;
    Some(with_line(written, line, &tokens))
}

fn is_literal(token: &str) -> bool {
    token.starts_with(|c: char| c.is_ascii_digit())
}

fn is_word(token: &str) -> bool {
    token.starts_with(|c: char| c.is_ascii_alphabetic())
}

// Tokens ----------------------------------------------------------------------------------------------------------

/// The declared names and the variable.
fn names_of(written: &Written) -> Vec<String> {
    let mut names = Vec::new();
    for line in &written.lines {
        let tokens = said(line);
        let words = tokens.iter().skip(1).filter(|token| is_word(token));
        let count = match tokens.first() {
            Some(first) if first.eq_ignore_ascii_case("integer") => tokens.len(),
            Some(first) if first.eq_ignore_ascii_case("do") => 1,
            _ => 0,
        };
        names.extend(words.take(count).map(|word| word.to_lowercase()));
    }
    names
}

fn another_name(written: &Written, rng: &mut Rng) -> Option<Written> {
    let names = names_of(written);
    let names: Vec<&str> = names.iter().map(String::as_str).collect();
    let is_name = |token: &str| names.iter().any(|name| name.eq_ignore_ascii_case(token));
    replace(written, rng, is_name, |token, rng| {
        other(&names, token, rng)
    })
}

fn rename(written: &Written, rng: &mut Rng) -> Option<Written> {
    let names = names_of(written);
    let new = rng.pick(&["q", "q_0", "q09", "end_q", "data1"]);
    let old = any(&names, rng)?;
    if names.iter().any(|name| name == new) {
        return None;
    }
    let mut edited = written.clone();
    for line in &mut edited.lines {
        let mut tokens = said(line);
        for token in &mut tokens {
            if token.eq_ignore_ascii_case(&old) {
                *token = new;
            }
        }
        *line = tokens.join(" ");
    }
    Some(edited)
}

fn another_digit(written: &Written, rng: &mut Rng) -> Option<Written> {
    replace(written, rng, is_literal, |literal, rng| {
        let mut digits = literal.as_bytes().to_vec();
        let place = rng.below(digits.len());
        digits[place] = b'0' + (digits[place] - b'0' + 1 + rng.below(9) as u8) % 10;
        String::from_utf8(digits).ok()
    })
}

fn longer_literal(written: &Written, rng: &mut Rng) -> Option<Written> {
    replace(written, rng, is_literal, |literal, rng| {
        Some(format!("{literal}{}", 1 + rng.below(9)))
    })
}

fn another_sign(written: &Written, rng: &mut Rng) -> Option<Written> {
    let is_sign = |token: &str| SIGNS.contains(&token);
    replace(written, rng, is_sign, |sign, rng| other(&SIGNS, sign, rng))
}

fn another_operator(written: &Written, rng: &mut Rng) -> Option<Written> {
    let is_operator = |token: &str| OPERATORS.contains(&token);
    replace(written, rng, is_operator, |one, rng| {
        other(&OPERATORS, one, rng)
    })
}

fn another_relation(written: &Written, rng: &mut Rng) -> Option<Written> {
    let is_relation = |token: &str| RELATIONS.contains(&token);
    replace(written, rng, is_relation, |one, rng| {
        other(&RELATIONS, one, rng)
    })
}

fn another_function(written: &Written, rng: &mut Rng) -> Option<Written> {
    replace(written, rng, is_function, |token, _| {
        let is_max = token.eq_ignore_ascii_case("max");
        let other = if is_max { "rdiv" } else { "max" };
        Some(other.to_string())
    })
}

fn is_function(token: &str) -> bool {
    token.eq_ignore_ascii_case("max") || token.eq_ignore_ascii_case("rdiv")
}

/// Whether an expression, a bound or a value may begin at this place.
fn may_begin(tokens: &[&str], place: usize) -> bool {
    let before = place.checked_sub(1).map_or("", |before| tokens[before]);
    let in_data = begins(tokens[0], &["data"]);
    let opens = ["=", "(", ","].contains(&before) || RELATIONS.contains(&before);
    opens || in_data && ["*", "/"].contains(&before)
}

fn add_sign(written: &Written, rng: &mut Rng) -> Option<Written> {
    let fits =
        |tokens: &[&str], place: usize| may_begin(tokens, place) && !SIGNS.contains(&tokens[place]);
    let ((line, mut tokens), place) = token_where(written, rng, fits)?;
    tokens.insert(place, rng.pick(&SIGNS).to_string());
    Some(with_line(written, line, &tokens))
}

fn take_out_sign(written: &Written, rng: &mut Rng) -> Option<Written> {
    let fits =
        |tokens: &[&str], place: usize| may_begin(tokens, place) && SIGNS.contains(&tokens[place]);
    let ((line, mut tokens), place) = token_where(written, rng, fits)?;
    tokens.remove(place);
    Some(with_line(written, line, &tokens))
}

/// Around a literal, or a name without a subscript, of a statement.
fn add_brackets(written: &Written, rng: &mut Rng) -> Option<Written> {
    let fits = |tokens: &[&str], place: usize| {
        let in_statement = tokens.contains(&"=") || begins(tokens[0], &["if"]);
        let operand = is_word(tokens[place]) || is_literal(tokens[place]);
        in_statement && place > 0 && operand && tokens.get(place + 1) != Some(&"(")
    };
    let ((line, mut tokens), place) = token_where(written, rng, fits)?;
    tokens[place] = format!("( {} )", tokens[place]);
    Some(with_line(written, line, &tokens))
}

/// A pair that is no subscript's, function's, clause's or `if`'s.
fn take_out_brackets(written: &Written, rng: &mut Rng) -> Option<Written> {
    let fits = |tokens: &[&str], place: usize| {
        let after_word = place > 0 && is_word(tokens[place - 1]);
        tokens[place] == "(" && !after_word
    };
    let ((line, mut tokens), open) = token_where(written, rng, fits)?;
    let mut depth = 0;
    let close = (open..tokens.len()).find(|&place| {
        match tokens[place].as_str() {
            "(" => depth += 1,
            ")" => depth -= 1,
            _ => {}
        }
        depth == 0
    })?;
    tokens.remove(close);
    tokens.remove(open);
    Some(with_line(written, line, &tokens))
}

/// The two subscripts of a grid's cell, if they are not the same (document 02, Point 9).
fn swap_subscripts(written: &Written, rng: &mut Rng) -> Option<Written> {
    swap_two(written, rng, |line| !begins(line, &["integer"]))
}

/// The two extents of a grid, if they are not the same.
fn swap_extents(written: &Written, rng: &mut Rng) -> Option<Written> {
    swap_two(written, rng, |line| begins(line, &["integer"]))
}

/// What stands in the brackets of a name, on a line that is no directive.
fn swap_two(written: &Written, rng: &mut Rng, on: impl Fn(&str) -> bool) -> Option<Written> {
    let mut places = Vec::new();
    for (line, text) in written.lines.iter().enumerate() {
        let tokens = said(text);
        if begins(text, &["!$omp"]) || !on(text) {
            continue;
        }
        let is_name = |place: &usize| !is_function(tokens[*place]);
        for place in (0..tokens.len()).filter(is_name) {
            let items = bracketed(&tokens, place).map(|bracketed| bracketed.items);
            if let Some([one, other]) = items.as_deref() {
                let form = |item: &Range<usize>| form_of(&tokens[item.clone()].join(" "));
                if form(one) != form(other) {
                    places.push((line, one.clone(), other.clone()));
                }
            }
        }
    }
    let (line, one, other) = any(&places, rng)?;
    let tokens = owned(&said(&written.lines[line]));
    let swapped = [
        &tokens[..one.start],
        &tokens[other.clone()],
        &tokens[one.end..other.start],
        &tokens[one],
        &tokens[other.end..],
    ];
    Some(with_line(written, line, &swapped.concat()))
}

// Clauses ---------------------------------------------------------------------------------------------------------

/// The directive's line, and its clauses, each as its tokens.
fn clauses_of(written: &Written) -> Option<(usize, Vec<Vec<String>>)> {
    let directives = lines_of(written, &["!$omp", "parallel"]);
    let line = *directives.first()?;
    let tokens = owned(&said(&written.lines[line]));
    let clauses = tokens[3..].split_inclusive(|token| token == ")");
    Some((line, clauses.map(<[String]>::to_vec).collect()))
}

fn with_clauses(written: &Written, line: usize, clauses: &[Vec<String>]) -> Option<Written> {
    let head = owned(&["!$omp", "parallel", "do"]);
    Some(with_line(written, line, &[head, clauses.concat()].concat()))
}

/// Two different numbers below the bound.
fn two_below(bound: usize, rng: &mut Rng) -> Option<(usize, usize)> {
    let one = (bound > 1).then(|| rng.below(bound))?;
    let other = (one + 1 + rng.below(bound - 1)) % bound;
    Some((one.min(other), one.max(other)))
}

fn swap_clauses(written: &Written, rng: &mut Rng) -> Option<Written> {
    let (line, mut clauses) = clauses_of(written)?;
    let (one, other) = two_below(clauses.len(), rng)?;
    clauses.swap(one, other);
    with_clauses(written, line, &clauses)
}

/// A clause that lists more than one name, and where a comma stands in it.
fn listing(clauses: &[Vec<String>], rng: &mut Rng) -> Option<(usize, usize)> {
    let mut commas = Vec::new();
    for (clause, tokens) in clauses.iter().enumerate() {
        let places = (0..tokens.len()).filter(|&place| tokens[place] == ",");
        commas.extend(places.map(|place| (clause, place)));
    }
    any(&commas, rng)
}

fn swap_listed(written: &Written, rng: &mut Rng) -> Option<Written> {
    let (line, mut clauses) = clauses_of(written)?;
    let (clause, comma) = listing(&clauses, rng)?;
    clauses[clause].swap(comma - 1, comma + 1);
    with_clauses(written, line, &clauses)
}

/// What a clause begins with, up to its first name.
fn head_of(clause: &[String]) -> &[String] {
    let colon = clause.iter().position(|token| token == ":");
    &clause[..colon.map_or(2, |colon| colon + 1)]
}

fn join_clauses(written: &Written, rng: &mut Rng) -> Option<Written> {
    let (line, mut clauses) = clauses_of(written)?;
    let head = |clause: &[String]| head_of(clause).concat().to_lowercase();
    let mut pairs = Vec::new();
    for other in 0..clauses.len() {
        let same = (0..other).filter(|&one| head(&clauses[one]) == head(&clauses[other]));
        pairs.extend(same.map(|one| (one, other)));
    }
    let (one, other) = any(&pairs, rng)?;
    let joined = clauses.remove(other);
    let names = &joined[head_of(&joined).len()..];
    clauses[one].pop();
    clauses[one].push(",".to_string());
    clauses[one].extend(names.iter().cloned());
    with_clauses(written, line, &clauses)
}

fn split_clause(written: &Written, rng: &mut Rng) -> Option<Written> {
    let (line, mut clauses) = clauses_of(written)?;
    let (clause, comma) = listing(&clauses, rng)?;
    let names = clauses[clause].split_off(comma + 1);
    let second = [head_of(&clauses[clause]).to_vec(), names].concat();
    clauses[clause][comma] = ")".to_string();
    clauses.insert(clause + 1, second);
    with_clauses(written, line, &clauses)
}

fn add_clause(written: &Written, rng: &mut Rng) -> Option<Written> {
    let (line, mut clauses) = clauses_of(written)?;
    let name = any(&names_of(written), rng)?;
    let word = rng.pick(&["shared", "shared", "lastprivate", "schedule"]);
    let listed = if word == "schedule" { "static" } else { &name };
    let place = rng.below(clauses.len() + 1);
    clauses.insert(place, owned(&[word, "(", listed, ")"]));
    with_clauses(written, line, &clauses)
}

fn take_out_clause(written: &Written, rng: &mut Rng) -> Option<Written> {
    let (line, mut clauses) = clauses_of(written)?;
    let is_needed = |clause: &Vec<String>| clause[0].eq_ignore_ascii_case("num_threads");
    let places: Vec<usize> = (0..clauses.len())
        .filter(|&place| !is_needed(&clauses[place]))
        .collect();
    clauses.remove(any(&places, rng)?);
    with_clauses(written, line, &clauses)
}

// Declarations and data -------------------------------------------------------------------------------------------

/// What an `integer` line declares, each name with its extents: a comma in brackets stands between two of these.
fn declared(tokens: &[String]) -> Vec<String> {
    let mut names = Vec::new();
    let mut name = Vec::new();
    for token in &tokens[1..] {
        let in_brackets = name.contains(&"(") && !name.contains(&")");
        match token.as_str() {
            "," if !in_brackets => names.push(std::mem::take(&mut name).join(" ")),
            token => name.push(token),
        }
    }
    names.push(name.join(" "));
    names
}

fn integer_line(names: &[String]) -> String {
    format!("integer {}", names.join(", "))
}

fn swap_declared(written: &Written, rng: &mut Rng) -> Option<Written> {
    let (line, tokens) = line_of(written, &["integer"], rng)?;
    let mut names = declared(&tokens);
    let (one, other) = two_below(names.len(), rng)?;
    names.swap(one, other);
    let mut edited = written.clone();
    edited.lines[line] = integer_line(&names);
    Some(edited)
}

fn join_declarations(written: &Written, _: &mut Rng) -> Option<Written> {
    let lines = lines_of(written, &["integer"]);
    let &[one, other, ..] = &lines[..] else {
        return None;
    };
    let mut edited = written.clone();
    let second = declared(&owned(&said(&edited.lines.remove(other))));
    let first = declared(&owned(&said(&edited.lines[one])));
    edited.lines[one] = integer_line(&[first, second].concat());
    Some(edited)
}

fn split_declarations(written: &Written, rng: &mut Rng) -> Option<Written> {
    let (line, tokens) = line_of(written, &["integer"], rng)?;
    let names = declared(&tokens);
    let count = (names.len() > 1).then(|| 1 + rng.below(names.len() - 1))?;
    let (first, second) = names.split_at(count);
    let mut edited = written.clone();
    edited.lines[line] = integer_line(first);
    edited.lines.insert(line + 1, integer_line(second));
    Some(edited)
}

fn swap_data_lines(written: &Written, rng: &mut Rng) -> Option<Written> {
    let lines = lines_of(written, &["data"]);
    let (one, other) = two_below(lines.len(), rng)?;
    let mut edited = written.clone();
    edited.lines.swap(lines[one], lines[other]);
    Some(edited)
}

/// For a name without data.
fn add_zeros(written: &Written, rng: &mut Rng) -> Option<Written> {
    let integers = lines_of(written, &["integer"]);
    let names = integers
        .iter()
        .flat_map(|&line| declared(&owned(&said(&written.lines[line]))));
    let data: Vec<String> = lines_of(written, &["data"])
        .iter()
        .map(|&line| said(&written.lines[line])[1].to_lowercase())
        .collect();
    let without = names.filter(|declared| {
        let name = declared.split(' ').next().unwrap_or_default();
        !data.contains(&name.to_lowercase())
    });
    let declared = any(&without.collect::<Vec<_>>(), rng)?;
    let tokens: Vec<&str> = declared.split(' ').collect();
    let extents = tokens
        .iter()
        .filter_map(|token| token.parse::<usize>().ok());
    let length: usize = extents.product();
    let mut edited = written.clone();
    let after = *integers.last()? + 1;
    let line = format!("data {} /{length}*0/", tokens[0]);
    edited.lines.insert(after, line);
    Some(edited)
}

fn take_out_data(written: &Written, rng: &mut Rng) -> Option<Written> {
    let line = any(&lines_of(written, &["data"]), rng)?;
    let mut edited = written.clone();
    edited.lines.remove(line);
    Some(edited)
}

/// A data line with its items changed; nothing if it stays.
fn change_items(
    written: &Written,
    rng: &mut Rng,
    change: impl Fn(&mut Vec<Item>, usize, &mut Rng) -> Option<()>,
) -> Option<Written> {
    let line = any(&lines_of(written, &["data"]), rng)?;
    let mut items = items_of(&written.lines[line])?;
    let place = rng.below(items.len());
    change(&mut items, place, rng)?;
    let items: Vec<String> = items.iter().map(Item::short).collect();
    let mut edited = written.clone();
    edited.lines[line] = with_items(&written.lines[line], &items);
    Some(edited)
}

/// The place of an item after this one that gives something else.
fn another_item(items: &[Item], place: usize) -> Option<usize> {
    (place + 1..items.len()).find(|&other| !items[place].gives_same(&items[other]))
}

fn swap_items(written: &Written, rng: &mut Rng) -> Option<Written> {
    change_items(written, rng, |items, place, _| {
        let other = another_item(items, place)?;
        items.swap(place, other);
        Some(())
    })
}

/// A copy less of one item, and one more of an item that gives something else.
fn move_copies(written: &Written, rng: &mut Rng) -> Option<Written> {
    change_items(written, rng, |items, place, _| {
        let other = another_item(items, place)?;
        let (less, more) = match (items[place].copies, items[other].copies) {
            (2.., _) => (place, other),
            (_, 2..) => (other, place),
            _ => return None,
        };
        items[less].copies -= 1;
        items[more].copies += 1;
        Some(())
    })
}

/// The last copy of an item.
fn sign_copy(written: &Written, rng: &mut Rng) -> Option<Written> {
    change_items(written, rng, |items, place, rng| {
        let mut last = items[place].clone();
        last.sign = other(&["", "+", "-"], &last.sign, rng)?;
        last.copies = 1;
        items.insert(place + 1, last);
        items[place].copies -= 1;
        items.retain(|item| item.copies > 0);
        Some(())
    })
}

// Statements ------------------------------------------------------------------------------------------------------

/// Before an `end if`.
fn add_else(written: &Written, rng: &mut Rng) -> Option<Written> {
    let endings = [
        lines_of(written, &["end", "if"]),
        lines_of(written, &["endif"]),
    ];
    let line = any(&endings.concat(), rng)?;
    let mut edited = written.clone();
    edited.lines.insert(line, "else".to_string());
    Some(edited)
}

fn take_out_else(written: &Written, rng: &mut Rng) -> Option<Written> {
    let line = any(&lines_of(written, &["else"]), rng)?;
    let mut edited = written.clone();
    edited.lines.remove(line);
    Some(edited)
}

/// The lines that assign.
fn assignments(written: &Written) -> Vec<usize> {
    let assigns = |line: &String| said(line).contains(&"=") && !begins(line, &["do"]);
    let lines = 0..written.lines.len();
    lines
        .filter(|&line| assigns(&written.lines[line]))
        .collect()
}

/// What a line prints, apart from case.
fn form_of(line: &str) -> String {
    let tokens = said(line).into_iter().map(|token| match is_literal(token) {
        true => shortest(token),
        false => token,
    });
    tokens.collect::<Vec<_>>().join(" ").to_lowercase()
}

fn swap_statements(written: &Written, rng: &mut Rng) -> Option<Written> {
    let lines = assignments(written);
    let (one, other) = two_below(lines.len(), rng)?;
    let (one, other) = (lines[one], lines[other]);
    let mut edited = written.clone();
    edited.lines.swap(one, other);
    let differ = form_of(&edited.lines[one]) != form_of(&edited.lines[other]);
    differ.then_some(edited)
}

fn double_statement(written: &Written, rng: &mut Rng) -> Option<Written> {
    let line = any(&assignments(written), rng)?;
    let mut edited = written.clone();
    edited.lines.insert(line, edited.lines[line].clone());
    Some(edited)
}
