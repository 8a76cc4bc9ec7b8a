//! Good texts with something changed: bytes, tokens or lines taken out, doubled, swapped or put in,
//! names, literals and signs exchanged, a clause put in, taken out or changed, `max` used in another way, subscripts
//! and extents taken out, added or changed, the length brought near its limit.

use crate::layout::split_tokens;
use crate::rng::Rng;
use crate::subscripts::bracketed;

/// The text with something changed: one name, literal or sign for another, or a clause, or a use of `max`, or what
/// stands in the brackets of a name, or the length, or up to three bytes, tokens or lines. It may happen to be good
/// still.
pub fn damage(text: &[u8], rng: &mut Rng) -> Vec<u8> {
    match rng.below(25) {
        0..=5 => exchange_token(text, rng),
        6 => pad(text, rng),
        7 => change_clauses(text, rng, put_in_static),
        8..=10 => change_clauses(text, rng, put_in_private),
        11 => change_clauses(text, rng, take_out),
        12 | 13 => change_clauses(text, rng, put_in_reduction),
        14 => change_clauses(text, rng, change_operation),
        15 | 16 => change_maximum(text, rng),
        17..=20 => change_subscripts(text, rng),
        _ => break_up(text, rng),
    }
}

fn break_up(text: &[u8], rng: &mut Rng) -> Vec<u8> {
    let mut text = text.to_vec();
    for _ in 0..1 + rng.below(3) {
        text = match rng.below(3) {
            0 => damage_bytes(&text, rng),
            1 => damage_tokens(&text, rng),
            _ => damage_lines(&text, rng),
        };
    }
    text
}

/// The text with something changed that its printed form (document 02, Point 8) writes otherwise: an item of data,
/// an ending, the closing directive or a skipped line. It may happen to be good still.
pub fn damage_written(text: &[u8], rng: &mut Rng) -> Vec<u8> {
    let Ok(whole) = std::str::from_utf8(text) else {
        return break_up(text, rng);
    };
    let mut lines: Vec<String> = whole.split('\n').map(str::to_string).collect();
    let places_of = |words: &[&str]| -> Vec<usize> {
        let begins = |line: &str| {
            let first = split_tokens(line).first().map(|word| word.to_lowercase());
            first.is_some_and(|first| words.contains(&first.as_str()))
        };
        (0..lines.len())
            .filter(|&place| begins(&lines[place]))
            .collect()
    };
    let data = places_of(&["data"]);
    let ends = places_of(&["end", "enddo", "endif", "!$omp", "!"]);
    if !data.is_empty() && rng.chance(60) {
        damage_item(&mut lines[rng.pick(&data)], rng);
    } else if !ends.is_empty() {
        let place = rng.pick(&ends);
        damage_ending(&mut lines, place, rng);
    }
    lines.join("\n").into_bytes()
}

/// Changes how a value, or a number of copies, of a data line is written.
fn damage_item(line: &mut String, rng: &mut Rng) {
    const ITEMS: [&str; 16] = [
        "1*#", "01*+#", "0*#", "#*#", "2*#", "1**#", "1*1*#", "*#", "+1*#", "-#", "--#", "+-#",
        "1*-#", "#,", "# 0", "00#",
    ];
    let mut tokens: Vec<String> = split_tokens(line).iter().map(|t| t.to_string()).collect();
    let literals: Vec<usize> = (0..tokens.len())
        .filter(|&place| is_literal(&tokens[place]))
        .collect();
    if !literals.is_empty() {
        let literal = &mut tokens[rng.pick(&literals)];
        *literal = rng.pick(&ITEMS).replace('#', literal);
    }
    *line = tokens.join(" ");
}

/// Puts another ending, closing directive or skipped line in the place of a line, or after it.
fn damage_ending(lines: &mut Vec<String>, place: usize, rng: &mut Rng) {
    const LINES: [&str; 16] = [
        "end do",
        "enddo",
        "END  DO",
        "end do do",
        "enddo ! x",
        "end",
        "endif",
        "end if",
        "end else",
        "!$omp end parallel do",
        "!$OMP  END PARALLEL DO ",
        "!$ompend parallel do",
        "!$omp end parallel",
        "!$omp endparallel do",
        "! x",
        "",
    ];
    let line = rng.pick(&LINES).to_string();
    match rng.below(3) {
        0 => lines[place] = line,
        _ => lines.insert(place + 1, line),
    }
}

/// Makes the text about as long as a text may be, by a comment.
fn pad(text: &[u8], rng: &mut Rng) -> Vec<u8> {
    let mut text = text.to_vec();
    let length = rng.between(2045, 2052) as usize;
    if text.len() + 2 < length {
        text.extend(b"\n!");
        text.resize(length, b'.');
    }
    text
}

/// Puts one name for another name, one literal for another, or one sign for another: the form mostly
/// holds.
fn exchange_token(text: &[u8], rng: &mut Rng) -> Vec<u8> {
    const LITERALS: [&str; 12] = [
        "0",
        "1",
        "2",
        "5",
        "9",
        "17",
        "4096",
        "4097",
        "65535",
        "65536",
        "2147483647",
        "2147483648",
    ];
    const SIGNS: [&str; 4] = ["+", "-", "*", "/"];
    let Ok(whole) = std::str::from_utf8(text) else {
        return break_up(text, rng);
    };
    let mut lines: Vec<&str> = whole.split('\n').collect();
    let names = names_of(&lines);
    let place = rng.below(lines.len());
    let mut tokens = split_tokens(lines[place]);
    let exchangeable: Vec<usize> = (0..tokens.len())
        .filter(|&one| {
            let token = tokens[one];
            is_literal(token) || SIGNS.contains(&token) || names.contains(&token)
        })
        .collect();
    if exchangeable.is_empty() {
        return break_up(text, rng);
    }
    let one = rng.pick(&exchangeable);
    tokens[one] = if is_literal(tokens[one]) {
        rng.pick(&LITERALS)
    } else if SIGNS.contains(&tokens[one]) {
        rng.pick(&SIGNS)
    } else {
        rng.pick(&names)
    };
    let line = tokens.join(" ");
    lines[place] = &line;
    lines.join("\n").into_bytes()
}

/// The clauses of a directive, each as it is written, and the names of the text.
struct Directive<'t> {
    clauses: Vec<String>,
    names: Vec<&'t str>,
}

/// Changes the clauses of the directive.
fn change_clauses(text: &[u8], rng: &mut Rng, change: fn(&mut Directive, &mut Rng)) -> Vec<u8> {
    let Ok(whole) = std::str::from_utf8(text) else {
        return break_up(text, rng);
    };
    let mut lines: Vec<&str> = whole.split('\n').collect();
    let is_directive = |line: &&str| {
        let words = split_tokens(line);
        words.len() > 3 && words[1].eq_ignore_ascii_case("parallel")
    };
    let Some(place) = lines.iter().position(is_directive) else {
        return break_up(text, rng);
    };
    // A clause begins after `do`, and ends with a bracket.
    let tokens = split_tokens(lines[place]);
    let (before, clauses) = tokens.split_at(3);
    let mut directive = Directive {
        clauses: clauses
            .split_inclusive(|token| *token == ")")
            .map(|clause| clause.join(" "))
            .collect(),
        names: names_of(&lines),
    };
    change(&mut directive, rng);
    let line = format!("{} {}", before.join(" "), directive.clauses.join(" "));
    lines[place] = &line;
    lines.join("\n").into_bytes()
}

/// Takes out a clause: `firstprivate` may be left alone, or `num_threads` be missing.
fn take_out(directive: &mut Directive, rng: &mut Rng) {
    let place = rng.below(directive.clauses.len());
    directive.clauses.remove(place);
}

/// Puts in `firstprivate` clauses, and others of the same name, or something like them (document 02,
/// Point 5). Some leave the text good, if the name stood in no clause before.
fn put_in_private(directive: &mut Directive, rng: &mut Rng) {
    const CLAUSES: [&str; 29] = [
        "firstprivate(@)",
        "firstprivate(@)",
        "firstprivate(@)",
        "FIRSTPRIVATE ( @ )",
        "firstprivate(@, #)",
        "firstprivate(@, @)",
        "firstprivate(@) lastprivate(@)",
        "lastprivate(@) firstprivate(@)",
        "lastprivate(#, @) firstprivate(@)",
        "firstprivate(@, #) lastprivate(@)",
        "firstprivate(@, #) lastprivate(#, @)",
        "firstprivate(@) lastprivate(@, @)",
        "firstprivate(@, @) lastprivate(@)",
        "firstprivate(@) lastprivate(@) lastprivate(@)",
        "firstprivate(@) lastprivate(@) firstprivate(@)",
        "firstprivate(@) lastprivate(@) shared(@)",
        "reduction(+:@) firstprivate(@) lastprivate(@)",
        "firstprivate(@) shared(@)",
        "reduction(+:@) firstprivate(@)",
        "lastprivate(@)",
        "shared(@)",
        "firstprivate()",
        "firstprivate(@,)",
        "firstprivate(@ #)",
        "firstprivate(+:@)",
        "firstprivate(@(1))",
        "firstprivate @",
        "firstprivate(@",
        "firstprivate",
    ];
    let [one, other] = [0; 2].map(|_| rng.pick(&directive.names));
    let clause = rng.pick(&CLAUSES).replace('@', one).replace('#', other);
    put_in(directive, &clause, rng);
}

/// Puts in `reduction` clauses, and others of the same name, or something like them (document 02, Point 6).
/// Some leave the text good, if the name stood in no clause before.
fn put_in_reduction(directive: &mut Directive, rng: &mut Rng) {
    const CLAUSES: [&str; 32] = [
        "reduction(*:@)",
        "reduction(*:@)",
        "reduction(max:@)",
        "reduction(max:@)",
        "REDUCTION ( MAX : @ )",
        "reduction(*:@, #)",
        "reduction(max:@, #)",
        "reduction(*:@, @)",
        "reduction(max:@, @)",
        "reduction(*:@) reduction(*:@)",
        "reduction(*:@) reduction(max:@)",
        "reduction(max:@) reduction(+:@)",
        "reduction(+:@) reduction(*:#)",
        "reduction(*:@) shared(@)",
        "lastprivate(@) reduction(max:@)",
        "firstprivate(@) lastprivate(@) reduction(*:@)",
        "reduction(max:max)",
        "reduction(*:@, max)",
        "reduction(-:@)",
        "reduction(/:@)",
        "reduction(**:@)",
        "reduction(min:@)",
        "reduction(@:max)",
        "reduction(:@)",
        "reduction(max @)",
        "reduction(max(@))",
        "reduction(max:)",
        "reduction(max:@,)",
        "reduction(*:@",
        "reduction(+*:@)",
        "reduction(max::@)",
        "max(*:@)",
    ];
    let [one, other] = [0; 2].map(|_| rng.pick(&directive.names));
    let clause = rng.pick(&CLAUSES).replace('@', one).replace('#', other);
    put_in(directive, &clause, rng);
}

/// Puts another operation, or what is none, into a `reduction` clause: what was an update may be ordinary.
fn change_operation(directive: &mut Directive, rng: &mut Rng) {
    const SIGNS: [&str; 9] = ["+", "*", "max", "MAX", "-", "/", "* *", "min", ""];
    let is_reduction = |clause: &String| {
        let word = clause.split(' ').next().unwrap_or_default();
        word.eq_ignore_ascii_case("reduction") && clause.contains(':')
    };
    let places: Vec<usize> = (0..directive.clauses.len())
        .filter(|&one| is_reduction(&directive.clauses[one]))
        .collect();
    if places.is_empty() {
        return put_in_reduction(directive, rng);
    }
    let clause = &mut directive.clauses[rng.pick(&places)];
    let names = clause.split(':').next_back().unwrap_or_default();
    *clause = format!("reduction ( {} :{names}", rng.pick(&SIGNS));
}

/// Changes one use of `max`: its brackets, its arguments or the word. A text without one gets one around a
/// literal or a name.
fn change_maximum(text: &[u8], rng: &mut Rng) -> Vec<u8> {
    let Ok(whole) = std::str::from_utf8(text) else {
        return break_up(text, rng);
    };
    let mut lines: Vec<String> = whole.split('\n').map(str::to_string).collect();
    let names = names_of(&whole.split('\n').collect::<Vec<_>>());
    let is_max = |token: &str| token.eq_ignore_ascii_case("max");
    let is_operand = |token: &str| is_literal(token) || names.contains(&token);
    let place_of = |wanted: &dyn Fn(&str) -> bool, rng: &mut Rng| {
        let mut places = Vec::new();
        for (line, text) in lines.iter().enumerate() {
            let tokens = split_tokens(text);
            let fitting = (0..tokens.len()).filter(|&one| wanted(tokens[one]));
            places.extend(fitting.map(|one| (line, one)));
        }
        (!places.is_empty()).then(|| rng.pick(&places))
    };
    let of_max = place_of(&is_max, rng).filter(|_| rng.chance(80));
    let Some((line, place)) = of_max.or_else(|| place_of(&is_operand, rng)) else {
        return break_up(text, rng);
    };
    let mut tokens = split_tokens(&lines[line]);
    if is_max(tokens[place]) {
        change_call(&mut tokens, place, &names, rng);
    } else {
        wrap_in_maximum(&mut tokens, place, rng);
    }
    let changed = tokens.join(" ");
    lines[line] = changed;
    lines.join("\n").into_bytes()
}

/// Changes what stands in the brackets of a declared name, its extents or its subscripts (document 02, Point 9): one
/// less or more, or another comma; or puts brackets after a name that has none.
fn change_subscripts(text: &[u8], rng: &mut Rng) -> Vec<u8> {
    let Ok(whole) = std::str::from_utf8(text) else {
        return break_up(text, rng);
    };
    let mut lines: Vec<String> = whole.split('\n').map(str::to_string).collect();
    let names = names_of(&whole.split('\n').collect::<Vec<_>>());
    // Declarations are few: they are changed every fourth time.
    let declares = rng.chance(25);
    let mut places = Vec::new();
    for (line, text) in lines.iter().enumerate() {
        let tokens = split_tokens(text);
        let first = tokens
            .first()
            .map_or(String::new(), |word| word.to_lowercase());
        if first == "!$omp" || (first == "integer") != declares {
            continue;
        }
        let fitting = (0..tokens.len()).filter(|&one| names.contains(&tokens[one]));
        places.extend(fitting.map(|one| (line, one)));
    }
    if places.is_empty() {
        return break_up(text, rng);
    }
    let (line, place) = rng.pick(&places);
    let tokens = split_tokens(&lines[line]);
    let (close, items) = match bracketed(&tokens, place) {
        Some(found) => {
            let items = found.items.into_iter();
            let items = items.map(|item| tokens[item].join(" "));
            (found.close, items.collect())
        }
        None => (place, Vec::new()),
    };
    let [before, after] = [&tokens[..=place], &tokens[close + 1..]].map(|side| side.join(" "));
    let items = match declares {
        true => other_extents(items, rng),
        false => other_subscripts(items, rng),
    };
    let changed = format!("{before}{items} {after}");
    lines[line] = changed;
    lines.join("\n").into_bytes()
}

/// Subscripts with their brackets: one taken out, added, swapped or changed, or the comma between them.
fn other_subscripts(mut items: Vec<String>, rng: &mut Rng) -> String {
    let comma = rng.pick(&[",", ",,", ";", ":", " ", "+", ")(", ", ,", "),("]);
    let new = rng.pick(&[
        "1", "2", "0", "9", "1/0", "-1", "zz", "", "1:2", "(1, 2)", ":",
    ]);
    match rng.below(10) {
        0..=2 if !items.is_empty() => {
            items.remove(rng.below(items.len()));
        }
        0..=5 => items.insert(rng.below(items.len() + 1), new.to_string()),
        6 if items.len() > 1 => items.swap(0, 1),
        7 if items.len() > 1 => return format!("({})", items.join(comma)),
        8 => return format!("(({}))", items.join(", ")),
        _ if !items.is_empty() => {
            let place = rng.below(items.len());
            items[place] = new.to_string();
        }
        _ => {
            return rng
                .pick(&["()", "(1", "(1)(1)", "1)", "(1, 1)", "(1, 1, 1)"])
                .to_string()
        }
    }
    match items.is_empty() && rng.chance(70) {
        true => String::new(),
        false => format!("({})", items.join(", ")),
    }
}

/// Extents with their brackets: one taken out, added or another, or both, about their limits.
fn other_extents(mut items: Vec<String>, rng: &mut Rng) -> String {
    const BOTH: [&str; 18] = [
        "64, 64",
        "64, 65",
        "4096, 1",
        "1, 4097",
        "0, 3",
        "3, 0",
        "65536, 65536",
        "2147483647, 2147483647",
        "2147483648, 1",
        "641, 6700417",
        "2, 2, 2",
        "2,",
        ", 2",
        "2 2",
        "2; 2",
        "-2, 2",
        "2, +2",
        "n, 2",
    ];
    let new = rng.pick(&[
        "1", "2", "0", "00", "4096", "4097", "65536", "-1", "", "zz", "1:2", "*",
    ]);
    match rng.below(8) {
        0 | 1 if !items.is_empty() => {
            items.remove(rng.below(items.len()));
        }
        0..=3 => items.insert(rng.below(items.len() + 1), new.to_string()),
        4 if items.len() > 1 => items.swap(0, 1),
        5 if !items.is_empty() => {
            let place = rng.below(items.len());
            items[place] = new.to_string();
        }
        _ => return format!("({})", rng.pick(&BOTH)),
    }
    match items.is_empty() {
        true => String::new(),
        false => format!("({})", items.join(", ")),
    }
}

/// Changes the word `max` at this place, or what follows it.
fn change_call<'t>(tokens: &mut Vec<&'t str>, place: usize, names: &[&'t str], rng: &mut Rng) {
    let next = |sign: &str| {
        let after = tokens[place..].iter().position(|token| *token == sign);
        after.map(|far| place + far)
    };
    let (open, comma, close) = (next("("), next(","), next(")"));
    match (rng.below(9), open, comma, close) {
        (0, ..) => tokens[place] = rng.pick(&["rdiv", "min", "maxi", "abs"]),
        (1, ..) => tokens[place] = rng.pick(names),
        (2, ..) => tokens.insert(place, "-"),
        (3, ..) => {
            tokens.remove(place);
        }
        (4, Some(open), ..) => {
            tokens.remove(open);
        }
        (5, Some(open), ..) => {
            tokens.splice(open + 1..open + 1, ["1", ","]);
        }
        (6, _, Some(comma), _) => {
            tokens.remove(comma);
        }
        (7, _, Some(comma), _) => tokens[comma] = "+",
        (_, _, _, Some(close)) => {
            tokens.remove(close);
        }
        _ => tokens.truncate(place + 1),
    }
}

/// Puts `max(` before the operand at this place, and one, two or three arguments, or as many times as brackets
/// may be open, or one more.
fn wrap_in_maximum(tokens: &mut Vec<&str>, place: usize, rng: &mut Rng) {
    let operand = tokens[place];
    let times = 6 + rng.below(4);
    let (open, close) = (["max", "("].repeat(times), [",", "1", ")"].repeat(times));
    let nested = [open, vec!["#"], close].concat();
    let call: &[&str] = match rng.below(7) {
        0 => &["max", "(", "#", ")"],
        1 => &["max", "(", "#", ",", "1", ")"],
        2 => &["max", "(", "1", ",", "#", ")"],
        3 => &["max", "(", "#", ",", "1", ",", "2", ")"],
        4 | 5 => &nested,
        _ => &["max"],
    };
    let written = call.iter().map(|token| match *token {
        "#" => operand,
        token => token,
    });
    tokens.splice(place..=place, written.collect::<Vec<_>>());
}

fn put_in(directive: &mut Directive, clause: &str, rng: &mut Rng) {
    let place = rng.below(directive.clauses.len() + 1);
    directive.clauses.insert(place, clause.to_string());
}

/// Puts in a clause `schedule(static)`, or something like it (document 02, Point 3). Without the clause
/// before, the good one leaves the text good.
fn put_in_static(directive: &mut Directive, rng: &mut Rng) {
    const CLAUSES: [&str; 18] = [
        "schedule(static)",
        "schedule(static)",
        "SCHEDULE ( STATIC )",
        "schedule(dynamic)",
        "schedule(static, 1)",
        "schedule(static static)",
        "schedule()",
        "schedule((static))",
        "schedule(+:static)",
        "schedule(schedule)",
        "schedule(a)",
        "schedule(1)",
        "schedule",
        "schedule static",
        "schedule(static",
        "static",
        "static(schedule)",
        "(static)",
    ];
    let clause = rng.pick(&CLAUSES);
    put_in(directive, clause, rng);
}

fn is_literal(token: &str) -> bool {
    token.starts_with(|c: char| c.is_ascii_digit())
}

/// The names in `integer` and `do` lines, one that is in none, and `max`, which is no name.
fn names_of<'t>(lines: &[&'t str]) -> Vec<&'t str> {
    let is_word = |token: &&str| token.starts_with(|c: char| c.is_ascii_alphabetic());
    let tokens = lines.iter().map(|line| split_tokens(line));
    let declaring = tokens.filter(|tokens| {
        tokens
            .first()
            .is_some_and(|word| ["integer", "do"].contains(&word.to_lowercase().as_str()))
    });
    declaring
        .flat_map(|tokens| tokens.into_iter().skip(1))
        .filter(is_word)
        .chain(["zz", "max"])
        .collect()
}

/// Takes out, doubles, swaps or replaces one of the things, or cuts the rest off.
fn change<T: Clone>(things: &mut Vec<T>, rng: &mut Rng, new: impl Fn(&mut Rng) -> T) {
    if things.is_empty() {
        things.push(new(rng));
        return;
    }
    let place = rng.below(things.len());
    let other = rng.below(things.len());
    match rng.below(7) {
        0 => {
            things.remove(place);
        }
        1 => things.insert(place, things[place].clone()),
        2 => things.swap(place, other),
        3 => things[place] = new(rng),
        4 => things.insert(place, new(rng)),
        5 => things[place] = things[other].clone(),
        _ => things.truncate(place),
    }
}

fn damage_bytes(text: &[u8], rng: &mut Rng) -> Vec<u8> {
    let mut bytes = text.to_vec();
    change(&mut bytes, rng, |rng| match rng.below(4) {
        0 => rng.bits() as u8,
        1 => rng.pick(b"\n !()=+-*/,<>:"),
        2 => rng.between(48, 57) as u8,
        _ => rng.between(32, 126) as u8,
    });
    bytes
}

fn damage_lines(text: &[u8], rng: &mut Rng) -> Vec<u8> {
    const LINES: [&str; 31] = [
        "",
        "! x",
        "integer zz",
        "integer a, a",
        "data a /1/",
        "!$omp parallel do num_threads(2)",
        "!$omp parallel do num_threads(2) schedule(static)",
        "!$omp parallel do num_threads(2) firstprivate(a) lastprivate(a)",
        "!$omp parallel do num_threads(2) reduction(*:a)",
        "!$omp parallel do num_threads(2) reduction(+:a) reduction(max:a)",
        "integer max",
        "data max /1/",
        "do max = 1, 4",
        "max = 1",
        "a = max(a, 1)",
        "a = max(a)",
        "integer zz(2, 3)",
        "integer zz(2, 3, 4)",
        "a(1, 1) = 1",
        "zz(1, 1) = a(1, 1)",
        "a(1, 1, 1) = 1",
        "!$omp end parallel do",
        "!$omp",
        "do i = 1, 4",
        "a = 1",
        "if (1 == 1) then",
        "if (zz == 1) then",
        "else",
        "end if",
        "end do",
        "\t",
    ];
    let mut lines: Vec<Vec<u8>> = text.split(|&b| b == b'\n').map(<[u8]>::to_vec).collect();
    change(&mut lines, rng, |rng| rng.pick(&LINES).as_bytes().to_vec());
    lines.join(&b'\n')
}

/// Changes one token of one line. The line's blanks become single ones.
fn damage_tokens(text: &[u8], rng: &mut Rng) -> Vec<u8> {
    const TOKENS: [&str; 40] = [
        "(",
        ")",
        ",",
        "=",
        "==",
        "/=",
        "<",
        "<=",
        ">",
        ">=",
        "+",
        "-",
        "*",
        "/",
        ":",
        "0",
        "1",
        "9",
        "4097",
        "65536",
        "2147483647",
        "2147483648",
        "a",
        "b",
        "s",
        "i",
        "zz",
        "rdiv",
        "max",
        "do",
        "end",
        "if",
        "then",
        "shared",
        "reduction",
        "firstprivate",
        "lastprivate",
        "schedule",
        "static",
        "!",
    ];
    let mut lines: Vec<Vec<u8>> = text.split(|&b| b == b'\n').map(<[u8]>::to_vec).collect();
    let place = rng.below(lines.len());
    let Ok(line) = std::str::from_utf8(&lines[place]) else {
        return damage_bytes(text, rng);
    };
    let mut tokens: Vec<String> = split_tokens(line).iter().map(|t| t.to_string()).collect();
    change(&mut tokens, rng, |rng| rng.pick(&TOKENS).to_string());
    lines[place] = tokens.join(" ").into_bytes();
    lines.join(&b'\n')
}
