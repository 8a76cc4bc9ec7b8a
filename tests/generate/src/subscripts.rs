//! References written anew (document 02, Point 9): arrays of a loop as grids of as many cells, and grids as arrays with
//! the place of each cell written out.

use crate::layout::split_tokens;
use crate::lines::open_brackets;
use crate::rng::Rng;
use crate::variants::{begins, said, Written};

/// Percent of the arrays that become grids, in loops that are drawn by kinds, and of the single cells that become grids
/// of one cell.
const GRIDS: u32 = 35;
const ONE_BY_ONE: u32 = 20;

/// Where the subscripts of a reference, or the arguments of a function, stand in a list of tokens.
pub struct Bracketed {
    /// The places of each: after a bracket or a comma, up to before the next.
    pub items: Vec<std::ops::Range<usize>>,
    /// The place of the last bracket.
    pub close: usize,
}

/// What stands in brackets after the word at this place, parted at commas that are in no other brackets.
pub fn bracketed(tokens: &[&str], place: usize) -> Option<Bracketed> {
    let is_word = |token: &str| token.starts_with(|c: char| c.is_ascii_alphabetic());
    if !is_word(tokens.get(place)?) || tokens.get(place + 1) != Some(&"(") {
        return None;
    }
    let mut items = Vec::new();
    let mut begin = place + 2;
    let mut open = 1;
    for (at, token) in tokens.iter().enumerate().skip(begin) {
        match *token {
            "(" => open += 1,
            ")" => open -= 1,
            _ => {}
        }
        if open == 0 || open == 1 && *token == "," {
            items.push(begin..at);
            begin = at + 1;
        }
        if open == 0 {
            return Some(Bracketed { items, close: at });
        }
    }
    None
}

/// How a name with these subscripts is written, if it is to be written anew.
type Write<'w> = &'w dyn Fn(&str, &[String]) -> Option<String>;

/// The tokens with each reference written anew, the ones in subscripts too.
fn rewrite(tokens: &[&str], write: Write) -> String {
    let mut written: Vec<String> = Vec::new();
    let mut place = 0;
    while let Some(&token) = tokens.get(place) {
        let Some(Bracketed { items, close }) = bracketed(tokens, place) else {
            written.push(write(token, &[]).unwrap_or_else(|| token.to_string()));
            place += 1;
            continue;
        };
        let items = items.into_iter().map(|item| rewrite(&tokens[item], write));
        let items: Vec<String> = items.collect();
        let as_it_was = || format!("{token}({})", items.join(", "));
        written.push(write(token, &items).unwrap_or_else(as_it_was));
        place = close + 1;
    }
    written.join(" ")
}

/// A name and its extents.
type Grid = (String, usize, usize);

fn find<'g>(grids: &'g [Grid], name: &str) -> Option<&'g Grid> {
    let mut grids = grids.iter();
    grids.find(|(grid, ..)| grid.eq_ignore_ascii_case(name))
}

/// An expression as a factor.
fn factor(expression: &str) -> String {
    let tokens = split_tokens(expression);
    let is_call = bracketed(&tokens, 0).is_some_and(|call| call.close + 1 == tokens.len());
    let is_sign = tokens.len() == 1 && !tokens[0].starts_with(|c: char| c.is_ascii_alphanumeric());
    match tokens.len() == 1 && !is_sign || is_call {
        true => expression.to_string(),
        false => format!("({expression})"),
    }
}

/// The cell of a grid that has this number, from 1, in element order. Of a number outside the grid, and of no other,
/// a subscript is outside its bound.
pub fn numbered(name: &str, (rows, columns): (usize, usize), number: &str) -> String {
    match number.parse::<usize>() {
        _ if columns == 1 => format!("{name}({number}, 1)"),
        _ if rows == 1 => format!("{name}(1, {number})"),
        Ok(0) => format!("{name}(0, 1)"),
        Ok(number) => {
            let (row, column) = ((number - 1) % rows + 1, (number - 1) / rows + 1);
            format!("{name}({row}, {column})")
        }
        Err(_) => {
            let number = factor(number);
            format!("{name}({number} - ({number} - 1)/{rows}*{rows}, ({number} - 1)/{rows} + 1)")
        }
    }
}

/// The extents of a grid of so many cells: one column, one row, or any.
pub fn extents(rng: &mut Rng, cells: usize) -> (usize, usize) {
    let divisors: Vec<usize> = (2..cells)
        .filter(|rows| cells / rows * rows == cells)
        .collect();
    let rows = match rng.below(4) {
        0 => cells,
        1 => 1,
        _ if divisors.is_empty() => rng.pick(&[1, cells]),
        _ => rng.pick(&divisors),
    };
    (rows, cells / rows)
}

/// The lines of a loop with some of its arrays, and of its single cells, as grids of as many cells, and each reference to
/// the cell that it had: what is done with cells stays, but that subscripts may be worked out more than once.
pub fn with_grids(rng: &mut Rng, lines: Vec<String>) -> Vec<String> {
    let mut grids: Vec<Grid> = Vec::new();
    for line in lines.iter().filter(|line| begins(line, &["integer"])) {
        let tokens = split_tokens(line);
        let is_name = |place: &usize| tokens[*place].starts_with(|c: char| c.is_ascii_alphabetic());
        for place in (1..tokens.len()).filter(is_name) {
            let (rows, columns) = match bracketed(&tokens, place) {
                Some(_) if rng.chance(GRIDS) => {
                    let cells = tokens[place + 2].parse().expect("a length");
                    extents(rng, cells)
                }
                None if rng.chance(ONE_BY_ONE) => (1, 1),
                _ => continue,
            };
            grids.push((tokens[place].to_string(), rows, columns));
        }
    }
    let declare = |name: &str, _: &[String]| {
        let (_, rows, columns) = find(&grids, name)?;
        Some(format!("{name}({rows}, {columns})"))
    };
    let refer = |name: &str, subscripts: &[String]| {
        let (_, rows, columns) = find(&grids, name)?;
        let number = subscripts.first().map_or("1", String::as_str);
        Some(numbered(name, (*rows, *columns), number))
    };
    let written = lines.iter().map(|line| {
        let tokens = split_tokens(line);
        let names_grid = tokens.iter().any(|token| find(&grids, token).is_some());
        match tokens.first() {
            Some(&"integer") => rewrite(&tokens, &declare),
            Some(&("data" | "!$omp")) => line.clone(),
            _ if names_grid => rewrite(&tokens, &refer),
            _ => line.clone(),
        }
    });
    let written: Vec<String> = written.collect();
    match written.iter().all(|line| open_brackets(line) <= 8) {
        true => written,
        false => lines,
    }
}

/// An accepted text with each grid as an array of as many cells, and `g(e, f)` of m rows as `g((e) + m*((f) - 1))`: with
/// both subscripts inside their bounds it is the same cell. Nothing if the text has no grid. It may be longer than a text
/// may be, and have more brackets open.
pub fn as_arrays(text: &[u8]) -> Option<Vec<u8>> {
    let mut written = Written::of(text);
    let mut grids: Vec<Grid> = Vec::new();
    for line in &mut written.lines {
        let tokens = said(line);
        if begins(line, &["integer"]) {
            for place in 0..tokens.len() {
                let items = bracketed(&tokens, place).map(|bracketed| bracketed.items);
                if let Some([rows, columns]) = items.as_deref() {
                    let extent = |item: &std::ops::Range<usize>| tokens[item.start].parse().ok();
                    grids.push((tokens[place].to_string(), extent(rows)?, extent(columns)?));
                }
            }
            *line = rewrite(&tokens, &|name, _| {
                let (_, rows, columns) = find(&grids, name)?;
                Some(format!("{name}({})", rows * columns))
            });
        } else if !begins(line, &["data"]) && !begins(line, &["!$omp"]) && !tokens.is_empty() {
            *line = rewrite(&tokens, &|name, subscripts| {
                let (_, rows, _) = find(&grids, name)?;
                let [row, column] = subscripts else {
                    return None;
                };
                let (row, column) = (factor(row), factor(column));
                Some(format!("{name}({row} + {rows}*({column} - 1))"))
            });
        }
    }
    (!grids.is_empty()).then(|| written.text())
}

#[cfg(test)]
mod tests {
    use super::*;

    #[test]
    fn grids_become_arrays() {
        let text = "integer G(02, 3), a(4)\ndata g /6*1/\n!$omp parallel do num_threads(2) shared(g, a)\n\
                    do i = 1, 2\nif (g(i,1)==max(1, 2)) then\n! g(1, 2)\ng(a(1), g(-1 + 2, i)) = a(g(1,1))\nend if\nend do";
        let arrays = "integer G(6) , a(4)\ndata g /6*1/\n!$omp parallel do num_threads(2) shared(g, a)\n\
                      do i = 1 , 2\nif(g(i + 2*(1 - 1)) == max(1, 2)) then\n! g(1, 2)\n\
                      g(a(1) + 2*(g((- 1 + 2) + 2*(i - 1)) - 1)) = a(g(1 + 2*(1 - 1)))\nend if\nend do";
        let rewritten = as_arrays(text.as_bytes()).unwrap();
        assert_eq!(String::from_utf8(rewritten).unwrap(), arrays);
        assert_eq!(as_arrays(b"integer a(4), s\n"), None);
    }

    #[test]
    fn numbers_are_places_in_element_order() {
        for (extents, number, reference) in [
            ((6, 1), "k(i)", "g(k(i), 1)"),
            ((1, 6), "k(i) + 1", "g(1, k(i) + 1)"),
            ((2, 3), "1", "g(1, 1)"),
            ((2, 3), "2", "g(2, 1)"),
            ((2, 3), "3", "g(1, 2)"),
            ((2, 3), "6", "g(2, 3)"),
            ((2, 3), "7", "g(1, 4)"),
            ((2, 3), "0", "g(0, 1)"),
            ((2, 3), "i", "g(i - (i - 1)/2*2, (i - 1)/2 + 1)"),
            (
                (2, 3),
                "i + 1",
                "g((i + 1) - ((i + 1) - 1)/2*2, ((i + 1) - 1)/2 + 1)",
            ),
        ] {
            assert_eq!(numbered("g", extents, number), reference);
        }
    }

    /// Each array becomes a grid now and then, of any extents, and a single cell one of one cell; a reference keeps its
    /// cell.
    #[test]
    fn names_become_grids() {
        let lines = ["integer s, a(6)", "data a /6*1/", "s = max(a(4), s)"];
        let lines = lines.map(str::to_string).to_vec();
        let mut drawn: Vec<[String; 2]> = Vec::new();
        for seed in 0..600 {
            let with = with_grids(&mut Rng::new(seed), lines.clone());
            assert_eq!(with[1], lines[1]);
            drawn.push([with[0].clone(), with[2].clone()]);
        }
        drawn.sort();
        drawn.dedup();
        let arrays = [
            ("a(1, 6)", "a(1, 4)"),
            ("a(2, 3)", "a(2, 2)"),
            ("a(3, 2)", "a(1, 2)"),
            ("a(6)", "a(4)"),
            ("a(6, 1)", "a(4, 1)"),
        ];
        let expected: Vec<[String; 2]> = ["s", "s(1, 1)"]
            .into_iter()
            .flat_map(|s| {
                arrays.map(|(declared, a)| {
                    [
                        format!("integer {s} , {declared}"),
                        format!("{s} = max({a}, {s})"),
                    ]
                })
            })
            .collect();
        assert_eq!(drawn.len(), expected.len());
        assert!(expected.iter().all(|lines| drawn.contains(lines)));
    }
}
