//! `data` lines: each stands on line 2 of a text that is good otherwise, in which s is one cell and
//! a and b are four each.

use super::TextRow;

fn framed(line: &str) -> String {
    let head = "integer s, a(4), b(4)";
    format!("{head}\n{line}\n!$omp parallel do num_threads(3)\ndo i = 1, 4\nend do\n")
}

/// A text and the cells that Load fills.
#[derive(Debug, Clone)]
pub struct LoadRow {
    pub name: String,
    pub text: Vec<u8>,
    pub cells: Vec<i32>,
}

/// With the cells that Load fills: s, then a, then b.
const GOOD: &[(&str, [i32; 9])] = &[
    ("data s /5/", [5, 0, 0, 0, 0, 0, 0, 0, 0]),
    ("data a /1,2,3,4/", [0, 1, 2, 3, 4, 0, 0, 0, 0]),
    ("DATA B / 1 , 2 , 3 , 4 /", [0, 0, 0, 0, 0, 1, 2, 3, 4]),
    ("data a/4*7/", [0, 7, 7, 7, 7, 0, 0, 0, 0]),
    // READING 47
    ("data a /3*-1, 9/", [0, -1, -1, -1, 9, 0, 0, 0, 0]),
    ("data a /2 * + 7, 1*3, -4/", [0, 7, 7, 3, -4, 0, 0, 0, 0]),
    ("data a/1,2*3,4/", [0, 1, 3, 3, 4, 0, 0, 0, 0]),
    ("data a /1*1,1*2,1*3,1*4/", [0, 1, 2, 3, 4, 0, 0, 0, 0]),
    ("data s /+0/", [0; 9]),
    ("data s /-0/", [0; 9]),
    ("data s /- 3/", [-3, 0, 0, 0, 0, 0, 0, 0, 0]),
    ("data s /2147483647/", [2147483647, 0, 0, 0, 0, 0, 0, 0, 0]),
    (
        "data s /-2147483647/",
        [-2147483647, 0, 0, 0, 0, 0, 0, 0, 0],
    ),
    // READING 19
    ("data s /0001*0002/", [2, 0, 0, 0, 0, 0, 0, 0, 0]),
    (
        "data a /00000000000000000004*00000000000000000009/",
        [0, 9, 9, 9, 9, 0, 0, 0, 0],
    ),
];

/// Number 2.
const BROKEN: &[&str] = &[
    "data",
    "data s",
    "data s /",
    "data s //",
    "data s /1",
    "data s 1",
    "data s 1/",
    "data /1/",
    "data s /1,/",
    "data s /,1/",
    "data s /1 2/",
    "data a /1,,2,3/",
    "data s /--1/",
    "data s /-+1/",
    "data s /+-1/",
    // READING 47
    "data s /-2*7/",
    "data a /2*2*7/",
    "data a /4*/",
    "data a /*4/",
    "data s /1*+-1/",
    // a repeat of 0 (READING 48)
    "data s /0*1/",
    "data s /00*1, 1/",
    "data a /0*1, 4*1/",
    "data a /4*1, 0*1/",
    "data t /0*1/",
    "data s /0*2147483648/",
    // READING 52
    "data a(1) /1/",
    "data a(4) /4*1/",
    "data s /1/, a /4*1/",
    "data s /1/ a /4*1/",
    "data s, a /1, 4*1/",
    "data s /1/ /2/",
    "data s /a/",
    "data s /i/",
    "data s /s/",
    "data s /1+1/",
    "data s /(1)/",
    "data s /1.5/",
    "data s /1e5/",
    "data s /'a'/",
    "data s /1/ ! x",
    "data s /1/;",
    "data s = 1",
    "data s=1",
    // READING 16
    "data s /= 1/",
    "datas /1/",
    // READING 21
    "data do /1/",
    "data rdiv /1/",
    "data integer /1/",
    // P6.2
    "data max /1/",
    "data MAX /4*1/",
    "data s /max/",
    "data s /max(1, 2)/",
    // READING 20
    "data abcdefghijklmnopqrstuvwxyz123456 /1/",
    // 2 before 3 and 4 (READING 23)
    "data t /1",
    "data s /2147483648",
    "data t /2147483648 1/",
    "data s /1, 2",
    "data s /1/\t",
];

/// Number 3.
const MISNAMED: &[&str] = &[
    "data t /1/",
    // v is not met before `do` (READING 33)
    "data i /1/",
    "data s /1, 2/",
    "data s /2*1/",
    "data a /1/",
    "data a /1, 2, 3/",
    "data a /1, 2, 3, 4, 5/",
    "data a /3*1/",
    "data a /5*1/",
    "data a /2*1, 3*1/",
    // a repeat over the literal limit (READING 49)
    "data s /2147483648*1/",
    "data s /99999999999999999999999*1/",
    "data a /2147483648*2147483648/",
    // counts are added exactly (READING 50)
    "data a /4294967300*1/",
    "data a /2147483647*1, 2147483647*1, 6*1/",
    "data a /2147483648*1, 2147483648*1, 4*1/",
    "data a /18446744073709551616*1, 4*1/",
    "data s /18446744073709551617*1/",
    "data s /340282366920938463463374607431768211457*1/",
    // 3 before 4 (READING 51)
    "data t /2147483648/",
    "data a /2147483648/",
    "data s /2*2147483648/",
    "data s /1, 2147483648/",
    "data num_threads /1/",
];

/// Number 4.
const BEYOND: &[&str] = &[
    "data s /2147483648/",
    // READING 39
    "data s /-2147483648/",
    "data s /+2147483648/",
    "data s /00002147483648/",
    "data s /4294967296/",
    "data s /99999999999999999999999/",
    "data s /1*2147483648/",
    "data a /4*2147483648/",
    "data a /1, 2, 3, 18446744073709551616/",
];

/// All rows for Check.
pub fn rows() -> Vec<TextRow> {
    let bad = |lines: &[&str], number: u32| -> Vec<TextRow> {
        let row = |line: &&str| TextRow::bad(line, framed(line), number, 2);
        lines.iter().map(row).collect()
    };
    let mut rows: Vec<TextRow> = GOOD
        .iter()
        .map(|(line, _)| TextRow::good(line, framed(line), 9, 3))
        .collect();
    rows.extend(bad(BROKEN, 2));
    rows.extend(bad(MISNAMED, 3));
    rows.extend(bad(BEYOND, 4));
    rows
}

/// All rows for Load.
pub fn load_rows() -> Vec<LoadRow> {
    let row = |name: &str, text: String, cells: &[i32]| LoadRow {
        name: name.to_string(),
        text: text.into_bytes(),
        cells: cells.to_vec(),
    };
    let mut rows: Vec<LoadRow> = GOOD
        .iter()
        .map(|(line, cells)| row(line, framed(line), cells))
        .collect();
    rows.push(row("no data: all 0 (READING 53)", framed("!"), &[0; 9]));
    let lines = "data b /2*1, 2*2/\ndata s /-9/\ndata a /4, 3, 2, 1/";
    rows.push(row(
        "data lines in any order of names",
        framed(lines),
        &[-9, 4, 3, 2, 1, 1, 1, 2, 2],
    ));
    rows.extend(large_rows());
    rows.extend(super::grids::load_rows());
    rows
}

/// As many cells as there can be, by repeats, and as many names.
fn large_rows() -> Vec<LoadRow> {
    let row = |name: &str, head: &str, cells: Vec<i32>| LoadRow {
        name: name.to_string(),
        text: format!("{head}\n!$omp parallel do num_threads(8)\ndo v = 1, 4\nend do\n")
            .into_bytes(),
        cells,
    };
    let names = "abcdefghijklmnop";
    let declared: Vec<String> = names.chars().map(|name| format!("{name}(2)")).collect();
    let given: Vec<String> = names
        .chars()
        .rev()
        .zip(1..)
        .map(|(name, value)| format!("data {name} /{value}, -{value}/"))
        .collect();
    vec![
        row(
            "4,096 cells by one repeat",
            "integer a(4096)\ndata a /4096*-2147483647/",
            vec![-2147483647; 4096],
        ),
        row(
            "4,096 cells, the last by itself",
            "integer a(4096)\ndata a /4095*1, 2/",
            [vec![1; 4095], vec![2]].concat(),
        ),
        row(
            "4,096 cells, data only for the last name",
            "integer a(4095), z\ndata z /-7/",
            [vec![0; 4095], vec![-7]].concat(),
        ),
        row(
            "16 names, given data backward",
            &format!("integer {}\n{}", declared.join(","), given.join("\n")),
            (1..=16).rev().flat_map(|value| [value, -value]).collect(),
        ),
    ]
}
