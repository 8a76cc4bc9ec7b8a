//! `do` lines: each stands on line 3 of a text that is good otherwise, in which s is one cell and a
//! is an array.

use super::TextRow;

fn framed(line: &str) -> String {
    format!("integer s, a(4)\n!$omp parallel do num_threads(2)\n{line}\nend do\n")
}

const GOOD: &[&str] = &[
    "do i = 1, 4",
    "DO I = 1 , 4",
    "do i=1,4",
    "   do   i   =   1   ,   4   ",
    "do i = -1, +4",
    "do i = - 1, + 4",
    "do i = +0, -0",
    "do i = 4, 1",
    "do i = 1, 0",
    "do i = 0, 0",
    // READING 19
    "do i = 0000000000000000000001, 00004",
    // 65,535 iterations (READING 40)
    "do i = 1, 65535",
    "do i = 0, 65534",
    "do i = -65534, 0",
    "do i = -32767, 32767",
    "do i = 2147418113, 2147483647",
    "do i = -2147483647, -2147418113",
    "do i = 2147483647, 2147483647",
    "do i = -2147483647, -2147483647",
    "do i = 2147483647, -2147483647",
    // any word but the reserved ones (READING 22)
    "do parallel = 1, 2",
    "do schedule = 1, 2",
    "do static = 1, 2",
    "do firstprivate = 1, 2",
    "do max1 = 1, 2",
    "do min = 1, 2",
    "do while = 1, 2",
    "do concurrent = 1, 2",
    "do do1 = 1, 2",
    "do abcdefghijklmnopqrstuvwxyz12345 = 1, 2",
];

/// Number 2.
const BROKEN: &[&str] = &[
    "do",
    "do i",
    "do i =",
    "do i = 1",
    "do i = 1,",
    "do i = , 4",
    // READING 41
    "do i = 1, 4, 1",
    "do i = 1 4",
    "do i 1, 4",
    "do = 1, 4",
    "do 10 i = 1, 4",
    "do 1 = 1, 4",
    "do while (s == 1)",
    "do concurrent (i = 1:4)",
    "do i = s, 4",
    "do i = 1, s",
    "do i = i, 4",
    "do i = 1, 2+2",
    "do i = 2*2, 9",
    "do i = (1), 4",
    "do i = --1, 4",
    "do i = +-1, 4",
    "do i = 1, -",
    "do i = 1., 4",
    "do i = 1, 4 ! x",
    "do i = 1, 4;",
    "do i(1) = 1, 4",
    "do i == 1, 4",
    "do i = 1, 4 do",
    "do i, j = 1, 4",
    "do i = 1:4",
    "do i = 1, 4 s = 1",
    "i = 1, 4",
    // READING 18
    "doi = 1, 4",
    "doi = 1",
    // READING 24: the directive asks for `do`
    "s = 1",
    "integer z",
    "data s /1/",
    "end do",
    "!$omp parallel do num_threads(2)",
    // READING 20, 21
    "do do = 1, 4",
    "do rdiv = 1, 4",
    // P6.2
    "do max = 1, 4",
    "do MAX = 1, 4",
    "do i = 1, max(2, 4)",
    "do end = 1, 4",
    "do abcdefghijklmnopqrstuvwxyz123456 = 1, 4",
    // 2 before 3 and 4 (READING 23)
    "do s = 1",
    "do i = 1, 2147483648 1",
    "do s = 1, 99999 x",
    "do i = 1,\t4",
];

/// Number 3: v declared, at the `do` line (READING 24).
const MISNAMED: &[&str] = &[
    "do s = 1, 4",
    "do a = 1, 4",
    "do S = 1, 4",
    // 3 before 4
    "do s = 1, 65536",
    "do s = 1, 2147483648",
    "do a = -2147483648, 1",
];

/// Number 4.
const BEYOND: &[&str] = &[
    "do i = 1, 65536",
    "do i = 0, 65535",
    "do i = -1, 65534",
    "do i = -32768, 32767",
    "do i = 2147418112, 2147483647",
    "do i = 1, 2147483647",
    // READING 40
    "do i = -2147483647, 2147483647",
    "do i = -2147483647, 1",
    "do i = -2147483647, -2147418112",
    // READING 39; also where there would be no iterations
    "do i = 1, 2147483648",
    "do i = 2147483648, 1",
    "do i = -2147483648, 1",
    "do i = -2147483648, -2147483648",
    "do i = 1, -2147483648",
    "do i = 2147483648, 2147483648",
    "do i = 4294967297, 4294967300",
    "do i = 99999999999999999999999, 1",
    "do i = 18446744073709551617, 18446744073709551618",
];

/// All rows.
pub fn rows() -> Vec<TextRow> {
    let bad = |lines: &[&str], number: u32| -> Vec<TextRow> {
        let row = |line: &&str| TextRow::bad(line, framed(line), number, 3);
        lines.iter().map(row).collect()
    };
    let mut rows: Vec<TextRow> = GOOD
        .iter()
        .map(|line| TextRow::good(line, framed(line), 5, 2))
        .collect();
    rows.extend(bad(BROKEN, 2));
    rows.extend(bad(MISNAMED, 3));
    rows.extend(bad(BEYOND, 4));
    rows
}
