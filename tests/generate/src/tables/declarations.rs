//! `integer` lines: each stands on line 1 of a text that is good otherwise.

use super::TextRow;

fn framed(line: &str) -> String {
    format!("{line}\n!$omp parallel do num_threads(1)\ndo i_ = 1, 1\nend do\n")
}

/// With N.
const GOOD: &[(&str, usize)] = &[
    ("integer s", 1),
    ("INTEGER S, A(4)", 5),
    ("  integer   a ( 4 ) , b  ", 5),
    ("integer a(2), b(3), c", 6),
    // READING 31: one cell, but an array
    ("integer a(1)", 1),
    ("integer a(4096)", 4096),
    ("integer a(4095), b", 4096),
    // READING 19
    ("integer a(0004)", 4),
    ("integer a(00000000000000000000000000000001)", 1),
    // READING 22
    (
        "integer parallel, num_threads, shared, lastprivate, reduction, omp",
        6,
    ),
    // P3.4
    ("integer schedule, static", 2),
    ("integer SCHEDULE(4), static(2)", 6),
    // P5.10
    ("integer firstprivate", 1),
    ("integer FirstPrivate(4), lastprivate", 5),
    // document 02, Point 6: other words than max itself
    ("integer max2, maxi(2), max_, maximum, min, amax", 7),
    (
        "integer elseif, call, program, while, endprogram, stop, rdivs, integer2",
        8,
    ),
    ("integer a2, a_, a__2, z9z9", 4),
    // 31 characters (READING 20)
    ("integer abcdefghijklmnopqrstuvwxyz12345", 1),
    ("integer a23456789_123456789_123456789_1(2)", 2),
    // READING 29
    ("integer a,b,c,d,e,f,g,h,i,j,k,l,m,n,o,p", 16),
    // document 02, Point 9: "Allow `a(m, n)`", "m × n up to 4,096" (P9.1)
    ("integer g(2, 3)", 6),
    ("INTEGER G ( 2,3 ) , S", 7),
    ("integer g(2,3),a(4),h(3 ,2)", 16),
    ("integer s, g(5, 1), h(1, 5), a(2)", 13),
    // one cell, but a grid (P9.2)
    ("integer g(1, 1)", 1),
    ("integer g(64, 64)", 4096),
    ("integer g(4096, 1)", 4096),
    ("integer g(1, 4096)", 4096),
    ("integer g(2, 2048)", 4096),
    ("integer g(4095, 1), s", 4096),
    ("integer g(32, 64), h(2048, 1)", 4096),
    ("integer g(63, 65), s", 4096),
    ("integer g(0002, 003)", 6),
    ("integer g(00000000000000000000000000000064, 0000000064)", 4096),
    ("integer shared(2, 2), static(1, 3), max2(2, 1)", 9),
    ("integer abcdefghijklmnopqrstuvwxyz12345(2, 3)", 6),
    (
        "integer a(1,2),b(1,2),c(1,2),d(1,2),e(1,2),f(1,2),g(1,2),h(1,2),i(1,2),j(1,2),k(1,2),l(1,2),m(1,2),n(1,2),o(1,2),p(1,2)",
        32,
    ),
];

/// Number 2.
const BROKEN: &[&str] = &[
    "integer",
    "integer ,",
    "integer a,",
    "integer ,a",
    "integer a b",
    "integer a,,b",
    "integer :: a",
    "integera",
    "integer2 a",
    "integer 2a",
    "integer 2",
    "integer a(",
    "integer a)",
    "integer a(4",
    "integer a()",
    // READING 28
    "integer a(-1)",
    "integer a(+1)",
    "integer a(n)",
    "integer a(a)",
    "integer a(1:4)",
    "integer a(*)",
    "integer a(2+2)",
    "integer a(4)(4)",
    "integer a(1.5)",
    "integer a(4 4)",
    "integer a((4))",
    // document 02, Point 9: literals without sign, one or two (P9.1)
    "integer g(2,)",
    "integer g(,2)",
    "integer g(,)",
    "integer g(2,,2)",
    "integer g(2, 2",
    "integer g(2, 2))",
    "integer g 2, 2)",
    "integer g 2, 2",
    "integer g, 2",
    "integer g((2, 2))",
    "integer g((2), 2)",
    "integer g(2, (2))",
    "integer g(2; 2)",
    "integer g(2:2)",
    "integer g(2, 1:2)",
    "integer g(1:2, 2)",
    "integer g(-1, 2)",
    "integer g(2, -1)",
    "integer g(+1, 2)",
    "integer g(2, +1)",
    "integer g(n, 2)",
    "integer g(2, n)",
    "integer g(2, g)",
    "integer g(*, 2)",
    "integer g(2, *)",
    "integer g(2, 2+2)",
    "integer g(2, 1.5)",
    "integer g(2, 2 2)",
    "integer g(2 2, 2)",
    "integer g(2)(2)",
    "integer g(2, 2)(2)",
    "integer g(2), (2)",
    "integer g[2, 2]",
    "integer g(2/2)",
    "integer g(2, 2) h",
    "integer g(2, 2) = 1",
    "integer g(2, 2) / 4*1 /",
    "integer(2, 2) g",
    "integer :: g(2, 2)",
    "integer, dimension(2, 2) :: g",
    // "three or more, declared or used, are 2" (P9.3)
    "integer g(2, 2, 2)",
    "integer g(1, 1, 1)",
    "integer g(2, 2,)",
    "integer g(1, 1, 1, 1)",
    "integer g(1,1,1,1,1,1,1,1)",
    "integer s, g(2, 2, 2), a(4)",
    "integer a = 1",
    "integer _a",
    "integer $a",
    "integer a$",
    "integer a.b",
    "integer a%b",
    "integer*4 a",
    "integer(4) a",
    "integer a ! x",
    "integer a; integer b",
    "integer a &",
    "integer a !$omp",
    "real a",
    "a = 1",
    "data a /1/",
    "do i = 1, 4",
    "end do",
    "10 integer a",
    // reserved words (READING 21)
    "integer integer",
    "integer data",
    "integer do",
    "integer end",
    "integer enddo",
    "integer endif",
    "integer if",
    "integer then",
    "integer else",
    "integer rdiv",
    "integer a, RDIV(4)",
    "integer do(4)",
    // document 02, Point 6 (P6.2)
    "integer max",
    "integer Max",
    "integer a, MAX(4)",
    "integer max(4), a",
    "integer max, max",
    "integer max(0)",
    "integer max(2, 2)",
    "integer do(2, 2)",
    "integer g(2, 2), if(2, 2)",
    // 32 characters and more (READING 20)
    "integer abcdefghijklmnopqrstuvwxyz123456(2, 2)",
    "integer abcdefghijklmnopqrstuvwxyz123456",
    "integer a23456789_123456789_123456789_123456789_123456789",
    "integer abcdefghijklmnopqrstuvwxyz123456, a, a(0)",
    // 2 before 3 and 4 (READING 23)
    "integer a, a,",
    "integer a(0),",
    "integer a(5000) b",
    "integer a, a(0) b",
    "integer g(0, 0) h",
    "integer g(0, 0, 0)",
    "integer g, g(1, 1, 1)",
    "integer g(65536, 65536), g(2,)",
    "integer g(5000, 5000, 5000)",
    // bytes (READING 4)
    "integer\ta",
    "integer a\r",
    "integer a\u{7f}",
    "integer \u{e9}",
    "integer a\0",
];

/// Number 3.
const MISNAMED: &[&str] = &[
    "integer a, a",
    "integer a, A(3)",
    "integer a(2), b, a(2)",
    "integer abcdefghijklmnopqrstuvwxyz12345, ABCDEFGHIJKLMNOPQRSTUVWXYZ12345",
    // 3 before 4 (READING 30)
    "integer a(0), a",
    "integer a, a(0)",
    "integer a(4097), b, b",
    "integer a(2147483648), b, b",
    "integer a(4096), b(4096), a",
    "integer a,b,c,d,e,f,g,h,i,j,k,l,m,n,o,p,a",
    "integer a,b,c,d,e,f,g,h,i,j,k,l,m,n,o,p,q,q",
    // grids too
    "integer g(2, 3), g",
    "integer g, G(2, 3)",
    "integer g(2, 3), h, g(3, 2)",
    "integer g(6), g(2, 3)",
    "integer g(0, 2), g",
    "integer g(2, 0), g(0)",
    "integer g(65536, 65536), h, h(1, 1)",
    "integer g(2147483648, 1), g(1)",
    "integer g(64, 64), h(64, 64), g",
];

/// Number 4.
const BEYOND: &[&str] = &[
    "integer a(0)",
    "integer a(00)",
    "integer a(4097)",
    "integer a(2147483647)",
    "integer a(2147483648)",
    "integer a(4294967297)",
    "integer a(18446744073709551617)",
    "integer a(99999999999999999999999999999999999999999999)",
    "integer a, b(0)",
    "integer a(4096), b",
    "integer a, b(4096)",
    "integer a(2048), b(2048), c",
    "integer a,b,c,d,e,f,g,h,i,j,k,l,m,n,o,p,q",
    "integer a(1),b(1),c,d,e,f,g,h,i,j,k,l,m,n,o,p,q(1)",
    // document 02, Point 9: an extent of 0 (P9.1)
    "integer g(0, 1)",
    "integer g(1, 0)",
    "integer g(0, 0)",
    "integer g(00, 3)",
    "integer g(3, 000)",
    "integer g(0, 4096)",
    "integer g(0, 4097)",
    "integer g(65536, 0)",
    "integer g(0, 2147483647)",
    "integer g(2147483647, 0)",
    // m × n over 4,096, taken exactly
    "integer g(64, 65)",
    "integer g(65, 64)",
    "integer g(4097, 1)",
    "integer g(1, 4097)",
    "integer g(2, 2049)",
    "integer g(2049, 2)",
    "integer g(4096, 4096)",
    "integer g(65536, 65536)",
    "integer g(65536, 65537)",
    "integer g(32768, 131072)",
    "integer g(2147483647, 2147483647)",
    "integer g(2147483647, 2)",
    // 2^32 + 1, 2^32 + 256, and 2^64 + 1 in two extents
    "integer g(641, 6700417)",
    "integer g(16777217, 256)",
    "integer g(274177, 67280421310721)",
    // a literal over its limit
    "integer g(2147483648, 1)",
    "integer g(1, 2147483648)",
    "integer g(4294967296, 4294967296)",
    "integer g(4294967297, 1)",
    "integer g(1, 18446744073709551617)",
    "integer g(99999999999999999999999999999999, 0)",
    // N counts m × n
    "integer g(64, 64), s",
    "integer s, g(64, 64)",
    "integer g(2048, 1), h(1, 2048), s",
    "integer g(64, 63), h(5, 13)",
    "integer a(4095), g(1, 2)",
    "integer s, g(2, 3), h(0, 5)",
    "integer a(1,1),b,c,d,e,f,g(1,1),h,i,j,k,l,m,n,o,p,q(1,1)",
];

/// All rows.
pub fn rows() -> Vec<TextRow> {
    let bad = |lines: &[&str], number: u32| -> Vec<TextRow> {
        let row = |line: &&str| TextRow::bad(line, framed(line), number, 1);
        lines.iter().map(row).collect()
    };
    let mut rows: Vec<TextRow> = GOOD
        .iter()
        .map(|(line, cells)| TextRow::good(line, framed(line), *cells, 1))
        .collect();
    rows.extend(bad(BROKEN, 2));
    rows.extend(bad(MISNAMED, 3));
    rows.extend(bad(BEYOND, 4));
    rows
}
