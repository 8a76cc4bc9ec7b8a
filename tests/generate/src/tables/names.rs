//! Bounds and Name: what a text says of its loop and of its names.

use super::runs::text;

/// A text, bytes asked for as a name, and what Name answers.
#[derive(Debug, Clone)]
pub struct NameRow {
    pub name: String,
    pub text: Vec<u8>,
    pub asked: Vec<u8>,
    /// What is found, or the number and line of the refusal.
    pub expected: Result<Found, (u32, u32)>,
}

/// What Name answers of a declared name.
#[derive(Debug, Clone, Copy, PartialEq, Eq)]
pub struct Found {
    /// The first of its cells, and how many it has.
    pub first: u32,
    pub cells: u32,
    /// How many subscripts it takes.
    pub subscripts: u32,
    /// The number of its clause.
    pub clause: u32,
    /// A grid's extents; an array's length and 0; 0 and 0.
    pub rows: u32,
    pub columns: u32,
}

/// A text and what Bounds answers.
#[derive(Debug, Clone)]
pub struct BoundsRow {
    pub name: String,
    pub text: Vec<u8>,
    /// The first value of v, how many iterations, and whether blocks are tested; or the number and line of the
    /// refusal.
    pub expected: Result<(i32, u32, bool), (u32, u32)>,
}

const SHARED: u32 = 0;
const LASTPRIVATE: u32 = 1;
const SUM: u32 = 2;
const COPIED: u32 = 3;
const PRODUCT: u32 = 4;
const MAXIMUM: u32 = 5;

/// "name unknown" from Name itself, which no line has.
const UNDECLARED: (u32, u32) = (3, 0);

/// A name of each clause, on three lines: h has cells 0 to 4, z 5, flow 6 to 9, s 10, peak 11, weight 12 to 14,
/// old 15 and 16, a_1 17.
const EACH: &str = "integer h(5), z, flow(4)\n\
    \n\
    integer s, peak(1)\n\
    ! integer k(3)\n\
    INTEGER Weight(3), OLD(2), a_1\n\
    data s /5/\n\
    !$omp parallel do num_threads(2) reduction(+:s) lastprivate(z, old) reduction(max:peak) \
    firstprivate(old) reduction(*:weight) shared(flow)\n\
    do i = 1, 4\n\
    flow(i) = h(i)\n\
    end do\n";

fn row(name: &str, text: impl Into<Vec<u8>>, asked: impl AsRef<[u8]>) -> NameRow {
    NameRow {
        name: name.to_string(),
        text: text.into(),
        asked: asked.as_ref().to_vec(),
        expected: Err(UNDECLARED),
    }
}

impl NameRow {
    /// The same, found as an array.
    fn array(self, first: u32, cells: u32, clause: u32) -> NameRow {
        self.found((first, cells), 1, clause, (cells, 0))
    }

    /// The same, found as a single cell.
    fn single(self, first: u32, clause: u32) -> NameRow {
        self.found((first, 1), 0, clause, (0, 0))
    }

    /// The same, found as a grid of so many cells.
    fn grid(self, cells: (u32, u32), extents: (u32, u32), clause: u32) -> NameRow {
        self.found(cells, 2, clause, extents)
    }

    fn found(
        mut self,
        (first, cells): (u32, u32),
        subscripts: u32,
        clause: u32,
        (rows, columns): (u32, u32),
    ) -> NameRow {
        self.expected = Ok(Found {
            first,
            cells,
            subscripts,
            clause,
            rows,
            columns,
        });
        self
    }

    /// The same, refused as Check refuses the text.
    fn refused(mut self, number: u32, line: u32) -> NameRow {
        self.expected = Err((number, line));
        self
    }
}

/// What Name answers.
pub fn name_rows() -> Vec<NameRow> {
    let mut rows = clause_rows();
    rows.extend(case_rows());
    rows.extend(undeclared_rows());
    rows.extend(length_rows());
    rows.extend(place_rows());
    rows.extend(grid_rows());
    rows.extend(refusal_rows());
    rows
}

fn clause_rows() -> Vec<NameRow> {
    let of = |asked: &str| row("a name of each clause", EACH, asked);
    let one = |clauses: &str| {
        let clauses = format!("{clauses} num_threads(8)");
        row(&clauses, text("b, a(3)", &clauses, "1, 2", ""), "a")
    };
    vec![
        of("h").array(0, 5, SHARED),
        of("z").single(5, LASTPRIVATE),
        of("flow").array(6, 4, SHARED),
        of("s").single(10, SUM),
        // READING 31: one cell, but an array
        of("peak").array(11, 1, MAXIMUM),
        of("weight").array(12, 3, PRODUCT),
        of("old").array(15, 2, COPIED),
        of("a_1").single(17, SHARED),
        one("").array(1, 3, SHARED),
        one("shared(b)").array(1, 3, SHARED),
        one("shared(a)").array(1, 3, SHARED),
        one("lastprivate(b)").array(1, 3, SHARED),
        one("lastprivate(a)").array(1, 3, LASTPRIVATE),
        one("lastprivate(b, a)").array(1, 3, LASTPRIVATE),
        one("lastprivate(b) lastprivate(a)").array(1, 3, LASTPRIVATE),
        // P5.1: one of two names in both clauses
        one("firstprivate(b) lastprivate(a, b)").array(1, 3, LASTPRIVATE),
        one("firstprivate(a) lastprivate(a, b)").array(1, 3, COPIED),
        one("lastprivate(a) firstprivate(a)").array(1, 3, COPIED),
        one("FIRSTPRIVATE(A) schedule(static) LASTPRIVATE(A)").array(1, 3, COPIED),
        one("reduction(+:b) reduction(*:a)").array(1, 3, PRODUCT),
        one("reduction(*:b) reduction(+:a)").array(1, 3, SUM),
        one("reduction(max:b) reduction(+:a)").array(1, 3, SUM),
        one("reduction(+:b) reduction(MAX:A)").array(1, 3, MAXIMUM),
        one("reduction(max:b, a)").array(1, 3, MAXIMUM),
        one("reduction(+:b)").array(1, 3, SHARED),
    ]
}

/// "Upper case reads as lower case", in the text and in what is asked.
fn case_rows() -> Vec<NameRow> {
    let of = |asked: &[u8]| row("a name of each clause", EACH, asked);
    let upper = EACH.to_uppercase();
    let raised = |asked: &str| row("the text in upper case", upper.clone(), asked);
    vec![
        of(b"FLOW").array(6, 4, SHARED),
        of(b"fLoW").array(6, 4, SHARED),
        of(b"Z").single(5, LASTPRIVATE),
        of(b"Weight").array(12, 3, PRODUCT),
        of(b"OLD").array(15, 2, COPIED),
        of(b"A_1").single(17, SHARED),
        raised("flow").array(6, 4, SHARED),
        raised("FLOW").array(6, 4, SHARED),
        raised("peaK").array(11, 1, MAXIMUM),
        raised("i"),
        // Bytes that one bit alone keeps from being those of a name.
        of(b"\xfa"),
        of(b"\xda"),
        of(b"\x1a"),
        of(b":"),
        of(b"a_\x11"),
        of(b"a\x7f1"),
        of(b"a\x1f1"),
    ]
}

/// "v is undeclared", and so is what only stands in the text, or is no name.
fn undeclared_rows() -> Vec<NameRow> {
    let of = |name: &str, asked: &[u8]| row(name, EACH, asked);
    let mut rows = vec![
        of("the loop's variable", b"i"),
        of("the loop's variable", b"I"),
        of("in a comment alone", b"k"),
        of("no bytes", b""),
        of("a blank", b" "),
        of("a blank after", b"z "),
        of("a blank before", b" z"),
        of("a blank within", b"fl ow"),
        of("a newline", b"\n"),
        of("a newline after", b"z\n"),
        of("a newline before", b"\nz"),
        of("byte 0", b"\0"),
        of("byte 0 after", b"z\0"),
        of("byte 0 before", b"\0z"),
        of("byte 0 within", b"fl\0w"),
        of("byte 255", b"\xff"),
        of("byte 255 after", b"z\xff"),
        of("byte 255 before", b"\xffz"),
        of("a tab after", b"z\t"),
        of("its first letter", b"f"),
        of("all but its last letter", b"flo"),
        of("a letter more", b"flowe"),
        of("a digit more", b"s1"),
        of("an underscore more", b"z_"),
        of("twice", b"zz"),
        of("all but its first letter", b"low"),
        of("all but its last byte", b"a_"),
        of("brackets", b"flow(4)"),
        of("a bracket", b"flow("),
        of("two names", b"z,flow"),
        of("two names", b"s z"),
        of("a literal", b"5"),
        of("signs", b"!$omp"),
    ];
    // Words of the text, and reserved ones.
    for word in [
        "integer",
        "data",
        "do",
        "end",
        "enddo",
        "endif",
        "if",
        "then",
        "else",
        "rdiv",
        "max",
        "MAX",
        "parallel",
        "num_threads",
        "shared",
        "lastprivate",
        "firstprivate",
        "reduction",
        "omp",
    ] {
        rows.push(of("a word", word.as_bytes()));
    }
    rows
}

/// "Names are a letter and up to 30 letters, digits or underscores."
fn length_rows() -> Vec<NameRow> {
    let [long, other] =
        ["12345", "12346"].map(|end| "abcdefghijklmnopqrstuvwxyz".to_string() + end);
    let names = format!("{long}(3), {other}, a(2)");
    let clauses = format!("num_threads(1) lastprivate({other})");
    let loop_text = text(&names, &clauses, "1, 2", "");
    let of = |name: &str, asked: &[u8]| row(name, loop_text.clone(), asked);
    vec![
        of("31 bytes", long.as_bytes()).array(0, 3, SHARED),
        of("31 bytes", other.as_bytes()).single(3, LASTPRIVATE),
        of("31 bytes", other.to_uppercase().as_bytes()).single(3, LASTPRIVATE),
        of(
            "another last byte",
            (long[..30].to_string() + "7").as_bytes(),
        ),
        of(
            "another first byte",
            ("b".to_string() + &long[1..]).as_bytes(),
        ),
        of("30 bytes", &long.as_bytes()[..30]),
        of("32 bytes", (long.clone() + "6").as_bytes()),
        of("32 bytes, a blank last", (long.clone() + " ").as_bytes()),
        of(
            "two names without a blank",
            (long.clone() + &other).as_bytes(),
        ),
        of("3,000 bytes", "a".repeat(3000).as_bytes()),
        of(
            "3,000 bytes, mostly blanks",
            format!("a{}", " ".repeat(2999)).as_bytes(),
        ),
        of(
            "3,000 bytes, mostly zeros",
            &[b"a", &[0; 2999][..]].concat(),
        ),
        of(
            "3,000 bytes, a name first",
            &long.repeat(100).as_bytes()[..3000],
        ),
        // Lengths of which 8 or 16 bits are those of a name.
        of("256 bytes more", &[b"a", &[b'a'; 256][..]].concat()),
        of("65,536 bytes more", &[b"a", &[b'a'; 65536][..]].concat()),
        row("the text itself", EACH, EACH),
    ]
}

/// Where names stand, and names that are words of other forms.
fn place_rows() -> Vec<NameRow> {
    let letters = "a,b,c,d,e,f,g,h,i,j,k,l,m,n,o,p";
    let many = format!("integer {letters}\n!$omp parallel do num_threads(1)\ndo v = 1, 1\nend do");
    let lines = letters.replace(',', "(2)\ninteger ");
    let each = format!("integer {lines}(2)\n!$omp parallel do num_threads(1)\ndo v = 1, 1\nend do");
    let plain = |names: &str| text(names, "num_threads(1)", "1, 0", "");
    let words = "shared(2), static, schedule(3), firstprivate, parallel, omp, max_";
    let clauses = "num_threads(3) lastprivate(static) schedule(static) shared(shared)";
    let of_words = |asked: &str| row("words as names", text(words, clauses, "1, 0", ""), asked);
    let padded = |length: usize| {
        let text = plain("z(7)");
        let missing = length - text.len();
        text + "!" + &".".repeat(missing - 1)
    };
    vec![
        row("the first of 16 names", many.clone(), "a").single(0, SHARED),
        row("the ninth of 16 names", many.clone(), "I").single(8, SHARED),
        row("the last of 16 names", many.clone(), "p").single(15, SHARED),
        row("v beside 16 names", many, "v"),
        row("the last of 16 lines", each.clone(), "p").array(30, 2, SHARED),
        row("the second of 16 lines", each, "b").array(2, 2, SHARED),
        row("4,096 cells", plain("a(4096)"), "a").array(0, 4096, SHARED),
        row("the last of 4,096 cells", plain("a(4095), b"), "b").single(4095, SHARED),
        row("the last of 4,096 cells", plain("a, b(4095)"), "b").array(1, 4095, SHARED),
        row("leading zeros", plain("a(0003), b(01)"), "b").array(3, 1, SHARED),
        row("blanks", plain("a ( 3 ) , b"), "a").array(0, 3, SHARED),
        row("a name that begins another", plain("ab(2), a(3), abc"), "a").array(2, 3, SHARED),
        row("a name that begins another", plain("a(3), ab, abc"), "ab").single(3, SHARED),
        row("a name that another begins", plain("a(3), ab, abc"), "abc").single(4, SHARED),
        of_words("shared").array(0, 2, SHARED),
        of_words("static").single(2, LASTPRIVATE),
        of_words("schedule").array(3, 3, SHARED),
        of_words("max_").single(9, SHARED),
        of_words("max"),
        of_words("reduction"),
        row("2,048 bytes", padded(2048), "z").array(0, 7, SHARED),
        row("2,048 bytes", padded(2048), "y"),
        row("2,049 bytes", padded(2049), "z").refused(1, 0),
    ]
}

/// Document 02, Point 9: a grid of each clause between other names. s has cell 0, bed 1 to 6, a 7 to 10, one 11,
/// peak 12 to 26, w 27 to 29, t 30 to 32, old 33 to 36.
const GRIDS: &str = "integer s, bed(2, 3), a(4), one(1, 1)\n\
    INTEGER Peak(05, 3)\n\
    integer w(1,3), t(3,1), old ( 2 , 2 )\n\
    data bed /6*1/\n\
    !$omp parallel do num_threads(2) reduction(max:peak) lastprivate(t, old) reduction(*:w) firstprivate(old) \
    reduction(+:one)\n\
    do i = 1, 2\n\
    bed(i, 1) = bed(i, 2)\n\
    end do\n";

fn grid_rows() -> Vec<NameRow> {
    let of = |asked: &str| row("grids", GRIDS, asked);
    let plain = |names: &str| text(names, "num_threads(1)", "1, 0", "");
    let large = |names: &str, asked: &str| row(names, plain(names), asked);
    vec![
        of("s").single(0, SHARED),
        of("bed").grid((1, 6), (2, 3), SHARED),
        of("BED").grid((1, 6), (2, 3), SHARED),
        of("a").array(7, 4, SHARED),
        // P9.2: one cell, but a grid
        of("one").grid((11, 1), (1, 1), SUM),
        of("peak").grid((12, 15), (5, 3), MAXIMUM),
        of("pEAk").grid((12, 15), (5, 3), MAXIMUM),
        of("w").grid((27, 3), (1, 3), PRODUCT),
        of("t").grid((30, 3), (3, 1), LASTPRIVATE),
        of("old").grid((33, 4), (2, 2), COPIED),
        of("i"),
        of("be"),
        of("beds"),
        of("bed "),
        of(" bed"),
        of("bed(2, 3)"),
        of("bed(1, 1)"),
        of("bed,"),
        of("2"),
        large("g(64, 64)", "g").grid((0, 4096), (64, 64), SHARED),
        large("g(4096, 1)", "g").grid((0, 4096), (4096, 1), SHARED),
        large("g(1, 4096)", "g").grid((0, 4096), (1, 4096), SHARED),
        large("a(4096)", "a").array(0, 4096, SHARED),
        large("g(2, 2047), s, a", "g").grid((0, 4094), (2, 2047), SHARED),
        large("g(2, 2047), s, a", "a").single(4095, SHARED),
        large("s, g(1, 4095)", "g").grid((1, 4095), (1, 4095), SHARED),
        large("g(64, 63), h(8, 8)", "h").grid((4032, 64), (8, 8), SHARED),
        large("a(3), g(3, 1), h(1, 3)", "a").array(0, 3, SHARED),
        large("a(3), g(3, 1), h(1, 3)", "g").grid((3, 3), (3, 1), SHARED),
        large("a(3), g(3, 1), h(1, 3)", "h").grid((6, 3), (1, 3), SHARED),
        large("ab(2, 2), a(3, 2)", "a").grid((4, 6), (3, 2), SHARED),
        // refused as Check refuses it
        large("g(0, 3)", "g").refused(4, 1),
        large("g(64, 65)", "g").refused(4, 1),
        large("g(1, 1, 1)", "g").refused(2, 1),
        large("g(2, 2), g", "g").refused(3, 1),
    ]
}

/// Texts that Check refuses: whatever is asked, it is refused so.
fn refusal_rows() -> Vec<NameRow> {
    let mut rows = Vec::new();
    for (name, text, number, line) in refused_texts() {
        for asked in ["a", "s", "i", "nobody", ""] {
            rows.push(row(&name, text.clone(), asked).refused(number, line));
        }
    }
    rows
}

/// Texts that Check refuses, with number and line.
fn refused_texts() -> Vec<(String, Vec<u8>, u32, u32)> {
    let good = text("s, a(4)", "num_threads(2)", "1, 4", "a(i) = s");
    let mut texts = vec![
        ("2,049 blanks".to_string(), vec![b' '; 2049], 1, 0),
        ("70,000 bytes".to_string(), vec![b'a'; 70_000], 1, 0),
    ];
    for (from, to, number, line) in [
        (&good[..], "", 2, 1),
        ("integer s", "integer s s", 2, 1),
        ("a(i) = s", "a(i) = s +", 2, 4),
        ("\nend do\n", "", 2, 4),
        (
            "num_threads(2)",
            "num_threads(2) schedule(static) schedule(static)",
            2,
            2,
        ),
        ("a(4)", "s", 3, 1),
        ("a(4)", "i", 3, 3),
        ("a(4)", "a(2, 2, 1)", 2, 1),
        ("a(4)", "a(2, 2)", 3, 4),
        ("a(4)", "a(4, 0)", 4, 1),
        ("a(i) = s", "a(i, 1) = s", 3, 4),
        ("a(i) = s", "a(i, 1, 1) = s", 2, 4),
        ("num_threads(2)", "num_threads(2) firstprivate(a)", 3, 2),
        (
            "num_threads(2)",
            "num_threads(2) shared(a) reduction(+:a)",
            3,
            2,
        ),
        ("a(i) = s", "a(i) = z", 3, 4),
        ("a(i) = s", "s(i) = a", 3, 4),
        ("a(4)", "a(4097)", 4, 1),
        ("a(4)", "a(0)", 4, 1),
        ("num_threads(2)", "num_threads(9)", 4, 2),
        ("1, 4", "1, 65536", 4, 3),
        ("a(i) = s", "a(i) = 2147483648", 4, 4),
    ] {
        let text = good.replace(from, to).into_bytes();
        texts.push((format!("{from:?} becomes {to:?}"), text, number, line));
    }
    texts
}

/// `do` lines with what they say.
const DO_LINES: &[(&str, i32, u32)] = &[
    ("do i = 1, 4", 1, 4),
    ("DO I = 1 , 4", 1, 4),
    ("do i = 2, 2", 2, 1),
    ("do i = 0, 0", 0, 1),
    ("do i = -0, +0", 0, 1),
    ("do i = -5, 5", -5, 11),
    ("do i = - 5, + 5", -5, 11),
    ("do i = +3, +7", 3, 5),
    ("do i = -9, -8", -9, 2),
    ("do i = 0000000000000000000003, 00005", 3, 3),
    // "If n < m there are no iterations."
    ("do i = 1, 0", 1, 0),
    ("do i = 7, 3", 7, 0),
    ("do i = -3, -7", -3, 0),
    ("do i = 3, -7", 3, 0),
    ("do i = 65536, 0", 65536, 0),
    ("do i = 2147483647, 1", 2147483647, 0),
    ("do i = 2147483647, -2147483647", 2147483647, 0),
    ("do i = 2147483647, -2147418115", 2147483647, 0),
    ("do i = -2147483646, -2147483647", -2147483646, 0),
    // 65,535 iterations (READING 40), and one less
    ("do i = 1, 65535", 1, 65535),
    ("do i = 0, 65534", 0, 65535),
    ("do i = -65534, 0", -65534, 65535),
    ("do i = -32767, 32767", -32767, 65535),
    ("do i = -32768, 32765", -32768, 65534),
    ("do i = 2147418113, 2147483647", 2147418113, 65535),
    ("do i = -2147483647, -2147418113", -2147483647, 65535),
    // the ends of the range
    ("do i = -2147483647, -2147483647", -2147483647, 1),
    ("do i = -2147483647, -2147483646", -2147483647, 2),
    ("do i = 2147483647, 2147483647", 2147483647, 1),
    ("do i = 2147483646, +2147483647", 2147483646, 2),
];

/// Clauses, and whether blocks are tested.
const BLOCKS: &[(&str, bool)] = &[
    ("num_threads(2)", false),
    ("num_threads(2) schedule(static)", true),
    ("schedule(static) num_threads(2)", true),
    ("NUM_THREADS(2)SCHEDULE(STATIC)SHARED(A)", true),
    ("shared(a) schedule  (  static  ) num_threads(1)", true),
    ("shared(static, schedule) num_threads(1)", false),
    (
        "lastprivate(schedule) schedule(static) num_threads(1)",
        true,
    ),
];

/// What Bounds answers.
pub fn bounds_rows() -> Vec<BoundsRow> {
    let row = |name: &str, text: String, expected| BoundsRow {
        name: name.to_string(),
        text: text.into_bytes(),
        expected,
    };
    let mut rows = Vec::new();
    for &(line, from, iterations) in DO_LINES {
        for (clause, blocks) in [("", false), (" schedule(static)", true)] {
            let directive = format!("!$omp parallel do num_threads(3){clause}");
            let text = format!("integer a(4)\n{directive}\n{line}\na(1) = 5\nend do\n");
            rows.push(row(line, text, Ok((from, iterations, blocks))));
        }
    }
    let names = "a, static, schedule";
    for &(clauses, blocks) in BLOCKS {
        let text = text(names, clauses, "-2, 3", "");
        rows.push(row(clauses, text, Ok((-2, 6, blocks))));
    }
    let plain = text(names, "num_threads(2)", "-2, 3", "static = i\na = 3 - 9");
    let comment = plain.replace("static = i", "! schedule(static)\n! do i = 5, 6");
    let closed = plain.clone() + "!$omp end parallel do\n! do i = 5, 6";
    rows.extend([
        row("schedule(static) in a comment", comment, Ok((-2, 6, false))),
        row("a closing directive", closed, Ok((-2, 6, false))),
        row("grids", GRIDS.to_string(), Ok((1, 2, false))),
        row(
            "grids, by blocks",
            GRIDS.replace("do num_threads", "do schedule(static) num_threads"),
            Ok((1, 2, true)),
        ),
        row(
            "no last newline",
            plain.trim_end().to_string(),
            Ok((-2, 6, false)),
        ),
    ]);
    for line in [
        "do i = 1, 65536",
        "do i = -2147483648, 1",
        "do i = -2147483647, 1",
    ] {
        let text = plain.replace("do i = -2, 3", line);
        rows.push(row(line, text, Err((4, 3))));
    }
    let unknown = plain.replace("a = 3", "b = 3");
    rows.push(row("refused after `do`", unknown, Err((3, 5))));
    rows.extend(
        refused_texts()
            .into_iter()
            .map(|(name, text, number, line)| BoundsRow {
                name,
                text,
                expected: Err((number, line)),
            }),
    );
    rows
}
