//! Each limit of RULES 1.13 at its edge and one past it, where a table line would be too long to
//! write out: the text's length, `if` depth and brackets.

use super::TextRow;

/// "integer s, a(4)", P = 2, and v = i from line 3 on; the lines given begin at line 4.
fn with_body(body: &str) -> String {
    let head = "integer s, a(4)\n!$omp parallel do num_threads(2)\ndo i = 1, 4";
    format!("{head}\n{body}end do\n")
}

/// A statement on line 4.
fn with_statement(statement: &str) -> String {
    with_body(&format!("{statement}\n"))
}

/// A statement on line 4 where s and a are in a `reduction` clause.
fn reducing(operation: &str, statement: &str) -> String {
    let clause = format!("num_threads(2) reduction({operation}:s, a)");
    with_statement(statement).replace("num_threads(2)", &clause)
}

/// The same text where a is a grid, two by two.
fn as_grid(text: String) -> String {
    text.replace("a(4)", "a(2,2)")
}

/// An `if` on line 4, closed on line 5.
fn with_if(line: &str) -> String {
    with_body(&format!("{line}\nend if\n"))
}

/// `inner` inside this many times `open`, each closed by `)`.
fn nest(open: &str, times: usize, inner: &str) -> String {
    open.repeat(times) + inner + &")".repeat(times)
}

/// All rows.
pub fn rows() -> Vec<TextRow> {
    let mut rows = length_rows();
    rows.extend(depth_rows());
    rows.extend(bracket_rows());
    rows.extend(deep_rows());
    rows
}

/// "2,048 bytes may pass, 2,049 is 1."
fn length_rows() -> Vec<TextRow> {
    let padded = |length: usize, filler: &str| {
        let text = with_statement("s = 1");
        let missing = length - text.len();
        text + &filler.repeat(missing)
    };
    let zeros = |length: usize| {
        let missing = length - with_statement("s = 1").len();
        with_statement(&format!("s = {}1", "0".repeat(missing)))
    };
    let broken = |length: usize| "?".repeat(length);
    vec![
        TextRow::good("2,048 bytes, newlines last", padded(2048, "\n"), 5, 2),
        TextRow::bad("2,049 bytes, newlines last", padded(2049, "\n"), 1, 0),
        TextRow::good("2,048 bytes, blanks last", padded(2048, " "), 5, 2),
        TextRow::bad("2,049 bytes, blanks last", padded(2049, " "), 1, 0),
        TextRow::good("2,048 bytes, a comment last", padded(2048, "!"), 5, 2),
        TextRow::good("2,048 bytes of leading zeros", zeros(2048), 5, 2),
        TextRow::bad("2,049 bytes of leading zeros", zeros(2049), 1, 0),
        TextRow::bad("2,048 bytes of nothing good", broken(2048), 2, 1),
        TextRow::bad("2,049 bytes of nothing good", broken(2049), 1, 0),
        TextRow::bad("2,048 newlines", "\n".repeat(2048), 2, 2048),
        TextRow::bad("2,049 newlines", "\n".repeat(2049), 1, 0),
        TextRow::bad("2,049 bad bytes", vec![0xff; 2049], 1, 0),
        TextRow::bad("a megabyte", vec![b' '; 1 << 20], 1, 0),
    ]
}

/// "`if` depth 8"; "One more is 4" (READING 43).
fn depth_rows() -> Vec<TextRow> {
    let test = "if (s == 1) then\n";
    let nested = |depth: usize| with_body(&(test.repeat(depth) + &"end if\n".repeat(depth)));
    // Each `if` stands in the `else` part of the one before: `if` on lines 4, 6, 8, ...
    let in_else = |depth: usize| {
        let opened = format!("{test}else\n").repeat(depth);
        with_body(&(opened + &"end if\n".repeat(depth)))
    };
    let in_a_row = |count: usize| with_body(&format!("{test}end if\n").repeat(count));
    let ninth = |line: &str| {
        let opened = test.repeat(8) + line + "\n";
        with_body(&(opened + &"end if\n".repeat(9)))
    };
    vec![
        TextRow::good("8 ifs deep", nested(8), 5, 2),
        TextRow::bad("9 ifs deep", nested(9), 4, 12),
        TextRow::bad("30 ifs deep", nested(30), 4, 12),
        TextRow::good("8 ifs deep in else parts", in_else(8), 5, 2),
        TextRow::bad("9 ifs deep in else parts", in_else(9), 4, 20),
        TextRow::good("30 ifs in a row", in_a_row(30), 5, 2),
        TextRow::good(
            "8 ifs deep, then 8 again",
            with_body(&(test.repeat(8) + &"end if\n".repeat(8)).repeat(2)),
            5,
            2,
        ),
        TextRow::bad(
            "9th if with a name unknown",
            ninth("if (t == 1) then"),
            3,
            12,
        ),
        TextRow::bad("9th if broken", ninth("if (s == 1) the"), 2, 12),
        TextRow::bad(
            "9th if with a literal over its limit",
            ninth("if (s == 2147483648) then"),
            4,
            12,
        ),
        TextRow::bad(
            "9th if last in an unfinished text",
            with_body("").replace("end do\n", &test.repeat(9)),
            2,
            12,
        ),
    ]
}

/// "brackets open together in a statement 8, those of a subscript on either side and of rdiv
/// counted, the outer pair of `if` not" (READING 44). Document 02, Point 6: "`max(e, e)` also becomes a factor,
/// its brackets counted" (P6.8).
fn bracket_rows() -> Vec<TextRow> {
    let [seven, eight, nine] = [7, 8, 9].map(|times| nest("(", times, "1"));
    let rdivs = |times: usize| "rdiv(".repeat(times) + "1" + &", 1)".repeat(times);
    let maxes = |times: usize| "max(".repeat(times) + "1" + &", 1)".repeat(times);
    let good = |name: &str, text: String| TextRow::good(name, text, 5, 2);
    let bad = |name: &str, text: String| TextRow::bad(name, text, 4, 4);
    let firsts = |times: usize| "a(".repeat(times) + "1" + &", 1)".repeat(times);
    let seconds = |times: usize| nest("a(1,", times, "1");
    let assign = |left: &str, right: &str| as_grid(with_statement(&format!("{left} = {right}")));
    let grid = |name: &str, left: &str, right: &str| good(name, assign(left, right));
    let over = |name: &str, left: &str, right: &str| bad(name, assign(left, right));
    let grids_in_if = |times: usize| {
        let line = format!("if ({} == {}) then", firsts(times), seconds(times));
        as_grid(with_if(&line))
    };
    vec![
        good("8 brackets", with_statement(&format!("s = {eight}"))),
        bad("9 brackets", with_statement(&format!("s = {nine}"))),
        good("8 twice", with_statement(&format!("s = {eight} + {eight}"))),
        bad(
            "8, then 9",
            with_statement(&format!("s = {eight} + {nine}")),
        ),
        good(
            "8 subscripts on the left",
            with_statement(&format!("{} = 1", nest("a(", 8, "1"))),
        ),
        bad(
            "9 subscripts on the left",
            with_statement(&format!("{} = 1", nest("a(", 9, "1"))),
        ),
        good(
            "8 on either side",
            with_statement(&format!("{} = {eight}", nest("a(", 8, "1"))),
        ),
        good(
            "8 subscripts on the right",
            with_statement(&format!("s = {}", nest("a(", 8, "1"))),
        ),
        bad(
            "9 subscripts on the right",
            with_statement(&format!("s = {}", nest("a(", 9, "1"))),
        ),
        good("8 rdivs", with_statement(&format!("s = {}", rdivs(8)))),
        bad("9 rdivs", with_statement(&format!("s = {}", rdivs(9)))),
        bad(
            "rdiv around 8",
            with_statement(&format!("s = rdiv(1, {eight})")),
        ),
        good("8 maxes", with_statement(&format!("s = {}", maxes(8)))),
        bad("9 maxes", with_statement(&format!("s = {}", maxes(9)))),
        good(
            "8 maxes in their second argument",
            with_statement(&format!("s = {}", nest("max(1,", 8, "1"))),
        ),
        bad(
            "9 maxes in their second argument",
            with_statement(&format!("s = {}", nest("max(1,", 9, "1"))),
        ),
        good(
            "max around 7",
            with_statement(&format!("s = max(1, {seven})")),
        ),
        bad(
            "max around 8",
            with_statement(&format!("s = max({eight}, 1)")),
        ),
        bad(
            "max around 8, right",
            with_statement(&format!("s = max(1, {eight})")),
        ),
        good(
            "max after 8",
            with_statement(&format!("s = {eight}*max(1, 2)")),
        ),
        good(
            "max, rdiv, subscripts and brackets, 8",
            with_statement("s = max(rdiv(a((max(a((rdiv(1, 1))), 1))), 1), 1)"),
        ),
        bad(
            "max, rdiv, subscripts and brackets, 9",
            with_statement("s = max(rdiv(a((max(a((rdiv(1, (1)))), 1))), 1), 1)"),
        ),
        good(
            "8 maxes inside if",
            with_if(&format!("if ({} == 1) then", maxes(8))),
        ),
        bad(
            "9 maxes inside if",
            with_if(&format!("if ({} == 1) then", maxes(9))),
        ),
        // the brackets of an update
        good(
            "a maximum update by 7",
            reducing("max", &format!("s = max(s, {seven})")),
        ),
        bad(
            "a maximum update by 8",
            reducing("max", &format!("s = max(s, {eight})")),
        ),
        good(
            "a maximum update of 7 subscripts",
            reducing("max", &format!("{0} = max({0}, 1)", nest("a(", 7, "1"))),
        ),
        bad(
            "a maximum update of 8 subscripts",
            reducing("max", &format!("{0} = max({0}, 1)", nest("a(", 8, "1"))),
        ),
        good(
            "a product update by 8",
            reducing("*", &format!("s = s*{eight}*{eight}")),
        ),
        bad(
            "a product update by 9",
            reducing("*", &format!("s = s*{eight}*{nine}")),
        ),
        good(
            "a product update of 8 subscripts",
            reducing("*", &format!("{0} = {0}*2", nest("a(", 8, "1"))),
        ),
        bad(
            "a product update of 9 subscripts",
            reducing("*", &format!("{0} = {0}*2", nest("a(", 9, "1"))),
        ),
        bad(
            "a subscript around 8",
            with_statement(&format!("s = a({eight})")),
        ),
        // document 02, Point 9: both subscripts stand in one open bracket (P9.6)
        grid("8 grids in their first subscript", "s", &firsts(8)),
        over("9 grids in their first subscript", "s", &firsts(9)),
        grid("8 grids in their second subscript", "s", &seconds(8)),
        over("9 grids in their second subscript", "s", &seconds(9)),
        grid("8 grids on either side", &seconds(8), &firsts(8)),
        over("9 grids on the left, in the first", &firsts(9), "1"),
        over("9 grids on the left, in the second", &seconds(9), "1"),
        grid(
            "7 in either subscript",
            "s",
            &format!("a({seven}, {seven})"),
        ),
        over("8 in the first subscript", "s", &format!("a({eight}, 1)")),
        over("8 in the second subscript", "s", &format!("a(1, {eight})")),
        grid("two open together in 6", "s", &nest("(", 6, "a((1), (2))")),
        over("two open together in 7", "s", &nest("(", 7, "a((1), (2))")),
        grid(
            "an update of 8 grids",
            &seconds(8),
            &format!("{} + {eight}", seconds(8)),
        ),
        over(
            "an update of 8 grids by 9",
            &seconds(8),
            &format!("{} + {nine}", seconds(8)),
        ),
        grid(
            "a maximum update of 7 grids",
            &firsts(7),
            &format!("max({}, {seven})", firsts(7)),
        ),
        over(
            "a maximum update of 8 grids",
            &firsts(8),
            &format!("max({}, 1)", firsts(8)),
        ),
        good("8 grids inside if", grids_in_if(8)),
        bad("9 grids inside if", grids_in_if(9)),
        good("8 inside if", with_if(&format!("if ({eight} == 1) then"))),
        good(
            "8 inside if, right",
            with_if(&format!("if (1 == {eight}) then")),
        ),
        good(
            "8 twice inside if",
            with_if(&format!("if ({eight} == {eight}) then")),
        ),
        bad("9 inside if", with_if(&format!("if ({nine} == 1) then"))),
        bad(
            "9 inside if, right",
            with_if(&format!("if (1 == {nine}) then")),
        ),
    ]
}

/// The shortest way to a statement, nothing but brackets, and a line after it, so that it is not read
/// as the last one of an unfinished text.
fn most_brackets() -> String {
    let head = "integer s\n!$omp parallel do num_threads(1)\ndo i=1,1\ns=";
    format!("{head}{}\n\n", "(".repeat(2046 - head.len()))
}

/// Brackets as deep as the bytes allow (READING 45).
pub fn deep_rows() -> Vec<TextRow> {
    let room = 2048 - with_statement("s = 1").len();
    let pairs = room / 2;
    let row = |name: &str, statement: String, number: u32| {
        let text = with_statement(&statement);
        assert!(text.len() <= 2048);
        TextRow::bad(name, text, number, 4)
    };
    let grid_row = |name: &str, (open, close): (&str, &str), inner: &str, number: u32| {
        let frame = as_grid(with_statement("s = ")).len() + inner.len();
        let times = (2048 - frame) / (open.len() + close.len());
        let nested = open.repeat(times) + inner + &close.repeat(times);
        let text = as_grid(with_statement(&format!("s = {nested}")));
        assert!((2040..=2048).contains(&text.len()));
        TextRow::bad(name, text, number, 4)
    };
    vec![
        row(
            "as many pairs as fit",
            format!("s = {}", nest("(", pairs, "1")),
            4,
        ),
        row(
            "as many pairs as fit around an unknown name",
            format!("s = {}", nest("(", pairs, "t")),
            3,
        ),
        row(
            "as many pairs as fit around nothing",
            format!("s = {}", nest("(", pairs, "")),
            2,
        ),
        row(
            "one of them not closed",
            format!("s = ({}", nest("(", pairs - 1, "1")),
            2,
        ),
        row(
            "brackets that never close",
            format!("s = {}1", "(".repeat(room)),
            2,
        ),
        row(
            "brackets that never close, and nothing",
            "(".repeat(room),
            2,
        ),
        TextRow::bad("2,048 brackets and nothing else", "(".repeat(2048), 2, 1),
        TextRow::bad("as many brackets as a text can hold", most_brackets(), 2, 4),
        row(
            "as many subscripts as fit",
            format!("s = {}", nest("a(", room / 3, "1")),
            4,
        ),
        row(
            "as many subscripts on the left as fit",
            format!("{} = 1", nest("a(", room / 3 - 1, "1")),
            4,
        ),
        grid_row("as many first subscripts as fit", ("a(", ",1)"), "1", 4),
        grid_row("as many second subscripts as fit", ("a(1,", ")"), "1", 4),
        grid_row(
            "as many subscripts as fit around one that is missing",
            ("a(1,", ")"),
            "a(1)",
            3,
        ),
        grid_row(
            "as many subscripts as fit around three",
            ("a(1,", ")"),
            "a(1,1,1)",
            2,
        ),
        row(
            "as many pairs of subscripts on an array as fit",
            format!("s = {}", nest("a(1,", room / 5, "1")),
            3,
        ),
        row(
            "as many rdivs as fit",
            format!(
                "s = {}1{}",
                "rdiv(".repeat(room / 8),
                ",1)".repeat(room / 8)
            ),
            4,
        ),
        row(
            "as many maxes as fit",
            format!("s = {}1{}", "max(".repeat(room / 7), ",1)".repeat(room / 7)),
            4,
        ),
        row(
            "as many maxes as fit around an unknown name",
            format!("s = {}t{}", "max(".repeat(room / 7), ",1)".repeat(room / 7)),
            3,
        ),
        row(
            "as many maxes as fit, in their second argument",
            format!("s = {}", nest("max(1,", room / 7, "1")),
            4,
        ),
        row(
            "maxes that never close",
            format!("s = {}1", "max(".repeat(room / 4)),
            2,
        ),
        row(
            "signs and brackets",
            format!("s = {}", nest("-(", room / 3, "1")),
            4,
        ),
        row(
            "an if of brackets",
            format!("if ({} == 1) the", nest("(", room / 2 - 10, "1")),
            2,
        ),
    ]
}
