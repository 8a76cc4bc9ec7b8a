//! Texts that are no loops.

use crate::rng::Rng;

/// Bytes of any kind.
pub fn bytes(rng: &mut Rng) -> Vec<u8> {
    let most = if rng.chance(5) { 2100 } else { 80 };
    let length = rng.below(most);
    let printable = rng.chance(70);
    (0..length)
        .map(|_| match rng.below(12) {
            0 => b'\n',
            1 | 2 => b' ',
            _ if printable => rng.between(32, 126) as u8,
            _ => rng.bits() as u8,
        })
        .collect()
}

/// Tokens of the language in any order, a few to a line.
pub fn soup(rng: &mut Rng) -> Vec<u8> {
    const TOKENS: [&str; 64] = [
        "integer",
        "data",
        "do",
        "end",
        "enddo",
        "endif",
        "if",
        "then",
        "else",
        "rdiv",
        "max",
        "a",
        "b",
        "s",
        "i",
        "(",
        ")",
        "(",
        ")",
        ",",
        "=",
        "==",
        "/=",
        "<",
        "<=",
        ">",
        ">=",
        "+",
        "-",
        "*",
        "/",
        "/",
        "0",
        "1",
        "2",
        "4",
        "9",
        "2147483648",
        "!$omp ",
        "!",
        "parallel",
        "num_threads",
        "shared",
        "lastprivate",
        "firstprivate",
        "firstprivate(a)",
        "lastprivate(a)",
        "reduction",
        "reduction(*:a)",
        "reduction(max:a)",
        "max(a, 1)",
        "a = max(a, i)",
        "schedule",
        "static",
        "schedule(static)",
        ":",
        "a(4)",
        "a(2, 2)",
        "a(1, i)",
        "a(2, 2, 2)",
        "integer a(2, 2), b",
        "a(1, 1) = b",
        "end do",
        "end if",
    ];
    let mut text = String::new();
    for _ in 0..rng.below(20) {
        for _ in 0..rng.below(9) {
            text += rng.pick(&TOKENS);
            if rng.chance(70) {
                text += " ";
            }
        }
        text += "\n";
    }
    text.into_bytes()
}
