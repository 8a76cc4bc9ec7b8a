//! Loops without statements whose bounds are near the limits: of literals, and of the number of iterations. Not
//! all of them are accepted.

use crate::lend::extreme;
use crate::rng::Rng;

/// Such a text.
pub fn range(rng: &mut Rng) -> Vec<u8> {
    let first = i64::from(extreme(rng));
    let last = match rng.below(5) {
        0 => i64::from(extreme(rng)),
        1 => first + rng.between(0, 65_534),
        2 => first + rng.between(65_532, 65_537),
        _ => first + rng.between(-3, 3),
    };
    let clause = if rng.chance(50) {
        " schedule(static)"
    } else {
        ""
    };
    let directive = format!("!$omp parallel do num_threads(2){clause}");
    let (first, last) = (signed(rng, first), signed(rng, last));
    let name = rng.pick(&["a", "a", "a(3)", "a(2, 3)"]);
    format!("integer {name}\n{directive}\ndo i = {first}, {last}\nend do\n").into_bytes()
}

/// A literal with its sign, at times with one that it need not have, a blank or leading zeros.
fn signed(rng: &mut Rng, value: i64) -> String {
    let sign = match value {
        0 => rng.pick(&["", "+", "-"]),
        1.. => rng.pick(&["", "", "+"]),
        _ => "-",
    };
    let blank = if rng.chance(20) { " " } else { "" };
    let zeros = if rng.chance(20) { rng.below(12) } else { 0 };
    format!("{sign}{blank}{}{}", "0".repeat(zeros), value.abs())
}
