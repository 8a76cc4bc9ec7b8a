//! `/` and rdiv on pairs of numbers, many in one loop (document 01, Integers; document 02, Points 2 and 4).

use generate::{lend, Rng};
use reference::workspace_needed;

use crate::runs::run_as_reference;
use crate::services::Lent;
use crate::tally::Tally;

/// How many pairs a loop divides.
const TOGETHER: usize = 1_000;
/// Dividends and divisors of the small range.
const DIVIDENDS: i32 = 60;
const DIVISORS: i32 = 24;
/// How many pairs are drawn.
const DRAWN: usize = 60_000;

type Pair = (i32, i32);

/// Run against the reference with one of the divisions.
struct Division {
    /// The group's name and seed.
    name: &'static str,
    seed: u64,
    /// The right side that divides.
    form: &'static str,
    draw: fn(&mut Rng) -> Pair,
    /// What is counted of a pair.
    kind: fn(Pair) -> &'static str,
}

/// The cases of `/`: all signs and the end of the range.
pub fn quotients() -> bool {
    let tally = Division {
        name: "/",
        seed: 6,
        form: "x(i)/y(i)",
        draw: near_whole,
        kind: case,
    }
    .compare();
    let often = |case: &str, percent: usize| tally.has("The quotient", &[case], percent);
    tally.report()
        & often("of neither negative", 20)
        & often("of a negative divisor", 20)
        & often("of a negative dividend", 20)
        & often("of both negative", 20)
        & often("at the end of the range", 2)
}

pub fn rounded_quotients() -> bool {
    let tally = Division {
        name: "rdiv",
        seed: 5,
        form: "rdiv(x(i), y(i))",
        draw: often_half,
        kind: half_or_not,
    }
    .compare();
    tally.report() & tally.has("The quotient", &["a half"], 20)
}

impl Division {
    /// All pairs of a small range, of the range's ends, and random ones.
    fn compare(&self) -> Tally {
        let mut tally = Tally::new(&format!("{}, pairs of the seed {}", self.name, self.seed));
        let mut rng = Rng::new(self.seed);
        let drawn: Vec<Pair> = (0..DRAWN).map(|_| (self.draw)(&mut rng)).collect();
        for (name, pairs) in [
            ("a small range", small()),
            ("the ends", ends()),
            ("random", drawn),
        ] {
            for some in pairs.chunks(TOGETHER) {
                self.divide(&mut tally, &mut rng, name, some);
            }
        }
        tally
    }

    /// One loop over these pairs.
    fn divide(&self, tally: &mut Tally, rng: &mut Rng, name: &str, pairs: &[Pair]) {
        let count = pairs.len();
        let processors = 1 + rng.below(8);
        let form = self.form;
        let source = format!(
            "integer x({count}), y({count}), q({count})\n\
             !$omp parallel do num_threads({processors}) shared(x, y, q)\n\
             do i = 1, {count}\nq(i) = {form}\nend do\n"
        );
        let mut cells: Vec<i32> = pairs.iter().map(|pair| pair.0).collect();
        cells.extend(pairs.iter().map(|pair| pair.1));
        cells.extend(lend::cells(rng, count));
        let words = workspace_needed(cells.len(), processors);
        let lent = Lent {
            cells: &cells,
            workspace: &lend::workspace(rng, words),
            schedule: &lend::schedule(rng, processors),
        };
        let mut text = tally.next(name, source.as_bytes());
        for &pair in pairs {
            text.count("The quotient", Ok((self.kind)(pair)));
        }
        run_as_reference(&mut text, &lent);
    }
}

fn small() -> Vec<Pair> {
    all(
        &Vec::from_iter(-DIVIDENDS..=DIVIDENDS),
        &Vec::from_iter(-DIVISORS..=DIVISORS),
    )
}

/// What lies within 3 of the ends of the range, of their halves and of 0.
fn ends() -> Vec<Pair> {
    let around = [i32::MIN, i32::MIN / 2, 0, i32::MAX / 2, i32::MAX];
    let near = |&end: &i32| (-3..=3).filter_map(move |more| end.checked_add(more));
    let numbers: Vec<i32> = around.iter().flat_map(near).collect();
    all(&numbers, &numbers)
}

/// All pairs whose divisor is not zero.
fn all(dividends: &[i32], divisors: &[i32]) -> Vec<Pair> {
    let divisors = divisors.iter().filter(|&&divisor| divisor != 0);
    divisors
        .flat_map(|&divisor| dividends.iter().map(move |&dividend| (dividend, divisor)))
        .collect()
}

/// A number of any size.
fn number(rng: &mut Rng) -> i32 {
    (rng.bits() as i32) >> rng.below(32)
}

fn divisor(rng: &mut Rng) -> i32 {
    match number(rng) {
        0 => 1,
        other => other,
    }
}

/// Any two numbers, often such that their quotient is whole or next to it; now and then the end of the
/// range.
fn near_whole(rng: &mut Rng) -> Pair {
    if rng.chance(4) {
        return (i32::MIN, -1);
    }
    let (times, divisor) = (number(rng), divisor(rng));
    let beside = rng.below(3) as i32 - 1;
    let dividend = divisor
        .checked_mul(times)
        .and_then(|whole| whole.checked_add(beside));
    match dividend {
        Some(dividend) if rng.chance(80) => (dividend, divisor),
        _ => (times, divisor),
    }
}

/// Which case a quotient is.
fn case((dividend, divisor): Pair) -> &'static str {
    match (dividend < 0, divisor < 0) {
        _ if (dividend, divisor) == (i32::MIN, -1) => "at the end of the range",
        (false, false) => "of neither negative",
        (false, true) => "of a negative divisor",
        (true, false) => "of a negative dividend",
        (true, true) => "of both negative",
    }
}

/// Any two numbers, often such that their quotient is a half.
fn often_half(rng: &mut Rng) -> Pair {
    let (times, divisor) = (number(rng), divisor(rng));
    match half(times, divisor) {
        Some(pair) if rng.chance(80) => pair,
        _ => (times, divisor),
    }
}

/// An odd number of halves of an even divisor, if it is in the range.
fn half(times: i32, divisor: i32) -> Option<Pair> {
    let half = divisor / 2;
    let dividend = half.checked_mul(times | 1)?;
    (half != 0).then_some((dividend, 2 * half))
}

fn half_or_not((dividend, divisor): Pair) -> &'static str {
    let (dividend, divisor) = (i64::from(dividend), i64::from(divisor));
    if 2 * (dividend % divisor).abs() == divisor.abs() {
        "a half"
    } else {
        "no half"
    }
}
