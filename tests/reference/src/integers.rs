//! RULES 2.1 to 2.4 (document 01, "Integers"). Sum, difference, product and negation are Rust's wrapping ones; here
//! stand the two divisions and the operations of `reduction` clauses. Both divisions take the exact quotient
//! of 64 bits and then keep 32 bits, which makes −2147483648 divided by −1 be −2147483648, "either way".

use crate::syntax::Operation;

impl Operation {
    /// "a neutral number": document 02, Point 6: "Partial results start at 1 and −2147483648", those of sums
    /// at 0.
    pub fn neutral(self) -> i32 {
        match self {
            Operation::Sum => 0,
            Operation::Product => 1,
            Operation::Maximum => i32::MIN,
        }
    }

    /// What an update makes of a cell or a partial result, and the merge of a partial result with a cell.
    pub fn of(self, one: i32, other: i32) -> i32 {
        match self {
            Operation::Sum => one.wrapping_add(other),
            Operation::Product => one.wrapping_mul(other),
            Operation::Maximum => one.max(other),
        }
    }
}

/// "`/` truncates toward zero." `None` for a zero divisor.
pub fn divide_truncated(dividend: i32, divisor: i32) -> Option<i32> {
    if divisor == 0 {
        return None;
    }
    Some((i64::from(dividend) / i64::from(divisor)) as i32)
}

/// "rdiv gives the nearest whole number", and where two are as near "the even neighbour" (document 02,
/// Point 2). `None` for a zero divisor. Both are among the three around the truncated quotient; nothing
/// wraps on the way (READING 61).
pub fn divide_rounded(dividend: i32, divisor: i32) -> Option<i32> {
    if divisor == 0 {
        return None;
    }
    let (dividend, divisor) = (i64::from(dividend), i64::from(divisor));
    let truncated = dividend / divisor;
    let distance = |whole: i64| (dividend - whole * divisor).abs();
    let rounded =
        (truncated - 1..=truncated + 1).min_by_key(|&whole| (distance(whole), whole % 2 != 0));
    rounded.map(|whole| whole as i32)
}

#[cfg(test)]
mod tests {
    use super::*;

    /// Document 02, Point 6: "any operation that is commutative, associative and has a neutral number, and the
    /// three operations are cases of it".
    #[test]
    fn operations_are_commutative_associative_and_have_a_neutral_number() {
        const NUMBERS: [i32; 11] = [
            i32::MIN,
            i32::MIN + 1,
            -46341,
            -2,
            -1,
            0,
            1,
            3,
            65536,
            i32::MAX - 1,
            i32::MAX,
        ];
        for operation in [Operation::Sum, Operation::Product, Operation::Maximum] {
            let of = |one, other| operation.of(one, other);
            for a in NUMBERS {
                assert_eq!(of(a, operation.neutral()), a);
                for b in NUMBERS {
                    assert_eq!(of(a, b), of(b, a));
                    for c in NUMBERS {
                        assert_eq!(of(of(a, b), c), of(a, of(b, c)));
                    }
                }
            }
        }
    }

    #[test]
    fn examples_of_document_01() {
        assert_eq!(divide_truncated(-7, 2), Some(-3));
        assert_eq!(divide_rounded(-7, 2), Some(-4));
        assert_eq!(divide_rounded(7, 2), Some(4));
        assert_eq!(divide_rounded(1, 3), Some(0));
        assert_eq!(divide_truncated(i32::MIN, -1), Some(i32::MIN));
        assert_eq!(divide_rounded(i32::MIN, -1), Some(i32::MIN));
        assert_eq!(divide_truncated(1, 0), None);
        assert_eq!(divide_rounded(0, 0), None);
    }

    #[test]
    fn examples_of_document_02() {
        assert_eq!(divide_rounded(5, 2), Some(2));
        assert_eq!(divide_rounded(7, 2), Some(4));
        assert_eq!(divide_rounded(-5, 2), Some(-2));
    }

    /// Document 02, Point 4: neither negative, the divisor, the dividend, both; the end of the range.
    #[test]
    fn quotients_by_cases() {
        for (dividend, divisor, quotient) in [
            (7, 2, 3),
            (7, -2, -3),
            (-7, 2, -3),
            (-7, -2, 3),
            (i32::MIN, -1, i32::MIN),
            (i32::MIN, 1, i32::MIN),
            (i32::MIN, -2, 1_073_741_824),
            (i32::MIN, i32::MIN, 1),
            (i32::MIN + 1, -1, i32::MAX),
            (i32::MAX, -1, -i32::MAX),
            (i32::MAX, i32::MIN, 0),
        ] {
            assert_eq!(divide_truncated(dividend, divisor), Some(quotient));
        }
    }

    /// The standard's sense: of the whole numbers between zero and the exact quotient, the one nearest to it.
    #[test]
    fn truncation_is_the_nearest_toward_zero() {
        for a in -40i64..=40 {
            for b in (-9i64..=9).filter(|&b| b != 0) {
                let between = |q: &i64| (0.min(a)..=0.max(a)).contains(&(q * b));
                let nearest = (-40..=40).filter(between).min_by_key(|q| (a - q * b).abs());
                let quotient = divide_truncated(a as i32, b as i32).map(i64::from);
                assert_eq!(quotient, nearest, "{a} {b}");
            }
        }
    }

    /// P2.1
    #[test]
    fn halves_go_to_even() {
        for (dividend, divisor, rounded) in [
            (1, 2, 0),
            (-1, 2, 0),
            (3, 2, 2),
            (-3, 2, -2),
            (-7, 2, -4),
            (10, 4, 2),
            (5, -2, -2),
            (-5, -2, 2),
        ] {
            assert_eq!(divide_rounded(dividend, divisor), Some(rounded));
        }
    }

    /// P2.2
    #[test]
    fn rounding_is_exact_at_the_ends() {
        assert_eq!(divide_rounded(1_073_741_824, i32::MIN), Some(0));
        assert_eq!(divide_rounded(-1_073_741_824, i32::MIN), Some(0));
        assert_eq!(divide_rounded(1_073_741_825, i32::MIN), Some(-1));
        assert_eq!(divide_rounded(1_073_741_823, i32::MIN), Some(0));
        assert_eq!(divide_rounded(i32::MAX, 2), Some(1_073_741_824));
        assert_eq!(divide_rounded(2_147_483_645, 2), Some(1_073_741_822));
        assert_eq!(divide_rounded(i32::MIN, i32::MAX), Some(-1));
        assert_eq!(divide_rounded(i32::MAX, i32::MIN), Some(-1));
    }

    /// The distance to the quotient is at most a half, and at a half the result is even. "Other quotients
    /// keep their values": those of halves away from zero.
    #[test]
    fn rounding_is_the_nearest() {
        for a in -40i64..=40 {
            for b in (-9i64..=9).filter(|&b| b != 0) {
                let q = i64::from(divide_rounded(a as i32, b as i32).unwrap());
                let doubled_distance = 2 * (q * b - a).abs();
                assert!(doubled_distance <= b.abs(), "{a} {b}");
                if doubled_distance == b.abs() {
                    assert!(q % 2 == 0, "{a} {b}");
                } else {
                    let size = (2 * a.abs() + b.abs()) / (2 * b.abs());
                    assert_eq!(q, size * a.signum() * b.signum(), "{a} {b}");
                }
            }
        }
    }
}
