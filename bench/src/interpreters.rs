//! The two serial interpreters that Run is timed beside: a plain one (`postfix`) and a stronger one
//! (`three_address`). They are a crate of their own, so that no edit of the program changes their code.

pub mod postfix;
pub mod reader;
pub mod three_address;

#[cfg(test)]
mod tests {
    use crate::postfix::Fault;
    use crate::{reader, three_address};

    /// What both make of a body over `i = -2, 3` and a, b, c, d(3): the same outcome and cells.
    fn agreed(body: &str, entry: [i32; 6]) -> (Result<(), Fault>, [i32; 6]) {
        let read = reader::read(&format!(
            "integer a, b, c, d(3)\n!$omp parallel do num_threads(1)\ndo i = -2, 3\n{body}\nend do\n"
        ));
        let (mut plain, mut strong) = (entry, entry);
        let outcome = read.run(&mut plain);
        assert_eq!(three_address::prepare(&read).run(&mut strong), outcome);
        assert_eq!(strong, plain);
        (outcome, plain)
    }

    #[test]
    fn cells() {
        let least = i32::MIN;
        for (body, entry, cells) in [
            ("", [1, 2, 3, 4, 5, 6], [1, 2, 3, 4, 5, 6]),
            ("a = b\nc = a", [1, 2, 3, 4, 5, 6], [2, 2, 2, 4, 5, 6]),
            ("a = 7\nb = i\nc = -b", [0; 6], [7, 3, -3, 0, 0, 0]),
            ("a = a + i\nb = b - a * i", [0; 6], [3, -14, 0, 0, 0, 0]),
            (
                "a = b / c\nb = b + 0",
                [0, least, -1, 0, 0, 0],
                [least, least, -1, 0, 0, 0],
            ),
            (
                "a = rdiv(-7, b)\nc = -7 / b",
                [0, 2, 0, 0, 0, 0],
                [-4, 2, -3, 0, 0, 0],
            ),
            (
                "a = rdiv(5, b)\nc = rdiv(-8, 3)",
                [0, -2, 0, 0, 0, 0],
                [-2, -2, -3, 0, 0, 0],
            ),
            ("d(d(a)) = d(3) - 3", [2, 0, 0, 5, 1, 4], [2, 0, 0, 1, 1, 4]),
            (
                "if (i <= 0) then\na = i\nelse\nif (i /= 2) then\nb = i\nend if\nendif\nc = c + 1",
                [0; 6],
                [0, 3, 6, 0, 0, 0],
            ),
        ] {
            assert_eq!(agreed(body, entry), (Ok(()), cells), "{body}");
        }
    }

    /// A fault leaves the cells as they are then.
    #[test]
    fn faults() {
        for (body, fault, reached) in [
            ("b = i\nd(i + 3) = 1", Fault::Subscript, 1),
            ("b = i\na = d(1 - i)", Fault::Subscript, 1),
            ("b = i\na = 1 / i", Fault::Divisor, 0),
            ("b = i\na = rdiv(a, i - 1)", Fault::Divisor, 1),
            ("b = i\nd(0) = 1 / 0", Fault::Divisor, -2),
            ("b = i\na = d(4) / 0", Fault::Subscript, -2),
        ] {
            let (outcome, cells) = agreed(body, [0; 6]);
            assert_eq!((outcome, cells[1]), (Err(fault), reached), "{body}");
        }
    }
}
