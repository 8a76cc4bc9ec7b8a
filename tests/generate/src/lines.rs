//! The lines of loops that are drawn by kinds, with the signs in them that [`crate::Loop`] replaces.

use crate::rng::Rng;

/// What a `reduction` clause gathers (document 02, Point 6).
#[derive(Debug, Clone, Copy, PartialEq, Eq)]
pub enum Operation {
    Sum,
    Product,
    Maximum,
}

impl Operation {
    pub const ALL: [Operation; 3] = [Operation::Sum, Operation::Product, Operation::Maximum];

    /// How it is written in its clause.
    pub fn sign(self) -> &'static str {
        match self {
            Operation::Sum => "+",
            Operation::Product => "*",
            Operation::Maximum => "max",
        }
    }

    /// The clause of these names.
    pub fn clause(self, names: &str) -> String {
        format!("reduction({}:{names})", self.sign())
    }
}

/// How the directive begins.
pub const DIRECTIVE: &str = "!$omp parallel do";

/// The directive with these clauses and those of every loop, in any order.
pub fn directive(rng: &mut Rng, clauses: &[String]) -> String {
    let mut clauses = clauses.to_vec();
    clauses.extend(["num_threads(@)", "%"].map(str::to_string));
    rng.shuffle(&mut clauses);
    format!("{DIRECTIVE} {}", clauses.join(" "))
}

/// The clauses of a name in `lastprivate`, which is in `firstprivate` too in `copied` percent of the cases.
pub fn lastprivate(rng: &mut Rng, name: &str, copied: u32) -> Vec<String> {
    let first = if rng.chance(copied) {
        format!("{{firstprivate({name})}}")
    } else {
        format!("[firstprivate({name})]")
    };
    vec![format!("lastprivate({name})"), first]
}

/// A loop of these declarations, clauses, bounds and body.
pub fn lines(
    rng: &mut Rng,
    names: &str,
    clauses: &[String],
    bounds: &str,
    body: &str,
) -> Vec<String> {
    let directive = directive(rng, clauses);
    let text = format!("integer {names}\n{directive}\ndo i = {bounds}\n{body}\nend do");
    text.lines().map(str::to_string).collect()
}

/// The lines with data for one name.
pub fn with_data(mut lines: Vec<String>, name: &str, values: &[i32]) -> Vec<String> {
    let values: Vec<String> = values.iter().map(i32::to_string).collect();
    lines.insert(1, format!("data {name} /{}/", values.join(", ")));
    lines
}

/// The most brackets open together.
pub fn open_brackets(text: &str) -> usize {
    let mut open = 0;
    let mut most = 0;
    for byte in text.bytes() {
        match byte {
            b'(' => open += 1,
            b')' => open -= 1,
            _ => {}
        }
        most = most.max(open);
    }
    most
}
