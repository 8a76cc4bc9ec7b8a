//! Random loops that every reader must accept, and the knobs that say of what kind.

use crate::builder::Builder;
use crate::layout::{split_tokens, write_text, Layout};
use crate::lines::{Operation, DIRECTIVE};
use crate::rng::Rng;
use crate::subscripts::bracketed;
use crate::variants::begins;

/// What kind of loop is wanted.
#[derive(Debug, Clone, Copy)]
pub struct Knobs {
    /// Percent of statements and reads that disregard the roles.
    pub conflict: u32,
    /// Percent of subscripts and divisors that may fault.
    pub danger: u32,
    /// The most names.
    pub names: usize,
    /// The most iterations.
    pub iterations: usize,
    /// The most statements in a block.
    pub statements: usize,
    /// How deep `if`s may nest.
    pub nesting: usize,
    /// How deep brackets in an expression may nest.
    pub brackets: usize,
    /// No statement is added once the lines have this many bytes.
    pub size: usize,
    pub layout: Layout,
}

impl Knobs {
    /// A mixture in which many loops pass, many are rerun and many fault.
    pub fn mixed(rng: &mut Rng) -> Self {
        let (conflict, danger) =
            rng.pick(&[(0, 0), (0, 0), (30, 0), (50, 0), (80, 1), (5, 20), (10, 50)]);
        Knobs {
            conflict,
            danger,
            names: rng.pick(&[2, 4, 6, 6, 16]),
            iterations: rng.pick(&[2, 4, 6, 6, 10, 25]),
            statements: rng.pick(&[1, 3, 5, 8, 15]),
            nesting: rng.pick(&[0, 1, 2, 2, 3, 8]),
            brackets: rng.pick(&[0, 1, 2, 2, 3]),
            size: rng.pick(&[500, 700, 1000, 1400]),
            layout: rng.pick(&[Layout::PLAIN, Layout::VARIED, Layout::VARIED, Layout::ODD]),
        }
    }
}

/// Document 02, Point 3: the clause by which blocks are tested.
const CLAUSE: &str = "schedule(static)";
/// Percent of loops that have it.
const CLAUSES: u32 = 40;

/// Which names of `lastprivate` clauses stand in `firstprivate` too (document 02, Point 5).
#[derive(Debug, Clone, Copy, PartialEq, Eq)]
pub enum Copied {
    None,
    AsDrawn,
    All,
}

/// Which operation a `reduction` clause has: the one drawn, or the next or the one after that of `+`, `*` and
/// `max` (document 02, Point 6).
#[derive(Debug, Clone, Copy, PartialEq, Eq)]
pub enum Turned {
    AsDrawn,
    Once,
    Twice,
}

/// A loop and what its maker knows of it.
#[derive(Debug, Clone)]
pub struct Loop {
    /// Its lines without layout; `@` stands for the number of processors, `%` for the clause by which
    /// blocks are tested. Each name in `lastprivate` stands in a `firstprivate` clause too: in braces if it
    /// was drawn so, else in square brackets.
    lines: Vec<String>,
    layout: Layout,
    layout_seed: u64,
    /// P.
    pub processors: usize,
    /// Whether it has the clause by which blocks are tested.
    pub by_blocks: bool,
    /// Which `firstprivate` clauses it has.
    pub copied: Copied,
    /// Which operations its `reduction` clauses have.
    pub turned: Turned,
    /// Whether it has no clause but `num_threads`.
    pub bare: bool,
    /// The cells as Load must fill them; their number is N.
    pub cells: Vec<i32>,
}

impl Loop {
    /// A loop of these lines, with the signs in them that [`Loop`] replaces. It often has the clause by which
    /// blocks are tested.
    pub fn of_lines(
        lines: Vec<String>,
        processors: usize,
        cells: Vec<i32>,
        layout: Layout,
        rng: &mut Rng,
    ) -> Self {
        Loop {
            lines,
            layout,
            layout_seed: rng.bits(),
            processors,
            by_blocks: rng.chance(CLAUSES),
            copied: Copied::AsDrawn,
            turned: Turned::AsDrawn,
            bare: false,
            cells,
        }
    }

    /// A random loop.
    pub fn random(rng: &mut Rng, knobs: &Knobs) -> Self {
        Builder::new(rng, *knobs).build()
    }

    /// The same loop for another number of processors.
    pub fn with_processors(&self, processors: usize) -> Self {
        Loop {
            processors,
            ..self.clone()
        }
    }

    /// The same loop with the clause by which blocks are tested, or without. Its lines stand where they
    /// stood.
    pub fn with_blocks(&self, by_blocks: bool) -> Self {
        Loop {
            by_blocks,
            ..self.clone()
        }
    }

    /// The same loop with other `firstprivate` clauses. Its lines stand where they stood.
    pub fn with_copied(&self, copied: Copied) -> Self {
        Loop {
            copied,
            ..self.clone()
        }
    }

    /// The same loop with other operations in its `reduction` clauses. Its lines stand where they stood.
    pub fn with_turned(&self, turned: Turned) -> Self {
        Loop {
            turned,
            ..self.clone()
        }
    }

    /// The same loop with no clause but `num_threads`. Its lines stand where they stood.
    pub fn without_clauses(&self) -> Self {
        Loop {
            bare: true,
            ..self.clone()
        }
    }

    /// Whether it was drawn with a `reduction` clause of this operation.
    pub fn has(&self, operation: Operation) -> bool {
        let clause = format!("{REDUCTION}{}:", operation.sign());
        self.lines.iter().any(|line| line.contains(&clause))
    }

    /// Whether it was drawn with a `reduction` clause.
    pub fn has_reductions(&self) -> bool {
        Operation::ALL
            .into_iter()
            .any(|operation| self.has(operation))
    }

    /// Whether it has a grid (document 02, Point 9).
    pub fn has_grids(&self) -> bool {
        let mut declared = self.lines.iter().filter(|line| begins(line, &["integer"]));
        declared.any(|line| {
            let tokens = split_tokens(line);
            let mut all = (0..tokens.len()).filter_map(|place| bracketed(&tokens, place));
            all.any(|declared| declared.items.len() == 2)
        })
    }

    /// Whether a name was drawn to stand in both clauses.
    pub fn has_copied(&self) -> bool {
        self.lines.iter().any(|line| line.contains('{'))
    }

    /// Whether a name was drawn to stand in `lastprivate` alone.
    pub fn has_plain(&self) -> bool {
        self.lines.iter().any(|line| line.contains('['))
    }

    /// The loop's text.
    pub fn text(&self) -> Vec<u8> {
        let number = self.processors.to_string();
        let clause = if self.by_blocks { CLAUSE } else { "" };
        let written = |line: &String| {
            let bare = format!("{DIRECTIVE} num_threads(@)");
            let is_bare = self.bare && line.starts_with(DIRECTIVE);
            let line = if is_bare { &bare } else { line };
            let line = line.replace('@', &number).replace('%', clause);
            let line = with_marked(&line, ['{', '}'], self.copied != Copied::None);
            let line = with_marked(&line, ['[', ']'], self.copied == Copied::All);
            with_turned(&line, self.turned)
        };
        let lines: Vec<String> = self.lines.iter().map(written).collect();
        write_text(&lines, &self.layout, &mut Rng::new(self.layout_seed))
    }
}

/// How a `reduction` clause begins.
const REDUCTION: &str = "reduction(";

/// The line with other operations in its `reduction` clauses.
fn with_turned(line: &str, turned: Turned) -> String {
    let far = match turned {
        Turned::AsDrawn => return line.to_string(),
        Turned::Once => 1,
        Turned::Twice => 2,
    };
    let signs = Operation::ALL.map(Operation::sign);
    let piece = |piece: &str| {
        let clause = piece.split_once(':');
        let place = clause.and_then(|(sign, _)| signs.iter().position(|one| *one == sign));
        match (clause, place) {
            (Some((_, list)), Some(place)) => {
                format!("{}:{list}", signs[(place + far) % signs.len()])
            }
            _ => piece.to_string(),
        }
    };
    let pieces: Vec<String> = line.split(REDUCTION).map(piece).collect();
    pieces.join(REDUCTION)
}

/// The line with what stands between these signs, or without it.
fn with_marked(line: &str, [open, close]: [char; 2], kept: bool) -> String {
    if kept {
        return line.replace([open, close], "");
    }
    let mut pieces = line.split(open);
    let before = pieces.next().unwrap_or_default();
    let after = pieces.filter_map(|piece| piece.split_once(close));
    after.fold(before.to_string(), |line, (_, rest)| line + rest)
}
