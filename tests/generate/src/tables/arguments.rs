//! Numbers 5 to 8 (RULES 9.1, 10): what is lent to Load, Look and Run (READING 73, 87, 89).

/// What a caller lends, and the number that refuses it; 0 for none.
#[derive(Debug, Clone)]
pub struct ArgumentRow {
    pub name: &'static str,
    pub text: &'static str,
    /// How many cells are lent.
    pub cells: usize,
    /// How many words of workspace are lent.
    pub workspace: usize,
    pub schedule: Vec<u8>,
    /// How many words the view has.
    pub view: usize,
    /// The numbers that Load, Look and Run give.
    pub load: u32,
    pub look: u32,
    pub run: u32,
}

/// N = 3 and P = 2: a workspace of 4,352 + 64 × 2 + 3 × (4 + 8 × 2) = 4,540. Before document 02, Point 5, it
/// was 4,352 + 128 + 3 × 16 = 4,528.
const THREE: &str =
    "integer a(3)\n!$omp parallel do num_threads(2)\ndo i = 1, 3\na(i) = i\nend do\n";
/// The same by blocks: the same workspace (document 02, Point 3, changes none of this).
const BLOCKS: &str =
    "integer a(3)\n!$omp parallel do num_threads(2) schedule(static)\ndo i = 1, 3\na(i) = i\nend do\n";
/// The same in both clauses: the same workspace (P5.8).
const COPIED: &str =
    "integer a(3)\n!$omp parallel do num_threads(2) firstprivate(a) lastprivate(a)\n\
     do i = 1, 3\na(i) = i\nend do\n";
/// The same as products and as maxima: the same workspace (document 02, Point 6, says nothing of it).
const PRODUCTS: &str = "integer a(3)\n!$omp parallel do num_threads(2) reduction(*:a)\n\
     do i = 1, 3\na(i) = a(i)*i\nend do\n";
const MAXIMA: &str = "integer a(3)\n!$omp parallel do num_threads(2) reduction(max:a)\n\
     do i = 1, 3\na(i) = max(a(i), i)\nend do\n";
/// N = 6 and P = 2: 4,352 + 64 × 2 + 6 × (4 + 8 × 2) = 4,600 (document 02, Point 9: N counts m × n).
const GRID: &str =
    "integer g(2, 3)\n!$omp parallel do num_threads(2)\ndo i = 1, 3\ng(2, i) = i\nend do\n";
/// N = 4,096 and P = 8, as for [`LARGEST`].
const LARGEST_GRID: &str =
    "integer g(64, 64)\n!$omp parallel do num_threads(8)\ndo i = 1, 3\ng(i, 64) = i\nend do\n";
/// N = 4,096 and P = 8: 4,352 + 512 + 4,096 × 68 = 283,392; before 4,352 + 512 + 4,096 × 52 = 217,856.
const LARGEST: &str = "integer a(4096)\n!$omp parallel do num_threads(8)\ndo i = 1, 3\nend do\n";
/// N = 1 and P = 1: 4,352 + 64 + 12 = 4,428; before 4,352 + 64 + 10 = 4,426.
const SMALLEST: &str = "integer a\n!$omp parallel do num_threads(1)\ndo i = 1, 0\nend do\n";
/// Number 3 at line 1.
const TWICE: &str = "integer a, a\n!$omp parallel do num_threads(1)\ndo i = 1, 0\nend do\n";

type Lent = (usize, usize, &'static [u8], usize);

fn row(
    name: &'static str,
    text: &'static str,
    (cells, workspace, schedule, view): Lent,
    (load, look, run): (u32, u32, u32),
) -> ArgumentRow {
    ArgumentRow {
        name,
        text,
        cells,
        workspace,
        schedule: schedule.to_vec(),
        view,
        load,
        look,
        run,
    }
}

/// All rows.
pub fn rows() -> Vec<ArgumentRow> {
    vec![
        row("all right", THREE, (3, 4540, &[0, 1], 6), (0, 0, 0)),
        row("a larger workspace", THREE, (3, 5000, &[1], 6), (0, 0, 0)),
        row("a cell too few", THREE, (2, 4540, &[0], 6), (5, 5, 5)),
        row("a cell too many", THREE, (4, 4540, &[0], 6), (5, 5, 5)),
        row("no cells", THREE, (0, 4540, &[0], 6), (5, 5, 5)),
        row("a word too few", THREE, (3, 4539, &[0], 6), (0, 6, 6)),
        row("no workspace", THREE, (3, 0, &[], 6), (0, 6, 6)),
        row("byte P", THREE, (3, 4540, &[2], 6), (0, 7, 7)),
        row(
            "byte P last",
            THREE,
            (3, 4540, &[0, 1, 0, 1, 2], 6),
            (0, 7, 7),
        ),
        row("byte 255", THREE, (3, 4540, &[0, 255, 0], 6), (0, 7, 7)),
        row(
            "byte P after all are finished",
            THREE,
            (3, 4540, &[0, 0, 0, 1, 1, 1, 1, 1, 2], 6),
            (0, 7, 7),
        ),
        row("a view word too few", THREE, (3, 4540, &[0], 5), (0, 8, 0)),
        row("a view word too many", THREE, (3, 4540, &[0], 7), (0, 8, 0)),
        row("no view", THREE, (3, 4540, &[0], 0), (0, 8, 0)),
        row("5 before 6, 7, 8", THREE, (2, 0, &[9], 0), (5, 5, 5)),
        row("6 before 7, 8", THREE, (3, 0, &[9], 0), (0, 6, 6)),
        row("7 before 8", THREE, (3, 4540, &[9], 0), (0, 7, 7)),
        row("by blocks", BLOCKS, (3, 4540, &[0, 1], 6), (0, 0, 0)),
        row(
            "by blocks, a word too few",
            BLOCKS,
            (3, 4539, &[0], 6),
            (0, 6, 6),
        ),
        row("by blocks, byte P", BLOCKS, (3, 4540, &[2], 6), (0, 7, 7)),
        row("in both clauses", COPIED, (3, 4540, &[0, 1], 6), (0, 0, 0)),
        row(
            "in both clauses, a word too few",
            COPIED,
            (3, 4539, &[0], 6),
            (0, 6, 6),
        ),
        row(
            "in both clauses, byte P",
            COPIED,
            (3, 4540, &[2], 6),
            (0, 7, 7),
        ),
        row(
            "in both clauses, a cell too few",
            COPIED,
            (2, 4540, &[0], 6),
            (5, 5, 5),
        ),
        row("products", PRODUCTS, (3, 4540, &[0, 1], 6), (0, 0, 0)),
        row(
            "products, a word too few",
            PRODUCTS,
            (3, 4539, &[0], 6),
            (0, 6, 6),
        ),
        row("products, byte P", PRODUCTS, (3, 4540, &[2], 6), (0, 7, 7)),
        row("maxima", MAXIMA, (3, 4540, &[0, 1], 6), (0, 0, 0)),
        row(
            "maxima, a word too few",
            MAXIMA,
            (3, 4539, &[0], 6),
            (0, 6, 6),
        ),
        row(
            "maxima, a cell too many",
            MAXIMA,
            (4, 4540, &[0], 6),
            (5, 5, 5),
        ),
        row("a grid", GRID, (6, 4600, &[0, 1], 12), (0, 0, 0)),
        row(
            "a grid, a cell too few",
            GRID,
            (5, 4600, &[0], 12),
            (5, 5, 5),
        ),
        row(
            "a grid, a cell too many",
            GRID,
            (7, 4600, &[0], 12),
            (5, 5, 5),
        ),
        row(
            "as many cells as rows",
            GRID,
            (2, 4600, &[0], 12),
            (5, 5, 5),
        ),
        row(
            "as many cells as columns",
            GRID,
            (3, 4600, &[0], 12),
            (5, 5, 5),
        ),
        row(
            "a grid, a word too few",
            GRID,
            (6, 4599, &[0], 12),
            (0, 6, 6),
        ),
        row("a grid, byte P", GRID, (6, 4600, &[1, 2], 12), (0, 7, 7)),
        row(
            "a grid, a view word too few",
            GRID,
            (6, 4600, &[1], 11),
            (0, 8, 0),
        ),
        row(
            "a grid, a view word too many",
            GRID,
            (6, 4600, &[1], 13),
            (0, 8, 0),
        ),
        row(
            "the largest grid",
            LARGEST_GRID,
            (4096, 283_392, &[7], 8192),
            (0, 0, 0),
        ),
        row(
            "the largest grid, a word too few",
            LARGEST_GRID,
            (4096, 283_391, &[7], 8192),
            (0, 6, 6),
        ),
        row(
            "the largest grid, a cell too few",
            LARGEST_GRID,
            (4095, 283_392, &[7], 8192),
            (5, 5, 5),
        ),
        // document 02, Point 5: the workspace of before is too small, for every text (P5.8)
        row("as before", THREE, (3, 4528, &[0], 6), (0, 6, 6)),
        row(
            "as before, by blocks",
            BLOCKS,
            (3, 4528, &[0], 6),
            (0, 6, 6),
        ),
        row(
            "as before, in both clauses",
            COPIED,
            (3, 4528, &[0], 6),
            (0, 6, 6),
        ),
        row(
            "as before, largest",
            LARGEST,
            (4096, 217_856, &[7], 8192),
            (0, 6, 6),
        ),
        row(
            "as before, smallest",
            SMALLEST,
            (1, 4426, &[0], 2),
            (0, 6, 6),
        ),
        row("the text first", TWICE, (9, 0, &[9], 0), (3, 3, 3)),
        row("largest", LARGEST, (4096, 283_392, &[7], 8192), (0, 0, 0)),
        row(
            "largest less 1",
            LARGEST,
            (4096, 283_391, &[7], 8192),
            (0, 6, 6),
        ),
        row("smallest", SMALLEST, (1, 4428, &[0, 0], 2), (0, 0, 0)),
        row(
            "smallest less 1",
            SMALLEST,
            (1, 4427, &[0, 0], 2),
            (0, 6, 6),
        ),
        row("smallest, byte 1", SMALLEST, (1, 4428, &[1], 2), (0, 7, 7)),
    ]
}
