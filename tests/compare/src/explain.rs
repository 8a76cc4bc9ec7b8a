//! The example that says why a loop was run again (examples/c/explain.c), beside the reference: called as anybody
//! calls it, on texts in files and on loops that are drawn.

use generate::{copies, damage, hostile, neighbours, reductions, Knobs, Loop, Rng};
use reference::program::{Declared, Program};
use reference::syntax::{Class, Grouping, Operation};
use reference::{obstacles, read, run_serially, share, Access, Kind, Refusal, Serial};
use std::collections::BTreeSet;
use std::io;
use std::path::{Path, PathBuf};
use std::process::Command;

use crate::runs::all_often;
use crate::tally::{Tally, Text};

/// Draws a loop.
type Draw = fn(&mut Rng) -> Loop;

/// The kinds of loops, and how many of each are explained that are run again.
const KINDS: [(&str, Draw); 5] = [
    ("any", any),
    ("neighbours", neighbours::neighbours),
    ("copies", copies::copies),
    ("reductions", reductions::reductions),
    ("hostile", hostile::hostile),
];
const RERUNS: usize = 1_500;
/// How many seeds of a kind are enough for that.
const SEEDS: u64 = 20_000;
/// Of the other loops every so many is explained; of all, every so many is damaged, and of every so many there is a
/// picture.
const OTHERS: u64 = 10;
const DAMAGED: u64 = 20;
const PICTURED: u64 = 40;
/// The most cells of a name that are told, and that a picture has.
const TOLD: usize = 20;
const ROWS: usize = 64;

/// What is counted, and how often it must be seen at least.
const LOOP: &str = "Explained: a loop";
const OBSTACLE: &str = "An obstacle:";
const OBSTACLES: [(&str, usize); 6] = [
    ("shared", 2_500),
    ("lastprivate", 2_200),
    ("firstprivate, lastprivate", 1_700),
    ("reduction(+)", 1_300),
    ("reduction(*)", 800),
    ("reduction(max)", 900),
];
/// Of document 02, Point 9.
const SHAPE: &str = "An obstacle in a cell";
const SHAPES: [(&str, usize); 3] = [
    ("without subscripts", 3_400),
    ("of an array", 3_500),
    ("of a grid", 2_400),
];
const BLAMED: &str = "Blamed:";
const BLAMES: [(&str, usize); 2] = [("one iteration", 1_300), ("two iterations", 8_000)];
const HINT: &str = "A hint:";
const HINTS: [(&str, usize); 3] = [("a directive", 1_800), ("a plan", 700), ("neither", 3_000)];
const PICTURE: &str = "A picture:";
const PICTURES: [(&str, usize); 2] = [("of a loop that passed", 150), ("of a rerun", 130)];

fn any(rng: &mut Rng) -> Loop {
    let knobs = Knobs::mixed(rng);
    Loop::random(rng, &knobs)
}

/// The program, and the files it is given and writes.
struct Explain {
    program: PathBuf,
    text: PathBuf,
    picture: PathBuf,
}

impl Explain {
    fn new(program: &str) -> io::Result<Self> {
        let folder = std::env::current_exe()?.with_file_name("explain");
        std::fs::create_dir_all(&folder)?;
        Ok(Explain {
            program: Path::new(program).canonicalize()?,
            text: folder.join("text.loop"),
            picture: folder.join("picture.svg"),
        })
    }

    /// What it says of a text.
    fn says(&self, text: &[u8], more: &[&Path]) -> io::Result<String> {
        std::fs::write(&self.text, text)?;
        let mut command = Command::new(&self.program);
        let ran = command.arg(&self.text).args(more).output()?;
        let mut said = String::from_utf8_lossy(&ran.stdout).into_owned();
        if !ran.status.success() {
            said += &format!("{}\n", ran.status);
        }
        Ok(said)
    }

    /// What it says of a text when it is to draw it, and the picture.
    fn draws(&self, text: &[u8]) -> io::Result<(String, String)> {
        let said = self.says(text, &[Path::new("--svg"), &self.picture])?;
        let picture = std::fs::read(&self.picture)?;
        Ok((said, String::from_utf8_lossy(&picture).into_owned()))
    }
}

/// Compares what a program says of the texts in these files, and of loops of every kind.
pub fn explained(program: &str, files: &[String]) -> bool {
    let compared = Explain::new(program).and_then(|explain| {
        let good = compare_files(&explain, files)?;
        Ok(good & compare_kinds(&explain)?)
    });
    compared.unwrap_or_else(|error| {
        println!("explain: {error}");
        false
    })
}

fn compare_files(explain: &Explain, files: &[String]) -> io::Result<bool> {
    let mut tally = Tally::new("explained, from files");
    for file in files {
        let bytes = std::fs::read(file)?;
        let mut text = tally.next(file, &bytes);
        let said = compare_text(explain, &mut text)?;
        compare_picture(explain, &mut text, &said)?;
    }
    Ok(tally.report())
}

fn compare_kinds(explain: &Explain) -> io::Result<bool> {
    let kinds = KINDS.map(|(kind, _)| kind).join(", ");
    let mut tally = Tally::new(&format!("explained, seeds from 0 of {kinds}"));
    for (kind, draw) in KINDS {
        compare_kind(explain, &mut tally, kind, draw)?;
    }
    let all = KINDS.len() * RERUNS;
    let good = tally.report() & tally.has_times(LOOP, "rerun", all);
    let floors = [
        (OBSTACLE, &OBSTACLES[..]),
        (SHAPE, &SHAPES),
        (BLAMED, &BLAMES),
        (HINT, &HINTS),
        (PICTURE, &PICTURES),
    ];
    let often = floors.map(|(counted, floors)| all_often(&tally, counted, floors));
    Ok(good & !often.contains(&false))
}

/// Loops of one kind, until enough are run again.
fn compare_kind(explain: &Explain, tally: &mut Tally, kind: &str, draw: Draw) -> io::Result<()> {
    let mut seed = 0;
    let mut reruns = 0;
    while reruns < RERUNS && seed < SEEDS {
        let mut rng = Rng::new(seed);
        let bytes = draw(&mut rng).text();
        let name = format!("{kind}, seed {seed}");
        if seed % DAMAGED == 0 {
            let damaged = damage::damage(&bytes, &mut rng);
            compare_text(explain, &mut tally.next(&name, &damaged))?;
        }
        let is_rerun = passes(&bytes) == Some(false);
        if is_rerun || seed % OTHERS == 0 {
            let mut text = tally.next(&name, &bytes);
            let said = compare_text(explain, &mut text)?;
            if seed % PICTURED == 0 {
                compare_picture(explain, &mut text, &said)?;
            }
        }
        reruns += usize::from(is_rerun);
        seed += 1;
    }
    Ok(())
}

/// Whether a loop passes on its own data; nothing if it is refused or faults.
fn passes(text: &[u8]) -> Option<bool> {
    let program = read(text).ok()?;
    let serial = run_serially(&program, &program.data_cells());
    serial.outcome.ok()?;
    Some(serial.passes())
}

/// Compares what is said of a text, and returns it.
fn compare_text(explain: &Explain, text: &mut Text) -> io::Result<String> {
    let said = explain.says(text.text, &[])?;
    let lines: Vec<&str> = said.lines().collect();
    let run = read(text.text).map(Run::of);
    match &run {
        Err(refusal) => compare_refusal(text, &lines, *refusal, ""),
        Ok(run) => match run.serial.outcome {
            Err(fault) => {
                let value = format!(", {} = {}", run.program.variable, fault.v);
                compare_refusal(text, &lines, fault, &value);
            }
            Ok(()) => run.compare_lines(text, &lines),
        },
    }
    Ok(said)
}

/// The three numbers, and the line as it stands in the text.
fn compare_refusal(text: &mut Text, lines: &[&str], refusal: Refusal, value: &str) {
    text.count(LOOP, Err(refusal));
    let Refusal { number, line, v } = refusal;
    let begins = format!("refused {number} {line} {v}: ");
    let first = lines
        .first()
        .is_some_and(|first| first.starts_with(&begins));
    text.compare(&format!("a line that begins '{begins}'"), &first, &true);
    let mut expected = Vec::new();
    if line > 0 {
        let mut lines = text.text.split(|&byte| byte == b'\n');
        let bytes = lines.nth(line as usize - 1).unwrap_or_default();
        let shown = bytes.iter().map(|&byte| match byte {
            b' '..=b'~' => char::from(byte),
            _ => '?',
        });
        let shown: String = shown.collect();
        expected.push(format!("  line {line}{value}: {}", shown.trim_start()));
    }
    let others: Vec<&str> = lines.iter().skip(1).copied().collect();
    text.compare(
        "the line",
        &others,
        &expected.iter().map(String::as_str).collect(),
    );
}

/// A loop and its serial run on its own data.
struct Run {
    program: Program,
    serial: Serial,
}

impl Run {
    fn of(program: Program) -> Self {
        let serial = run_serially(&program, &program.data_cells());
        Run { program, serial }
    }

    fn word(&self) -> &'static str {
        match self.serial.passes() {
            true => "passed",
            false => "rerun",
        }
    }

    /// The word and the counts; for a rerun the cells and a hint.
    fn compare_lines(&self, text: &mut Text, lines: &[&str]) {
        text.count(LOOP, Ok(self.word()));
        let (pairs, cells) = (self.serial.pairs, self.serial.cells);
        let expected = format!("{} {pairs} {cells}", self.word());
        let (first, others) = lines.split_first().unwrap_or((&"", &[]));
        text.compare("the first line", first, &expected.as_str());
        let hints = others.iter().position(|line| line.starts_with("hint: "));
        let (cells, hints) = others.split_at(hints.unwrap_or(others.len()));
        self.compare_cells(text, cells);
        match self.serial.passes() {
            true => text.compare("a hint", &hints.len(), &0),
            false => self.compare_hint(text, hints),
        }
    }

    /// The cells of a name that have an obstacle.
    fn obstacles_of(&self, declared: &Declared) -> Vec<usize> {
        let cells = declared.first_cell..declared.first_cell + declared.length();
        cells.filter(|&cell| self.serial.obstacles[cell]).collect()
    }

    /// Each cell with an obstacle is told, name by name; of those above the limit it is told how many there are.
    fn compare_cells(&self, text: &mut Text, lines: &[&str]) {
        let mut lines = lines.iter();
        for declared in &self.program.names {
            let cells = self.obstacles_of(declared);
            for &cell in cells.iter().take(TOLD) {
                let line = lines.next().unwrap_or(&"");
                self.compare_cell(text, declared, cell, line);
            }
            if cells.len() > TOLD {
                let more = cells.len() - TOLD;
                let more = format!("  and {more} more cells of {}", declared.name);
                text.compare("how many more", &lines.next(), &Some(&more.as_str()));
            }
        }
        text.compare("a line of no cell", &lines.next(), &None);
    }

    /// A cell's line is as the reference would write it of the iterations that it names, and these alone make an
    /// obstacle.
    fn compare_cell(&self, text: &mut Text, declared: &Declared, cell: usize, line: &str) {
        let named = self.iterations_in(line);
        let visits: Vec<String> = named.iter().map(|&one| self.visit(cell, one)).collect();
        let (label, clause) = (label(declared, cell), clause(declared.class));
        let expected = format!("  {label} ({clause}): {}", visits.join(", "));
        text.compare("a cell's line", &line, &expected.as_str());
        let accesses = self.serial.accesses.iter();
        let theirs = accesses.filter(|access| named.contains(&access.iteration));
        let theirs: Vec<Access> = theirs.copied().collect();
        let meet = obstacles(&theirs, &self.program)[cell];
        text.compare(&format!("whether they meet in {label}"), &meet, &true);
        text.count(OBSTACLE, Ok(clause));
        let shapes = ["without subscripts", "of an array", "of a grid"];
        text.count(SHAPE, Ok(shapes[declared.extents.len()]));
        let blamed = if named.len() == 1 {
            "one iteration"
        } else {
            "two iterations"
        };
        text.count(BLAMED, Ok(blamed));
    }

    /// The iterations that a line names by the values of the loop's variable.
    fn iterations_in(&self, line: &str) -> Vec<u32> {
        let before = format!(" {} = ", self.program.variable);
        let pieces = line.split(&before).skip(1);
        let values = pieces.filter_map(|piece| piece.split(' ').next()?.parse::<i64>().ok());
        let indices = values.map(|value| value - i64::from(self.program.first));
        let indices = indices.filter_map(|index| u32::try_from(index).ok());
        let all = 0..self.program.iteration_count();
        indices.filter(|index| all.contains(index)).collect()
    }

    /// What an iteration does with a cell.
    fn visit(&self, cell: usize, iteration: u32) -> String {
        let accesses = self.serial.accesses.iter();
        let here = accesses.filter(|access| usize::from(access.cell) == cell);
        let here = here.filter(|access| access.iteration == iteration);
        let kinds: Vec<Kind> = here.map(|access| access.kind).collect();
        let has = |kind| kinds.contains(&kind);
        let first = kinds.iter().find(|&&kind| kind != Kind::Update);
        let reads_first = first == Some(&Kind::Read);
        let does = match (reads_first, has(Kind::Write), has(Kind::Update)) {
            (true, false, false) => "reads it",
            (false, true, false) => "writes it",
            (true, true, false) => "reads and then writes it",
            (false, false, true) => "updates it",
            (true, false, true) => "reads and updates it",
            (false, true, true) => "writes and updates it",
            (true, true, true) => "reads, writes and updates it",
            (false, false, false) => "does nothing with it",
        };
        let processor = match self.program.grouping {
            Grouping::Blocks => format!(" (processor {})", self.owner(iteration)),
            Grouping::Iterations => String::new(),
        };
        format!("{}{processor} {does}", self.value(iteration))
    }

    /// The value of the loop's variable.
    fn value(&self, iteration: u32) -> String {
        let value = self.program.variable_at(iteration);
        format!("{} = {value}", self.program.variable)
    }

    fn owner(&self, iteration: u32) -> usize {
        let (iterations, processors) = (self.program.iteration_count(), self.program.processors);
        let mut all = 0..processors as usize;
        let owner = all.find(|&p| share(iterations, p, processors).contains(&iteration));
        owner.expect("a processor for each iteration")
    }

    /// A directive with which the loop passes, or how many stages there are. With one name to blame, and no
    /// directive, no clause of that name makes it pass.
    fn compare_hint(&self, text: &mut Text, lines: &[&str]) {
        if let ["hint: it passes here with", directive] = lines {
            text.count(HINT, Ok("a directive"));
            let changed = with_directive(text.text, directive.trim_start());
            text.compare(directive, &passes(&changed), &Some(true));
            return;
        }
        let names = self.program.names.iter();
        let blamed = names.filter(|declared| !self.obstacles_of(declared).is_empty());
        let blamed: Vec<&Declared> = blamed.collect();
        let (word, end) = self.plan(text.text);
        text.count(HINT, Ok(word));
        let updates = blamed.iter().filter_map(|declared| updates_of(declared));
        let mut expected: Vec<String> = updates.collect();
        expected.push(format!(
            "hint: no directive was found with which it passes; {end}"
        ));
        let expected: Vec<&str> = expected.iter().map(String::as_str).collect();
        text.compare("the hint", &lines, &&expected[..]);
        if let [one] = blamed[..] {
            for directive in self.directives(one) {
                let changed = with_directive(text.text, &directive);
                text.compare(&directive, &passes(&changed), &Some(false));
            }
        }
    }

    /// What is said of its plan.
    fn plan(&self, text: &[u8]) -> (&'static str, String) {
        let cells = self.program.data_cells();
        let words = reference::workspace_needed(cells.len(), self.program.processors as usize);
        let iterations = self.program.iteration_count();
        let mut list = vec![0; iterations as usize];
        let stages = reference::plan(text, &cells, &mut vec![0; words], &mut list);
        let stages = stages.expect("a loop without a fault");
        match stages < iterations {
            true => (
                "a plan",
                format!(
                    "its plan has {stages} stages for {iterations} iterations (examples/c/plan.c)"
                ),
            ),
            false => (
                "neither",
                "each iteration depends on the one before it".to_string(),
            ),
        }
    }

    /// The directives in which one name has any clause, as the loop is tested and by blocks.
    fn directives(&self, changed: &Declared) -> Vec<String> {
        let (grouping, processors) = (self.program.grouping, self.program.processors);
        let by_blocks = grouping == Grouping::Blocks;
        let mut directives = Vec::new();
        for blocks in [by_blocks, by_blocks || processors > 1] {
            for class in CLASSES {
                let mut directive = format!("!$omp parallel do num_threads({processors})");
                directive += if blocks { " schedule(static)" } else { "" };
                for declared in &self.program.names {
                    let is_changed = declared.name == changed.name;
                    let class = if is_changed { class } else { declared.class };
                    directive += &clauses_of(class, &declared.name);
                }
                directives.push(directive);
            }
        }
        directives
    }
}

/// The classes of a name, in the order of [`OBSTACLES`].
const CLASSES: [Class; 6] = [
    Class::Shared,
    Class::Lastprivate,
    Class::CopyIn,
    Class::Reduction(Operation::Sum),
    Class::Reduction(Operation::Product),
    Class::Reduction(Operation::Maximum),
];

fn clause(class: Class) -> &'static str {
    let place = CLASSES.iter().position(|&one| one == class);
    OBSTACLES[place.expect("a class")].0
}

/// The clauses that give a name this class.
fn clauses_of(class: Class, name: &str) -> String {
    match class {
        Class::Shared => String::new(),
        Class::Lastprivate => format!(" lastprivate({name})"),
        Class::CopyIn => format!(" firstprivate({name}) lastprivate({name})"),
        Class::Reduction(Operation::Sum) => format!(" reduction(+:{name})"),
        Class::Reduction(Operation::Product) => format!(" reduction(*:{name})"),
        Class::Reduction(Operation::Maximum) => format!(" reduction(max:{name})"),
    }
}

/// How a name in a `reduction` clause is updated.
fn updates_of(declared: &Declared) -> Option<String> {
    let updates = match declared.class {
        Class::Reduction(Operation::Sum) => "@ = @ + e or @ = @ - e",
        Class::Reduction(Operation::Product) => "@ = @ * e",
        Class::Reduction(Operation::Maximum) => "@ = max(@, e)",
        _ => return None,
    };
    let name = &declared.name;
    let subscripts = ["", "(k)", "(k, l)"][declared.extents.len()];
    let updates = updates.replace('@', &format!("{name}{subscripts}"));
    Some(format!(
        "hint: an update of {name} is {updates}; nothing else may touch a cell that is updated"
    ))
}

fn label(declared: &Declared, cell: usize) -> String {
    let (name, place) = (&declared.name, cell - declared.first_cell);
    match declared.extents[..] {
        [] => name.clone(),
        [rows, _] => format!("{name}({}, {})", place % rows + 1, place / rows + 1),
        _ => format!("{name}({})", place + 1),
    }
}

/// The text with another directive, and without its comments and its closing directive, so that there is room.
fn with_directive(text: &[u8], directive: &str) -> Vec<u8> {
    let text = String::from_utf8_lossy(text).to_lowercase();
    let begins = |line: &str, words: &str| line.trim_start().starts_with(words);
    let place = text.lines().position(|line| begins(line, "!$omp "));
    let lines = text.lines().enumerate();
    let lines = lines.filter_map(|(at, line)| match Some(at) == place {
        true => Some(directive),
        false => (!begins(line, "!")).then_some(line),
    });
    lines.collect::<Vec<&str>>().join("\n").into_bytes()
}

/// Drawing changes nothing that is said. A picture is well formed; it has a red row for each cell with an obstacle
/// and a title for each iteration and cell that it accesses, unless there is no room for all.
fn compare_picture(explain: &Explain, text: &mut Text, said: &str) -> io::Result<()> {
    let Ok(run) = read(text.text).map(Run::of) else {
        return Ok(());
    };
    if run.serial.outcome.is_err() {
        return Ok(());
    }
    let (drawing, picture) = explain.draws(text.text)?;
    text.compare("what is said beside a picture", &drawing.as_str(), &said);
    text.compare("a well formed picture", &is_well_formed(&picture), &true);
    let word = match (picture.contains("are drawn."), run.word()) {
        (true, _) => "of a part",
        (false, "passed") => "of a loop that passed",
        (false, _) => "of a rerun",
    };
    text.count(PICTURE, Ok(word));
    let red = picture.matches("#ffd9d6").count();
    let obstacles = run.serial.obstacles.iter().filter(|&&obstacle| obstacle);
    let obstacles = obstacles.count();
    if word == "of a part" {
        text.compare("red rows", &(red <= obstacles.min(ROWS)), &true);
        return Ok(());
    }
    text.compare("red rows", &red, &obstacles);
    let pieces = picture.split("<title>").skip(1);
    let titles = pieces.filter_map(|piece| piece.split_once("</title>"));
    let titles: BTreeSet<String> = titles.map(|(title, _)| title.to_string()).collect();
    let accesses = run.serial.accesses.iter();
    let expected = accesses.filter_map(|access| {
        let cell = usize::from(access.cell);
        let mut names = run.program.names.iter();
        let declared = names.find(|declared| cell < declared.first_cell + declared.length())?;
        Some(format!(
            "{}, {}",
            label(declared, cell),
            run.value(access.iteration)
        ))
    });
    text.compare("what is drawn", &titles, &expected.collect());
    Ok(())
}

/// Whether tags match, with plain words in them and between them.
fn is_well_formed(picture: &str) -> bool {
    let is_plain = |byte: u8| matches!(byte, b'\n' | b' '..=b'~') && byte != b'&' && byte != b'>';
    let mut open: Vec<&str> = Vec::new();
    let Some(tags) = picture.strip_prefix('<') else {
        return false;
    };
    for piece in tags.split('<') {
        let Some((tag, words)) = piece.split_once('>') else {
            return false;
        };
        let (closes, is_empty) = (tag.starts_with('/'), tag.ends_with('/'));
        let name = tag.trim_matches('/').split(' ').next().unwrap_or_default();
        let matches = match (closes, is_empty) {
            (true, _) => open.pop() == Some(name),
            (false, true) => !open.is_empty(),
            (false, false) => {
                open.push(name);
                open.len() > 1 || name == "svg"
            }
        };
        let is_quoted = tag.matches('"').count() % 2 == 0;
        let is_inside = !open.is_empty() || words == "\n";
        if !matches || !is_quoted || !is_inside || !tag.bytes().chain(words.bytes()).all(is_plain) {
            return false;
        }
    }
    open.is_empty()
}
