//! One group of texts: how often each answer came, and what differed.

use std::collections::BTreeMap;
use std::fmt::Debug;

use reference::Refusal;

/// How many differences of a group are printed.
const PRINTED: usize = 5;
/// How much is printed of an answer, which may hold 4,096 cells.
const SHOWN: usize = 500;

/// A group of texts as far as it was compared.
pub struct Tally {
    group: String,
    texts: usize,
    /// How often each service gave each answer.
    answers: BTreeMap<(&'static str, String), usize>,
    differences: usize,
}

impl Tally {
    pub fn new(group: &str) -> Self {
        Tally {
            group: group.to_string(),
            texts: 0,
            answers: BTreeMap::new(),
            differences: 0,
        }
    }

    /// Begins the next text of the group.
    pub fn next<'t>(&'t mut self, name: &'t str, text: &'t [u8]) -> Text<'t> {
        self.texts += 1;
        Text {
            tally: self,
            name,
            text,
        }
    }

    /// Prints the counts; whether nothing differed.
    pub fn report(&self) -> bool {
        println!("{}: {} texts", self.group, self.texts);
        for ((service, answer), times) in &self.answers {
            println!("  {service} {answer}: {times}");
        }
        if self.differences > 0 {
            println!("  {} differences", self.differences);
        }
        self.differences == 0
    }

    /// How often a service gave an answer of this kind.
    fn times(&self, service: &str, wanted: impl Fn(&str) -> bool) -> usize {
        let times = self.answers.iter();
        times
            .filter(|((name, answer), _)| *name == service && wanted(answer))
            .map(|(_, times)| times)
            .sum()
    }

    /// Whether a service gave an answer at least so often; says so if not.
    pub fn has_times(&self, service: &str, answer: &str, least: usize) -> bool {
        let times = self.times(service, |given| given == answer);
        if times < least {
            println!("  {service} {answer}: {times}, under {least}");
        }
        times >= least
    }

    /// Whether these answers of a service have at least so many hundredths of all its answers; says so
    /// if not.
    pub fn has(&self, service: &str, answers: &[&str], percent: usize) -> bool {
        let all = self.times(service, |_| true);
        let share = self.times(service, |given| answers.contains(&given));
        let enough = 100 * share >= percent * all;
        if !enough {
            println!("  {service} {answers:?}: {share} of {all}, under {percent} hundredths");
        }
        enough
    }
}

/// A text of a group, with a name to find it by.
pub struct Text<'t> {
    tally: &'t mut Tally,
    pub name: &'t str,
    pub text: &'t [u8],
}

impl Text<'_> {
    /// Counts what a service answered.
    pub fn count(&mut self, service: &'static str, answer: Result<&str, Refusal>) {
        let word = match answer {
            Ok(word) => word.to_string(),
            Err(refusal) => format!("refused {:2}", refusal.number),
        };
        *self.tally.answers.entry((service, word)).or_default() += 1;
    }

    /// Compares what a service answered, and left in what was lent, with what was expected.
    pub fn compare<T: PartialEq + Debug>(&mut self, service: &str, answer: &T, expected: &T) {
        if answer == expected {
            return;
        }
        self.tally.differences += 1;
        if self.tally.differences > PRINTED {
            return;
        }
        println!(
            "DIFFERENCE in {service}, {}: {}",
            self.tally.group, self.name
        );
        println!("  the product: {}", short(answer));
        println!("  expected:    {}", short(expected));
        println!("  the text:");
        for line in self.text.split(|&byte| byte == b'\n') {
            println!("    {}", line.escape_ascii());
        }
    }
}

/// As much of a value as is printed.
pub fn short(value: &impl Debug) -> String {
    let shown = format!("{value:?}");
    match shown.char_indices().nth(SHOWN) {
        Some((end, _)) => format!("{} ..", &shown[..end]),
        None => shown,
    }
}
