//! Print: the tables, and random texts with what they are when they are written in another way or changed.

use generate::edits::{edit, EDITS};
use generate::ranges::range;
use generate::repeats::repeats;
use generate::tables::{forms, pairs, text_rows};
use generate::variants::{vary, vary_all, VARIANTS};
use generate::wavefronts::wavefronts;
use generate::{damage, lend, noise, Rng};
use reference::{alike, printed, read, Refusal};

use crate::groups::{drawn, refused};
use crate::product;
use crate::runs::{all_often, drawn_to_run, workspace};
use crate::services::print;
use crate::tally::{Tally, Text};

/// How many random texts are printed.
const TEXTS: u64 = 10_000;
/// How many edits of each accepted text are printed, how often it is damaged, and how many of its variants are of
/// all kinds together.
const EDITED: usize = 8;
const DAMAGED: usize = 3;
const TOGETHER: usize = 2;
/// How many forms of each length must be given at least, and how many refused.
const FORMS: [(&str, usize); 9] = [
    ("under 2,048 bytes", 115_000),
    ("2,048 bytes", 900),
    ("2,049 bytes", 900),
    ("over 2,049 bytes", 15_000),
    ("refused  1", 1_000),
    ("refused  2", 20_000),
    ("refused  3", 7_000),
    ("refused  4", 1_600),
    ("refused 12", 20_000),
];
/// What is counted, and how often each kind of variant and of accepted edit must be seen at least.
const VARIANT: &str = "Printed alike:";
const EDIT: &str = "Printed differently:";
const VARIED: usize = 3_300;
const DIFFERENT: usize = 190;
const DAMAGE: &str = "Damaged and accepted: printed";
const DAMAGES: [(&str, usize); 2] = [("alike", 1_900), ("differently", 1_500)];
const BACK: &str = "Read back:";
const BACKS: [(&str, usize); 4] = [
    ("passed", 2_800),
    ("rerun", 2_200),
    ("a fault", 1_000),
    ("too long", 800),
];

/// The tables of forms and of pairs, and the texts of Check's tables.
pub fn table() -> bool {
    let mut tally = Tally::new("tables of printed forms");
    let mut rng = Rng::new(7);
    for row in forms::rows() {
        let expected = row.expected.as_deref();
        let expected = expected.map_err(|&(number, line)| refused(number, line));
        let lent = lend::bytes(&mut rng, row.room);
        print(&mut tally.next(&row.name, &row.text), &lent, expected);
    }
    for row in pairs::rows() {
        let [one, other] = row.texts.each_ref().map(|text| form_of(text));
        let mut text = tally.next(&row.name, &row.texts[1]);
        text.compare("Print, alike", &(one == other), &row.alike);
        text.compare("Print, refused", &one.is_err(), &false);
    }
    for row in text_rows() {
        let mut text = tally.next(&row.name, &row.text);
        let form = print_as_reference(&mut text, &mut rng);
        let given = form.map_err(|refusal| (refusal.number, refusal.line));
        let expected = row.expected.map(|_| ());
        text.compare("Print as Check", &given.map(|_| ()), &expected);
    }
    tally.report()
}

/// The product's printed form of a text, with enough bytes lent.
fn form_of(text: &[u8]) -> Result<Vec<u8>, Refusal> {
    let mut bytes = vec![0; 65_535];
    let length = product::print(text, &mut bytes)?;
    bytes.truncate(length as usize);
    Ok(bytes)
}

/// Print as the reference does, with enough bytes lent or not, and then with as many as are needed.
pub fn print_as_reference(text: &mut Text, rng: &mut Rng) -> Result<Vec<u8>, Refusal> {
    let form = printed(text.text);
    let needed = form.as_ref().map_or(300, Vec::len);
    let room = lend::room(rng, needed);
    let lent = lend::bytes(rng, room);
    match &form {
        Ok(form) if form.len() > room => {
            print(text, &lent, Err(refused(12, 0)));
            print(text, &lend::bytes(rng, needed), Ok(form));
        }
        Ok(form) => print(text, &lent, Ok(form)),
        Err(refusal) => print(text, &lent, Err(*refusal)),
    }
    form
}

/// A random text, often one with many copies in its data.
pub fn drawn_to_print(rng: &mut Rng) -> Vec<u8> {
    match rng.below(12) {
        0 => range(rng),
        1 => wavefronts(rng).0.text(),
        2..=4 => repeats(rng),
        5..=8 => drawn(rng).text(),
        _ => drawn_to_run(rng).text(),
    }
}

/// "A printed text that fits in 2,048 bytes is accepted and prints as itself": all that the other services say of the
/// text they say of its form, but for the line of a fault (8.9). A longer one is refused by its length.
fn read_back(tally: &mut Tally, name: &str, text: &[u8], form: &[u8], rng: &mut Rng) {
    let mut back = tally.next(name, form);
    if form.len() > 2048 {
        print(&mut back, &lend::bytes(rng, form.len()), Err(refused(1, 0)));
        back.compare("Check", &product::check(form), &Err(refused(1, 0)));
        back.count(BACK, Ok("too long"));
        return;
    }
    print(&mut back, &lend::bytes(rng, form.len()), Ok(form));
    let checked = product::check(text);
    back.compare("Check", &product::check(form), &checked);
    let bounded = product::bounds(text);
    back.compare("Bounds", &product::bounds(form), &bounded);
    let program = read(text).expect("an accepted text");
    for declared in &program.names {
        let name = declared.name.as_bytes();
        let named = product::name(text, name);
        back.compare("Name", &product::name(form, name), &named);
    }
    let load = |text: &[u8]| {
        let mut cells = vec![77; program.cell_count()];
        (product::load(text, &mut cells), cells)
    };
    let loaded = load(text);
    back.compare("Load", &load(form), &loaded);
    let processors = program.processors as usize;
    let words = workspace(rng, loaded.1.len(), processors);
    let schedule = lend::schedule(rng, processors);
    let run = |text: &[u8]| {
        let (mut cells, mut words) = (loaded.1.clone(), words.clone());
        let answer = product::run(text, &mut cells, &mut words, &schedule);
        (answer.map_err(|fault| (fault.number, fault.v)), cells)
    };
    let ran = run(text);
    back.compare("Run", &run(form), &ran);
    let look = |text: &[u8]| {
        let mut view = vec![7; 2 * loaded.1.len()];
        let answer = product::look(text, &loaded.1, &mut words.clone(), &schedule, &mut view);
        (answer, view)
    };
    let looked = look(text);
    back.compare("Look", &look(form), &looked);
    let iterations = bounded.expect("an accepted text").iterations;
    let plan = |text: &[u8]| {
        let mut list = vec![7; iterations as usize];
        let answer = product::plan(text, &loaded.1, &mut words.clone(), &mut list);
        (answer.map_err(|fault| (fault.number, fault.v)), list)
    };
    let planned = plan(text);
    back.compare("Plan", &plan(form), &planned);
    let word = match ran.0 {
        Ok(answer) if answer.passed => "passed",
        Ok(_) => "rerun",
        Err(_) => "a fault",
    };
    back.count(BACK, Ok(word));
}

/// The text in other ways prints alike.
fn compare_variants(tally: &mut Tally, name: &str, text: &[u8], form: &[u8], rng: &mut Rng) {
    let variants = VARIANTS.map(|(kind, variant)| (kind, vary(text, variant, rng)));
    let together = [(); TOGETHER].map(|()| ("all kinds", vary_all(text, rng)));
    for (kind, other) in variants.into_iter().chain(together) {
        if other == text || other.len() > 2048 {
            continue;
        }
        let name = format!("{name}, {kind}");
        let mut varied = tally.next(&name, &other);
        print(&mut varied, &lend::bytes(rng, form.len()), Ok(form));
        varied.count(VARIANT, Ok(kind));
    }
}

/// The text changed prints as the reference says: differently.
fn compare_edits(tally: &mut Tally, name: &str, text: &[u8], form: &[u8], rng: &mut Rng) {
    let mut edits = EDITS;
    rng.shuffle(&mut edits);
    let edited = edits
        .into_iter()
        .filter_map(|(kind, change)| Some((kind, edit(text, change, rng)?)));
    for (kind, other) in edited.take(EDITED).collect::<Vec<_>>() {
        let name = format!("{name}, {kind}");
        let mut edited = tally.next(&name, &other);
        if print_as_reference(&mut edited, rng).is_ok() {
            let same = form_of(&other).as_deref() == Ok(form);
            edited.compare("Print, alike", &same, &false);
            edited.compare("walking both texts", &alike(text, &other), &false);
            edited.count(EDIT, Ok(kind));
        }
    }
}

/// The text damaged prints alike if walking the bytes of both says so, else differently.
fn compare_damaged(tally: &mut Tally, name: &str, text: &[u8], form: &[u8], rng: &mut Rng) {
    for _ in 0..DAMAGED {
        let other = match rng.chance(50) {
            true => damage::damage(text, rng),
            false => damage::damage_written(text, rng),
        };
        let name = format!("{name}, damaged");
        let mut damaged = tally.next(&name, &other);
        if print_as_reference(&mut damaged, rng).is_ok() {
            let same = form_of(&other).as_deref() == Ok(form);
            damaged.compare("Print, alike", &same, &alike(text, &other));
            damaged.count(DAMAGE, Ok(if same { "alike" } else { "differently" }));
        }
    }
}

/// Random texts, with their forms read back, their variants, their edits and damaged. Forms of each length, each
/// refusal and each kind of change must be frequent.
pub fn random_prints() -> bool {
    let mut tally = Tally::new(&format!("printed forms of the seeds 0 to {}", TEXTS - 1));
    for seed in 0..TEXTS {
        let mut rng = Rng::new(seed);
        let text = match rng.below(20) {
            0 if rng.chance(50) => noise::soup(&mut rng),
            0 => noise::bytes(&mut rng),
            _ => drawn_to_print(&mut rng),
        };
        let name = format!("seed {seed}");
        let form = print_as_reference(&mut tally.next(&name, &text), &mut rng);
        if let Ok(form) = form {
            read_back(&mut tally, &name, &text, &form, &mut rng);
            compare_variants(&mut tally, &name, &text, &form, &mut rng);
            compare_edits(&mut tally, &name, &text, &form, &mut rng);
            compare_damaged(&mut tally, &name, &text, &form, &mut rng);
        }
    }
    let good = tally.report();
    let variants = VARIANTS.map(|(kind, _)| tally.has_times(VARIANT, kind, VARIED));
    let edits = EDITS.map(|(kind, _)| tally.has_times(EDIT, kind, DIFFERENT));
    let often = all_often(&tally, "Print", &FORMS)
        & all_often(&tally, DAMAGE, &DAMAGES)
        & all_often(&tally, BACK, &BACKS);
    good & often & !variants.contains(&false) & !edits.contains(&false)
}
