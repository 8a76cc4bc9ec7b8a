//! The printed form of random texts (document 02, Point 8), and which of them print alike.

use std::collections::BTreeMap;

use generate::damage::{damage, damage_written};
use generate::edits::{edit, EDITS};
use generate::ranges::range;
use generate::repeats::repeats;
use generate::variants::{vary, vary_all, VARIANTS};
use generate::wavefronts::wavefronts;
use generate::{copies, grids, hostile, neighbours, reductions, Knobs, Loop, Rng};
use reference::program::{Action, Program, Statement};
use reference::{alike, lrpd, print, printed, read, Refusal};

const TEXTS: u64 = 2000;

/// A text for a seed, mostly accepted.
fn draw(rng: &mut Rng) -> Vec<u8> {
    match rng.below(13) {
        0 => range(rng),
        1 => wavefronts(rng).0.text(),
        2 | 3 => repeats(rng),
        4 => hostile::hostile(rng).text(),
        5 => neighbours::neighbours(rng).text(),
        6 => copies::copies(rng).text(),
        7 => reductions::reductions(rng).text(),
        8 => grids::grids(rng).text(),
        _ => {
            let knobs = Knobs::mixed(rng);
            Loop::random(rng, &knobs).text()
        }
    }
}

/// The accepted texts of all seeds, and their forms.
fn texts() -> impl Iterator<Item = (u64, Vec<u8>, Vec<u8>, Rng)> {
    (0..TEXTS).filter_map(|seed| {
        let mut rng = Rng::new(seed);
        let text = draw(&mut rng);
        let form = printed(&text).ok()?;
        Some((seed, text, form, rng))
    })
}

fn show(text: &[u8]) -> String {
    String::from_utf8_lossy(text).into_owned()
}

/// The program as if every statement stood on line 0.
fn without_lines(program: Program) -> Program {
    fn lineless(body: Vec<Statement>) -> Vec<Statement> {
        let action = |action: Action| match action {
            Action::If {
                condition,
                then,
                otherwise,
            } => Action::If {
                condition,
                then: lineless(then),
                otherwise: otherwise.map(lineless),
            },
            action => action,
        };
        let without = |statement: Statement| Statement {
            line: 0,
            action: action(statement.action),
        };
        body.into_iter().map(without).collect()
    }
    Program {
        body: lineless(program.body),
        ..program
    }
}

/// "A printed text that fits in 2,048 bytes is accepted and prints as itself", and says the same loop. A longer one
/// is refused by its length.
#[test]
fn a_form_prints_as_itself() {
    let mut counts = [0; 2];
    for (seed, text, form, _) in texts() {
        let long = form.len() > 2048;
        counts[usize::from(long)] += 1;
        if long {
            let refusal = Refusal {
                number: 1,
                line: 0,
                v: 0,
            };
            assert_eq!(printed(&form), Err(refusal));
            continue;
        }
        assert_eq!(printed(&form).as_ref(), Ok(&form), "seed {seed}");
        assert!(alike(&text, &form), "seed {seed}\n{}", show(&text));
        let said = |text: &[u8]| without_lines(read(text).expect("an accepted text"));
        assert_eq!(said(&form), said(&text), "seed {seed}\n{}", show(&text));
    }
    println!("forms that fit, that do not: {counts:?}");
    assert!(counts[0] > 1300 && counts[1] > 120);
}

/// What the form is made of, byte by byte.
#[test]
fn a_form_has_lines_of_tokens() {
    for (seed, _, form, _) in texts() {
        let form = show(&form);
        assert!(form.ends_with("end do\n"), "seed {seed}");
        assert!(form
            .bytes()
            .all(|byte| byte == b'\n' || (32..=126).contains(&byte) && !byte.is_ascii_uppercase()));
        for line in form.lines() {
            assert!(!line.is_empty() && !line.starts_with(' ') && !line.ends_with(' '));
            assert!(!line.contains("  ") && !line.contains("!$omp end"));
            assert!(line.matches('!').count() == usize::from(line.starts_with("!$omp ")));
            assert!(line != "enddo" && line != "endif");
            let is_data = line.starts_with("data ");
            for token in line.split(' ') {
                assert!(!is_data || token != "*");
                let is_literal = token.starts_with(|c: char| c.is_ascii_digit());
                let value = token.parse::<u64>().map(|value| value.to_string());
                assert!(!is_literal || value.as_deref() == Ok(token), "seed {seed}");
            }
        }
    }
}

/// "a refusal writes nothing"; else "the rest of the lent bytes is unchanged".
#[test]
fn bytes_behind_the_form_stay() {
    for (_, text, form, mut rng) in texts().take(1000) {
        for room in [0, rng.below(form.len()), form.len() - 1] {
            let lent: Vec<u8> = (0..room).map(|_| rng.bits() as u8).collect();
            let mut bytes = lent.clone();
            let refusal = Refusal {
                number: 12,
                line: 0,
                v: 0,
            };
            assert_eq!(print(&text, &mut bytes), Err(refusal));
            assert_eq!(bytes, lent);
        }
        for more in [0, 1, rng.below(500)] {
            let lent: Vec<u8> = (0..form.len() + more).map(|_| rng.bits() as u8).collect();
            let mut bytes = lent.clone();
            assert_eq!(print(&text, &mut bytes), Ok(form.len() as u32));
            assert_eq!(bytes[..form.len()], form);
            assert_eq!(bytes[form.len()..], lent[form.len()..]);
        }
    }
}

/// Counts by kinds.
type Counts = BTreeMap<&'static str, u32>;

fn count(counts: &mut Counts, kind: &'static str) {
    *counts.entry(kind).or_default() += 1;
}

/// What the form removes may be written in any way.
#[test]
fn variants_print_alike() {
    let mut counts = Counts::new();
    for (seed, text, form, mut rng) in texts() {
        let variants = VARIANTS.map(|(kind, variant)| (kind, vary(&text, variant, &mut rng)));
        let all = [0; 3].map(|_| ("all kinds", vary_all(&text, &mut rng)));
        for (kind, other) in variants.into_iter().chain(all) {
            if other == text || other.len() > 2048 {
                continue;
            }
            let texts = format!("seed {seed}, {kind}\n{}\n\n{}", show(&text), show(&other));
            assert_eq!(printed(&other).as_ref(), Ok(&form), "{texts}");
            assert!(alike(&text, &other) && alike(&other, &text), "{texts}");
            count(&mut counts, kind);
        }
    }
    println!("variants: {counts:?}");
    assert!(counts.len() == VARIANTS.len() + 1 && counts.values().all(|&times| times > 600));
}

/// Whatever else is changed prints differently.
#[test]
fn edits_print_differently() {
    let (mut accepted, mut refused) = (Counts::new(), Counts::new());
    for (seed, text, form, mut rng) in texts() {
        for (kind, change) in EDITS {
            let Some(other) = edit(&text, change, &mut rng) else {
                continue;
            };
            let texts = || format!("seed {seed}, {kind}\n{}\n\n{}", show(&text), show(&other));
            let Ok(edited) = printed(&other) else {
                count(&mut refused, kind);
                continue;
            };
            assert_ne!(edited, form, "{}", texts());
            assert!(
                !alike(&text, &other) && !alike(&other, &text),
                "{}",
                texts()
            );
            count(&mut accepted, kind);
        }
    }
    println!("accepted: {accepted:?}\nrefused: {refused:?}");
    assert!(accepted.len() == EDITS.len() && accepted.values().all(|&times| times > 60));
}

/// Damaged texts that are still accepted: their forms agree exactly when walking their bytes says so.
#[test]
fn damaged_texts_print_alike_as_the_walk_says() {
    let mut counts = [0; 2];
    for (seed, text, form, mut rng) in texts() {
        for round in 0..20 {
            let other = match round % 2 {
                0 => damage(&text, &mut rng),
                _ => damage_written(&text, &mut rng),
            };
            let Ok(damaged) = printed(&other) else {
                continue;
            };
            let same = damaged == form;
            let texts = || format!("seed {seed}\n{}\n\n{}", show(&text), show(&other));
            assert_eq!(alike(&text, &other), same, "{}", texts());
            assert_eq!(alike(&other, &text), same, "{}", texts());
            counts[usize::from(same)] += 1;
        }
    }
    println!("accepted, with another form and with the same: {counts:?}");
    assert!(counts[0] > 2000 && counts[1] > 2000);
}

/// `lrpd` prints the same of a text and of its form, but for the line of a fault.
#[test]
fn lrpd_prints_the_same_of_a_form() {
    let faultless = |text: &[u8]| {
        let printed = show(&lrpd(text));
        match printed.split(' ').collect::<Vec<_>>()[..] {
            ["!", "refused", number @ ("9" | "10"), _, v] => format!("{number} {v}"),
            _ => printed,
        }
    };
    for (seed, text, form, _) in texts().take(1000) {
        if form.len() <= 2048 {
            assert_eq!(faultless(&form), faultless(&text), "seed {seed}");
        }
    }
}
