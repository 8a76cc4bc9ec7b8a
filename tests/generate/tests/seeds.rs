//! The same seed gives the same cases.

use generate::layout::split_tokens;
use generate::{
    copies, damage, edits, grids, hostile, lend, neighbours, noise, ranges, reductions, repeats,
    variants, wavefronts, Copied, Knobs, Loop, Operation, Rng, Turned,
};

/// Texts of all kinds, a schedule and names to ask for, and cells.
fn draw(seed: u64) -> ([Vec<u8>; 17], Vec<i32>) {
    let mut rng = Rng::new(seed);
    let knobs = Knobs::mixed(&mut rng);
    let good = Loop::random(&mut rng, &knobs).text();
    let drawn = [
        hostile::hostile(&mut rng).text(),
        neighbours::neighbours(&mut rng).text(),
        copies::copies(&mut rng).text(),
        reductions::reductions(&mut rng).text(),
        grids::grids(&mut rng).text(),
        wavefronts::wavefronts(&mut rng).0.text(),
        damage::damage(&good, &mut rng),
        noise::soup(&mut rng),
        noise::bytes(&mut rng),
        ranges::range(&mut rng),
        lend::schedule(&mut rng, 3),
        asked(&mut rng, &good),
        repeats::repeats(&mut rng),
        variants::vary_all(&good, &mut rng),
        edited(&mut rng, &good),
        damage::damage_written(&good, &mut rng),
        lend::bytes(&mut rng, 9),
    ];
    (drawn, lend::cells(&mut rng, 9))
}

/// All that is asked of a text, in a row.
fn asked(rng: &mut Rng, text: &[u8]) -> Vec<u8> {
    let asked = lend::asked(rng, text, &["a", "flow"]).into_iter();
    asked
        .flat_map(|(name, after)| [name, after].concat())
        .collect()
}

/// All edits of a text, in a row.
fn edited(rng: &mut Rng, text: &[u8]) -> Vec<u8> {
    let edited = edits::EDITS.map(|(_, change)| edits::edit(text, change, rng).unwrap_or_default());
    edited.concat()
}

#[test]
fn the_same_seed_gives_the_same_cases() {
    for seed in 0..200 {
        assert_eq!(draw(seed), draw(seed));
        assert_ne!(draw(seed), draw(seed + 1));
    }
}

#[test]
fn most_texts_are_short_enough() {
    let lengths: Vec<usize> = (0..1000)
        .map(|seed| {
            let mut rng = Rng::new(seed);
            let knobs = Knobs::mixed(&mut rng);
            Loop::random(&mut rng, &knobs).text().len()
        })
        .collect();
    assert!(lengths.iter().filter(|&&length| length <= 2048).count() > 950);
    assert!(lengths.iter().filter(|&&length| length > 1000).count() > 50);
}

/// A loop of each kind.
fn one_of_each(seed: u64) -> [Loop; 7] {
    let mut rng = Rng::new(seed);
    let knobs = Knobs::mixed(&mut rng);
    [
        Loop::random(&mut rng, &knobs),
        hostile::hostile(&mut rng),
        neighbours::neighbours(&mut rng),
        copies::copies(&mut rng),
        reductions::reductions(&mut rng),
        grids::grids(&mut rng),
        wavefronts::wavefronts(&mut rng).0,
    ]
}

/// The same seed with and without the clause: the texts differ in the line of the directive alone.
#[test]
fn the_clause_changes_one_line() {
    for seed in 0..200 {
        for drawn in one_of_each(seed) {
            let [with, without] = [true, false].map(|by_blocks| {
                let text = drawn.with_blocks(by_blocks).text();
                String::from_utf8(text).unwrap().to_lowercase()
            });
            let pairs = with.lines().zip(without.lines());
            let differing: Vec<_> = pairs.filter(|(one, other)| one != other).collect();
            assert_eq!(with.lines().count(), without.lines().count());
            assert_eq!(differing.len(), 1);
            let tokens = |line| split_tokens(line).len();
            let (one, other) = differing[0];
            assert_eq!(tokens(one), tokens(other) + 4);
        }
    }
}

/// Without clauses the directive has `num_threads` alone, and nothing else of the text changes.
#[test]
fn without_clauses_one_line_is_short() {
    for seed in 0..200 {
        for drawn in one_of_each(seed) {
            let bare = drawn.without_clauses();
            let eight = bare.with_processors(8).with_blocks(true);
            let directives = only_directives([drawn, bare, eight.with_copied(Copied::All)]);
            let tokens = directives.each_ref().map(|line| split_tokens(line));
            assert_eq!(
                tokens[1][..5],
                ["!$omp", "parallel", "do", "num_threads", "("]
            );
            assert_eq!((tokens[1].len(), tokens[2].len()), (7, 7));
            assert_eq!(tokens[2][5].trim_start_matches('0'), "8");
        }
    }
}

/// The names in the clauses of this word, in some order.
fn listed(directive: &str, word: &str) -> Vec<String> {
    let tokens = split_tokens(directive);
    let mut names = Vec::new();
    for clause in tokens[3..].split(|token| *token == ")") {
        if clause.first() == Some(&word) {
            let list = clause[2..].iter().filter(|token| **token != ",");
            names.extend(list.map(|name| name.to_string()));
        }
    }
    names.sort();
    names
}

/// The directives of three variants of a loop, in lower case; nothing else of their texts may differ.
fn only_directives(variants: [Loop; 3]) -> [String; 3] {
    let split = variants.map(|variant| {
        let text = String::from_utf8(variant.text()).unwrap().to_lowercase();
        let is_directive = |line: &&str| line.trim_start().starts_with("!$omp ");
        let directive = text.lines().find(is_directive).unwrap().to_string();
        let rest = text.replacen(&directive, "", 1);
        (directive, rest)
    });
    assert!(split[0].1 == split[1].1 && split[1].1 == split[2].1);
    split.map(|(directive, _)| directive)
}

/// With all names copied in, the lists of `firstprivate` and `lastprivate` agree; with none there is no
/// `firstprivate`; as drawn, there are some or all of them. Nothing else of the text changes.
#[test]
fn copies_change_one_line() {
    let mut partly = 0;
    for seed in 0..200 {
        for drawn in one_of_each(seed) {
            let variants = [Copied::None, Copied::AsDrawn, Copied::All];
            let directives = only_directives(variants.map(|copied| drawn.with_copied(copied)));
            let last = directives
                .each_ref()
                .map(|line| listed(line, "lastprivate"));
            assert!(last[0] == last[1] && last[1] == last[2]);
            let first = directives.map(|line| listed(&line, "firstprivate"));
            assert_eq!(first[0].len(), 0);
            assert!(first[1].iter().all(|name| last[1].contains(name)));
            assert_eq!(first[2], last[2]);
            assert_eq!(drawn.has_copied(), !first[1].is_empty());
            assert_eq!(drawn.has_plain(), first[1] != last[1]);
            partly += u32::from(drawn.has_copied() && drawn.has_plain());
        }
    }
    assert!(partly > 50);
}

/// The clause is frequent, and its words are now and then names.
#[test]
fn the_clause_is_frequent() {
    let mut counts = [0; 2];
    for seed in 0..1000 {
        let mut rng = Rng::new(seed);
        let knobs = Knobs::mixed(&mut rng);
        let drawn = Loop::random(&mut rng, &knobs);
        let text = String::from_utf8(drawn.with_blocks(false).text()).unwrap();
        let words = text.to_lowercase();
        counts[0] += u32::from(drawn.by_blocks);
        counts[1] += u32::from(words.contains("schedule") || words.contains("static"));
    }
    println!("with the clause, with its words as names: {counts:?}");
    assert!(counts[0] > 350 && counts[1] > 50);
}

/// Names in both clauses are frequent, and the word `firstprivate` is now and then a name.
#[test]
fn copies_are_frequent() {
    let mut counts = [0; 3];
    for seed in 0..1000 {
        let mut rng = Rng::new(seed);
        let knobs = Knobs::mixed(&mut rng);
        let drawn = Loop::random(&mut rng, &knobs);
        let text = String::from_utf8(drawn.with_copied(Copied::None).text()).unwrap();
        counts[0] += u32::from(drawn.has_copied());
        counts[1] += u32::from(drawn.has_plain());
        counts[2] += u32::from(text.to_lowercase().contains("firstprivate"));
    }
    println!("with copied names, with plain ones, with the word as a name: {counts:?}");
    assert!(counts[0] > 350 && counts[1] > 250 && counts[2] > 20);
}

/// The operation of the clause that each name of a `reduction` clause stands in, by the names in order.
fn operations(directive: &str) -> Vec<(String, String)> {
    let tokens = split_tokens(directive);
    let mut operations = Vec::new();
    for clause in tokens[3..].split(|token| *token == ")") {
        if clause.first() == Some(&"reduction") {
            let names = clause[4..].iter().filter(|token| **token != ",");
            operations.extend(names.map(|name| (name.to_string(), clause[2].to_string())));
        }
    }
    operations.sort();
    operations
}

/// With other operations each name has the next one, or the one after that, and nothing else of the text
/// changes.
#[test]
fn operations_change_one_line() {
    let next = |sign: &str| match sign {
        "+" => "*".to_string(),
        "*" => "max".to_string(),
        _ => "+".to_string(),
    };
    let mut turned = 0;
    for seed in 0..200 {
        for drawn in one_of_each(seed) {
            let variants = [Turned::AsDrawn, Turned::Once, Turned::Twice];
            let directives = only_directives(variants.map(|turned| drawn.with_turned(turned)));
            let [first, second, third] = directives.map(|line| operations(&line));
            for (before, after) in [(&first, &second), (&second, &third), (&third, &first)] {
                let expected: Vec<_> = before
                    .iter()
                    .map(|(name, sign)| (name.clone(), next(sign)))
                    .collect();
                assert_eq!(*after, expected);
            }
            assert_eq!(drawn.has_reductions(), !first.is_empty());
            turned += u32::from(!first.is_empty());
        }
    }
    assert!(turned > 400);
}

/// Each operation is frequent, and so are all three in one loop and `max` in its body; words that only begin
/// like it are now and then names.
#[test]
fn operations_are_frequent() {
    let mut counts = [0; 6];
    for seed in 0..1000 {
        let mut rng = Rng::new(seed);
        let knobs = Knobs::mixed(&mut rng);
        let drawn = Loop::random(&mut rng, &knobs);
        let text = String::from_utf8(drawn.text()).unwrap().to_lowercase();
        let has = Operation::ALL.map(|operation| drawn.has(operation));
        for (count, has) in counts.iter_mut().zip(has) {
            *count += u32::from(has);
        }
        counts[3] += u32::from(has == [true; 3]);
        let is_body = |line: &&str| !line.contains("!$omp");
        let of_body = |word: &str| {
            let mut lines = text.lines().filter(is_body);
            lines.any(|line| split_tokens(line).contains(&word))
        };
        counts[4] += u32::from(of_body("max"));
        counts[5] += u32::from(of_body("max2"));
    }
    println!("sums, products, maxima, all three, max in the body, max2 as a name: {counts:?}");
    assert!(counts[..3].iter().all(|&loops| loops > 200) && counts[3] > 30);
    assert!(counts[4] > 300 && counts[5] > 20);
}

/// Each generator draws grids often (document 02, Point 9): of one row, of one column and of more of both.
#[test]
fn grids_are_frequent() {
    let mut counts = [0; 7];
    let mut extents = [0; 4];
    for seed in 0..1000 {
        for (drawn, count) in one_of_each(seed).iter().zip(&mut counts) {
            *count += u32::from(drawn.has_grids());
            let text = String::from_utf8(drawn.text()).unwrap().to_lowercase();
            let declared = text
                .lines()
                .filter(|line| line.trim_start().starts_with("integer"));
            for line in declared {
                let tokens = split_tokens(line);
                for window in tokens.windows(5).filter(|window| window[2] == ",") {
                    let [open, rows, _, columns, close] = window else {
                        continue;
                    };
                    let literal = |token: &str| token.parse::<usize>().ok();
                    let kind = match (*open, literal(rows), literal(columns), *close) {
                        ("(", Some(1), Some(1), ")") => 0,
                        ("(", Some(1), Some(_), ")") => 1,
                        ("(", Some(_), Some(1), ")") => 2,
                        ("(", Some(_), Some(_), ")") => 3,
                        _ => continue,
                    };
                    extents[kind] += 1;
                }
            }
        }
    }
    println!("loops with grids, of each kind: {counts:?}; one by one, one row, one column, more: {extents:?}");
    assert!(counts.iter().all(|&loops| loops > 250) && counts[5] == 1000);
    assert!(extents[0] > 100 && extents[1..].iter().all(|&grids| grids > 500));
}

/// Forms about as long as a text may be are frequent, and so are those of all cells.
#[test]
fn copies_of_data_are_frequent() {
    let texts = (0..1000).map(|seed| repeats::repeats(&mut Rng::new(seed)));
    let texts: Vec<String> = texts
        .map(|text| String::from_utf8(text).unwrap().replace(' ', ""))
        .collect();
    let with = |word: &str| texts.iter().filter(|text| text.contains(word)).count();
    let [arrays, grids] = ["(4096)", ",1)"].map(with);
    let counts = ["483*", "484*", "485*", "486*", "487*"].map(with);
    println!("of 483 to 487 copies: {counts:?}; arrays of 4,096 cells, grids of one column: {arrays}, {grids}");
    assert!(counts.iter().all(|&texts| texts > 40) && arrays > 20 && grids > 100);
}

#[test]
fn another_number_of_processors_changes_nothing_else() {
    let mut rng = Rng::new(7);
    let knobs = Knobs::mixed(&mut rng);
    let one = Loop::random(&mut rng, &knobs).with_processors(1);
    let eight = one.with_processors(8);
    let (one, eight) = (one.text(), eight.text());
    let differing = one.iter().zip(&eight).filter(|(a, b)| a != b).count();
    assert_eq!((one.len(), differing), (eight.len(), 1));
}
