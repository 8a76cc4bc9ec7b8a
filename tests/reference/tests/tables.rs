//! The tables written by hand, row by row.

use generate::tables::plans::{self, Planned};
use generate::tables::{
    arguments, data, forms, grids, looks, names, pairs, prints, runs, text_rows,
};
use generate::{lend, Rng};
use reference::{
    alike, bounds, check, columns, load, look, lrpd, name, plan, print, printed, rows, run, serial,
    stepped, trial, workspace_needed, Answer, Refusal,
};

/// Reports all rows that differ, not just the first.
fn assert_none(wrong: Vec<String>) {
    assert!(
        wrong.is_empty(),
        "{} rows:\n{}",
        wrong.len(),
        wrong.join("\n")
    );
}

#[test]
fn check_answers_as_the_table_says() {
    let mut wrong = Vec::new();
    for row in text_rows() {
        let expected = row
            .expected
            .map_err(|(number, line)| Refusal { number, line, v: 0 });
        let answer = check(&row.text);
        if answer != expected {
            wrong.push(format!("{:?}: {answer:?}, not {expected:?}", row.name));
        }
    }
    assert_none(wrong);
}

#[test]
fn load_fills_the_cells_as_the_table_says() {
    for row in data::load_rows() {
        let mut cells = vec![77; row.cells.len()];
        assert_eq!(load(&row.text, &mut cells), Ok(()), "{}", row.name);
        assert_eq!(cells, row.cells, "{}", row.name);
    }
}

#[test]
fn refused_texts_leave_everything_as_found() {
    for row in text_rows().iter().filter(|row| row.expected.is_err()) {
        let mut cells = vec![77; 3];
        let mut workspace = vec![5; 10];
        let mut view = vec![9; 6];
        let mut list = vec![8; 4];
        let mut bytes = vec![7; 3000];
        let expected = check(&row.text).unwrap_err();
        assert_eq!(bounds(&row.text), Err(expected));
        assert_eq!(name(&row.text, b"a"), Err(expected));
        assert_eq!(load(&row.text, &mut cells), Err(expected));
        assert_eq!(rows(&row.text, &mut cells, b"a"), Err(expected));
        assert_eq!(columns(&row.text, &mut cells, b"a"), Err(expected));
        assert_eq!(
            run(&row.text, &mut cells, &mut workspace, &[9]).unwrap_err(),
            expected
        );
        assert_eq!(
            look(&row.text, &cells, &mut workspace, &[9], &mut view).unwrap_err(),
            expected
        );
        assert_eq!(
            plan(&row.text, &cells, &mut workspace, &mut list).unwrap_err(),
            expected
        );
        assert_eq!(print(&row.text, &mut bytes), Err(expected));
        assert_eq!(
            (cells, workspace, view, list, bytes),
            (
                vec![77; 3],
                vec![5; 10],
                vec![9; 6],
                vec![8; 4],
                vec![7; 3000]
            )
        );
    }
}

/// A row of [`runs`] under one schedule, with a workspace of anything and some words to spare.
fn run_row(row: &runs::RunRow, schedule: &[u8], rng: &mut Rng) -> Result<(), String> {
    let (needed, processors) = check(&row.text).expect("a good text");
    let mut cells = row.cells.clone();
    let spare = rng.below(3);
    let mut workspace = lend::workspace(rng, workspace_needed(needed, processors) + spare);
    let answer = run(&row.text, &mut cells, &mut workspace, schedule);
    let ran = match answer {
        Ok(Answer {
            passed: true,
            pairs,
            cells: written,
        }) => runs::Ran::Passed(pairs, written, cells),
        Ok(Answer {
            pairs,
            cells: written,
            ..
        }) => runs::Ran::Rerun(pairs, written, cells),
        Err(Refusal { number, line, v }) => {
            assert_eq!(cells, row.cells, "a fault leaves the cells: {:?}", row.name);
            runs::Ran::Fault(number, line, v)
        }
    };
    if workspace.iter().any(|&word| word != 0) {
        return Err(format!("{:?} leaves its workspace", row.name));
    }
    if ran != row.expected {
        return Err(format!("{:?} {schedule:?}: {ran:?}", row.name));
    }
    Ok(())
}

#[test]
fn run_answers_as_the_table_says_under_many_schedules() {
    let mut rng = Rng::new(1);
    let mut wrong = Vec::new();
    for row in runs::rows() {
        let (_, processors) = check(&row.text).expect("a good text");
        let mut schedules = vec![Vec::new(), lend::backward_turns(processors, 20)];
        schedules.extend((0..20).map(|_| lend::schedule(&mut rng, processors)));
        for schedule in schedules {
            wrong.extend(run_row(&row, &schedule, &mut rng).err());
        }
    }
    assert_none(wrong);
}

/// All schedules of ten bytes for the loops with two processors.
#[test]
fn run_answers_as_the_table_says_under_all_short_schedules() {
    let mut rng = Rng::new(2);
    let mut wrong = Vec::new();
    let two = |row: &runs::RunRow| matches!(check(&row.text), Ok((_, 2)));
    let short = |row: &runs::RunRow| row.cells.len() < 10;
    for row in runs::rows().iter().filter(|row| two(row) && short(row)) {
        for bits in 0..1u32 << 10 {
            let schedule: Vec<u8> = (0..10).map(|place| (bits >> place & 1) as u8).collect();
            wrong.extend(run_row(row, &schedule, &mut rng).err());
        }
    }
    assert_none(wrong);
}

#[test]
fn look_shows_what_the_table_says() {
    let mut wrong = Vec::new();
    for row in looks::rows() {
        let (needed, processors) = check(&row.text).expect("a good text");
        let mut workspace = vec![3; workspace_needed(needed, processors) + 1];
        let mut view = vec![9; 2 * needed];
        let answer = look(
            &row.text,
            &row.cells,
            &mut workspace,
            &row.schedule,
            &mut view,
        );
        assert_eq!(answer, Ok(()), "{}", row.name);
        assert!(workspace.iter().all(|&word| word == 0), "{}", row.name);
        let seen: Vec<_> = view
            .chunks(2)
            .map(|words| (words[0] as i32, words[1]))
            .collect();
        if seen != row.view {
            wrong.push(format!("{}: {seen:?}, not {:?}", row.name, row.view));
        }
    }
    assert_none(wrong);
}

/// Looking at every pair of so many iterations takes too long; `compare` has the rows with more.
const PAIRED: usize = 1000;

#[test]
fn plan_answers_as_the_table_says() {
    let mut wrong = Vec::new();
    let long =
        |row: &plans::PlanRow| row.list > PAIRED && matches!(row.expected, Planned::Stages(..));
    for row in plans::rows().iter().filter(|row| !long(row)) {
        let enough = || {
            let (needed, processors) = check(&row.text).expect("a good text");
            workspace_needed(needed, processors) + 1
        };
        let lent = vec![3; row.workspace.unwrap_or_else(enough)];
        let (mut workspace, mut list) = (lent.clone(), vec![9; row.list]);
        let answer = plan(&row.text, &row.cells, &mut workspace, &mut list);
        let zero = vec![0; lent.len()];
        let (expected, left) = match &row.expected {
            Planned::Stages(stages, list) => ((Ok(*stages), list.clone()), zero),
            &Planned::Fault(number, line, v) => {
                ((Err(Refusal { number, line, v }), vec![9; row.list]), zero)
            }
            &Planned::Refused(number, line) => {
                let refusal = Refusal { number, line, v: 0 };
                ((Err(refusal), vec![9; row.list]), lent)
            }
        };
        let planned = (answer, list);
        if planned != expected || workspace != left {
            wrong.push(format!("{}: {planned:?}, not {expected:?}", row.name));
        }
    }
    assert_none(wrong);
}

#[test]
fn bounds_answers_as_the_table_says() {
    let mut wrong = Vec::new();
    for row in names::bounds_rows() {
        let answer = bounds(&row.text)
            .map(|bounds| (bounds.from, bounds.iterations, bounds.blocks))
            .map_err(|refusal| (refusal.number, refusal.line));
        if answer != row.expected {
            wrong.push(format!(
                "{:?}: {answer:?}, not {:?}",
                row.name, row.expected
            ));
        }
    }
    assert_none(wrong);
}

#[test]
fn name_answers_as_the_table_says() {
    let mut wrong = Vec::new();
    for row in names::name_rows() {
        let answer = name(&row.text, &row.asked)
            .map(|found| names::Found {
                first: found.first,
                cells: found.cells,
                subscripts: found.subscripts,
                clause: found.clause,
                rows: found.rows,
                columns: found.columns,
            })
            .map_err(|refusal| (refusal.number, refusal.line));
        if answer != row.expected {
            let asked = row.asked.escape_ascii();
            wrong.push(format!("{:?}, {asked}: {answer:?}", row.name));
        }
    }
    assert_none(wrong);
}

/// Rows or Columns.
type Arrange = fn(&[u8], &mut [i32], &[u8]) -> Result<(), Refusal>;

/// "every other cell unchanged", and all of them after a refusal.
#[test]
fn grids_are_rearranged_as_the_table_says() {
    let mut wrong = Vec::new();
    for row in grids::arrange_rows() {
        let arranged = |service: Arrange| {
            let mut cells = row.cells.clone();
            let answer = service(&row.text, &mut cells, &row.asked);
            (answer, cells)
        };
        for (service, answer, expected) in [
            ("rows", arranged(rows), &row.rows),
            ("columns", arranged(columns), &row.columns),
        ] {
            let expected = match expected {
                Ok(cells) => (Ok(()), cells.clone()),
                &Err((number, line)) => (Err(Refusal { number, line, v: 0 }), row.cells.clone()),
            };
            if answer != expected {
                wrong.push(format!("{}: {service} {answer:?}", row.name));
            }
        }
    }
    assert_none(wrong);
}

#[test]
fn print_answers_as_the_table_says() {
    let mut wrong = Vec::new();
    for row in forms::rows() {
        let mut bytes = vec![7; row.room];
        let answer = print(&row.text, &mut bytes);
        let mut left = vec![7; row.room];
        let expected = match row.expected {
            Ok(form) => {
                left[..form.len()].copy_from_slice(&form);
                Ok(form.len() as u32)
            }
            Err((number, line)) => Err(Refusal { number, line, v: 0 }),
        };
        if answer != expected || bytes != left {
            let bytes = bytes.escape_ascii();
            wrong.push(format!("{}: {answer:?}, {bytes}", row.name));
        }
    }
    assert_none(wrong);
}

/// By their forms and by walking their bytes.
#[test]
fn pairs_print_alike_as_the_table_says() {
    for row in pairs::rows() {
        let [one, other] = row.texts.each_ref().map(|text| printed(text).unwrap());
        assert_eq!(one == other, row.alike, "{}", row.name);
        let [one, other] = &row.texts;
        assert_eq!(alike(one, other), row.alike, "{}", row.name);
        assert_eq!(alike(other, one), row.alike, "{}", row.name);
    }
}

#[test]
fn lrpd_prints_what_the_table_says() {
    for (name, input, output) in prints::ROWS {
        let printed = String::from_utf8(lrpd(input.as_bytes())).expect("text");
        assert_eq!(printed, *output, "{name}");
    }
    assert_eq!(lrpd(&[b'!'; 2049]), b"! refused 1 0 0\n");
}

fn number_of<T>(answer: Result<T, Refusal>) -> u32 {
    answer.map_or_else(|refusal| refusal.number, |_| 0)
}

#[test]
fn arguments_are_refused_as_the_table_says() {
    for row in arguments::rows() {
        let text = row.text.as_bytes();
        let found = vec![1; row.cells];
        let mut cells = found.clone();
        assert_eq!(number_of(load(text, &mut cells)), row.load, "{}", row.name);
        assert!(row.load == 0 || cells == found, "{}", row.name);

        let mut workspace = vec![3; row.workspace];
        let mut view = vec![9; row.view];
        let answer = look(text, &found, &mut workspace, &row.schedule, &mut view);
        assert_eq!(number_of(answer), row.look, "{}", row.name);
        let untouched = row.look != 0;
        assert_eq!(
            workspace,
            vec![if untouched { 3 } else { 0 }; row.workspace]
        );
        assert!(!untouched || view.iter().all(|&word| word == 9));

        let mut cells = found.clone();
        let mut workspace = vec![3; row.workspace];
        let answer = run(text, &mut cells, &mut workspace, &row.schedule);
        assert_eq!(number_of(answer), row.run, "{}", row.name);
        let untouched = row.run != 0;
        assert_eq!(
            workspace,
            vec![if untouched { 3 } else { 0 }; row.workspace]
        );
        assert!(!untouched || cells == found);

        // READING 93: the parts that Run is made of refuse the same way.
        let tried = trial(text, &found, row.workspace, &row.schedule);
        assert_eq!(number_of(tried), row.run, "{}", row.name);
        let taken = stepped(text, &found, row.workspace, &row.schedule);
        assert_eq!(number_of(taken), row.run, "{}", row.name);
        assert_eq!(number_of(serial(text, &found)), row.load, "{}", row.name);
    }
}

/// How large the tables are; they are not to shrink unnoticed.
#[test]
fn the_tables_have_many_rows() {
    let counts = (
        text_rows().len(),
        data::load_rows().len(),
        runs::rows().len(),
        looks::rows().len(),
        prints::ROWS.len(),
        arguments::rows().len(),
        plans::rows().len(),
        names::name_rows().len(),
        names::bounds_rows().len(),
        forms::rows().len(),
        pairs::rows().len(),
        grids::arrange_rows().len(),
    );
    println!(
        "texts, loads, runs, looks, prints, arguments, plans, names, bounds, forms, pairs, grids: {counts:?}"
    );
    assert!(counts.0 > 3300 && counts.2 > 1250 && counts.3 > 560 && counts.5 > 50);
    assert!(counts.6 > 160 && counts.7 > 270 && counts.8 > 90);
    assert!(counts.9 > 1000 && counts.10 > 65 && counts.11 > 100);
}
