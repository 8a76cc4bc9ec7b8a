//! The serial run against gfortran's reading of the same loop. Without gfortran nothing is compared.

use std::path::{Path, PathBuf};
use std::process::{Command, Stdio};

use generate::copies::copies;
use generate::grids::grids;
use generate::hostile::hostile;
use generate::reductions::reductions;
use generate::tables::runs;
use generate::{lend, Knobs, Loop, Operation, Rng};
use reference::{fortran, fortran_of_all, read, rows, serial, Threads};

fn has_gfortran() -> bool {
    let mut command = Command::new("gfortran");
    command.arg("--version").stdout(Stdio::null());
    command.status().is_ok_and(|status| status.success())
}

/// A folder below the target folder.
fn folder(name: &str) -> PathBuf {
    let folder = Path::new(env!("CARGO_TARGET_TMPDIR")).join(name);
    std::fs::create_dir_all(&folder).expect("a folder");
    folder
}

/// What the compiled program prints, or the status it fails with.
fn compile_and_run(source: &str, options: &[&str], folder: &Path) -> Result<String, i32> {
    let (file, program) = (folder.join("loop.f90"), folder.join("loop"));
    std::fs::write(&file, source).expect("a written source");
    let compiled = Command::new("gfortran")
        .args(options)
        .args(["-fwrapv", "-fcheck=bounds", "-w", "-o"])
        .args([&program, &file])
        .output()
        .expect("gfortran");
    let complaint = String::from_utf8_lossy(&compiled.stderr);
    assert!(compiled.status.success(), "{complaint}\n{source}");
    let ran = Command::new(&program)
        .env("OMP_WAIT_POLICY", "passive")
        .output()
        .expect("the program");
    if !ran.status.success() {
        return Err(ran.status.code().expect("a status"));
    }
    Ok(String::from_utf8(ran.stdout).expect("text"))
}

fn values(printed: &str) -> Vec<i32> {
    let lines = printed.lines();
    lines.map(|line| line.parse().expect("a value")).collect()
}

/// The cells after a loop, and then those of each grid by rows.
fn with_rows(text: &[u8], cells: Vec<i32>) -> Vec<i32> {
    let mut all = cells.clone();
    for declared in read(text).expect("a good text").names {
        if declared.grid().is_some() {
            let mut cells = cells.clone();
            rows(text, &mut cells, declared.name.as_bytes()).expect("a grid");
            all.extend(&cells[declared.first_cell..][..declared.length()]);
        }
    }
    all
}

/// Compares one loop; false if Fortran has no such loop.
fn compare(text: &[u8], cells: &[i32], folder: &Path) -> bool {
    let Some(source) = fortran(text, cells) else {
        return false;
    };
    let ran = serial(text, cells).expect("a good text");
    let printed = compile_and_run(&source, &[], folder).map(|printed| values(&printed));
    match ran.outcome {
        Ok(()) => assert_eq!(printed, Ok(with_rows(text, ran.cells_after)), "{source}"),
        // Which of two faults in one statement comes first is not settled in Fortran.
        Err(_) => assert!(matches!(printed, Err(2 | 10)), "{printed:?}\n{source}"),
    }
    true
}

/// Loops with many values in one, to save compilations: `s = e` becomes `r(k) = e`.
#[test]
fn values_of_the_table_are_fortrans() {
    if !has_gfortran() {
        return;
    }
    let folder = folder("values");
    let rows: Vec<_> = runs::rows()
        .into_iter()
        .filter(|row| row.cells == [6, 1, 2, 3, 4] && matches!(row.expected, runs::Ran::Passed(..)))
        .collect();
    for chunk in rows.chunks(25) {
        let mut body = String::new();
        let mut cells = vec![6, 1, 2, 3, 4];
        for (row, number) in chunk.iter().zip(1..) {
            body += &format!("r({number}) = {}\n", row.name);
            cells.push(0);
        }
        let text = format!(
            "integer s, a(4), r({})\n!$omp parallel do num_threads(1)\ndo i = 1, 1\n{body}end do\n",
            chunk.len()
        );
        assert!(compare(text.as_bytes(), &cells, &folder), "{text}");
        let after = serial(text.as_bytes(), &cells).unwrap().cells_after;
        for (row, value) in chunk.iter().zip(&after[5..]) {
            let runs::Ran::Passed(_, _, expected) = &row.expected else {
                unreachable!("a passed row")
            };
            assert_eq!(*value, expected[0], "{}", row.name);
        }
    }
}

fn compare_random(seeds: std::ops::Range<u64>, folder: &Path) -> usize {
    let mut compared = 0;
    for seed in seeds {
        let mut rng = Rng::new(seed);
        let drawn = match rng.below(12) {
            0 | 1 => hostile(&mut rng),
            2 | 3 => copies(&mut rng),
            4 | 5 => reductions(&mut rng),
            6 | 7 => grids(&mut rng),
            _ => {
                let knobs = Knobs::mixed(&mut rng);
                Loop::random(&mut rng, &knobs)
            }
        };
        let cells = if rng.chance(70) {
            drawn.cells.clone()
        } else {
            lend::cells(&mut rng, drawn.cells.len())
        };
        compared += usize::from(compare(&drawn.text(), &cells, folder));
    }
    compared
}

#[test]
fn some_random_loops_run_as_in_fortran() {
    if has_gfortran() {
        assert!(compare_random(0..20, &folder("some")) >= 15);
    }
}

/// Loops whose directive means the same in Fortran, run by it in threads: sums, products and maxima are
/// gfortran's own reductions.
#[test]
fn reductions_are_fortrans() {
    if !has_gfortran() {
        return;
    }
    let drawn: Vec<Loop> = (0..400)
        .map(|seed| reductions(&mut Rng::new(seed)))
        .filter(|drawn| {
            let text = drawn.text();
            fortran_of_all(&[(&text, &drawn.cells)], Threads::Many).is_some()
        })
        .collect();
    let texts: Vec<Vec<u8>> = drawn.iter().map(Loop::text).collect();
    let loops: Vec<(&[u8], &[i32])> = texts
        .iter()
        .zip(&drawn)
        .map(|(text, drawn)| (&text[..], &drawn.cells[..]))
        .collect();
    let source = fortran_of_all(&loops, Threads::Many).expect("loops that Fortran has");
    let printed = compile_and_run(&source, &["-fopenmp"], &folder("threads"));
    let printed = printed.expect("no fault");
    let mut printed = printed.split("loop\n").skip(1);
    for (text, cells) in &loops {
        let after = serial(text, cells).expect("a good text").cells_after;
        let printed = values(printed.next().expect("a loop"));
        let after = with_rows(text, after);
        assert_eq!(printed, after, "{}", String::from_utf8_lossy(text));
    }
    let count = |operation| drawn.iter().filter(|drawn| drawn.has(operation)).count();
    let counts = Operation::ALL.map(count);
    println!("loops with sums, products and maxima: {counts:?}");
    assert!(counts.iter().all(|&loops| loops > 30));
}

/// Some minutes; run with `-- --ignored`.
#[test]
#[ignore]
fn many_random_loops_run_as_in_fortran() {
    if has_gfortran() {
        let compared = compare_random(1000..1600, &folder("many"));
        println!("{compared} loops compared");
        assert!(compared >= 500);
    }
}

/// Some minutes; run with `-- --ignored`.
#[test]
#[ignore]
fn runs_of_the_table_are_fortrans() {
    if has_gfortran() {
        let folder = folder("runs");
        let rows = runs::rows();
        let compared = rows
            .iter()
            .filter(|row| compare(&row.text, &row.cells, &folder));
        println!("{} of {} rows compared", compared.count(), rows.len());
    }
}

#[test]
fn what_fortran_has_no_loop_for() {
    let text = |v: &str, bounds: &str| {
        format!("integer a\n!$omp parallel do num_threads(1)\ndo {v} = {bounds}\na = 1\nend do\n")
    };
    assert_eq!(
        fortran(text("i", "2147483647, 2147483647").as_bytes(), &[0]),
        None
    );
    assert_eq!(fortran(text("concurrent", "1, 2").as_bytes(), &[0]), None);
    assert_eq!(fortran(text("transpose", "1, 2").as_bytes(), &[0]), None);
    assert_eq!(fortran(text("i", "1, 2").as_bytes(), &[0, 0]), None);
    assert_eq!(fortran(b"", &[]), None);
    assert!(fortran(text("i", "1, 2").as_bytes(), &[0]).is_some());
    assert!(fortran(text("i", "2147483647, 1").as_bytes(), &[0]).is_some());
}

/// Directives that mean something else in Fortran, where each thread has a partial result of its own in place
/// of the cell, and blocks that are not ours.
#[test]
fn what_fortran_has_no_directive_for() {
    let has = |clauses: &str, body: &str| {
        let text = format!(
            "integer x, a(4)\n!$omp parallel do num_threads(2) {clauses}\ndo i = 1, 4\n{body}\nend do\n"
        );
        fortran_of_all(&[(text.as_bytes(), &[1; 5])], Threads::Many).is_some()
    };
    for (clauses, body) in [
        ("reduction(+:x)", "x = x - a(i)"),
        ("reduction(*:x) shared(a)", "x = x*a(i)"),
        ("reduction(max:x) schedule(static)", "x = max(x, a(i))"),
        ("", "a(i) = i"),
    ] {
        assert!(has(clauses, body), "{clauses} {body}");
    }
    for (clauses, body) in [
        ("reduction(*:x)", "x = i"),
        ("reduction(max:x)", "a(i) = x"),
        ("reduction(*:x)", "x = x*a(i)*x"),
        ("reduction(*:x)", "x = x + a(i)"),
        ("lastprivate(x)", "x = i"),
        ("firstprivate(x) lastprivate(x)", "x = i"),
        ("", "x = i"),
        ("schedule(static)", "a(max(1, i - 1)) = i"),
        ("reduction(*:x)", "x = x*(1/(i - 2))"),
    ] {
        assert!(!has(clauses, body), "{clauses} {body}");
    }
}
