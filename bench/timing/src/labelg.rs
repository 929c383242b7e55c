//! nauty's labelg: a canonical labelling of each map as a digraph, for which the code of a map stands here.

use crate::clock::children_seconds;
use crate::work::code_of_map;
use crate::{best, digits};
use sides::code_of;
use sides::lines::line;
use sides::maps::{shuffled, Kind, KINDS};
use sides::random::Random;
use std::collections::HashMap;
use std::path::Path;
use std::process::Command;

/// A run that takes longer is ended and not counted.
const LIMIT_SECONDS: &str = "10";
const ROUNDS: usize = 3;

/// nauty's guide advises the invariant "adjacencies" (13) for digraphs. Without it, or at the first level alone, 100 random maps of 50 points take more than 5
/// seconds. The dense and the sparse form are both tried.
const OPTIONS: [&[&str]; 2] = [&["-q", "-i13", "-I0:1000"], &["-q", "-i13", "-I0:1000", "-S"]];

/// The program, under the name that the distribution gives it.
fn program() -> Option<&'static str> {
    ["nauty-labelg", "labelg"].into_iter().find(|name| Command::new(name).arg("-help").output().is_ok())
}

/// The seconds taken and the canonical forms of the maps of a file, or nothing if the limit was reached.
fn labelled(program: &str, options: &[&str], file: &Path) -> Option<(f64, Vec<String>)> {
    let start = children_seconds();
    let run = Command::new("timeout").args([LIMIT_SECONDS, program]).args(options).arg(file).output().expect("timeout runs");
    let seconds = children_seconds() - start;
    let forms = || String::from_utf8_lossy(&run.stdout).lines().map(String::from).collect();
    run.status.success().then(|| (seconds, forms()))
}

/// The best of several runs; the forms are compared with the codes.
fn best_run(program: &str, options: &[&str], tables: &[Vec<u8>], file: &Path) -> Option<f64> {
    let mut best = f64::INFINITY;
    for _ in 0..ROUNDS {
        let (seconds, forms) = labelled(program, options, file)?;
        assert!(consistent(tables, &forms), "labelg and the codes differ");
        best = seconds.min(best);
    }
    Some(best)
}

/// Equal forms exactly where the codes are equal.
fn consistent(tables: &[Vec<u8>], forms: &[String]) -> bool {
    let (mut form_of, mut code_by) = (HashMap::new(), HashMap::new());
    tables.len() == forms.len()
        && tables.iter().zip(forms).all(|(table, form)| {
            let code = code_of(table);
            form_of.entry(code.clone()).or_insert_with(|| form.clone()) == form && *code_by.entry(form.clone()).or_insert_with(|| code.clone()) == code
        })
}

/// Maps of a kind, each with a shuffled copy.
fn tables((_, kind): Kind, n: usize, pairs: usize) -> Vec<Vec<u8>> {
    let random = &mut Random::new(3);
    let maps: Vec<Vec<u8>> = (0..pairs).map(|_| kind(n, random)).collect();
    let copies: Vec<Vec<u8>> = maps.iter().map(|table| shuffled(table, random)).collect();
    [maps, copies].concat()
}

fn row(program: &str, kind: Kind, n: usize, pairs: usize, file: &Path) {
    let tables = tables(kind, n, pairs);
    let lines: Vec<u8> = tables.iter().flat_map(|table| [line(table), vec![b'\n']].concat()).collect();
    std::fs::write(file, lines).expect("a file for labelg");
    let work = code_of_map(kind.0, tables.clone());
    assert!((work.agree)(), "the two sides differ: {}", kind.0);
    let [engine, reference] = best(&work);
    let runs = OPTIONS.iter().filter_map(|options| best_run(program, options, &tables, file));
    let labelg = match runs.min_by(f64::total_cmp) {
        None => "over the limit | |".into(),
        Some(seconds) => {
            let each = seconds * 1e6 / work.calls as f64;
            format!("{} | {:.4} |", digits(each), engine / each)
        }
    };
    println!("| {} | {n} | {} | {} | {} | {labelg}", kind.0, work.calls, digits(engine), digits(reference));
}

/// The table, through a file of this name that is written and read.
pub fn table(file: &Path) {
    println!("\n## Code of a map, and labelg on the same maps as digraphs\n");
    let Some(program) = program() else {
        println!("labelg is not installed (package nauty), so it was not run.");
        return;
    };
    println!(
        "A labelg run reads a file of maps, each with a shuffled copy, and writes the canonical forms; it is one process, and its start is counted. It has the"
    );
    println!("invariant that nauty's guide advises for digraphs, and the better of the dense and the sparse form counts. A run of more than {LIMIT_SECONDS} seconds is");
    println!("ended. Equal forms stood exactly where the codes are equal.\n");
    println!("| maps | points | calls | engine, µs a call | reference, µs a call | labelg, µs a map | engine / labelg |");
    println!("|---|---:|---:|---:|---:|---:|---:|");
    for (n, pairs) in [(10, 2000), (20, 1000), (50, 500), (100, 200), (200, 100)] {
        row(program, KINDS[0], n, pairs, file);
    }
    for kind in &KINDS[1..] {
        row(program, *kind, 200, 10, file);
    }
}
