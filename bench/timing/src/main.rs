//! Engine and reference implementation on the same work, in turn, and nauty's labelg on the part that it can do. Prints tables in Markdown.
//!
//! Named a file, it runs labelg through that file too. Every time is the best of several rounds. What is timed is also compared; a difference ends the run.

mod clock;
mod labelg;
mod work;

use clock::own_seconds;
use sides::{Side, ENGINE, HAS_DIGRAPH6, HAS_GREATEST_PERIOD, HAS_PAGE, HAS_PERIOD, HAS_PREDECESSOR, HAS_SUM, HAS_TABLE_COUNT, HAS_TURNS, REFERENCE};
use work::Work;

/// Each work is repeated so often, what is compared taking turns.
const ROUNDS: usize = 15;

/// The best time of each side for one call of its work, in microseconds.
fn in_turn<const N: usize>(runs: [(&Work, &Side); N]) -> [f64; N] {
    let mut best = [f64::INFINITY; N];
    for _ in 0..ROUNDS {
        for (best, (work, side)) in best.iter_mut().zip(runs) {
            let start = own_seconds();
            std::hint::black_box((work.run)(side));
            *best = best.min((own_seconds() - start) * 1e6 / work.calls as f64);
        }
    }
    best
}

/// The best time of engine and reference for one call of the work.
pub fn best(work: &Work) -> [f64; 2] {
    in_turn([(work, &ENGINE), (work, &REFERENCE)])
}

/// A time with two or three digits that count. Some are left of the shortest time too, since `bench/against` divides by it.
pub fn digits(time: f64) -> String {
    match time {
        t if t >= 100.0 => format!("{t:.0}"),
        t if t >= 10.0 => format!("{t:.1}"),
        t if t >= 0.1 => format!("{t:.2}"),
        t => format!("{t:.4}"),
    }
}

fn row(work: &Work) {
    assert!((work.agree)(), "the two sides differ: {}", work.name);
    let [engine, reference] = best(work);
    println!("| {} | {} | {} | {} | {:.2} |", work.name, work.calls, digits(engine), digits(reference), engine / reference);
}

fn table(title: &str, works: Vec<Work>) {
    println!("\n## {title}\n");
    println!("| work | calls | engine, µs a call | reference, µs a call | engine / reference |");
    println!("|---|---:|---:|---:|---:|");
    works.iter().for_each(row);
}

/// The engine's steps back beside its steps forward: the same steps back, and steps back from the same codes.
fn steps_back() {
    println!("\n## Predecessor and successor of the engine on codes of 200 points\n");
    println!("| work | successor, µs a call | the same steps back, µs a call | / successor | back from the same codes, µs a call | / successor |");
    println!("|---|---:|---:|---:|---:|---:|");
    for ((forward, returns), before) in work::successors().iter().zip(&work::returns()).zip(&work::predecessors()) {
        let [f, r, b] = in_turn([forward, returns, before].map(|work| (work, &ENGINE)));
        println!("| {} | {} | {} | {:.2} | {} | {:.2} |", forward.name, digits(f), digits(r), r / f, digits(b), b / f);
    }
}

fn main() {
    table("Listing", vec![work::listing(12)]);
    table("Successors of codes of 200 points", work::successors());
    if HAS_PREDECESSOR {
        table("Predecessors of codes of 200 points, the same steps back", work::returns());
        table("Predecessors of codes of 200 points, from the same codes", work::predecessors());
        steps_back();
    }
    if HAS_PAGE {
        table("Pages of up to 1,000 codes of 200 points", work::pages());
    }
    table("Code of a map of 200 points", work::codes());
    if HAS_DIGRAPH6 {
        table("digraph6 lines: codes that go out, and lines that come in", work::lines());
    }
    if HAS_SUM {
        table("Sum and product of two codes, with results of 196 to 200 points", work::sums());
    }
    table("Isomorphism of two maps of 200 points", work::isomorphisms());
    table("Census of a map of 200 points", work::censuses());
    if HAS_PERIOD {
        table("Period of a map of 120 points", work::periods());
    }
    if HAS_GREATEST_PERIOD {
        table("Greatest period of up to 120 points, and a code that has it", work::greatest_periods());
    }
    table("Accept, on codes of 200 points and on other bytes", work::acceptances());
    table("Where the components of codes of 200 points begin", work::starts_of_components());
    if HAS_TURNS {
        table("Turns of the components of codes of 200 points", work::turns_of_components());
    }
    if HAS_TABLE_COUNT {
        table("Number of tables of codes of 15 points", work::table_counts());
    }
    table("Other entries on random maps of 200 points", work::others());
    if let Some(file) = std::env::args().nth(1) {
        labelg::table(file.as_ref());
    }
}
