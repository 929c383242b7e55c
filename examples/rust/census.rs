//! census: prints the census of some maps, the number of cycles of each length that occurs, by rising length; then the height.

#[allow(dead_code)]
mod lethmuok;

use lethmuok::{Reply, MAX_ENTRIES};

fn number(reply: Reply) -> usize {
    match reply {
        Reply::Number(number) => number,
        other => panic!("{other:?}"),
    }
}

fn print_census(name: &str, table: &[u8]) {
    let (mut lengths, mut counts) = ([0; MAX_ENTRIES], [0; MAX_ENTRIES]);
    let rows = number(lethmuok::census(table, &mut lengths, &mut counts));
    print!("{name}:");
    for (length, count) in lengths.iter().zip(counts).take(rows) {
        print!(" {count} of {length},");
    }
    println!(" height {}", number(lethmuok::height(table)));
}

/// A cycle of 29 points, and then cycles of 18, 17 and so on to 1: 200 points.
fn falling() -> Vec<u8> {
    let mut table = Vec::new();
    for length in std::iter::once(29).chain((1..=18).rev()) {
        let start = table.len();
        table.extend((0..length).map(|i| (start + (i + 1) % length) as u8));
    }
    table
}

fn main() {
    print_census("1 0 2 2", &[1, 0, 2, 2]);
    print_census("1 2 0 4 3 5", &[1, 2, 0, 4, 3, 5]);
    print_census("no points", &[]);
    print_census("200 points, 19 lengths", &falling());
}
