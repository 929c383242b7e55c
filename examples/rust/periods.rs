//! periods: prints the period of some maps, the number of steps that bring each point back once every point is on a cycle.

#[allow(dead_code)]
mod lethmuok;

use lethmuok::MAX_PERIOD_POINTS;

fn print_period(name: &str, table: &[u8]) {
    match lethmuok::period(table) {
        Ok(period) => println!("{name}: {period}"),
        Err(cause) => println!("{name}: refused {}", cause as u8),
    }
}

/// Cycles of these lengths, one after another.
fn with_cycles(lengths: &[usize]) -> Vec<u8> {
    let mut table = Vec::new();
    for &length in lengths {
        let start = table.len();
        table.extend((0..length).map(|x| (start + (x + 1) % length) as u8));
    }
    table
}

fn main() {
    let mut star = [0; 201];
    print_period("1 0 3 4 2", &[1, 0, 3, 4, 2]);
    print_period("1 0 3 4 2 2", &[1, 0, 3, 4, 2, 2]);
    print_period("1 2 3 0 5 4", &[1, 2, 3, 0, 5, 4]);
    print_period("1 0 2 2", &[1, 0, 2, 2]);
    print_period("no points", &[]);
    // the greatest period of all, which takes more than 32 bits
    print_period("120 points, cycles of 5, 7, 9, 11, 13, 16, 17, 19 and 23", &with_cycles(&[5, 7, 9, 11, 13, 16, 17, 19, 23]));
    print_period("120 points that go to one", &star[..MAX_PERIOD_POINTS]);
    print_period("121 points that go to one", &star[..MAX_PERIOD_POINTS + 1]);
    // a byte that is no point is told last
    star[0] = 255;
    print_period("120 points, a byte that is none of them", &star[..MAX_PERIOD_POINTS]);
    print_period("121 points, a byte that is none of them", &star[..MAX_PERIOD_POINTS + 1]);
    print_period("201 points, a byte that is none of them", &star);
    print_period("1 0 3", &[1, 0, 3]);
}
