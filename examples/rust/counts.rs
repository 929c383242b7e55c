//! counts: prints the codes of 3 points, each with the number of tables that have it; of each count of points up to 8 how many codes there are and how many tables
//! these have together; and the number of tables of some longer codes.

#[allow(dead_code)]
mod lethmuok;

use lethmuok::{Reply, MAX_CODE};

fn words(bytes: &[u8]) -> String {
    bytes.iter().map(u8::to_string).collect::<Vec<_>>().join(" ")
}

/// The code that a call writes, unless it says that there is none.
fn written(call: impl FnOnce(&mut [u8]) -> Reply) -> Option<Vec<u8>> {
    let mut out = [0; MAX_CODE];
    match call(&mut out) {
        Reply::Number(length) => Some(out[..length].to_vec()),
        _ => None,
    }
}

fn first_of(n: usize) -> Vec<u8> {
    written(|out| lethmuok::first(n, out)).expect("a first code")
}

/// All codes of n points.
fn list(n: usize) -> impl Iterator<Item = Vec<u8>> {
    std::iter::successors(Some(first_of(n)), |code| written(|out| lethmuok::successor(code, out)))
}

fn print_count(code: &[u8]) {
    match lethmuok::table_count(code) {
        Ok(tables) => println!("{}: {tables}", words(code)),
        Err(cause) => println!("{}: refused {}", words(code), cause as u8),
    }
}

/// Over the whole list the numbers make n to the power n.
fn print_total(n: usize) {
    let (mut codes, mut tables) = (0, 0);
    for code in list(n) {
        codes += 1;
        tables += lethmuok::table_count(&code).expect("a code of few points");
    }
    println!("{n} points: {codes} codes, {tables} tables");
}

/// Every point goes to the one before it, and the first to itself.
fn print_path(n: u8) {
    let table: Vec<u8> = (0..n).map(|x| x.saturating_sub(1)).collect();
    print_count(&written(|out| lethmuok::code_of_map(&table, out)).expect("a table"));
}

fn main() {
    list(3).for_each(|code| print_count(&code));
    (0..=8).for_each(print_total);
    // a path looks like itself in one way only, so each of the 15! ways to name its points gives another table
    print_path(15);
    print_count(&[15, 1, 15, 1, 1, 1, 1, 1, 1, 1, 1, 1, 1, 1, 1, 1, 1, 1]);
    print_count(&[15, 1, 1, 15, 1, 1, 1, 1, 1, 1, 1, 1, 1, 1, 1, 1, 1, 1]);
    print_count(&[15, 3, 1, 5, 2, 1, 2, 1, 1, 5, 2, 1, 2, 1, 1, 5, 2, 1, 2, 1]);
    print_count(&first_of(15));
    print_count(&first_of(16));
    print_path(16);
    print_count(&[16, 1, 2, 2, 1, 14, 13, 12, 11, 10, 9, 8, 7, 6, 5, 4, 3, 2, 1]);
    print_count(&[16, 1, 2, 14, 13, 12, 11, 10, 9, 8, 7, 6, 5, 4, 3, 2, 1, 2, 1]);
}
