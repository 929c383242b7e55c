//! sums: prints some sums and products of codes, and both sides of a law; of long results only their points.

#[allow(dead_code)]
mod lethmuok;

use lethmuok::{Reply, MAX_CODE};

const EMPTY: &[u8] = &[0, 0];
const POINT: &[u8] = &[1, 1, 1, 1];
const TWO: &[u8] = &[2, 1, 2, 1, 1];
const THREE: &[u8] = &[3, 1, 3, 1, 1, 1];
const LEAF: &[u8] = &[2, 1, 1, 2, 1];
const PATH: &[u8] = &[3, 1, 1, 3, 2, 1];

/// What a call wrote, or the word for its refusal.
fn written(call: impl FnOnce(&mut [u8]) -> Reply) -> Result<Vec<u8>, String> {
    let mut out = [0; MAX_CODE];
    match call(&mut out) {
        Reply::Number(length) => Ok(out[..length].to_vec()),
        Reply::Refused(cause) => Err(format!("refused {}", cause as u8)),
        Reply::Last | Reply::Lacking => unreachable!("these entries say no such thing"),
    }
}

fn sum(a: &[u8], b: &[u8]) -> Result<Vec<u8>, String> {
    written(|out| lethmuok::sum_of_codes(a, b, out))
}

fn product(a: &[u8], b: &[u8]) -> Result<Vec<u8>, String> {
    written(|out| lethmuok::product_of_codes(a, b, out))
}

fn words(code: &[u8]) -> String {
    code.iter().map(u8::to_string).collect::<Vec<_>>().join(" ")
}

/// What is shown of a result, or the refusal.
fn shown(result: Result<Vec<u8>, String>, show: fn(&[u8]) -> String) -> String {
    result.map_or_else(|word| word, |code| show(&code))
}

fn print_sum(a: &[u8], b: &[u8]) {
    println!("{} + {}: {}", words(a), words(b), shown(sum(a, b), words));
}

fn print_product(a: &[u8], b: &[u8]) {
    println!("{} * {}: {}", words(a), words(b), shown(product(a, b), words));
}

/// The product with a sum, and the sum of the products, whose results go on as inputs.
fn print_law(a: &[u8], b: &[u8], c: &[u8]) {
    let whole = sum(a, b).and_then(|both| product(&both, c));
    let parts = product(a, c).and_then(|left| sum(&left, &product(b, c)?));
    let [a, b, c] = [a, b, c].map(words);
    println!("({a} + {b}) * {c}: {}", shown(whole, words));
    println!("{a} * {c} + {b} * {c}: {}", shown(parts, words));
}

fn points(code: &[u8]) -> String {
    let Reply::Number(points) = lethmuok::accept(code) else { panic!("a code") };
    format!("{points} points")
}

fn print_cycles(n: usize, m: usize) {
    let cycle = |k: usize| {
        let table: Vec<u8> = (0..k).map(|x| ((x + 1) % k) as u8).collect();
        written(|out| lethmuok::code_of_map(&table, out)).expect("a table")
    };
    let (a, b) = (cycle(n), cycle(m));
    println!("cycles of {n} and {m} points: sum {}, product {}", shown(sum(&a, &b), points), shown(product(&a, &b), points));
}

fn main() {
    print_sum(TWO, PATH);
    print_sum(PATH, TWO);
    print_sum(PATH, EMPTY);
    print_sum(EMPTY, EMPTY);
    print_product(TWO, THREE);
    print_product(TWO, TWO);
    print_product(LEAF, LEAF);
    print_product(PATH, TWO);
    print_product(PATH, POINT);
    print_product(PATH, EMPTY);
    print_law(TWO, PATH, LEAF);
    print_sum(&[3, 1, 2, 2, 1, 1], &[129, 0]);
    print_product(TWO, &[2, 1, 2, 1, 1, 9]);
    print_cycles(14, 14);
    print_cycles(100, 100);
    print_cycles(200, 1);
    print_cycles(199, 2);
}
