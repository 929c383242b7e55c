//! page: prints some pages of codes, each code on a line of its own; of a long page only how many codes and bytes it has.

#[allow(dead_code)]
mod lethmuok;

use lethmuok::{Reply, MAX_CODE, MAX_WANTED};

const LONG: usize = 10;

/// The length of the code that begins here: its number of points n, its number of components m, and n + m numbers more, each of one byte, or from 128 on of two.
fn code_length(page: &[u8]) -> usize {
    let (mut length, mut i, mut numbers) = (0, 0, 2);
    while i < numbers {
        let low = page[length] as usize;
        let (number, bytes) = if low < 128 { (low, 1) } else { (low - 128 + 128 * page[length + 1] as usize, 2) };
        length += bytes;
        numbers += if i < 2 { number } else { 0 };
        i += 1;
    }
    length
}

fn print_codes(mut page: &[u8]) {
    while !page.is_empty() {
        let (code, rest) = page.split_at(code_length(page));
        print!(" ");
        code.iter().for_each(|byte| print!(" {byte}"));
        println!();
        page = rest;
    }
}

fn print_page(name: &str, code: &[u8], wanted: usize) {
    let mut out = vec![0; MAX_WANTED * MAX_CODE];
    print!("{name}, {wanted} wanted: ");
    match lethmuok::page(code, wanted, &mut out) {
        Err(cause) => println!("refused {}", cause as u8),
        Ok(page) => {
            println!("{} codes, {} bytes", page.codes, page.bytes);
            if page.codes < LONG {
                print_codes(&out[..page.bytes]);
            }
        }
    }
}

fn print_cycle(name: &str, n: usize, wanted: usize) {
    let table: Vec<u8> = (0..n).map(|x| ((x + 1) % n) as u8).collect();
    let mut code = [0; MAX_CODE];
    match lethmuok::code_of_map(&table, &mut code) {
        Reply::Number(length) => print_page(name, &code[..length], wanted),
        other => panic!("{other:?}"),
    }
}

fn main() {
    print_page("3 2 1 1 1 2 1", &[3, 2, 1, 1, 1, 2, 1], 2);
    print_page("3 2 1 1 1 2 1", &[3, 2, 1, 1, 1, 2, 1], 1000);
    print_page("3 1 2 1 2 1", &[3, 1, 2, 1, 2, 1], 1000);
    print_page("3 1 2 2 1 1", &[3, 1, 2, 2, 1, 1], 1000);
    print_page("3 1 2 2 1 1", &[3, 1, 2, 2, 1, 1], 1001);
    print_cycle("128 points on a cycle", 128, 2);
    print_cycle("200 points on a cycle", 200, 1000);
}
