//! back: prints some codes, those that follow, and the way back; of long codes only whether the way back ends where it began.

#[allow(dead_code)]
mod lethmuok;

use lethmuok::{Predecessor, Reply, MAX_CODE};

/// A neighbour in the list, or the word for there being none, or for a refusal.
type Step = fn(&[u8]) -> Result<Vec<u8>, String>;

fn forward(code: &[u8]) -> Result<Vec<u8>, String> {
    let mut out = [0; MAX_CODE];
    match lethmuok::successor(code, &mut out) {
        Reply::Number(length) => Ok(out[..length].to_vec()),
        Reply::Refused(cause) => Err(format!("refused {}", cause as u8)),
        Reply::Last | Reply::Lacking => Err("last".into()),
    }
}

fn back(code: &[u8]) -> Result<Vec<u8>, String> {
    let mut out = [0; MAX_CODE];
    match lethmuok::predecessor(code, &mut out) {
        Predecessor::Length(length) => Ok(out[..length].to_vec()),
        Predecessor::First => Err("first".into()),
        Predecessor::Refused(cause) => Err(format!("refused {}", cause as u8)),
    }
}

fn words(code: &[u8]) -> String {
    code.iter().map(u8::to_string).collect::<Vec<_>>().join(" ")
}

fn print_before(code: &[u8]) {
    println!("before {}: {}", words(code), back(code).map_or_else(|word| word, |before| words(&before)));
}

/// At most so many steps, as far as there are neighbours: where they lead, and how many were made.
fn print_walk(name: &str, step: Step, mut code: Vec<u8>, steps: usize) -> (Vec<u8>, usize) {
    for made in 0..steps {
        let reached = step(&code);
        println!("  {name}: {}", reached.as_ref().map_or_else(String::clone, |reached| words(reached)));
        match reached {
            Ok(reached) => code = reached,
            Err(_) => return (code, made),
        }
    }
    (code, steps)
}

/// At most so many steps forward, up to "last", and as many back.
fn print_steps(code: &[u8], steps: usize) {
    println!("from {}", words(code));
    let (reached, made) = print_walk("forward", forward, code.to_vec(), steps);
    print_walk("back", back, reached, made);
}

fn print_cycle(name: &str, n: usize, steps: usize) {
    let table: Vec<u8> = (0..n).map(|x| ((x + 1) % n) as u8).collect();
    let mut out = [0; MAX_CODE];
    let Reply::Number(length) = lethmuok::code_of_map(&table, &mut out) else { panic!("a table") };
    let start = &out[..length];
    let walk = |step: Step, code: Vec<u8>| (0..steps).fold(code, |code, _| step(&code).expect("a neighbour"));
    let same = walk(back, walk(forward, start.to_vec())) == start;
    println!("{name}, {steps} steps forward and back: {}", if same { "the same code" } else { "ANOTHER code" });
}

fn main() {
    print_steps(&[8, 3, 2, 1, 1, 1, 3, 2, 1, 2, 1, 2, 1], 3);
    print_steps(&[3, 1, 1, 3, 2, 1], 5);
    print_before(&[3, 1, 3, 1, 1, 1]);
    print_before(&[3, 3, 1, 1, 1, 1, 1, 1]);
    print_before(&[0, 0]);
    print_before(&[3, 1, 2, 2, 1, 1]);
    print_cycle("200 points on a cycle", 200, 1000);
}
