//! turns: prints some codes with their components, and of each how many of its rotations equal it; of long components only that number.

#[allow(dead_code)]
mod lethmuok;

use lethmuok::{Reply, MAX_CODE};

fn words(bytes: &[u8]) -> String {
    bytes.iter().map(u8::to_string).collect::<Vec<_>>().join(" ")
}

/// The number of turns, or the refusal.
fn turns(code: &[u8], position: usize) -> String {
    match lethmuok::component_turns(code, position) {
        Reply::Number(turns) => turns.to_string(),
        Reply::Refused(cause) => format!("refused {}", cause as u8),
        Reply::Last | Reply::Lacking => unreachable!("this entry says no such thing"),
    }
}

/// Each component, up to the position after the last.
fn print_components(code: &[u8]) {
    println!("{}", words(code));
    for position in 0.. {
        let Ok(part) = lethmuok::component(code, position) else { break };
        println!("  {}: {}", words(part), turns(code, position));
    }
}

fn print_turns(code: &[u8], position: usize) {
    println!("{} at {position}: {}", words(code), turns(code, position));
}

/// So many points on a cycle and so many leaves, each so far along from the one before, around as often as it takes.
fn print_leaves(cycle: usize, leaves: usize, apart: usize) {
    let images = (0..cycle).map(|x| (x + 1) % cycle).chain((0..leaves).map(|x| x * apart % cycle));
    let table: Vec<u8> = images.map(|image| image as u8).collect();
    let mut out = [0; MAX_CODE];
    let Reply::Number(length) = lethmuok::code_of_map(&table, &mut out) else { panic!("a table") };
    println!("{cycle} points on a cycle, {leaves} leaves {apart} apart: {}", turns(&out[..length], 0));
}

fn main() {
    print_components(&[3, 1, 3, 1, 1, 1]);
    print_components(&[3, 1, 2, 1, 2, 1]);
    print_components(&[6, 1, 4, 1, 2, 1, 1, 2, 1]);
    print_components(&[7, 1, 4, 1, 2, 1, 1, 3, 1, 1]);
    print_components(&[11, 4, 1, 1, 3, 1, 1, 1, 2, 1, 2, 1, 2, 2, 1, 2, 1]);
    print_components(&[0, 0]);
    print_turns(&[3, 1, 3, 1, 1, 1], 1);
    print_turns(&[6, 1, 4, 2, 1, 1, 2, 1, 1], 0);
    print_leaves(200, 0, 1);
    print_leaves(100, 100, 1);
    print_leaves(100, 99, 1);
    print_leaves(150, 50, 3);
    print_leaves(150, 49, 3);
    print_leaves(100, 60, 5);
}
