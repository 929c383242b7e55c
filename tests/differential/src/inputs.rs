//! What the entries are given: each input to every entry that takes it, with rooms that are too short, just enough and more.

use crate::compare::Comparison;
use sides::random::Random;
use sides::{line_of, written, EVERY_PAGE, MOST_WANTED, REFERENCE};

/// Rooms around the length of a result; a refused call gets some all the same.
fn rooms(result: &Result<Vec<u8>, i64>) -> Vec<usize> {
    match result {
        Ok(result) if result.is_empty() => vec![0, 5],
        Ok(result) => vec![result.len() - 1, result.len(), result.len() + 9],
        Err(_) => vec![0, 300],
    }
}

/// A code, good or bad, to every entry that takes one.
pub fn code(comparison: &mut Comparison, code: &[u8]) {
    comparison.accept(code);
    comparison.table_count(code);
    for room in rooms(&written(|out| (REFERENCE.successor)(code, out))) {
        comparison.successor(code, room);
    }
    for room in rooms(&written(|out| (REFERENCE.predecessor)(code, out))) {
        comparison.predecessor(code, room);
    }
    for room in rooms(&written(|out| (REFERENCE.map_of_code)(code, out))) {
        comparison.map_of_code(code, room);
    }
    line_out(comparison, code);
    for wanted in [0, 3, MOST_WANTED + 1] {
        page(comparison, code, wanted);
    }
    let components = components_said(code);
    for position in [0, components / 2, components.saturating_sub(1), components, usize::MAX] {
        comparison.component(code, position);
    }
}

/// A code, good or bad, that goes out as a digraph6 line.
pub fn line_out(comparison: &mut Comparison, code: &[u8]) {
    for room in rooms(&line_of(&REFERENCE, code)) {
        comparison.digraph6_of_code(code, room);
    }
}

/// A digraph6 line, good or bad, that comes in.
pub fn line_in(comparison: &mut Comparison, line: &[u8]) {
    for room in rooms(&written(|out| (REFERENCE.code_of_digraph6)(line, out))) {
        comparison.code_of_digraph6(line, room);
    }
}

/// The second number, which in a code is that of its components; 0 where there is none.
fn components_said(code: &[u8]) -> usize {
    let first = code.first().map_or(0, |&low| if low < 128 { 1 } else { 2 });
    match code.get(first..) {
        Some([low, ..]) if *low < 128 => *low as usize,
        Some([low, high, ..]) => *low as usize - 128 + 128 * *high as usize,
        _ => 0,
    }
}

/// Every position of a code, good or bad, and the one after the last.
pub fn every_component(comparison: &mut Comparison, code: &[u8]) {
    for position in 0..=components_said(code) {
        comparison.component(code, position);
    }
}

/// A page after a code, good or bad, also with no room and with half of what it takes.
pub fn page(comparison: &mut Comparison, code: &[u8], wanted: usize) {
    let mut out = vec![0; wanted.min(MOST_WANTED) * (EVERY_PAGE / MOST_WANTED)];
    let length = (REFERENCE.page)(code, wanted, &mut out).bytes;
    out.truncate(length.max(0) as usize);
    let short = [0, out.len() / 2].into_iter().filter(|_| length > 0);
    for room in short.chain(rooms(&if length < 0 { Err(length) } else { Ok(out) })) {
        comparison.page(code, wanted, room);
    }
}

/// A table, good or bad, to every entry that takes one.
pub fn table(comparison: &mut Comparison, table: &[u8]) {
    for room in rooms(&written(|out| (REFERENCE.code_of_map)(table, out))) {
        comparison.code_of_map(table, room);
    }
    census(comparison, table);
    comparison.height(table);
    comparison.period(table);
}

/// Every table of n points.
pub fn every_table(n: usize) -> impl Iterator<Item = Vec<u8>> {
    (0..n.pow(n as u32)).map(move |number| (0..n).map(|x| (number / n.pow(x as u32) % n) as u8).collect())
}

/// The two lists of a census with every shape of room.
fn census(comparison: &mut Comparison, table: &[u8]) {
    let rows = (REFERENCE.census)(table, &mut [0; 200], &mut [0; 200]).max(1) as usize;
    for (room, other) in [(rows, rows), (rows - 1, rows), (rows, rows - 1), (19, 19), (0, 30)] {
        comparison.census(table, room, other);
    }
}

/// Two tables, good or bad, in both orders.
pub fn two_tables(comparison: &mut Comparison, f: &[u8], g: &[u8]) {
    for room in rooms(&written(|out| (REFERENCE.isomorphism)(f, g, out))) {
        comparison.isomorphism(f, g, room);
        comparison.isomorphism(g, f, room);
    }
}

/// Two codes, good or bad.
pub fn two_codes(comparison: &mut Comparison, a: &[u8], b: &[u8]) {
    for room in rooms(&written(|out| (REFERENCE.sum)(a, b, out))) {
        comparison.sum(a, b, room);
    }
    for room in rooms(&written(|out| (REFERENCE.product)(a, b, out))) {
        comparison.product(a, b, room);
    }
}

/// Bytes at which the forms of numbers, or the counts, change.
pub const EDGES: [u8; 12] = [0, 1, 2, 3, 126, 127, 128, 129, 199, 200, 201, 255];

/// A byte that is likely to hurt: an edge, one near the old byte, or any.
fn hurting_byte(old: u8, random: &mut Random) -> u8 {
    match random.below(4) {
        0 => *random.pick(&EDGES),
        1 => old.wrapping_add(1),
        2 => old.wrapping_sub(1),
        _ => random.byte(),
    }
}

/// A number below 128 in the form of two bytes, which is refused.
fn longer_form(code: &mut Vec<u8>, place: usize) {
    code[place] |= 128;
    code.insert(place + 1, 0);
}

/// Damages bytes at one place: changed, left out, put in, exchanged, in a longer form, cut off, or with more behind.
pub fn damage(bytes: &mut Vec<u8>, random: &mut Random) {
    if bytes.is_empty() {
        return bytes.push(random.byte());
    }
    let (place, other) = (random.below(bytes.len()), random.below(bytes.len()));
    let hurting = hurting_byte(bytes[place], random);
    match random.below(8) {
        0 | 1 => bytes[place] = hurting,
        2 => drop(bytes.remove(place)),
        3 => bytes.insert(place, hurting),
        4 => bytes.swap(place, other),
        5 => longer_form(bytes, place),
        6 => bytes.truncate(place),
        _ => bytes.push(hurting),
    }
}

/// Exchanges two stretches that stand side by side, as two trees or components may be.
pub fn exchange(bytes: &mut [u8], random: &mut Random) {
    let mut ends = [random.below(bytes.len() + 1), random.below(bytes.len() + 1), random.below(bytes.len() + 1)];
    ends.sort();
    bytes[ends[0]..ends[2]].rotate_left(ends[1] - ends[0]);
}

/// Bytes of no special form: any, small ones, or a short pattern over and over.
pub fn noise(length: usize, random: &mut Random) -> Vec<u8> {
    let most = *random.pick(&[2, 3, 5, 20, 130, 256]);
    let period = if random.below(3) == 0 { 1 + random.below(6) } else { length.max(1) };
    let pattern: Vec<u8> = (0..period).map(|_| random.below(most) as u8).collect();
    pattern.into_iter().cycle().take(length).collect()
}
