//! digraph6 lines (document 02, paper 10: digraph6 in and out): what both sides are given, and what holds of the engine's own replies.

use crate::compare::Comparison;
use crate::inputs::{self, line_in, line_out};
use crate::{any_count, codes};
use sides::lines::{body, change, line, shortest, size, FORMS};
use sides::maps::{is_isomorphism, shuffled, uniform, KINDS, PERIODIC};
use sides::random::Random;
use sides::{code_of, line_of, written, ENGINE, EVERY_CODE, EVERY_LINE, REFERENCE};
use std::fmt::Write;

/// Bytes at the edges of the format and around the sign, and some far from both.
const EDGES: [u8; 14] = [0, 10, 37, 38, 39, 62, 63, 64, 95, 125, 126, 127, 128, 255];

/// Bytes outside of the format. The sign is not among them, so that no line begins with them.
const OUTSIDE: [u8; 5] = [0, 10, 62, 127, 255];

/// Numbers of points with a size of one byte and of four. The matrix of each leaves padding bits.
const COUNTS: [usize; 16] = [2, 3, 4, 5, 7, 10, 20, 61, 62, 63, 64, 65, 100, 128, 199, 200];

const LINE_FORM: i64 = -14;
const OUT_DEGREE: i64 = -15;

fn read(line: &[u8]) -> Result<Vec<u8>, i64> {
    written(|out| (ENGINE.code_of_digraph6)(line, out))
}

/// The engine writes what a law asks for.
fn expect(comparison: &mut Comparison, entry: &str, given: &[u8], found: Result<Vec<u8>, i64>, expected: &[u8]) {
    let agree = found.as_deref() == Ok(expected);
    comparison.count(entry, agree, |text| write!(text, "{found:?}, expected {expected:?}, given {given:?}").unwrap());
}

/// A line of which is known whether it is refused, and why: both sides, and what the engine tells.
fn judged(comparison: &mut Comparison, line: &[u8], room: usize, refusal: Option<i64>) {
    comparison.code_of_digraph6(line, room);
    let reply = (ENGINE.code_of_digraph6)(line, &mut vec![0; room]);
    comparison.count("code_of_digraph6", refusal.map_or(reply > 0, |cause| reply == cause), |text| {
        write!(text, "{reply}, refusal {refusal:?}, room {room}, line {line:?}").unwrap()
    });
}

fn no_line(comparison: &mut Comparison, bytes: &[u8]) {
    judged(comparison, bytes, EVERY_CODE, Some(LINE_FORM));
}

/// What holds of a map: its line and that of a renamed copy have its code, and what goes out again is the line of the map that this code has, a renamed graph.
fn of_map(comparison: &mut Comparison, table: &[u8], random: &mut Random) {
    let code = code_of(table);
    for given in [line(table), line(&shuffled(table, random))] {
        line_in(comparison, &given);
        expect(comparison, "code_of_digraph6", &given, read(&given), &code);
    }
    line_out(comparison, &code);
    let map = written(|out| (ENGINE.map_of_code)(&code, out)).expect("a map");
    expect(comparison, "digraph6_of_code", &code, line_of(&ENGINE, &code), &line(&map));
    let renaming = written(|out| (ENGINE.isomorphism)(table, &map, out)).unwrap_or_default();
    comparison.count("digraph6_of_code", is_isomorphism(table, &map, &renaming), |text| write!(text, "{table:?} goes out as {map:?}").unwrap());
}

/// Every code of up to 7 points goes out and comes in again, with every room up to more than enough.
fn every_code(comparison: &mut Comparison) {
    for code in (0..=7).flat_map(codes) {
        let line = line_of(&REFERENCE, &code).expect("a line");
        (0..line.len() + 3).for_each(|room| comparison.digraph6_of_code(&code, room));
        (0..code.len() + 3).for_each(|room| comparison.code_of_digraph6(&line, room));
        expect(comparison, "code_of_digraph6", &line, line_of(&ENGINE, &code).and_then(|line| read(&line)), &code);
    }
}

/// Every map of up to 6 points.
fn every_map(comparison: &mut Comparison) {
    for table in (0..=6).flat_map(inputs::every_table) {
        let line = line(&table);
        comparison.code_of_digraph6(&line, 20);
        expect(comparison, "code_of_digraph6", &line, read(&line), &code_of(&table));
    }
}

/// Every string of up to three bytes, alone and with the sign in front; and every matrix of 4 points, whose three bytes are those of a size, with any padding bits.
fn every_short(comparison: &mut Comparison) {
    for length in 0..=3 {
        for number in 0..1u32 << (8 * length) {
            let mut bytes = number.to_be_bytes();
            bytes[3 - length] = b'&';
            comparison.short_line(&bytes[3 - length..]);
            comparison.short_line(&bytes[4 - length..]);
        }
    }
    for number in 0..1 << 18 {
        comparison.short_line(&[&b"&C"[..], &size(number, 1)[1..]].concat());
    }
}

/// Numbers of points: all up to some above 200, those at which the form changes, and large ones; some are small where they are cut to fewer bits.
fn sizes() -> impl Iterator<Item = usize> {
    let large = [8, 12, 16, 17, 24, 30, 31, 32, 35].into_iter().flat_map(|bits| [0, 3, 63, 200, 201].map(|more| (1 << bits) + more));
    (0..=256).chain([4095, 258_046, 258_047, 258_048, (1 << 36) - 1]).chain(large)
}

/// Bodies for a number of points: one of a map, none, and one byte less and more. For more than 256 points all are too short.
fn bodies(n: usize, random: &mut Random) -> [Vec<u8>; 4] {
    let whole = body(&uniform(n.min(256), random));
    let fewer = whole[..whole.len().saturating_sub(1)].to_vec();
    let more = [&whole[..], b"?"].concat();
    [whole, Vec::new(), fewer, more]
}

/// Each number of points in every form that has it, with each of these bodies. The number is judged first, then the form, then the length.
fn every_size(comparison: &mut Comparison, random: &mut Random) {
    for n in sizes() {
        let bodies = bodies(n, random);
        for form in shortest(n)..FORMS.len() {
            for body in &bodies {
                let good = form == shortest(n) && body.len() == bodies[0].len();
                let refusal = if n > 200 { Some(-1) } else { (!good).then_some(LINE_FORM) };
                judged(comparison, &[&b"&"[..], &size(n, form), body].concat(), EVERY_CODE, refusal);
            }
        }
    }
}

/// The start of a line, cut short and with each byte changed, with these bodies behind it.
fn damaged_start(comparison: &mut Comparison, start: &[u8], bodies: &[Vec<u8>]) {
    for place in 0..start.len() {
        no_line(comparison, &start[..place]);
        let near = [start[place].wrapping_sub(1), start[place].wrapping_add(1)];
        for byte in EDGES.into_iter().chain(near) {
            let changed = [&start[..place], &[byte], &start[place + 1..]].concat();
            bodies.iter().for_each(|body| line_in(comparison, &[&changed[..], body].concat()));
        }
    }
}

/// Sizes in every form, damaged, with a body and with nothing behind.
fn damaged_sizes(comparison: &mut Comparison, random: &mut Random) {
    for n in [0, 1, 2, 61, 62, 63, 64, 127, 128, 199, 200, 201, 202, 255, 4095, 4096, 258_047, 258_048, 1 << 35, (1 << 36) - 1] {
        let bodies = bodies(n, random);
        for form in shortest(n)..FORMS.len() {
            damaged_start(comparison, &[&b"&"[..], &size(n, form)].concat(), &bodies[..2]);
        }
    }
}

/// At most so many places of a list, with those at both ends among them.
fn places(length: usize, most: usize, random: &mut Random) -> Vec<usize> {
    if length <= most {
        return (0..length).collect();
    }
    let ends = (0..8).chain(length - 8..length);
    ends.chain((16..most).map(|_| random.below(length))).collect()
}

/// Lines with one byte changed: of a few points to every other, else to its neighbours and to the edges. Of lines of the most points every byte is changed.
fn bytes_changed(comparison: &mut Comparison, random: &mut Random) {
    for n in (1..=12).chain(COUNTS) {
        let mut line = line(&uniform(n, random));
        for place in places(line.len(), if n == 200 { EVERY_LINE } else { 800 }, random) {
            let old = line[place];
            let near = [old.wrapping_sub(1), old.wrapping_add(1)];
            let others: Vec<u8> = if n <= 12 { (0..=255).collect() } else { EDGES.into_iter().chain(near).collect() };
            for byte in others {
                line[place] = byte;
                comparison.code_of_digraph6(&line, EVERY_CODE);
            }
            line[place] = old;
        }
    }
}

/// Lines with one bit changed: its row has no mark or a second one, or it is a padding bit.
fn bits_changed(comparison: &mut Comparison, random: &mut Random) {
    for n in (1..=12).chain(COUNTS) {
        let mut line = line(&uniform(n, random));
        let start = 1 + size(n, shortest(n)).len();
        for bit in places(6 * (line.len() - start), 3_000, random) {
            change(&mut line[start..], bit);
            judged(comparison, &line, EVERY_CODE, Some(if bit < n * n { OUT_DEGREE } else { LINE_FORM }));
            change(&mut line[start..], bit);
        }
    }
}

/// Lines that are cut short, and lines with more behind them or in front, as a newline or the header that a file may have.
fn cut_and_extended(comparison: &mut Comparison, random: &mut Random) {
    for n in (0..=12).chain(COUNTS) {
        let line = line(&uniform(n, random));
        places(line.len(), 800, random).into_iter().for_each(|end| no_line(comparison, &line[..end]));
        let edges = EDGES.into_iter().flat_map(|byte| [vec![byte], vec![63, byte], vec![byte; 7]]);
        let texts = [&b">>digraph6<<"[..], b">>digraph6<<\n", b"\n", b"\r\n", b" ", b"\n&?", &line].map(<[u8]>::to_vec);
        for more in edges.chain(texts) {
            no_line(comparison, &[&line[..], &more].concat());
            no_line(comparison, &[&more[..], &line].concat());
        }
    }
}

/// What is told of each fault that a call may have, in the order in which it is told: another sign, a byte of the size outside of the format, a number above 200,
/// a longer form than needed, a wrong length, a byte of the body outside of the format, a padding bit, a row without a mark, a row with two, a buffer too short.
const FAULTS: [i64; 10] = [-14, -14, -1, -14, -14, -14, -14, -15, -15, -8];

/// The body of a map with those of the faults that it may have. The two rows that are wrong are not the same, in which one mark would be left.
fn faulty_body(table: &[u8], faults: &[bool], random: &mut Random) -> Vec<u8> {
    let (n, mut body) = (table.len(), body(table));
    let (row, further) = (random.below(n), 1 + random.below(n - 1));
    let other = (row + further) % n;
    if faults[7] {
        change(&mut body, row * n + table[row] as usize);
    }
    if faults[8] {
        change(&mut body, other * n + (table[other] as usize + further) % n);
    }
    if faults[6] {
        let padding = 6 * body.len() - n * n;
        change(&mut body, n * n + random.below(padding));
    }
    if faults[5] {
        let place = random.below(body.len());
        body[place] = *random.pick(&OUTSIDE);
    }
    if faults[4] {
        body.resize(body.len() + 1 - 2 * random.below(2), 63);
    }
    body
}

/// The line of a map with these faults.
fn faulty(table: &[u8], faults: &[bool], random: &mut Random) -> Vec<u8> {
    let body = faulty_body(table, faults, random);
    let n = if faults[2] { 201 + random.below(3000) } else { table.len() };
    let longer = if faults[3] { 1 + random.below(2) } else { 0 };
    let form = (shortest(n) + longer).min(FORMS.len() - 1);
    let mut size = size(n, form);
    if faults[1] {
        let digit = random.below(FORMS[form].0);
        size[form + digit] = *random.pick(&OUTSIDE);
    }
    let sign = if faults[0] { *random.pick(&[0, 37, 39, 58, 63, 126]) } else { b'&' };
    [&[sign][..], &size, &body].concat()
}

/// Every set of faults at a time: the first in the order of the checks is told.
fn every_faults(comparison: &mut Comparison, random: &mut Random) {
    for n in COUNTS {
        let table = uniform(n, random);
        let length = code_of(&table).len();
        for set in 0..1 << FAULTS.len() {
            let faults: Vec<bool> = (0..FAULTS.len()).map(|fault| set >> fault & 1 == 1).collect();
            let room = if faults[9] { random.below(length) } else { length + random.below(9) };
            let refusal = faults.iter().position(|&fault| fault).map(|first| FAULTS[first]);
            judged(comparison, &faulty(&table, &faults, random), room, refusal);
        }
    }
}

/// Lines and codes of the most points, with every room for the code and many for the line.
fn every_room(comparison: &mut Comparison, random: &mut Random) {
    for (_, kind) in &KINDS[..3] {
        let table = kind(200, random);
        let (code, line) = (code_of(&table), line(&table));
        (0..code.len() + 3).for_each(|room| comparison.code_of_digraph6(&line, room));
        (0..EVERY_LINE).step_by(23).chain(EVERY_LINE - 9..EVERY_LINE + 9).for_each(|room| comparison.digraph6_of_code(&code, room));
    }
}

/// Maps of every kind, renamed, and their lines damaged at one to three places.
fn maps(comparison: &mut Comparison, random: &mut Random, rounds: usize) {
    for (_, kind) in KINDS.into_iter().chain(PERIODIC) {
        for _ in 0..rounds {
            let table = kind(any_count(random), random);
            of_map(comparison, &table, random);
            let mut damaged = line(&shuffled(&table, random));
            (0..1 + random.below(3)).for_each(|_| inputs::damage(&mut damaged, random));
            line_in(comparison, &damaged);
        }
    }
}

/// Bytes in the format behind a size, as many as it asks for, and bytes of no special form, up to 10,000, alone and behind a size in any form.
fn noise(comparison: &mut Comparison, random: &mut Random, rounds: usize) {
    for round in 0..rounds {
        let n = random.below(30);
        let in_format: Vec<u8> = inputs::noise((n * n).div_ceil(6), random).iter().map(|byte| 63 + byte % 64).collect();
        line_in(comparison, &[&b"&"[..], &size(n, 0), &in_format].concat());
        let length = if round % 100 == 0 { *random.pick(&[1000, EVERY_LINE, 10_000]) } else { random.below(30) };
        let bytes = inputs::noise(length, random);
        line_in(comparison, &bytes);
        line_in(comparison, &[&b"&"[..], &size(n, random.below(3)), &bytes].concat());
    }
}

pub fn run(comparison: &mut Comparison, random: &mut Random) {
    every_code(comparison);
    every_map(comparison);
    every_short(comparison);
    every_size(comparison, random);
    damaged_sizes(comparison, random);
    bytes_changed(comparison, random);
    bits_changed(comparison, random);
    cut_and_extended(comparison, random);
    every_faults(comparison, random);
    every_room(comparison, random);
    maps(comparison, random, 200);
    noise(comparison, random, 20_000);
}
