//! The greatest period of n points, and a code that has it (document 02, paper 9: the system that runs longest): what both sides are given, and what holds.

use crate::compare::{Comparison, FILLING};
use crate::inputs::every_table;
use crate::periods::{by_cycles, lcm};
use sides::maps::{KINDS, PERIODIC};
use sides::random::Random;
use sides::{ENGINE, EVERY_CODE, MOST_PERIOD_POINTS, REFERENCE};
use std::collections::HashMap;
use std::fmt::Write;

/// The greatest periods of 0 to 120 points, by no law of primes. Lengths join one after another, and of the lists with the same least common multiple the one
/// of fewest points is kept: what joins later adds as many points to each of them, and makes the same multiple. Points that are left may be fixed points.
fn greatest_periods() -> Vec<usize> {
    let mut fewest = HashMap::from([(1, 0)]);
    for length in 2..=MOST_PERIOD_POINTS {
        let joined: Vec<(usize, usize)> = fewest.iter().map(|(&multiple, points)| (lcm(multiple, length), points + length)).collect();
        for (multiple, points) in joined.into_iter().filter(|&(_, points)| points <= MOST_PERIOD_POINTS) {
            let known = fewest.entry(multiple).or_insert(points);
            *known = points.min(*known);
        }
    }
    let greatest = |n: usize| fewest.iter().filter(|&(_, &points)| points <= n).map(|(&multiple, _)| multiple).max();
    (0..=MOST_PERIOD_POINTS).map(|n| greatest(n).expect("1 takes no points")).collect()
}

/// What is written where nothing should be differs from at least one of these.
const FILLINGS: [u8; 3] = [FILLING, !FILLING, 0];

/// Both sides tell of n points the expected period, or are refused as expected.
fn both(comparison: &mut Comparison, n: usize, room: usize, expected: Result<i64, i64>) {
    for side in [&ENGINE, &REFERENCE] {
        FILLINGS.iter().for_each(|&filling| comparison.greatest_as(side, n, (room, filling), expected));
    }
}

/// Every count of points, in buffers that have room enough.
fn every_count(comparison: &mut Comparison, greatest: &[usize]) {
    for (n, &period) in greatest.iter().enumerate() {
        for room in [EVERY_CODE, EVERY_CODE + 1, 4 * EVERY_CODE] {
            both(comparison, n, room, Ok(period as i64));
        }
    }
}

/// Every count of points, in every buffer that is shorter.
fn every_short_room(comparison: &mut Comparison) {
    for n in 0..=MOST_PERIOD_POINTS {
        for room in 0..EVERY_CODE {
            both(comparison, n, room, Err(-8));
        }
    }
}

/// Counts above 120 in buffers of any length: they are told before the room, and 1 before 13. Some are small where they are cut to fewer bits.
fn too_many(comparison: &mut Comparison) {
    let cut = [8, 16, 31, 32, 48, 63].into_iter().flat_map(|bits| [0, 5, 120, 121].map(|more| (1 << bits) + more));
    for n in (MOST_PERIOD_POINTS + 1..=300).chain(cut).chain([usize::MAX - 1, usize::MAX]) {
        for room in [0, 1, EVERY_CODE - 1, EVERY_CODE, 5 * EVERY_CODE] {
            both(comparison, n, room, Err(if n > 200 { -1 } else { -13 }));
        }
    }
}

/// Of a few points all maps are tried: the greatest of their periods is told.
fn every_map(comparison: &mut Comparison) {
    for n in 0..=7 {
        let greatest = every_table(n).map(|table| (ENGINE.period)(&table)).max().expect("a map");
        both(comparison, n, EVERY_CODE, Ok(greatest));
    }
}

/// The engine tells of no map a greater period.
fn no_greater(comparison: &mut Comparison, table: &[u8]) {
    let (told, found) = ((ENGINE.greatest_period)(table.len(), &mut [0; EVERY_CODE]).period, (ENGINE.period)(table));
    comparison.count("greatest_period", (1..=told).contains(&found), |text| write!(text, "{told} is told, and {found} of the map {table:?}").unwrap());
}

/// Maps of every kind, and ones with cycles by chance.
fn maps(comparison: &mut Comparison, random: &mut Random, rounds: usize) {
    for n in 0..=MOST_PERIOD_POINTS {
        for (_, kind) in KINDS.into_iter().chain(PERIODIC).filter(|_| n > 0) {
            (0..rounds).for_each(|_| no_greater(comparison, &kind(n, random)));
        }
        (0..10 * rounds).for_each(|_| no_greater(comparison, &by_cycles(n, random)));
    }
}

pub fn run(comparison: &mut Comparison, random: &mut Random) {
    every_count(comparison, &greatest_periods());
    every_short_room(comparison);
    too_many(comparison);
    every_map(comparison);
    maps(comparison, random, 20);
}
