//! The engine, through its static library, against the reference implementation. The inputs are the same in every run.
//!
//! It is given the directories of the cases of `tools/plain_model.py`, that of the digraph6 lines last, prints the number of calls of each entry, and fails if an answer differs.

mod compare;
mod digraph6;
mod greatest;
mod inputs;
mod laws;
mod model;
mod periods;

use compare::{Comparison, ENTRIES};
use laws::Laws;
use sides::maps::{shuffled, small_components, uniform, KINDS, PERIODIC};
use sides::random::Random;
use sides::{code_of, written, PageReply, ENGINE, EVERY_PAGE, MOST_COUNTED, MOST_WANTED, REFERENCE};
use std::path::Path;
use std::process::ExitCode;

/// The calls that a run has to make.
const LEAST_CALLS: u64 = 95_000_000;

/// How often the laws of three codes have to end with a code on both sides, and with 11 on both.
const LEAST_GIVEN: u64 = 25_000;
const LEAST_REFUSED: u64 = 5_000;

/// An entry that steps from a code to a neighbour in the list.
type Step = fn(&[u8], &mut [u8]) -> i64;

/// A code, and those that calls of an entry write in turn from it on, at most so many.
fn in_turn(step: Step, code: Vec<u8>, most: usize) -> Vec<Vec<u8>> {
    let mut found = vec![code];
    while found.len() <= most {
        let Ok(code) = written(|out| step(&found[found.len() - 1], out)) else { break };
        found.push(code);
    }
    found
}

/// All codes of n points.
fn codes(n: usize) -> Vec<Vec<u8>> {
    in_turn(REFERENCE.successor, written(|out| (REFERENCE.first)(n, out)).expect("a first code"), usize::MAX)
}

/// Every count up to some above 200, and huge ones, with rooms around the length.
fn firsts(comparison: &mut Comparison) {
    for n in (0..=300).chain([1000, 65_536, usize::MAX - 1, usize::MAX]) {
        let length = written(|out| (REFERENCE.first)(n, out)).map_or(2, |code| code.len());
        for room in [0, length - 1, length, length + 1, 1000] {
            comparison.first(n, room);
        }
    }
}

/// Every code of up to 8 points.
fn every_code(comparison: &mut Comparison) {
    for code in (0..=8).flat_map(codes) {
        inputs::code(comparison, &code);
    }
}

/// Every string of up to two bytes to every entry that takes a code, and every one of three bytes to accept, which tells the cause, and to the number of tables.
fn every_short(comparison: &mut Comparison) {
    for length in 0..=3 {
        for number in 0..1u32 << (8 * length) {
            let bytes = &number.to_be_bytes()[4 - length..];
            if length < 3 {
                inputs::code(comparison, bytes);
            } else {
                comparison.accept(bytes);
                comparison.table_count(bytes);
            }
        }
    }
}

/// A code as it is while it is typed, from no byte to all, and with a wrong byte after each. The rest of it stands behind, where one who reads too far finds it.
fn typed(comparison: &mut Comparison, code: &[u8]) {
    let mut bytes = code.to_vec();
    bytes.push(0);
    for place in 0..bytes.len() {
        comparison.accept(&bytes[..place]);
        let old = bytes[place];
        for byte in inputs::EDGES {
            bytes[place] = byte;
            comparison.accept(&bytes[..=place]);
        }
        bytes[place] = old;
    }
}

/// The keystrokes of codes of every kind, with numbers of one byte only and of both forms.
fn keystrokes(comparison: &mut Comparison, random: &mut Random) {
    for (_, kind) in KINDS {
        for n in [1, 2, 5, 12, 40, 127, 128, 129, 150, 199, 200] {
            typed(comparison, &code_of(&kind(n, random)));
        }
    }
}

/// Strings of the bytes at which the forms of numbers change, and no others: good numbers and faults of every kind stand close together.
fn edges(comparison: &mut Comparison, random: &mut Random, rounds: usize) {
    for round in 0..rounds {
        let bytes: Vec<u8> = (0..4 + round % 5).map(|_| *random.pick(&inputs::EDGES)).collect();
        comparison.accept(&bytes);
    }
}

/// Every code of up to 6 points with any one byte changed, one left out, or one put in.
fn every_small_damage(comparison: &mut Comparison) {
    for code in (0..=6).flat_map(codes) {
        for place in 0..code.len() {
            let mut other = code.clone();
            for byte in 0..=255 {
                other[place] = byte;
                comparison.accept(&other);
                comparison.table_count(&other);
            }
            other.remove(place);
            inputs::code(comparison, &other);
            for byte in [0, 1, 2, 3, 4, 127, 128, 255] {
                let mut other = code.clone();
                other.insert(place, byte);
                comparison.accept(&other);
            }
        }
    }
}

/// Every map of up to 6 points.
fn every_map(comparison: &mut Comparison) {
    for n in 0..=6 {
        for table in inputs::every_table(n) {
            if n < 6 {
                inputs::table(comparison, &table);
            } else {
                comparison.code_of_map(&table, 20);
            }
        }
    }
}

/// Every two maps of 3 points, and random ones of a few points, which are often isomorphic.
fn small_pairs(comparison: &mut Comparison, random: &mut Random) {
    let map = |number: usize| [(number % 3) as u8, (number / 3 % 3) as u8, (number / 9) as u8];
    for number in 0..27 * 27 {
        inputs::two_tables(comparison, &map(number / 27), &map(number % 27));
    }
    for _ in 0..20_000 {
        let n = 1 + random.below(6);
        let m = if random.below(10) == 0 { 1 + random.below(6) } else { n };
        inputs::two_tables(comparison, &uniform(n, random), &uniform(m, random));
    }
}

/// A count of points, the larger ones around the edges of the written forms.
fn any_count(random: &mut Random) -> usize {
    match random.below(4) {
        0 => 1 + random.below(12),
        1 => 1 + random.below(60),
        2 => 1 + random.below(200),
        _ => *random.pick(&[126, 127, 128, 129, 130, 199, 200]),
    }
}

/// Maps of every kind: the code, the map of it, shuffled copies, and maps that differ in one arrow.
fn kinds(comparison: &mut Comparison, random: &mut Random, rounds: usize) {
    for (_, kind) in KINDS {
        for _ in 0..rounds {
            let n = any_count(random);
            let table = kind(n, random);
            inputs::table(comparison, &table);
            inputs::code(comparison, &code_of(&table));
            let mut copy = shuffled(&table, random);
            comparison.code_of_map(&copy, 1000);
            inputs::two_tables(comparison, &table, &copy);
            copy[random.below(n)] = random.below(n) as u8;
            inputs::two_tables(comparison, &table, &copy);
        }
    }
}

/// Steps forward one after another, and steps back, from codes of every kind.
fn steps(comparison: &mut Comparison, random: &mut Random, rounds: usize) {
    for (_, kind) in KINDS {
        for _ in 0..rounds {
            let start = code_of(&kind(any_count(random), random));
            for code in in_turn(REFERENCE.successor, start.clone(), 60) {
                comparison.accept(&code);
                comparison.successor(&code, 1000);
                comparison.predecessor(&code, 1000);
            }
            for code in in_turn(REFERENCE.predecessor, start, 60) {
                comparison.accept(&code);
                comparison.predecessor(&code, 1000);
            }
        }
    }
}

/// A walk of the engine from a code, which is also that of the reference, and as many steps the other way, which lead through the same codes.
fn there_and_back(comparison: &mut Comparison, code: &[u8], steps: usize) {
    let forward = ("successor", ENGINE.successor, REFERENCE.successor);
    let back = ("predecessor", ENGINE.predecessor, REFERENCE.predecessor);
    for [(name, step, expected), (other, turned, _)] in [[forward, back], [back, forward]] {
        let there = in_turn(step, code.to_vec(), steps);
        let same = there == in_turn(expected, code.to_vec(), steps);
        comparison.count(name, same, |text| text.push_str(&format!("{} steps are not those of the reference, code {code:?}", there.len() - 1)));
        let mut returned = in_turn(turned, there[there.len() - 1].clone(), there.len() - 1);
        returned.reverse();
        comparison.count(other, returned == there, |text| text.push_str(&format!("{} steps do not lead back, code {code:?}", there.len() - 1)));
    }
}

/// Walks there and back: from codes of every kind, of 1,000 steps from 200 points, and from every code of up to 6 points to both ends of the list.
fn walks(comparison: &mut Comparison, random: &mut Random, rounds: usize) {
    for (_, kind) in KINDS {
        there_and_back(comparison, &code_of(&kind(200, random)), 1000);
        for _ in 0..rounds {
            there_and_back(comparison, &code_of(&kind(any_count(random), random)), 30 + random.below(60));
        }
    }
    for code in (0..=6).flat_map(codes) {
        there_and_back(comparison, &code, 1000);
    }
}

/// Codes of every kind, damaged at one to three places.
fn damaged_codes(comparison: &mut Comparison, random: &mut Random, rounds: usize) {
    for (_, kind) in KINDS {
        for _ in 0..rounds {
            let code = code_of(&kind(any_count(random), random));
            for _ in 0..8 {
                let mut other = code.clone();
                for _ in 0..1 + random.below(3) {
                    inputs::damage(&mut other, random);
                }
                inputs::code(comparison, &other);
            }
        }
    }
}

/// Codes with two stretches exchanged: often all sizes fit and only the order is wrong.
fn reordered_codes(comparison: &mut Comparison, random: &mut Random, rounds: usize) {
    for _ in 0..rounds {
        let n = 2 + random.below(14);
        let mut code = code_of(&small_components(n, random));
        inputs::exchange(&mut code[2..], random);
        inputs::code(comparison, &code);
    }
}

/// Bytes of no special form, behind a count of points or not, short and up to 10,000.
fn noise(comparison: &mut Comparison, random: &mut Random, rounds: usize) {
    for round in 0..rounds {
        let length = if round % 100 == 0 { *random.pick(&[1000, 4000, 10_000]) } else { random.below(30) };
        let mut code = inputs::noise(length, random);
        if random.below(2) == 0 && length > 1 {
            code[0] = random.below(length) as u8;
            code[1] = 1 + random.below(3) as u8;
        }
        inputs::code(comparison, &code);
    }
}

/// Tables with bytes out of range, and tables that are too long.
fn bad_tables(comparison: &mut Comparison, random: &mut Random, rounds: usize) {
    for round in 0..rounds {
        let n = any_count(random);
        let good = uniform(n, random);
        let mut bad = good.clone();
        match round % 4 {
            0 => bad[random.below(n)] = n as u8,
            1 => bad[random.below(n)] = random.byte(),
            2 => bad = inputs::noise(*random.pick(&[201, 202, 256, 300, 10_000]), random),
            _ => bad = inputs::noise(n, random),
        }
        inputs::table(comparison, &bad);
        inputs::two_tables(comparison, &good, &bad);
        inputs::two_tables(comparison, &bad, &bad);
    }
}

/// The page of all that is left after every code of up to 8 points.
fn every_page(comparison: &mut Comparison) {
    for list in (0..=8).map(codes) {
        for (place, code) in list.iter().enumerate() {
            let length: usize = list[place + 1..].iter().map(Vec::len).sum();
            comparison.page(code, MOST_WANTED, length);
            comparison.page(code, list.len() - 1 - place, length + 9);
            if code[0] < 8 {
                comparison.page(code, MOST_WANTED, length.saturating_sub(1));
            }
        }
    }
}

/// Numbers above 1,000; some are small where they are cut to 16 or 32 bits.
const TOO_MANY: [usize; 8] = [1001, 1002, 2000, 1 << 16, 1 << 32, (1 << 32) + 1, 1 << 63, usize::MAX];

/// Pages after codes of every kind, good and damaged, with wanted numbers of every size.
fn pages(comparison: &mut Comparison, random: &mut Random, rounds: usize) {
    for (_, kind) in KINDS {
        for _ in 0..rounds {
            let code = code_of(&kind(any_count(random), random));
            for wanted in [0, 1, 2, 3 + random.below(30)] {
                inputs::page(comparison, &code, wanted);
            }
            if random.below(4) == 0 {
                comparison.page(&code, random.below(9), EVERY_PAGE);
            }
            let mut damaged = code.clone();
            inputs::damage(&mut damaged, random);
            for wanted in [1, 7, MOST_WANTED] {
                inputs::page(comparison, &damaged, wanted);
            }
            for wanted in TOO_MANY {
                comparison.page(&code, wanted, *random.pick(&[0, 300, 5000]));
                comparison.page(&damaged, wanted, *random.pick(&[0, 300, 5000]));
            }
            let small = code_of(&kind(1 + random.below(14), random));
            comparison.page(&small, MOST_WANTED, 5000 * random.below(7));
        }
    }
}

/// Pages of 1,000 codes of 200 points: those of the reference, and what the engine's own successor calls write in turn.
fn whole_pages(comparison: &mut Comparison, random: &mut Random) {
    for (_, kind) in KINDS {
        let code = code_of(&kind(200, random));
        let following = in_turn(ENGINE.successor, code.clone(), MOST_WANTED).split_off(1);
        let (codes, bytes) = (following.len() as i64, following.concat());
        let length = bytes.len();
        let page = (PageReply { codes, bytes: length as i64 }, Some(bytes));
        for room in [length, EVERY_PAGE] {
            comparison.page_as(&ENGINE, &code, MOST_WANTED, room, ("in turn", &page));
        }
        comparison.page(&code, MOST_WANTED, length);
        comparison.page(&code, MOST_WANTED, length.saturating_sub(1));
    }
}

/// Every two codes of up to 5 points, and what holds of them; every three of up to 3.
fn every_two_codes(comparison: &mut Comparison, laws: &mut Laws) {
    let small: Vec<Vec<u8>> = (0..=5).flat_map(codes).collect();
    for a in &small {
        laws::neutral(comparison, a);
        for b in &small {
            inputs::two_codes(comparison, a, b);
        }
    }
    let smaller: Vec<&[u8]> = small.iter().filter(|code| code[0] <= 3).map(|code| &code[..]).collect();
    for a in &smaller {
        for b in &smaller {
            smaller.iter().for_each(|c| laws.of_three(comparison, [a, b, c]));
        }
    }
}

/// Every string of up to two bytes before some codes and behind them, and before another such string: the first code decides, and a large result comes after both.
fn every_short_beside(comparison: &mut Comparison, random: &mut Random) {
    let codes = [vec![0, 0], vec![3, 1, 1, 3, 2, 1], code_of(&uniform(101, random))];
    for number in 0..1u32 << 16 {
        for length in (0..=2).filter(|length| number < 1 << (8 * length)) {
            let bytes = &number.to_be_bytes()[4 - length..];
            let other = [random.byte(), random.byte()];
            let pairs = codes.iter().flat_map(|code| [(bytes, &code[..]), (&code[..], bytes)]);
            for (first, second) in pairs.chain([(bytes, &other[..random.below(3)])]) {
                comparison.sum(first, second, 9 * length);
                comparison.product(first, second, 9 * length);
            }
        }
    }
}

/// A map of n points, of some kind; n may be 0.
fn some_map(n: usize, random: &mut Random) -> Vec<u8> {
    let (_, kind) = *random.pick(&KINDS);
    if n == 0 {
        Vec::new()
    } else {
        kind(n, random)
    }
}

/// Two counts of points: a sum of 200 or 201 points, or of fewer; a product of about 200 points, or of as few above that as can be; any.
fn two_counts(random: &mut Random) -> (usize, usize) {
    let (n, factor) = (random.below(201), 1 + random.below(40));
    match random.below(6) {
        0 => (n, 200 - n),
        1 => (n, (201 - n).min(200)),
        2 => (n, random.below(201 - n)),
        3 => (factor, 200 / factor),
        4 => (1 + factor, 1 + 200 / (1 + factor)),
        _ => (any_count(random), any_count(random)),
    }
}

/// Codes of every kind by two, good and damaged, in both orders, and each with itself.
fn two_codes(comparison: &mut Comparison, random: &mut Random, rounds: usize) {
    for _ in 0..rounds {
        let (n, m) = two_counts(random);
        let (a, b) = (code_of(&some_map(n, random)), code_of(&some_map(m, random)));
        inputs::two_codes(comparison, &a, &b);
        inputs::two_codes(comparison, &b, &a);
        inputs::two_codes(comparison, &a, &a);
        let [mut bad, mut worse] = [&a, &b].map(Vec::clone);
        for code in [&mut bad, &mut worse] {
            (0..1 + random.below(3)).for_each(|_| inputs::damage(code, random));
        }
        for (first, second) in [(&bad, &b), (&a, &worse), (&bad, &worse), (&bad, &bad)] {
            inputs::two_codes(comparison, first, second);
        }
    }
}

/// Bytes of no special form, up to 10,000, beside a code and beside each other.
fn noise_by_two(comparison: &mut Comparison, random: &mut Random, rounds: usize) {
    for round in 0..rounds {
        let length = if round % 50 == 0 { *random.pick(&[1000, 4000, 10_000]) } else { random.below(30) };
        let (bytes, other) = (inputs::noise(length, random), inputs::noise(random.below(30), random));
        let n = random.below(201);
        let code = code_of(&some_map(n, random));
        for (first, second) in [(&bytes, &code), (&code, &bytes), (&bytes, &other), (&other, &bytes)] {
            inputs::two_codes(comparison, first, second);
        }
    }
}

/// Three counts of points, for which the laws are asked of results of every size: small ones; sums of about 200 points; products of about 200.
fn three_counts(random: &mut Random) -> [usize; 3] {
    let (few, n) = (1 + random.below(8), random.below(201));
    let m = random.below(201 - n);
    match random.below(6) {
        0 => [random.below(7), random.below(7), random.below(7)],
        1 => [n, m, 200 - n - m],
        2 => [n, m, (201 - n - m).min(200)],
        3 => [n / few, m / few, few],
        4 => [few, n / few, (200 - n) / few],
        _ => [random.below(60), random.below(30), random.below(15)],
    }
}

/// What holds of two maps of every kind, and of three codes.
fn laws_by_chance(comparison: &mut Comparison, laws: &mut Laws, random: &mut Random, rounds: usize) {
    for _ in 0..rounds {
        let (n, m) = two_counts(random);
        let (f, g) = (some_map(n, random), some_map(m, random));
        laws::neutral(comparison, &code_of(&f));
        laws::of_two(comparison, &f, &g, random);
        let [a, b, c] = three_counts(random).map(|count| code_of(&some_map(count, random)));
        laws.of_three(comparison, [&a, &b, &c]);
    }
}

/// The code of some maps side by side whose cycles are periodic, or nearly so, so that it has components of different turns.
fn periodic_code(random: &mut Random) -> Vec<u8> {
    let (mut left, mut code) = (any_count(random), vec![0, 0]);
    while left > 0 {
        let n = if random.below(2) == 0 { left } else { 1 + random.below(left) };
        let (_, kind) = *random.pick(&PERIODIC);
        code = written(|out| (REFERENCE.sum)(&code, &code_of(&kind(n, random)), out)).expect("a sum");
        left -= n;
    }
    code
}

/// The turns of every code of up to 8 points, and of periodic cycles: of each component, what holds of them, and of the code damaged or with two stretches exchanged.
fn turns(comparison: &mut Comparison, random: &mut Random, rounds: usize) {
    for code in (0..=8).flat_map(codes) {
        inputs::every_component(comparison, &code);
        laws::turns(comparison, &code, random);
    }
    for _ in 0..rounds {
        let code = periodic_code(random);
        inputs::code(comparison, &code);
        inputs::every_component(comparison, &code);
        laws::turns(comparison, &code, random);
        let [mut damaged, mut exchanged] = [&code, &code].map(Vec::clone);
        (0..1 + random.below(3)).for_each(|_| inputs::damage(&mut damaged, random));
        inputs::exchange(&mut exchanged[2..], random);
        inputs::code(comparison, &damaged);
        inputs::code(comparison, &exchanged);
    }
}

/// The numbers of tables of whole lists: over each list that may be asked for they make all tables; up to 12 points each is compared; and of a few points the tables are
/// counted one by one, and so are the renamings that leave a map as it is.
fn whole_lists(comparison: &mut Comparison) {
    for n in 0..=MOST_COUNTED {
        laws::all_tables(comparison, n);
    }
    for n in 0..=12 {
        codes(n).iter().for_each(|code| comparison.table_count(code));
    }
    for n in 0..=7 {
        let list = codes(n);
        laws::each_table(comparison, n, &list);
        laws::symmetries(comparison, n, &list);
    }
}

/// The numbers of tables of maps of every kind, of 11 to 15 points and of a few more, whole and damaged.
fn table_counts(comparison: &mut Comparison, random: &mut Random, rounds: usize) {
    for (_, kind) in KINDS.into_iter().chain(PERIODIC) {
        for round in 0..rounds {
            let code = code_of(&kind(11 + round % 7, random));
            comparison.table_count(&code);
            let mut damaged = code;
            (0..1 + random.below(3)).for_each(|_| inputs::damage(&mut damaged, random));
            comparison.table_count(&damaged);
        }
    }
}

/// What holds of the number of tables of a sum: of two codes of every kind, which may have components in common, and of a code with itself.
fn tables_of_sums(comparison: &mut Comparison, random: &mut Random, rounds: usize) {
    for _ in 0..rounds {
        let n = random.below(MOST_COUNTED + 1);
        let m = random.below(MOST_COUNTED + 1 - n);
        let (a, b) = (code_of(&some_map(n, random)), code_of(&some_map(m, random)));
        laws::tables_of_sum(comparison, &a, &b);
        let half = code_of(&some_map(n / 2, random));
        laws::tables_of_sum(comparison, &half, &half);
    }
}

/// The number of calls of each entry, and whether the run was long enough and without a difference.
fn report(comparison: &Comparison, laws: &Laws) -> bool {
    for (entry, calls) in ENTRIES.iter().zip(comparison.calls) {
        println!("{entry:16} {calls:>9} calls");
    }
    let calls: u64 = comparison.calls.iter().sum();
    println!("laws of three codes: {} times with a code on both sides, {} times with 11, {} times not asked", laws.given, laws.refused, laws.unasked);
    println!("{calls} calls, {} differences", comparison.differences);
    comparison.differences == 0 && calls >= LEAST_CALLS && laws.given >= LEAST_GIVEN && laws.refused >= LEAST_REFUSED
}

fn main() -> ExitCode {
    let data = std::env::args().nth(1).expect("the directory of the cases");
    let lines = std::env::args().nth(2).expect("the directory of the cases of digraph6 lines");
    let (comparison, random) = (&mut Comparison::new(), &mut Random::new(1));
    model::run(comparison, Path::new(&data), Path::new(&lines));
    firsts(comparison);
    every_code(comparison);
    every_short(comparison);
    every_small_damage(comparison);
    every_map(comparison);
    small_pairs(comparison, random);
    kinds(comparison, random, 100);
    steps(comparison, random, 25);
    walks(comparison, random, 10);
    damaged_codes(comparison, random, 150);
    reordered_codes(comparison, random, 20_000);
    noise(comparison, random, 20_000);
    bad_tables(comparison, random, 4_000);
    every_page(comparison);
    pages(comparison, random, 12);
    whole_pages(comparison, random);
    keystrokes(comparison, random);
    edges(comparison, random, 500_000);
    let laws = &mut Laws::default();
    every_two_codes(comparison, laws);
    every_short_beside(comparison, random);
    two_codes(comparison, random, 5_000);
    noise_by_two(comparison, random, 8_000);
    laws_by_chance(comparison, laws, random, 12_000);
    turns(comparison, random, 5_000);
    whole_lists(comparison);
    table_counts(comparison, random, 2_000);
    tables_of_sums(comparison, random, 20_000);
    periods::run(comparison, random);
    greatest::run(comparison, random);
    digraph6::run(comparison, random);
    if report(comparison, laws) {
        ExitCode::SUCCESS
    } else {
        ExitCode::FAILURE
    }
}
