//! The period of a map (document 02, paper 8: round length): what both sides are given, and what holds of the engine's own replies, whatever the maps.

use crate::compare::Comparison;
use crate::inputs;
use crate::laws::{cycles, gcd, plus, side_by_side, times};
use sides::maps::{shuffled, uniform, with_cycles, Kind, KINDS, PERIODIC};
use sides::random::Random;
use sides::{written, ENGINE, MOST_PERIOD_POINTS};
use std::fmt::Write;

/// The engine's reply is the number that a law asks for.
fn expect(comparison: &mut Comparison, law: &str, table: &[u8], expected: usize) {
    let found = (ENGINE.period)(table);
    comparison.count("period", found == expected as i64, |text| write!(text, "{law}: {found}, {expected}, map {table:?}").unwrap());
}

pub fn lcm(a: usize, b: usize) -> usize {
    a / gcd(a, b) * b
}

/// One step of each of these points.
fn stepped(table: &[u8], points: &[u8]) -> Vec<u8> {
    points.iter().map(|&x| table[x as usize]).collect()
}

/// Where each point is after so many steps. It is found by halving, since a period may have ten digits.
fn after(table: &[u8], steps: usize) -> Vec<u8> {
    let (mut points, mut power, mut left) = ((0..=255).take(table.len()).collect::<Vec<u8>>(), table.to_vec(), steps);
    while left > 0 {
        if left % 2 == 1 {
            points = stepped(&power, &points);
        }
        power = stepped(&power, &power);
        left /= 2;
    }
    points
}

/// The words of the paper: once every point is on a cycle, all move on together until each is back.
fn tried(table: &[u8]) -> usize {
    let settled = after(table, table.len());
    let (mut points, mut steps) = (stepped(table, &settled), 1);
    while points != settled {
        (points, steps) = (stepped(table, &points), steps + 1);
    }
    steps
}

/// The primes that divide a number.
fn primes(number: usize) -> Vec<usize> {
    let (mut left, mut divisor, mut found) = (number, 2, Vec::new());
    while divisor * divisor <= left {
        if left % divisor == 0 {
            found.push(divisor);
            left /= divisor;
        } else {
            divisor += 1;
        }
    }
    found.extend((left > 1).then_some(left));
    found.dedup();
    found
}

/// Whether so many steps bring each point back, and no fewer. The numbers of steps that do are the multiples of one of them, so only the parts by a prime are looked at.
fn is_least(table: &[u8], period: usize) -> bool {
    let settled = after(table, table.len());
    let back = |steps: usize| stepped(&after(table, steps), &settled) == settled;
    period > 0 && back(period) && primes(period).into_iter().all(|prime| !back(period / prime))
}

/// Every list of powers of different primes that make at most 120 together, one of each prime. A map with cycles of these lengths has their product as its period, and
/// there is no other period that a map of at most 120 points can have.
fn prime_powers() -> Vec<Vec<usize>> {
    let mut lists = vec![Vec::new()];
    for prime in (2..=MOST_PERIOD_POINTS).filter(|&x| primes(x) == [x]) {
        for place in 0..lists.len() {
            let left = MOST_PERIOD_POINTS - lists[place].iter().sum::<usize>();
            let powers = std::iter::successors(Some(prime), |power| Some(power * prime)).take_while(|&power| power <= left);
            lists.extend(powers.map(|power| [&lists[place][..], &[power]].concat()).collect::<Vec<_>>());
        }
    }
    lists
}

/// The greatest periods of 0 to 120 points, Landau's function.
fn greatest(lists: &[Vec<usize>]) -> Vec<usize> {
    let mut greatest = vec![1; MOST_PERIOD_POINTS + 1];
    for list in lists {
        let points = list.iter().sum::<usize>();
        greatest[points] = greatest[points].max(list.iter().product());
    }
    for n in 1..greatest.len() {
        greatest[n] = greatest[n].max(greatest[n - 1]);
    }
    greatest
}

/// Cycles of these lengths and up to n points: those that are left are fixed points or hang at any point before them, and all are renamed.
fn filled(n: usize, lengths: &[usize], random: &mut Random) -> Vec<u8> {
    let (mut table, fixed) = (with_cycles(lengths), random.below(4));
    for x in table.len()..n {
        table.push(if x == 0 || random.below(4) < fixed { x } else { random.below(x) } as u8);
    }
    shuffled(&table, random)
}

/// A map of n points with cycles of lengths by chance, short ones or any.
pub fn by_cycles(n: usize, random: &mut Random) -> Vec<u8> {
    let (mut lengths, mut left, most) = (Vec::new(), random.below(n + 1), *random.pick(&[3, 6, 12, 30, 200]));
    while left > 0 {
        lengths.push(1 + random.below(left.min(most)));
        left -= lengths[lengths.len() - 1];
    }
    filled(n, &lengths, random)
}

const CYCLES: Kind = ("cycles by chance", by_cycles);

/// What holds of a map of at most 120 points: the reply is the least number of steps, the least common multiple of the lengths in the census and no more than the greatest
/// period; 1 exactly if all points come to fixed points; and that of a renamed copy and of the map of the code.
fn of_map(comparison: &mut Comparison, table: &[u8], greatest: &[usize], random: &mut Random) {
    let period = (ENGINE.period)(table).max(0) as usize;
    let settled = after(table, table.len());
    let agree = is_least(table, period) && period <= greatest[table.len()] && (period == 1) == (stepped(table, &settled) == settled);
    comparison.count("period", agree, |text| write!(text, "{period} are not the steps of {table:?}").unwrap());
    expect(comparison, "of the lengths in the census", table, cycles(table).into_keys().fold(1, lcm));
    expect(comparison, "of a renamed copy", &shuffled(table, random), period);
    expect(comparison, "of the map of the code", &map_of(written(|out| (ENGINE.code_of_map)(table, out))), period);
}

/// The map of a code, which must be one.
fn map_of(code: Result<Vec<u8>, i64>) -> Vec<u8> {
    written(|out| (ENGINE.map_of_code)(&code.expect("a code"), out)).expect("a map")
}

/// Two systems side by side are back when both are, and so are pairs, of which a system without points has none.
fn of_two(comparison: &mut Comparison, f: &[u8], g: &[u8]) {
    let [one, other] = [f, g].map(|table| (ENGINE.period)(table).max(1) as usize);
    let [a, b] = [f, g].map(|table| written(|out| (ENGINE.code_of_map)(table, out)).expect("a code"));
    if f.len() + g.len() <= MOST_PERIOD_POINTS {
        expect(comparison, "side by side", &side_by_side(f, g), lcm(one, other));
        expect(comparison, "of the sum", &map_of(plus(&a, &b)), lcm(one, other));
    }
    if f.len() * g.len() <= MOST_PERIOD_POINTS {
        expect(comparison, "of the product", &map_of(times(&a, &b)), if f.is_empty() || g.is_empty() { 1 } else { lcm(one, other) });
    }
}

/// Every string of up to three bytes.
fn every_short(comparison: &mut Comparison) {
    for length in 0..=3 {
        for number in 0..1u32 << (8 * length) {
            comparison.period(&number.to_be_bytes()[4 - length..]);
        }
    }
}

/// Every map of up to 7 points, and how many steps each takes.
fn every_map(comparison: &mut Comparison) {
    for table in (0..=7).flat_map(inputs::every_table) {
        comparison.period(&table);
        expect(comparison, "tried", &table, tried(&table));
    }
}

/// Every period that there is, of cycles in any order and of as many points as they need, of 120 points, and of 121, which are refused.
fn every_period(comparison: &mut Comparison, lists: &[Vec<usize>], random: &mut Random) {
    for list in lists {
        let points = list.iter().sum::<usize>();
        for n in [points, MOST_PERIOD_POINTS, points + random.below(MOST_PERIOD_POINTS + 1 - points)] {
            let table = filled(n, list, random);
            comparison.period(&table);
            expect(comparison, "of powers of primes", &table, list.iter().product());
        }
        comparison.period(&filled(MOST_PERIOD_POINTS + 1, list, random));
    }
}

/// Each greatest period, in the order of the lengths, in the other one and shuffled.
fn greatest_ones(comparison: &mut Comparison, lists: &[Vec<usize>], greatest: &[usize], random: &mut Random) {
    for n in 0..=MOST_PERIOD_POINTS {
        let reached = |list: &&Vec<usize>| list.iter().sum::<usize>() <= n && list.iter().product::<usize>() == greatest[n];
        let list = lists.iter().find(reached).expect("a list");
        let falling: Vec<usize> = list.iter().rev().copied().collect();
        for table in [with_cycles(list), with_cycles(&falling), filled(n, list, random)] {
            comparison.period(&table);
            expect(comparison, "the greatest", &table, greatest[n]);
            of_map(comparison, &table, greatest, random);
        }
    }
}

/// Counts at which a refusal changes, and some that are small where they are cut to a byte.
const COUNTS: [usize; 18] = [1, 2, 3, 118, 119, 120, 121, 122, 128, 199, 200, 201, 202, 255, 256, 257, 376, 10_000];

/// The refusal of a table, if it is one: 1, then 13, then 2.
fn refusal(table: &[u8]) -> Option<i64> {
    match table.len() {
        201.. => Some(-1),
        121.. => Some(-13),
        n => table.iter().any(|&image| image as usize >= n).then_some(-2),
    }
}

/// A table, good or bad: both sides, and whether the engine refuses it as it has to.
fn judged(comparison: &mut Comparison, table: &[u8]) {
    comparison.period(table);
    let (found, expected) = ((ENGINE.period)(table), refusal(table));
    comparison.count("period", expected.map_or(found > 0, |cause| found == cause), |text| write!(text, "{found}, refusal {expected:?}, {table:?}").unwrap());
}

/// Tables of these counts, good ones and with a byte at the edge at any place.
fn counts(comparison: &mut Comparison, random: &mut Random) {
    for n in COUNTS {
        let table = if n <= 256 { uniform(n, random) } else { inputs::noise(n, random) };
        judged(comparison, &table);
        for place in (0..n).step_by(1 + n / 300) {
            let mut other = table.clone();
            for byte in inputs::EDGES.into_iter().chain([n - 1, n, n + 1, 119, 120, 121].map(|x| x as u8)) {
                other[place] = byte;
                judged(comparison, &other);
            }
        }
        (0..200).for_each(|_| judged(comparison, &inputs::noise(n, random)));
    }
}

/// A count of points: up to 120, up to 200, or near one of these.
fn any_count(random: &mut Random) -> usize {
    match random.below(6) {
        0 => 1 + random.below(12),
        1 | 2 => 1 + random.below(MOST_PERIOD_POINTS),
        3 => MOST_PERIOD_POINTS + 1 + random.below(80),
        4 => *random.pick(&[118, 119, 120, 121, 122]),
        _ => *random.pick(&[199, 200, 201, 202]),
    }
}

/// Maps of every kind and of any count, whole and damaged; of those of at most 120 points, what holds of them.
fn maps(comparison: &mut Comparison, greatest: &[usize], random: &mut Random, rounds: usize) {
    for (_, kind) in KINDS.into_iter().chain(PERIODIC).chain([CYCLES]) {
        for _ in 0..rounds {
            let table = kind(any_count(random), random);
            judged(comparison, &table);
            let mut damaged = table.clone();
            (0..1 + random.below(3)).for_each(|_| inputs::damage(&mut damaged, random));
            judged(comparison, &damaged);
            if table.len() <= MOST_PERIOD_POINTS {
                of_map(comparison, &table, greatest, random);
            }
        }
    }
}

/// Two maps, of 120 points together or of fewer, or whose pairs are as many.
fn two_maps(comparison: &mut Comparison, random: &mut Random, rounds: usize) {
    for round in 0..rounds {
        let n = random.below(if round % 3 == 0 { 13 } else { MOST_PERIOD_POINTS + 1 });
        let m = match round % 3 {
            0 => random.below(MOST_PERIOD_POINTS / n.max(1) + 1),
            1 => MOST_PERIOD_POINTS - n,
            _ => random.below(MOST_PERIOD_POINTS + 1 - n),
        };
        of_two(comparison, &by_cycles(n, random), &by_cycles(m, random));
    }
}

pub fn run(comparison: &mut Comparison, random: &mut Random) {
    let lists = prime_powers();
    let greatest = greatest(&lists);
    every_short(comparison);
    every_map(comparison);
    every_period(comparison, &lists, random);
    greatest_ones(comparison, &lists, &greatest, random);
    counts(comparison, random);
    maps(comparison, &greatest, random, 3_000);
    two_maps(comparison, random, 20_000);
}
