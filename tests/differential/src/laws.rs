//! What holds of sums, products, turns and numbers of tables, whatever the codes, as equalities of the engine's own replies: each result goes on as an input.

use crate::compare::Comparison;
use crate::inputs::every_table;
use sides::maps::{is_isomorphism, shuffled};
use sides::random::Random;
use sides::{code_of, written, ENGINE};
use std::collections::{BTreeMap, HashMap};
use std::fmt::Write;

/// A code, or the reply of a refusal.
type Code = Result<Vec<u8>, i64>;

/// The reply to two codes whose result would be above 200 points.
const TOO_LARGE: i64 = -11;

const EMPTY: [u8; 2] = [0, 0];
const FIXED_POINT: [u8; 4] = [1, 1, 1, 1];

pub fn plus(a: &[u8], b: &[u8]) -> Code {
    written(|out| (ENGINE.sum)(a, b, out))
}

pub fn times(a: &[u8], b: &[u8]) -> Code {
    written(|out| (ENGINE.product)(a, b, out))
}

/// How often both sides of a law of three codes were one code, how often both were refused with 11, and how often the law was not asked, since a result inside was.
#[derive(Default)]
pub struct Laws {
    pub given: u64,
    pub refused: u64,
    pub unasked: u64,
}

impl Laws {
    /// A side of a law is what its last call answers, or the refusal of an earlier one, which can be no other than 11.
    fn equal(&mut self, comparison: &mut Comparison, entry: &str, codes: [&[u8]; 3], left: Result<Code, i64>, right: Result<Code, i64>) {
        let agree = match (&left, &right) {
            (Ok(one), Ok(other)) => one == other && one.as_ref().map_or_else(|&reply| reply == TOO_LARGE, |code| !code.is_empty()),
            _ => [&left, &right].iter().all(|side| side.as_ref().err().is_none_or(|&reply| reply == TOO_LARGE)),
        };
        match (&left, &right) {
            (Ok(Ok(_)), Ok(_)) => self.given += 1,
            (Ok(Err(_)), Ok(_)) => self.refused += 1,
            _ => self.unasked += 1,
        }
        comparison.count(entry, agree, |text| write!(text, "a law of three: {left:?}, {right:?}, codes {codes:?}").unwrap());
    }

    /// Sum and product are associative, and the product distributes over the sum, from either side.
    pub fn of_three(&mut self, comparison: &mut Comparison, [a, b, c]: [&[u8]; 3]) {
        for (entry, of) in [("sum", plus as fn(&[u8], &[u8]) -> Code), ("product", times)] {
            self.equal(comparison, entry, [a, b, c], of(a, b).map(|x| of(&x, c)), of(b, c).map(|x| of(a, &x)));
        }
        let parts = |x: Code, y: Code| x.and_then(|x| y.map(|y| plus(&x, &y)));
        self.equal(comparison, "product", [a, b, c], plus(a, b).map(|x| times(&x, c)), parts(times(a, c), times(b, c)));
        self.equal(comparison, "product", [a, b, c], plus(b, c).map(|x| times(a, &x)), parts(times(a, b), times(a, c)));
    }
}

/// Both are commutative, 11 included.
fn commutative(comparison: &mut Comparison, a: &[u8], b: &[u8]) {
    for (entry, left, right) in [("sum", plus(a, b), plus(b, a)), ("product", times(a, b), times(b, a))] {
        let agree = left == right && left.as_ref().err().is_none_or(|&reply| reply == TOO_LARGE);
        comparison.count(entry, agree, |text| write!(text, "in both orders {left:?}, {right:?}, codes {a:?} {b:?}").unwrap());
    }
}

/// The neutral systems, and the empty one in a product, from either side.
pub fn neutral(comparison: &mut Comparison, code: &[u8]) {
    let sides = [
        ("sum", plus(code, &EMPTY), plus(&EMPTY, code), code),
        ("product", times(code, &FIXED_POINT), times(&FIXED_POINT, code), code),
        ("product", times(code, &EMPTY), times(&EMPTY, code), &EMPTY),
    ];
    for (entry, behind, before, expected) in sides {
        let agree = [&behind, &before].iter().all(|found| found.as_deref() == Ok(expected));
        comparison.count(entry, agree, |text| write!(text, "with a neutral system {behind:?}, {before:?}, code {code:?}").unwrap());
    }
}

/// The points of the second map behind those of the first.
pub fn side_by_side(f: &[u8], g: &[u8]) -> Vec<u8> {
    f.iter().copied().chain(g.iter().map(|&y| f.len() as u8 + y)).collect()
}

/// A row of pairs for each point of the first map.
fn in_pairs(f: &[u8], g: &[u8]) -> Vec<u8> {
    f.iter().flat_map(|&x| g.iter().map(move |&y| (x as usize * g.len() + y as usize) as u8)).collect()
}

/// The components of a code with their turns, by the component reader, sorted.
fn components(code: &[u8]) -> Vec<(&[u8], i64)> {
    let part = |i| {
        let bytes = code.get((ENGINE.component_start)(code, i) as usize..(ENGINE.component_end)(code, i) as usize)?;
        Some((bytes, (ENGINE.component_turns)(code, i)))
    };
    let mut parts: Vec<(&[u8], i64)> = (0..).map_while(part).collect();
    parts.sort();
    parts
}

/// How many cycles of each length a map has.
pub type Cycles = BTreeMap<usize, usize>;

pub fn cycles(table: &[u8]) -> Cycles {
    let (mut lengths, mut counts) = ([0; 19], [0; 19]);
    let rows = (ENGINE.census)(table, &mut lengths, &mut counts) as usize;
    lengths.into_iter().zip(counts).take(rows).map(|(length, count)| (length as usize, count as usize)).collect()
}

pub fn gcd(a: usize, b: usize) -> usize {
    if b == 0 {
        a
    } else {
        gcd(b, a % b)
    }
}

/// A cycle of k points and one of l make cycles of their least common multiple, as many as their greatest common divisor says.
fn cycles_of_pairs(f: &[u8], g: &[u8]) -> Cycles {
    let mut found = Cycles::new();
    for (k, count) in cycles(f) {
        for (l, other) in cycles(g) {
            *found.entry(k * l / gcd(k, l)).or_default() += gcd(k, l) * count * other;
        }
    }
    found
}

/// The result is the code of any map that is made of two maps with these patterns; a sum has the components of both, with the same turns, and of a product the cycles
/// are known, and the greatest distance from one.
fn of_maps(comparison: &mut Comparison, f: &[u8], g: &[u8], random: &mut Random) {
    let (a, b) = (code_of(f), code_of(g));
    if f.len() + g.len() <= 200 {
        let (found, expected) = (plus(&a, &b), written(|out| (ENGINE.code_of_map)(&shuffled(&side_by_side(f, g), random), out)));
        let mut parts = [components(&a), components(&b)].concat();
        parts.sort();
        let agree = found == expected && found.as_ref().is_ok_and(|code| components(code) == parts);
        comparison.count("sum", agree, |text| write!(text, "of maps {found:?}, {expected:?}, maps {f:?} {g:?}").unwrap());
    }
    if f.len() * g.len() <= 200 {
        let (found, expected) = (times(&a, &b), written(|out| (ENGINE.code_of_map)(&shuffled(&in_pairs(f, g), random), out)));
        let map = found.as_ref().map_or(Vec::new(), |code| written(|out| (ENGINE.map_of_code)(code, out)).unwrap_or_default());
        let height = if map.is_empty() { 0 } else { (ENGINE.height)(f).max((ENGINE.height)(g)) };
        let agree = found == expected && cycles(&map) == cycles_of_pairs(f, g) && (ENGINE.height)(&map) == height;
        comparison.count("product", agree, |text| write!(text, "of maps {found:?}, {expected:?}, maps {f:?} {g:?}").unwrap());
    }
}

/// What holds of two codes, that of their maps included.
pub fn of_two(comparison: &mut Comparison, f: &[u8], g: &[u8], random: &mut Random) {
    commutative(comparison, &code_of(f), &code_of(g));
    of_maps(comparison, f, g, random);
}

/// The bytes of a number.
fn written_number(x: usize) -> Vec<u8> {
    if x < 128 {
        vec![x as u8]
    } else {
        vec![(x % 128 + 128) as u8, (x / 128) as u8]
    }
}

/// The greatest number of equal pieces that a list of bytes is made of, one after another.
fn equal_pieces(bytes: &[u8]) -> usize {
    let size = (1..=bytes.len()).find(|size| bytes.len() % size == 0 && bytes[*size..] == bytes[..bytes.len() - size]);
    size.map_or(0, |size| bytes.len() / size)
}

/// A component of a code: its turns, the number of its trees, their bytes and the number of its points.
struct Component<'a> {
    turns: usize,
    k: usize,
    trees: &'a [u8],
    points: usize,
}

impl Component<'_> {
    fn new((part, turns): (&[u8], i64)) -> Component<'_> {
        let (k, trees) = match part[0] as usize {
            low if low < 128 => (low, &part[1..]),
            low => (low - 128 + 128 * part[1] as usize, &part[2..]),
        };
        // Of a number of one byte or of two exactly the last byte is below 128.
        let points = trees.iter().filter(|&&byte| byte < 128).count();
        Component { turns: turns.max(0) as usize, k, trees, points }
    }

    /// So many copies of its trees, one after another, along one cycle.
    fn part(&self, copies: usize) -> Vec<u8> {
        [written_number(copies * self.k), self.trees.repeat(copies)].concat()
    }

    fn code(&self, copies: usize) -> Vec<u8> {
        [written_number(copies * self.points), written_number(1), self.part(copies)].concat()
    }
}

/// The trees are as many equal pieces as there are turns, and no more. As a piece ends where a tree ends, the turns divide the number of trees.
fn of_pieces(comparison: &mut Comparison, component: &Component, code: &[u8]) {
    let agree = component.turns == equal_pieces(component.trees) && component.k % component.turns == 0;
    comparison.count("component_turns", agree, |text| {
        write!(text, "{} turns of {} trees {:?}, code {code:?}", component.turns, component.k, component.trees).unwrap()
    });
}

/// So many copies along one cycle have so many times as many turns.
fn of_copies(comparison: &mut Comparison, component: &Component, copies: usize) {
    let code = component.code(copies);
    let (found, expected) = ((ENGINE.component_turns)(&code, 0), (copies * component.turns) as i64);
    comparison.count("component_turns", found == expected, |text| write!(text, "of {copies} copies {found}, {expected}, code {code:?}").unwrap());
}

/// With a cycle of l points a component makes as many components as the greatest common divisor of l and its number of trees says, each of so many copies of it that
/// these together have l times as many points.
fn with_cycle(comparison: &mut Comparison, component: &Component, l: usize) {
    let (common, cycle) = (gcd(component.k, l), Component { turns: l, k: 1, trees: &[1], points: 1 });
    let (part, product) = (component.part(l / common), times(&component.code(1), &cycle.code(l)));
    let expected = vec![(&part[..], (l / common * component.turns) as i64); common];
    let agree = product.as_ref().is_ok_and(|code| components(code) == expected);
    comparison
        .count("component_turns", agree, |text| write!(text, "with a cycle of {l} {product:?}, {expected:?}, component {:?}", component.part(1)).unwrap());
}

/// What holds of the turns of each component of a code.
pub fn turns(comparison: &mut Comparison, code: &[u8], random: &mut Random) {
    for part in components(code) {
        let component = Component::new(part);
        of_pieces(comparison, &component, code);
        for copies in [1, 1 + random.below(200 / component.points)] {
            of_copies(comparison, &component, copies);
            with_cycle(comparison, &component, copies);
        }
    }
}

/// Over the whole list of n points, by first and successor, the numbers of tables make n to the power n, which is 1 for no points.
pub fn all_tables(comparison: &mut Comparison, n: usize) {
    let list = std::iter::successors(written(|out| (ENGINE.first)(n, out)).ok(), |code| written(|out| (ENGINE.successor)(code, out)).ok());
    let (found, expected) = (list.map(|code| (ENGINE.table_count)(&code)).sum::<i64>(), (n as i64).pow(n as u32));
    comparison.count("table_count", found == expected, |text| write!(text, "over all codes of {n} points {found}, {expected}").unwrap());
}

/// Each table of n points is counted under its code: every code of the list has as many as the engine says, and there are no others.
pub fn each_table(comparison: &mut Comparison, n: usize, list: &[Vec<u8>]) {
    let mut tables = HashMap::new();
    for table in every_table(n) {
        *tables.entry(written(|out| (ENGINE.code_of_map)(&table, out)).expect("a code")).or_insert(0) += 1;
    }
    for code in list {
        let (found, expected) = ((ENGINE.table_count)(code), tables.remove(code).unwrap_or(0));
        comparison.count("table_count", found == expected, |text| write!(text, "{found}, of every table {expected}, code {code:?}").unwrap());
    }
    comparison.count("table_count", tables.is_empty(), |text| write!(text, "{} codes of {n} points are not in the list", tables.len()).unwrap());
}

/// Every order of n points.
fn orders(n: usize) -> Vec<Vec<u8>> {
    if n == 0 {
        return vec![Vec::new()];
    }
    let with_last = |order: Vec<u8>| (0..n).map(move |place| [&order[..place], &[n as u8 - 1], &order[place..]].concat());
    orders(n - 1).into_iter().flat_map(with_last).collect()
}

/// A map is renamed in n! ways. As many of these lead to one table as leave the map as it is.
pub fn symmetries(comparison: &mut Comparison, n: usize, list: &[Vec<u8>]) {
    let orders = orders(n);
    for code in list {
        let map = written(|out| (ENGINE.map_of_code)(code, out)).expect("a map");
        let kept = orders.iter().filter(|order| is_isomorphism(&map, &map, order)).count();
        let tables = (ENGINE.table_count)(code);
        comparison.count("table_count", tables * kept as i64 == orders.len() as i64, |text| {
            write!(text, "{tables} tables, {kept} of {} renamings leave the map, code {code:?}", orders.len()).unwrap()
        });
    }
}

/// In how many ways so many points are chosen of n.
fn choices(n: usize, chosen: usize) -> i128 {
    (0..chosen).fold(1, |ways, i| ways * (n - i) as i128 / (i + 1) as i128)
}

/// The names of a sum are handed out to both systems. Of a component that both have it is not seen in a table which copy is whose.
pub fn tables_of_sum(comparison: &mut Comparison, a: &[u8], b: &[u8]) {
    let [x, y] = [a, b].map(|code| (ENGINE.table_count)(code) as i128);
    let both = plus(a, b).map_or(-1, |code| (ENGINE.table_count)(&code) as i128);
    let (mine, others) = (components(a), components(b));
    let copies = |group: &[(&[u8], i64)]| choices(group.len() + others.iter().filter(|part| **part == group[0]).count(), group.len());
    let unseen: i128 = mine.chunk_by(|one, next| one == next).map(copies).product();
    let handed_out = choices((a[0] + b[0]) as usize, a[0] as usize);
    comparison.count("table_count", both * unseen == handed_out * x * y, |text| {
        write!(text, "of a sum {both}, {unseen} times too few; {x} and {y}, handed out {handed_out} times; codes {a:?} {b:?}").unwrap()
    });
}
