//! The works that are timed.

use sides::lines::{change, line};
use sides::maps::{is_isomorphism, shuffled, uniform, with_cycles, Kind, KINDS, PERIODIC};
use sides::random::Random;
use sides::{code_of, written, written_in, Side, ENGINE, EVERY_CODE, EVERY_LINE, EVERY_PAGE, MOST_COUNTED, MOST_PERIOD_POINTS, MOST_WANTED, REFERENCE};

/// A work: what one side does of it, in so many calls, and whether both sides get the same.
pub struct Work {
    pub name: String,
    pub calls: usize,
    pub run: Box<dyn Fn(&Side) -> u64>,
    pub agree: Box<dyn Fn() -> bool>,
}

const POINTS: usize = 200;

/// A sum of all bytes, in which their order counts.
fn digest(sum: u64, bytes: &[u8]) -> u64 {
    bytes.iter().fold(sum, |sum, &byte| (sum ^ byte as u64).wrapping_mul(0x100_0000_01b3))
}

/// The entry of a side that steps from a code to a neighbour in the list.
type Step = fn(&Side) -> fn(&[u8], &mut [u8]) -> i64;

const FORWARD: Step = |side| side.successor;
const BACK: Step = |side| side.predecessor;

/// Codes from a given one on, at most so many: their number, and their digest if it is asked for.
fn walk(step: fn(&[u8], &mut [u8]) -> i64, start: &[u8], steps: usize, digested: bool) -> (usize, u64) {
    let (mut code, mut next) = ([0; 1000], [0; 1000]);
    let (mut length, mut sum) = (start.len(), 0);
    code[..length].copy_from_slice(start);
    for made in 0..steps {
        let reply = step(&code[..length], &mut next);
        if reply < 0 {
            return (made, sum);
        }
        length = reply as usize;
        std::mem::swap(&mut code, &mut next);
        if digested {
            sum = digest(sum, &code[..length]);
        }
    }
    (steps, sum)
}

fn walks(name: String, step: Step, starts: Vec<Vec<u8>>, steps: usize) -> Work {
    let all = move |side: &Side, digested| starts.iter().map(|start| walk(step(side), start, steps, digested)).collect::<Vec<_>>();
    let all = std::rc::Rc::new(all);
    let same = all.clone();
    // Each walk ends with a call too, the one that is told "last" or "first", unless it is cut short.
    let calls = all(&REFERENCE, false).iter().map(|&(made, _)| if made < steps { made + 1 } else { made }).sum();
    Work { name, calls, run: Box::new(move |side| all(side, false).len() as u64), agree: Box::new(move || same(&ENGINE, true) == same(&REFERENCE, true)) }
}

/// All codes of n points.
pub fn listing(n: usize) -> Work {
    let first = written(|out| (REFERENCE.first)(n, out)).expect("a first code");
    walks(format!("all codes of {n} points"), FORWARD, vec![first], usize::MAX)
}

/// The code of one component, made of stretches of equal trees.
fn component(stretches: &[(usize, &[u8])]) -> Vec<u8> {
    let trees: usize = stretches.iter().map(|&(times, _)| times).sum();
    let mut numbers = vec![POINTS, 1, trees];
    for &(times, tree) in stretches {
        (0..times).for_each(|_| numbers.extend(tree.iter().map(|&x| x as usize)));
    }
    let bytes = |x: usize| if x < 128 { vec![x as u8] } else { vec![(x % 128 + 128) as u8, (x / 128) as u8] };
    let code: Vec<u8> = numbers.into_iter().flat_map(bytes).collect();
    assert_eq!((REFERENCE.accept)(&code), POINTS as i64);
    code
}

/// Tables of one kind; of the kinds without chance all are the same.
fn tables((_, kind): Kind, number: usize) -> Vec<Vec<u8>> {
    let random = &mut Random::new(1);
    (0..number).map(|_| kind(POINTS, random)).collect()
}

/// Codes from which so many steps are made, and their name.
struct Starts {
    name: String,
    codes: Vec<Vec<u8>>,
    steps: usize,
}

/// A thousand steps from each of the extreme codes, and from the code of each kind of map; where chance has a part in the map, a hundred from each of ten.
fn starts() -> Vec<Starts> {
    let extreme: [(&str, Vec<u8>); 6] = [
        ("200 points along one cycle", component(&[(200, &[1])])),
        ("196 points along a cycle, then a path of 4", component(&[(196, &[1]), (1, &[4, 3, 2, 1])])),
        ("102 points along a cycle, then 49 trees of 2", component(&[(102, &[1]), (49, &[2, 1])])),
        ("100 points along a cycle, then 50 trees of 2", component(&[(100, &[1]), (50, &[2, 1])])),
        ("4 times: 37 points along a cycle, then a path of 3 and two trees of 5", {
            let one = [(37, &[1][..]), (1, &[3, 2, 1]), (2, &[5, 1, 1, 1, 1])];
            component(&[one, one, one, one].concat())
        }),
        ("trees of 2 along the whole cycle", component(&[(100, &[2, 1])])),
    ];
    let mut all: Vec<Starts> = extreme.into_iter().map(|(name, code)| Starts { name: name.into(), codes: vec![code], steps: 1000 }).collect();
    for kind in KINDS {
        let mut codes: Vec<Vec<u8>> = tables(kind, 10).iter().map(|table| code_of(table)).collect();
        codes.dedup();
        let steps = 1000 / codes.len();
        all.push(Starts { name: format!("from the map: {}", kind.0), codes, steps });
    }
    all
}

pub fn successors() -> Vec<Work> {
    starts().into_iter().map(|from| walks(from.name, FORWARD, from.codes, from.steps)).collect()
}

/// As many steps back from the same codes; where the list begins before, fewer.
pub fn predecessors() -> Vec<Work> {
    starts().into_iter().map(|from| walks(from.name, BACK, from.codes, from.steps)).collect()
}

/// Where the reference comes in so many steps forward, and how many it makes up to there; at the end of the list they are fewer.
fn end_of_walk(start: &[u8], steps: usize) -> (Vec<u8>, usize) {
    let mut code = start.to_vec();
    for made in 0..steps {
        let Ok(next) = written(|out| (REFERENCE.successor)(&code, out)) else { return (code, made) };
        code = next;
    }
    (code, steps)
}

/// The steps of the successors once more, back from where each walk ends to where it began.
pub fn returns() -> Vec<Work> {
    let back = |from: Starts| {
        let (ends, made): (Vec<Vec<u8>>, Vec<usize>) = from.codes.iter().map(|code| end_of_walk(code, from.steps)).unzip();
        walks(from.name, BACK, ends, made.into_iter().min().unwrap_or(0))
    };
    starts().into_iter().map(back).collect()
}

/// A page in an output of so many bytes, all of which are compared.
fn page(name: String, code: Vec<u8>, room: usize) -> Work {
    let (same, out) = (code.clone(), std::cell::RefCell::new(vec![0; room]));
    let filled = move |side: &Side| {
        let mut out = vec![0; room];
        ((side.page)(&same, MOST_WANTED, &mut out), out)
    };
    Work {
        name,
        calls: 1,
        run: Box::new(move |side| (side.page)(&code, MOST_WANTED, &mut out.borrow_mut()).bytes as u64),
        agree: Box::new(move || filled(&ENGINE) == filled(&REFERENCE)),
    }
}

/// A whole page from the code of each kind of map. An output that holds every page can be filled at once; where there is no byte to spare the engine has to find
/// out first that the page fits, so some are timed with both.
pub fn pages() -> Vec<Work> {
    let wide = |kind: Kind| page(format!("page: {}", kind.0), code_of(&tables(kind, 1)[0]), EVERY_PAGE);
    let tight = |kind: Kind| {
        let code = code_of(&tables(kind, 1)[0]);
        let length = (REFERENCE.page)(&code, MOST_WANTED, &mut vec![0; EVERY_PAGE]).bytes as usize;
        page(format!("page, no byte to spare: {}", kind.0), code, length)
    };
    let both = ["random", "path", "one cycle", "fixed points"];
    KINDS.into_iter().map(wide).chain(KINDS.into_iter().filter(|kind| both.contains(&kind.0)).map(tight)).collect()
}

/// What one side does with an input and a buffer.
type Call<T> = fn(&Side, &T, &mut [u8]) -> i64;

/// Whether what both sides wrote of an input, or their replies, are as they should be.
type Good<T> = fn(&T, [&Result<Vec<u8>, i64>; 2]) -> bool;

/// A work of one call for each input, into a buffer of so many bytes.
fn calls_in<const ROOM: usize, T: 'static>(name: &str, inputs: Vec<T>, call: Call<T>, good: Good<T>) -> Work {
    let inputs = std::rc::Rc::new(inputs);
    let same = inputs.clone();
    let answer = move |side: &Side, input: &T| written_in(ROOM, |out| call(side, input, out));
    Work {
        name: name.into(),
        calls: inputs.len(),
        run: Box::new(move |side| {
            let mut out = [0; ROOM];
            inputs.iter().map(|input| call(side, input, &mut out) as u64).sum()
        }),
        agree: Box::new(move || same.iter().all(|input| good(input, [&answer(&ENGINE, input), &answer(&REFERENCE, input)]))),
    }
}

/// A work of one call for each input, into a buffer that holds every code.
fn calls<T: 'static>(name: &str, inputs: Vec<T>, call: Call<T>, good: Good<T>) -> Work {
    calls_in::<EVERY_CODE, T>(name, inputs, call, good)
}

/// A result of both sides, and the same.
fn given<T>(_: &T, [engine, reference]: [&Result<Vec<u8>, i64>; 2]) -> bool {
    engine.is_ok() && engine == reference
}

pub fn code_of_map(name: &str, tables: Vec<Vec<u8>>) -> Work {
    calls(name, tables, |side, table, out| (side.code_of_map)(table, out), given)
}

pub fn codes() -> Vec<Work> {
    KINDS.iter().map(|&kind| code_of_map(kind.0, tables(kind, 100))).collect()
}

/// Random maps of some numbers of points, and other kinds of the most, each with its points renamed.
fn renamed_maps() -> Vec<(String, Vec<Vec<u8>>)> {
    let random = &mut Random::new(7);
    let others = KINDS.into_iter().filter(|kind| ["star", "path", "one cycle", "fixed points"].contains(&kind.0)).map(|kind| (kind, POINTS));
    let all = [10, 50, 100, POINTS].into_iter().map(|n| (KINDS[0], n)).chain(others);
    let mut renamed = |(_, kind): Kind, n: usize| (0..100).map(|_| shuffled(&kind(n, random), random)).collect();
    all.map(|(kind, n)| (format!("{}, {n} points", kind.0), renamed(kind, n))).collect()
}

/// Lines that come in.
fn lines_in(name: &str, lines: Vec<Vec<u8>>, good: Good<Vec<u8>>) -> Work {
    calls(&format!("in: {name}"), lines, |side, line, out| (side.code_of_digraph6)(line, out), good)
}

/// Each code goes out as a line, and each line comes in; and what it takes to refuse a line whose fault is found late.
pub fn lines() -> Vec<Work> {
    let maps = renamed_maps();
    let out = |(name, tables): &(String, Vec<Vec<u8>>)| {
        let codes = tables.iter().map(|table| code_of(table)).collect();
        calls_in::<EVERY_LINE, Vec<u8>>(&format!("out: {name}"), codes, |side, code, out| (side.digraph6_of_code)(code, out), given)
    };
    let into = |(name, tables): &(String, Vec<Vec<u8>>)| lines_in(name, tables.iter().map(|table| line(table)).collect(), given);
    let mut last_row = line(&maps[3].1[0]);
    let mut last_byte = last_row.clone();
    change(&mut last_row[5..], POINTS * (POINTS - 1) + maps[3].1[0][POINTS - 1] as usize);
    last_byte[EVERY_LINE - 1] = 127;
    let refused = [
        lines_in("random, 200 points, the last row without a mark, refused", vec![last_row; 100], equal),
        lines_in("random, 200 points, the last byte outside of the format, refused", vec![last_byte; 100], equal),
    ];
    maps.iter().map(out).chain(maps.iter().map(into)).chain(refused).collect()
}

/// An entry that makes one code of two.
type Combined = fn(&Side) -> fn(&[u8], &[u8], &mut [u8]) -> i64;

/// The sum or the product of two codes of maps of these kinds, of so many points each.
fn of_two(name: String, entry: Combined, (first, n): (Kind, usize), (second, m): (Kind, usize)) -> Work {
    let random = &mut Random::new(4);
    let pairs = (0..50).map(|_| (entry, code_of(&first.1(n, random)), code_of(&second.1(m, random)))).collect();
    calls(&name, pairs, |side, (entry, a, b), out| entry(side)(a, b, out), given)
}

/// Of each kind of map the sum of two and the product of two; of some kinds also sums and products with a map of few points.
pub fn sums() -> Vec<Work> {
    let (sum, product): (Combined, Combined) = (|side| side.sum, |side| side.product);
    let cycle = KINDS.into_iter().find(|kind| kind.0 == "one cycle").expect("a kind");
    let halves = |kind: Kind| of_two(format!("sum: {}, 100 points and 100", kind.0), sum, (kind, 100), (kind, 100));
    let squares = |kind: Kind| of_two(format!("product: {}, 14 points and 14", kind.0), product, (kind, 14), (kind, 14));
    let more = |kind: Kind| {
        let with_cycle = |name: &str, entry: Combined, n: usize, k: usize| {
            let few = if k == 1 { "a fixed point".into() } else { format!("a cycle of {k}") };
            of_two(format!("{name}: {}, {n} points, and {few}", kind.0), entry, (kind, n), (cycle, k))
        };
        let random = of_two(format!("product: {}, 20 points, and a random map of 10", kind.0), product, (kind, 20), (KINDS[0], 10));
        [with_cycle("sum", sum, 199, 1), random, with_cycle("product", product, 100, 2), with_cycle("product", product, 200, 1)]
    };
    let some = KINDS.into_iter().filter(|kind| ["random", "path", "star", "comb"].contains(&kind.0));
    KINDS.into_iter().map(halves).chain(KINDS.into_iter().map(squares)).chain(some.flat_map(more)).collect()
}

/// Each map with a shuffled copy, and random maps with other random maps.
pub fn isomorphisms() -> Vec<Work> {
    type Pair = (Vec<u8>, Vec<u8>);
    let random = &mut Random::new(2);
    let work = |name: &str, pairs: Vec<Pair>| {
        let good = |(f, g): &Pair, answers: [&Result<Vec<u8>, i64>; 2]| match answers {
            [Ok(r), Ok(s)] => is_isomorphism(f, g, r) && is_isomorphism(f, g, s),
            [engine, reference] => engine == reference,
        };
        calls(name, pairs, |side, (f, g), out| (side.isomorphism)(f, g, out), good)
    };
    let mut works = Vec::new();
    for kind in KINDS {
        let pairs = tables(kind, 100).into_iter().map(|f| (f.clone(), shuffled(&f, random))).collect();
        works.push(work(&format!("{}, and a shuffled copy", kind.0), pairs));
    }
    let pairs = (0..100).map(|_| (uniform(POINTS, random), uniform(POINTS, random))).collect();
    works.push(work("two random maps, not isomorphic", pairs));
    works
}

/// Equal replies, and equal bytes.
fn equal<T>(_: &T, [engine, reference]: [&Result<Vec<u8>, i64>; 2]) -> bool {
    engine == reference
}

/// The rest of the entries.
pub fn others() -> Vec<Work> {
    let codes: Vec<Vec<u8>> = tables(KINDS[0], 100).iter().map(|table| code_of(table)).collect();
    vec![calls("map of a code", codes, |side, code, out| (side.map_of_code)(code, out), equal)]
}

/// A work whose calls are short: they are gone through again until there are a thousand.
fn a_thousand(once: Work) -> Work {
    let times = 1000_usize.div_ceil(once.calls);
    Work { calls: once.calls * times, run: Box::new(move |side| (0..times).map(|_| (once.run)(side)).fold(0, u64::wrapping_add)), ..once }
}

/// Accept of each of these, good or bad. The number of points is compared too.
fn accepts(name: &str, codes: Vec<Vec<u8>>) -> Work {
    a_thousand(calls(name, codes, |side, code, _| (side.accept)(code), equal))
}

/// An entry of the component reader.
type Reader = fn(&Side) -> fn(&[u8], usize) -> i64;

/// Every component of each of these codes. The numbers that are told are compared too.
fn reads(name: String, reader: Reader, codes: &[Vec<u8>]) -> Work {
    let positions = |code: &Vec<u8>| (0..).take_while(|&position| (REFERENCE.component_start)(code, position) >= 0).count();
    let inputs = codes.iter().flat_map(|code| (0..positions(code)).map(|position| (reader, code.clone(), position))).collect();
    a_thousand(calls(&name, inputs, |side, (reader, code, position), _| reader(side)(code, *position), equal))
}

/// Codes with periodic cycles, and nearly periodic ones; random ones, and ones of many components.
fn read_codes() -> Vec<(&'static str, Vec<Vec<u8>>)> {
    let period = [(2, &[1][..]), (1, &[2, 1])];
    let of_kind = |name: &str| tables(KINDS.into_iter().find(|kind| kind.0 == name).expect("a kind"), 10).iter().map(|table| code_of(table)).collect();
    vec![
        ("200 points along one cycle", vec![component(&[(200, &[1])])]),
        ("198 points along a cycle, then a tree of 2", vec![component(&[(198, &[1]), (1, &[2, 1])])]),
        ("trees of 2 along the whole cycle", vec![component(&[(100, &[2, 1])])]),
        ("97 trees of 2 along a cycle, then two of 3", vec![component(&[(97, &[2, 1]), (2, &[3, 2, 1])])]),
        ("50 times: two points along a cycle, then a tree of 2", vec![component(&period.repeat(50))]),
        (
            "49 times: two points along a cycle, then a tree of 2; then a point and a tree of 3",
            vec![component(&[period.repeat(49), vec![(1, &[1][..]), (1, &[3, 2, 1])]].concat())],
        ),
        ("twice: 98 points along a cycle, then a tree of 2", vec![component(&[(98, &[1][..]), (1, &[2, 1])].repeat(2))]),
        ("random", of_kind("random")),
        ("small components", of_kind("small components")),
    ]
}

pub fn starts_of_components() -> Vec<Work> {
    read_codes().into_iter().map(|(name, codes)| reads(format!("start: {name}"), |side| side.component_start, &codes)).collect()
}

pub fn turns_of_components() -> Vec<Work> {
    read_codes().into_iter().map(|(name, codes)| reads(format!("turns: {name}"), |side| side.component_turns, &codes)).collect()
}

/// An entry that answers one number about its input.
type Quantity = fn(&Side) -> fn(&[u8]) -> i64;

/// The number of each of these inputs. It is compared as it is, since it is more than any output has places.
fn quantities(name: String, entry: Quantity, inputs: Vec<Vec<u8>>) -> Work {
    let asked = inputs.iter().map(|input| (entry, input.clone())).collect();
    let timed = a_thousand(calls(&name, asked, |side, (entry, input), _| entry(side)(input), equal));
    Work { agree: Box::new(move || inputs.iter().all(|input| entry(&ENGINE)(input) == entry(&REFERENCE)(input))), ..timed }
}

/// Of each kind of map, two equal components, and what it takes to refuse a code of 200 points.
pub fn table_counts() -> Vec<Work> {
    let codes = |(_, kind): Kind, n: usize| {
        let random = &mut Random::new(5);
        (0..100).map(|_| code_of(&kind(n, random))).collect::<Vec<_>>()
    };
    let counts = |name: &str, codes| quantities(format!("table count: {name}"), |side| side.table_count, codes);
    let twins = [&[15, 3, 1, 1][..], &[1, 7, 3, 1, 1, 3, 1, 1].repeat(2)].concat();
    let others = [counts("a fixed point and two equal trees of 7", vec![twins]), counts("random, 200 points, refused", codes(KINDS[0], POINTS))];
    KINDS.into_iter().chain(PERIODIC).map(|kind| counts(kind.0, codes(kind, MOST_COUNTED))).chain(others).collect()
}

/// Of each kind of map, of the greatest period, of as many lengths as there can be, of two long cycles, and what it takes to refuse a byte that is no point.
pub fn periods() -> Vec<Work> {
    let works = |name: &str, tables| quantities(format!("period: {name}"), |side| side.period, tables);
    let tables = |(_, kind): Kind| {
        let random = &mut Random::new(6);
        (0..100).map(|_| kind(MOST_PERIOD_POINTS, random)).collect::<Vec<_>>()
    };
    let no_point = (0..MOST_PERIOD_POINTS as u8).map(|x| if x == 119 { 120 } else { x }).collect();
    let others = [
        works("the greatest, cycles of 5, 7, 9, 11, 13, 16, 17, 19 and 23", vec![with_cycles(&[5, 7, 9, 11, 13, 16, 17, 19, 23])]),
        works("cycles of 1 to 15", vec![with_cycles(&(1..=15).collect::<Vec<_>>())]),
        works("cycles of 60 and 59, and a fixed point", vec![with_cycles(&[60, 59, 1])]),
        works("fixed points, the last byte no point, refused", vec![no_point]),
    ];
    KINDS.into_iter().map(|kind| works(kind.0, tables(kind))).chain(others).collect()
}

/// The greatest period of n points. Which code is written is left open, so its points and its period are compared, and what is told of it.
fn longest(name: String, n: usize) -> Work {
    let told = move |side: &Side| {
        let mut out = [0; EVERY_CODE];
        let reply = (side.greatest_period)(n, &mut out);
        let code = &out[..reply.length.max(0) as usize];
        let period = written(|out| (side.map_of_code)(code, out)).map(|table| (side.period)(&table));
        (reply.length.min(0), reply.period, (side.accept)(code), period)
    };
    // A thousand calls share one buffer, which takes longer to clear than some of them.
    let timed = calls(&name, vec![n; 1000], |side, &n, out| (side.greatest_period)(n, out).length, equal);
    Work { agree: Box::new(move || told(&ENGINE) == told(&REFERENCE)), ..timed }
}

/// Of some counts of points up to the most, and what it takes to refuse one more.
pub fn greatest_periods() -> Vec<Work> {
    let counts = [0, 30, 60, 100, MOST_PERIOD_POINTS].map(|n| longest(format!("greatest period: {n} points"), n));
    let refused = longest("greatest period: 121 points, refused".into(), MOST_PERIOD_POINTS + 1);
    counts.into_iter().chain([refused]).collect()
}

/// The length of a hostile input.
const HOSTILE: usize = 10_000;

/// So many bytes that are numbers of one byte and of two, by chance.
fn numbers(length: usize, random: &mut Random) -> Vec<u8> {
    let mut bytes = Vec::new();
    while bytes.len() < length {
        if bytes.len() + 1 == length || random.below(2) == 0 {
            bytes.push(random.below(128) as u8);
        } else {
            bytes.extend([128 + random.below(128) as u8, 1 + random.below(127) as u8]);
        }
    }
    bytes
}

/// Inputs of numbers by chance and then these bytes. Of one alone the processor would learn the forms by heart.
fn numbers_before(end: &[u8], random: &mut Random) -> Vec<Vec<u8>> {
    (0..20).map(|_| [&numbers(HOSTILE - end.len(), random), end].concat()).collect()
}

/// Inputs in which all bytes have to be looked at before the reply is known.
fn hostile() -> Vec<(&'static str, Vec<Vec<u8>>)> {
    let random = &mut Random::new(3);
    let mut longer = code_of(&tables(KINDS[0], 1)[0]);
    longer.resize(HOSTILE, 1);
    vec![
        ("10,000 bytes: 10,000 numbers of one byte", vec![vec![1; HOSTILE]]),
        ("10,000 bytes: 5,000 numbers of two bytes", vec![[255, 127].repeat(HOSTILE / 2)]),
        ("10,000 bytes: a code of 200 points, and 1s behind it", vec![longer]),
        ("10,000 bytes: numbers of one byte and of two, by chance", numbers_before(&[], random)),
        ("10,000 bytes: such numbers, the last one open", numbers_before(&[200], random)),
        ("10,000 bytes: such numbers, the last one with a second byte 0", numbers_before(&[200, 0], random)),
    ]
}

/// A code as it is while it is typed, from no byte to all.
fn keystrokes(kind: Kind) -> Work {
    let code = code_of(&tables(kind, 1)[0]);
    accepts(&format!("keystrokes: {}", kind.0), (0..=code.len()).map(|end| code[..end].to_vec()).collect())
}

/// Codes of each kind of map, hostile inputs, and the keystrokes of a code that has few numbers of two bytes and of one that has many.
pub fn acceptances() -> Vec<Work> {
    let whole = |kind: Kind| accepts(kind.0, tables(kind, 100).iter().map(|table| code_of(table)).collect());
    let mut works: Vec<Work> = KINDS.into_iter().map(whole).collect();
    works.extend(hostile().into_iter().map(|(name, inputs)| accepts(name, inputs)));
    works.extend(KINDS.into_iter().filter(|kind| ["random", "path"].contains(&kind.0)).map(keystrokes));
    works
}

/// The rows of a census, lengths in the first half of the output and counts in the other.
fn census(side: &Side, table: &[u8], out: &mut [u8]) -> i64 {
    let (lengths, counts) = out.split_at_mut(500);
    (side.census)(table, lengths, counts)
}

/// The reply, and both columns.
fn columns(side: &Side, table: &[u8]) -> (i64, [u8; 1000]) {
    let mut out = [0; 1000];
    (census(side, table, &mut out), out)
}

/// Of each kind of map the rows of its census, and its greatest distance.
pub fn censuses() -> Vec<Work> {
    let rows = |kind: Kind| {
        let tables = tables(kind, 100);
        let timed = calls(&format!("rows: {}", kind.0), tables.clone(), |side, table, out| census(side, table, out), equal);
        Work { agree: Box::new(move || tables.iter().all(|table| columns(&ENGINE, table) == columns(&REFERENCE, table))), ..timed }
    };
    let height = |kind: Kind| calls(&format!("height: {}", kind.0), tables(kind, 100), |side, table, _| (side.height)(table), equal);
    KINDS.into_iter().map(rows).chain(KINDS.into_iter().map(height)).collect()
}
