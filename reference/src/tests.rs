//! The examples and totals of document 01, and the pages, steps back, sums, products, turns, numbers of tables, periods, greatest periods and digraph6 lines of
//! document 02.

use crate::digraph6::{packed, size};
use crate::*;

/// A code, a table or a line that an entry wrote, or its reply.
fn written(entry: impl FnOnce(&mut [u8]) -> i64) -> Result<Vec<u8>, i64> {
    let mut out = vec![0; EVERY_LINE];
    let reply = entry(&mut out);
    if reply < 0 {
        return Err(reply);
    }
    out.truncate(reply as usize);
    Ok(out)
}

/// All codes of n points, by the entries.
fn listing(n: usize) -> Vec<Vec<u8>> {
    let mut codes = vec![written(|out| first(n, out)).unwrap()];
    while let Ok(code) = written(|out| successor(codes.last().unwrap(), out)) {
        codes.push(code);
    }
    codes
}

#[test]
fn totals() {
    for (n, total) in [1, 1, 3, 7, 19, 47, 130, 343, 951, 2615].into_iter().enumerate() {
        assert_eq!(listing(n).len(), total);
    }
    for (n, total) in (1..).zip([1, 2, 4, 9, 20, 51, 125, 329]) {
        assert_eq!(listing(n).iter().filter(|code| code[1] == 1).count(), total);
    }
}

#[test]
fn every_code_is_accepted_once_and_is_the_code_of_its_map() {
    let codes = listing(8);
    for code in &codes {
        let table = written(|out| map_of_code(code, out)).unwrap();
        assert_eq!(accept(code), 8);
        assert_eq!(written(|out| code_of_map(&table, out)).as_ref(), Ok(code));
    }
    let different: std::collections::HashSet<_> = codes.iter().collect();
    assert_eq!(different.len(), codes.len());
}

#[test]
fn examples() {
    assert_eq!(written(|out| code_of_map(&[], out)), Ok(vec![0, 0]));
    assert_eq!(written(|out| successor(&[0, 0], out)), Err(LAST));
    assert_eq!(written(|out| code_of_map(&[1, 2, 0], out)), Ok(vec![3, 1, 3, 1, 1, 1]));
    assert_eq!(written(|out| code_of_map(&[0, 0, 0], out)), Ok(vec![3, 1, 1, 3, 1, 1]));
    assert_eq!(written(|out| code_of_map(&[0, 0, 1], out)), Ok(vec![3, 1, 1, 3, 2, 1]));
    assert_eq!(written(|out| successor(&[8, 3, 2, 1, 1, 1, 3, 2, 1, 2, 1, 2, 1], out)), Ok(vec![8, 3, 2, 1, 1, 1, 3, 1, 1, 1, 3, 1, 1]));
    assert_eq!(written(|out| isomorphism(&[0, 0], &[1, 1], out)), Ok(vec![1, 0]));
    assert_eq!(written(|out| isomorphism(&[0, 1], &[1, 0], out)), Err(NONE));
}

#[test]
fn refusals() {
    let cases: [(&[u8], i64); 14] = [
        (&[3, 1, 2, 2, 1, 1], -6),
        (&[4, 1, 1, 4, 2, 1, 1], -6),
        (&[3, 2, 2, 1, 1, 1, 1], -6),
        (&[], -3),
        (&[128], -3),
        (&[129, 0], -4),
        (&[128, 128], -4),
        (&[0, 1], -5),
        (&[1, 0], -5),
        (&[1, 1, 1, 1, 9], -7),
        (&[200, 1], -3),
        (&[201, 1], -1),
        (&[3, 1, 2, 3, 1, 1], -3),
        (&[2, 1, 1, 1, 9], -5),
    ];
    for (code, reply) in cases {
        assert_eq!(accept(code), reply, "{code:?}");
    }
}

#[test]
fn census_and_components() {
    let (mut lengths, mut counts) = ([7; 3], [7; 3]);
    assert_eq!(census(&[1, 0, 2, 2], &mut lengths, &mut counts), 2);
    assert_eq!((lengths, counts), ([1, 2, 7], [1, 1, 7]));
    assert_eq!(height(&[1, 0, 2, 2]), 1);
    // the cycles are met by falling length, and the rows come by rising length
    let (mut lengths, mut counts) = ([7; 4], [7; 4]);
    assert_eq!(census(&[1, 2, 0, 4, 3, 5], &mut lengths, &mut counts), 3);
    assert_eq!((lengths, counts), ([1, 2, 3, 7], [1, 1, 1, 7]));
    let code = [3, 2, 1, 1, 1, 2, 1];
    assert_eq!((component_start(&code, 1), component_end(&code, 1)), (4, 7));
    assert_eq!(component_start(&code, 2), -9);
}

/// The first reply of an entry that has two, and what it wrote into an output of so many places, as long as the second one says. Every other place has to be
/// kept, and a refusal has to stand in both.
fn filled(room: usize, entry: impl FnOnce(&mut [u8]) -> (i64, i64)) -> Result<(i64, Vec<u8>), i64> {
    let mut out = vec![7; room];
    let (number, length) = entry(&mut out);
    let kept = out.split_off(length.max(0) as usize);
    assert!(kept.iter().all(|&byte| byte == 7));
    if number < 0 {
        assert_eq!(number, length);
        return Err(number);
    }
    Ok((number, out))
}

/// The page in an output of so many places.
fn paged(code: &[u8], wanted: usize, room: usize) -> Result<(i64, Vec<u8>), i64> {
    filled(room, |out| {
        let reply = page(code, wanted, out);
        (reply.codes, reply.bytes)
    })
}

#[test]
fn pages_of_3_points() {
    let (code, last) = ([3, 2, 1, 1, 1, 2, 1], [3, 1, 2, 1, 2, 1]);
    let two = vec![3, 1, 3, 1, 1, 1, 3, 1, 1, 3, 2, 1];
    let rest = [&two[..], &[3, 1, 1, 3, 1, 1], &last].concat();
    assert_eq!(paged(&code, 2, 12), Ok((2, two.clone())));
    assert_eq!(paged(&code, 2, 100), Ok((2, two)));
    assert_eq!(paged(&code, 2, 11), Err(-8));
    assert_eq!(paged(&code, 4, 24), Ok((4, rest.clone())));
    assert_eq!(paged(&code, 1000, 24), Ok((4, rest)));
    assert_eq!(paged(&code, 1000, 23), Err(-8));
    assert_eq!(paged(&code, 0, 0), Ok((0, vec![])));
    assert_eq!(paged(&last, 1000, 0), Ok((0, vec![])));
    assert_eq!(paged(&[0, 0], 1000, 0), Ok((0, vec![])));
}

#[test]
fn refused_pages() {
    let bad: [(&[u8], i64); 7] =
        [(&[201, 1], -1), (&[], -3), (&[129, 0], -4), (&[0, 1], -5), (&[3, 1, 2, 2, 1, 1], -6), (&[1, 1, 1, 1, 9], -7), (&[2, 2, 1, 1, 1, 1], -8)];
    for (code, reply) in bad {
        assert_eq!(paged(code, 1, 0), Err(reply), "{code:?}");
        assert_eq!(paged(code, 1001, 0), Err(-10), "{code:?}");
        assert_eq!(paged(code, usize::MAX, 100), Err(-10), "{code:?}");
        assert_eq!(paged(code, 0, 0), if reply == -8 { Ok((0, vec![])) } else { Err(reply) }, "{code:?}");
    }
}

#[test]
fn a_page_is_what_follows_in_the_list() {
    for n in 0..=7 {
        let codes = listing(n);
        for (i, code) in codes.iter().enumerate() {
            for wanted in [0, 1, 2, 7, 1000] {
                let expected = &codes[i + 1..codes.len().min(i + 1 + wanted)];
                assert_eq!(paged(code, wanted, 10_000), Ok((expected.len() as i64, expected.concat())));
            }
        }
    }
}

/// The code before, or the reply, by the entry.
fn before(code: &[u8]) -> Result<Vec<u8>, i64> {
    written(|out| predecessor(code, out))
}

#[test]
fn a_step_back_is_what_comes_before_in_the_list() {
    for n in 0..=9 {
        let codes = listing(n);
        assert_eq!(before(&codes[0]), Err(FIRST));
        for two in codes.windows(2) {
            assert_eq!(before(&two[1]).as_ref(), Ok(&two[0]));
        }
    }
}

/// Numbers below an end, the same in every run.
fn random(state: &mut u64, end: usize) -> usize {
    *state = state.wrapping_mul(6364136223846793005).wrapping_add(1442695040888963407);
    (*state >> 33) as usize % end
}

/// A map of n points: any; a component with short ways or long ones; or components of a few points each.
fn some_map(state: &mut u64, n: usize) -> Vec<u8> {
    let kind = random(state, 5);
    let few = 1 + random(state, n);
    let image = |x: usize| match kind {
        0 => random(state, n),
        1 => random(state, x + 1),
        2 => x.saturating_sub(1 + random(state, 3)),
        3 if x < few => (x + 1) % few,
        3 => random(state, x),
        _ => x - x % few + random(state, few.min(n - (x - x % few))),
    };
    (0..n).map(image).map(|image| image as u8).collect()
}

#[test]
fn steps_from_any_code_lead_back() {
    let state = &mut 1;
    for _ in 0..4000 {
        let n = 1 + random(state, 200);
        let code = written(|out| code_of_map(&some_map(state, n), out)).unwrap();
        match before(&code) {
            Ok(earlier) => assert_eq!((accept(&earlier), written(|out| successor(&earlier, out)).as_ref()), (n as i64, Ok(&code))),
            Err(reply) => assert_eq!((reply, written(|out| first(n, out)).as_ref()), (FIRST, Ok(&code))),
        }
        match written(|out| successor(&code, out)) {
            Ok(later) => assert_eq!(before(&later).as_ref(), Ok(&code)),
            Err(reply) => assert_eq!(reply, LAST),
        }
    }
}

#[test]
fn refused_steps_back() {
    let bad: [(&[u8], i64); 7] =
        [(&[201, 1], -1), (&[], -3), (&[129, 0], -4), (&[0, 1], -5), (&[3, 1, 2, 2, 1, 1], -6), (&[2, 2, 1, 1, 1, 1, 9], -7), (&[3, 1, 3, 1, 1, 1], -8)];
    for (code, reply) in bad {
        assert_eq!(predecessor(code, &mut [7; 6]), reply, "{code:?}");
    }
    let mut out = [7; 9];
    assert_eq!(predecessor(&[3, 3, 1, 1, 1, 1, 1, 1], &mut []), FIRST);
    assert_eq!(predecessor(&[3, 3, 1, 1, 1, 1, 1, 1], &mut out), FIRST);
    assert_eq!(predecessor(&[3, 1, 3, 1, 1, 1], &mut out[..6]), -8);
    assert_eq!(out, [7; 9]);
    assert_eq!(predecessor(&[3, 1, 3, 1, 1, 1], &mut out), 7);
    assert_eq!(out, [3, 2, 1, 1, 1, 2, 1, 7, 7]);
}

type Combined = fn(&[u8], &[u8], &mut [u8]) -> i64;

/// The sum or the product of two codes, or the reply.
fn of_two(entry: Combined, a: &[u8], b: &[u8]) -> Result<Vec<u8>, i64> {
    written(|out| entry(a, b, out))
}

/// A point that goes to itself, and n - 1 points that go to it, n below 128.
fn star(n: u8) -> Vec<u8> {
    let mut code = vec![n, 1, 1, n];
    code.resize(n as usize + 3, 1);
    code
}

#[test]
fn sums_and_products() {
    let (two, three, leaf, path): (&[u8], &[u8], &[u8], &[u8]) = (&[2, 1, 2, 1, 1], &[3, 1, 3, 1, 1, 1], &[2, 1, 1, 2, 1], &[3, 1, 1, 3, 2, 1]);
    let (empty, one): (&[u8], &[u8]) = (&[0, 0], &[1, 1, 1, 1]);
    let cases: [(Combined, &[u8], &[u8], &[u8]); 12] = [
        (sum, two, path, &[5, 2, 2, 1, 1, 1, 3, 2, 1]),
        (sum, path, two, &[5, 2, 2, 1, 1, 1, 3, 2, 1]),
        (sum, path, empty, path),
        (sum, empty, path, path),
        (sum, empty, empty, empty),
        (product, two, three, &[6, 1, 6, 1, 1, 1, 1, 1, 1]),
        (product, two, two, &[4, 2, 2, 1, 1, 2, 1, 1]),
        (product, leaf, leaf, &[4, 1, 1, 4, 1, 1, 1]),
        (product, path, two, &[6, 1, 2, 3, 2, 1, 3, 2, 1]),
        (product, path, one, path),
        (product, one, path, path),
        (product, path, empty, empty),
    ];
    for (entry, a, b, code) in cases {
        assert_eq!(of_two(entry, a, b).as_deref(), Ok(code), "{a:?} {b:?}");
    }
}

#[test]
fn refused_sums_and_products() {
    let bad: [(&[u8], i64); 6] = [(&[201, 1], -1), (&[], -3), (&[129, 0], -4), (&[0, 1], -5), (&[3, 1, 2, 2, 1, 1], -6), (&[1, 1, 1, 1, 9], -7)];
    for (entry, large) in [(sum as Combined, star(101)), (product, star(15))] {
        for (code, reply) in bad {
            assert_eq!(entry(code, &large, &mut []), reply, "{code:?}");
            assert_eq!(entry(&large, code, &mut []), reply, "{code:?}");
            for (other, _) in bad {
                assert_eq!(entry(code, other, &mut []), reply, "{code:?} {other:?}");
            }
        }
        assert_eq!(entry(&large, &large, &mut []), -11);
    }
    let mut out = [7; 9];
    assert_eq!(sum(&[2, 1, 2, 1, 1], &[2, 1, 2, 1, 1], &mut out[..7]), -8);
    assert_eq!(product(&[2, 1, 2, 1, 1], &star(101), &mut out), -11);
    assert_eq!(out, [7; 9]);
    assert_eq!(sum(&[2, 1, 2, 1, 1], &[2, 1, 2, 1, 1], &mut out), 8);
    assert_eq!(out, [4, 2, 2, 1, 1, 2, 1, 1, 7]);
    assert_eq!(of_two(sum, &star(100), &star(100)).map(|code| code.len()), Ok(205));
    assert_eq!(of_two(sum, &star(100), &star(101)), Err(-11));
    assert_eq!(of_two(product, &star(14), &star(14)).map(|code| code.len()), Ok(201));
    assert_eq!(of_two(product, &star(67), &star(3)), Err(-11));
}

/// The parts of the components of a code, sorted.
fn parts(code: &[u8]) -> Vec<&[u8]> {
    let part = |i| code.get(component_start(code, i) as usize..component_end(code, i) as usize);
    let mut parts: Vec<&[u8]> = (0..).map_while(part).collect();
    parts.sort();
    parts
}

#[test]
fn a_sum_has_the_components_of_both() {
    let codes: Vec<Vec<u8>> = (0..=5).flat_map(listing).collect();
    for a in &codes {
        for b in &codes {
            let both = of_two(sum, a, b).unwrap();
            let mut expected = [parts(a), parts(b)].concat();
            expected.sort();
            assert_eq!((accept(&both), parts(&both)), (accept(a) + accept(b), expected));
        }
    }
}

#[test]
fn whatever_maps_have_the_patterns() {
    let state = &mut 2;
    for round in 0..3000 {
        let n = 1 + random(state, if round % 2 == 0 { 199 } else { 30 });
        let m = if round % 2 == 0 { 200 - n } else { 200 / n };
        let (f, g) = (some_map(state, n), some_map(state, m));
        let [a, b] = [&f, &g].map(|table| written(|out| code_of_map(table, out)).unwrap());
        let (entry, table): (Combined, Vec<u8>) = if round % 2 == 0 {
            (sum, f.iter().copied().chain(g.iter().map(|&y| n as u8 + y)).collect())
        } else {
            (product, f.iter().flat_map(|&x| g.iter().map(move |&y| (x as usize * m + y as usize) as u8)).collect())
        };
        assert_eq!(of_two(entry, &a, &b), written(|out| code_of_map(&table, out)));
    }
}

#[test]
fn laws_of_sum_and_product() {
    let codes: Vec<Vec<u8>> = (0..=4).flat_map(listing).collect();
    let add = |a: &[u8], b: &[u8]| of_two(sum, a, b).unwrap();
    let times = |a: &[u8], b: &[u8]| of_two(product, a, b).unwrap();
    for a in &codes {
        assert_eq!((add(a, &[0, 0]), times(a, &[1, 1, 1, 1]), times(a, &[0, 0])), (a.clone(), a.clone(), vec![0, 0]));
        for b in &codes {
            assert_eq!((add(a, b), times(a, b)), (add(b, a), times(b, a)));
            for c in codes.iter().filter(|c| c[0] < 4) {
                assert_eq!(add(&add(a, b), c), add(a, &add(b, c)));
                assert_eq!(times(&times(a, b), c), times(a, &times(b, c)));
                assert_eq!(times(&add(a, b), c), add(&times(a, c), &times(b, c)));
            }
        }
    }
}

/// The bytes of a number.
fn number(x: usize) -> Vec<u8> {
    if x < 128 {
        vec![x as u8]
    } else {
        vec![(x % 128 + 128) as u8, (x / 128) as u8]
    }
}

/// The code of the component with these trees of small sizes along its cycle.
fn component_of(trees: &[&[u8]]) -> Vec<u8> {
    let flat = trees.concat();
    [number(flat.len()), number(1), number(trees.len()), flat].concat()
}

#[test]
fn turns() {
    let (point, two, three, path): (&[u8], &[u8], &[u8], &[u8]) = (&[1], &[2, 1], &[3, 1, 1], &[3, 2, 1]);
    let (pair, triple) = ([point, two], [point, point, two]);
    let cases: [(Vec<&[u8]>, i64); 20] = [
        (vec![point; 3], 3),
        (vec![point, two], 1),
        (vec![point], 1),
        (vec![three], 1),
        (pair.repeat(2), 2),
        (triple.repeat(2), 2),
        (vec![three, path], 1),
        ([three, path].repeat(3), 3),
        // a b a, and other powers that are cut off
        (vec![point, point, two], 1),
        ([&[point][..], &pair.repeat(2)].concat(), 1),
        ([&triple.repeat(3)[..], &pair].concat(), 1),
        // one tree changed
        ([&pair.repeat(3)[..], &[point, three]].concat(), 1),
        ([&[point; 198][..], &[two]].concat(), 1),
        ([&[two; 98][..], &[three]].concat(), 1),
        ([&triple.repeat(49)[..], &[point, three]].concat(), 1),
        // powers inside of a power
        ([&pair.repeat(4)[..], &[three]].concat().repeat(13), 13),
        (vec![point; 200], 200),
        (vec![two; 100], 100),
        (triple.repeat(50), 50),
        ([&[point; 98][..], &[two]].concat().repeat(2), 2),
    ];
    for (trees, turns) in cases {
        let code = component_of(&trees);
        assert_eq!((accept(&code), component_turns(&code, 0)), (trees.concat().len() as i64, turns), "{trees:?}");
    }
    let code = [8, 3, 2, 1, 1, 1, 3, 2, 1, 2, 1, 2, 1];
    assert_eq!([0, 1, 2].map(|position| component_turns(&code, position)), [2, 1, 1]);
}

#[test]
fn refused_turns() {
    let bad: [(&[u8], i64); 7] =
        [(&[201, 1], -1), (&[], -3), (&[129, 0], -4), (&[0, 1], -5), (&[3, 1, 2, 2, 1, 1], -6), (&[4, 1, 4, 1, 1, 1, 1, 9], -7), (&[0, 0], -9)];
    for (code, reply) in bad {
        for position in [0, 1, usize::MAX] {
            assert_eq!(component_turns(code, position), reply, "{code:?}");
        }
    }
    assert_eq!([0, 1, 2, usize::MAX].map(|position| component_turns(&[3, 2, 1, 1, 2, 1, 1], position)), [1, 2, -9, -9]);
    assert_eq!(component_turns(&[8, 2, 4, 1, 1, 1, 1, 4, 1, 1, 1, 1], 2), -9);
    // the rotations of (1)(1)(2 1) that do not equal it are refused
    assert_eq!([&[4, 1, 3, 1, 2, 1, 1], &[4, 1, 3, 2, 1, 1, 1]].map(|code| component_turns(code, 0)), [-6, -6]);
}

/// The number at the start, and the bytes behind it.
fn first_number(bytes: &[u8]) -> (usize, &[u8]) {
    match bytes[0] as usize {
        low if low < 128 => (low, &bytes[1..]),
        low => (low - 128 + 128 * bytes[1] as usize, &bytes[2..]),
    }
}

#[test]
fn turns_divide_the_trees_and_grow_with_copies() {
    let state = &mut 3;
    for round in 0..2000 {
        let n = 1 + random(state, if round % 2 == 0 { 200 } else { 12 });
        let code = written(|out| code_of_map(&some_map(state, n), out)).unwrap();
        let position = random(state, parts(&code).len());
        let part = &code[component_start(&code, position) as usize..component_end(&code, position) as usize];
        let (turns, (k, trees)) = (component_turns(&code, position), first_number(part));
        assert!((1..=k as i64).contains(&turns) && k as i64 % turns == 0, "{code:?}");
        // no second byte of a number is above 127
        let points = trees.iter().filter(|&&byte| byte < 128).count();
        let copies = 1 + random(state, 200 / points);
        let longer = [number(copies * points), number(1), number(copies * k), trees.repeat(copies)].concat();
        assert_eq!(component_turns(&longer, 0), copies as i64 * turns, "{longer:?}");
    }
}

/// 15!, the number of tables of a pattern of 15 points that looks like itself in one way only.
const ALL_ORDERS: i64 = 1_307_674_368_000;

#[test]
fn table_counts() {
    assert_eq!(listing(3).iter().map(|code| table_count(code)).collect::<Vec<_>>(), [1, 3, 6, 2, 6, 3, 6]);
    assert_eq!((table_count(&[0, 0]), table_count(&[1, 1, 1, 1])), (1, 1));
    let (point, two, three): (&[u8], &[u8], &[u8]) = (&[1], &[2, 1], &[3, 1, 1]);
    let cases = [
        // a star, a cycle, and paths into a fixed point and into a cycle
        (star(15), 15),
        (component_of(&[point; 15]), ALL_ORDERS / 15),
        (component_of(&[&[15, 14, 13, 12, 11, 10, 9, 8, 7, 6, 5, 4, 3, 2, 1]]), ALL_ORDERS),
        (component_of(&[point, &[14, 13, 12, 11, 10, 9, 8, 7, 6, 5, 4, 3, 2, 1]]), ALL_ORDERS),
        // equal branches, equal branches of equal branches, and periods
        (component_of(&[&[15, 7, 3, 1, 1, 3, 1, 1, 7, 3, 1, 1, 3, 1, 1]]), ALL_ORDERS / 128),
        (component_of(&[three; 5]), ALL_ORDERS / (5 * 32)),
        (component_of(&[point, two].repeat(5)), ALL_ORDERS / 5),
        // equal components
        (written(|out| first(15, out)).unwrap(), 1),
        ([&[15, 5][..], &[3, 1, 1, 1].repeat(5)].concat(), ALL_ORDERS / (120 * 243)),
        ([&[15, 3][..], &[5, 1, 1, 1, 1, 1].repeat(3)].concat(), ALL_ORDERS / (6 * 125)),
    ];
    for (code, tables) in cases {
        assert_eq!((accept(&code), table_count(&code)), (15, tables), "{code:?}");
    }
}

#[test]
fn refused_table_counts() {
    let (good, point): (_, &[u8]) = (star(16), &[1]);
    let cases: [(&[u8], i64); 11] = [
        (&good, -12),
        (&star(17), -12),
        (&component_of(&[point; 16]), -12),
        (&component_of(&[point; 200]), -12),
        // the code's own checks come first
        (&[201, 1], -1),
        (&good[..18], -3),
        (&[16, 129, 0], -4),
        (&[16, 0], -5),
        (&[16, 1, 2, 15, 14, 13, 12, 11, 10, 9, 8, 7, 6, 5, 4, 3, 2, 1, 1], -6),
        (&[&good[..], &[1]].concat(), -7),
        (&[3, 1, 2, 2, 1, 1], -6),
    ];
    for (code, reply) in cases {
        assert_eq!(table_count(code), reply, "{code:?}");
    }
}

/// Every table of n points.
fn every_table(n: usize) -> impl Iterator<Item = Vec<u8>> {
    (0..n.pow(n as u32)).map(move |number| (0..n).map(|x| (number / n.pow(x as u32) % n) as u8).collect())
}

#[test]
fn table_counts_are_counts_of_tables() {
    for n in 0..=7 {
        let mut found = std::collections::HashMap::new();
        for table in every_table(n) {
            *found.entry(written(|out| code_of_map(&table, out)).unwrap()).or_insert(0) += 1;
        }
        let codes = listing(n);
        assert_eq!(found.len(), codes.len());
        for code in codes {
            assert_eq!(table_count(&code), found[&code], "{code:?}");
        }
    }
}

#[test]
fn table_counts_make_all_tables() {
    for n in 0..=10 {
        assert_eq!(listing(n).iter().map(|code| table_count(code)).sum::<i64>(), (n as i64).pow(n as u32));
    }
}

/// A map with cycles of these lengths, one after another. The points that are left hang at the last one in a row.
fn with_cycles(n: usize, lengths: &[usize]) -> Vec<u8> {
    let mut table: Vec<u8> = Vec::new();
    for &length in lengths {
        let start = table.len();
        table.extend((0..length).map(|x| (start + (x + 1) % length) as u8));
    }
    table.extend((table.len()..n).map(|x| x as u8 - 1));
    assert_eq!(table.len(), n);
    table
}

#[test]
fn periods() {
    assert_eq!((period(&[]), period(&[1, 0, 2, 2])), (1, 2));
    let all: Vec<usize> = (1..=15).collect();
    let cases: [(usize, &[usize], i64); 16] = [
        (5, &[2, 3], 6),
        (5, &[3, 2], 6),
        (120, &[2, 3], 6),
        (1, &[1], 1),
        (120, &[1], 1),
        (120, &[1; 120], 1),
        (120, &[120], 120),
        (7, &[3, 4], 12),
        // not the product, and not the longest
        (10, &[4, 6], 12),
        (8, &[4, 4], 4),
        (14, &[8, 4, 2], 8),
        (31, &[6, 10, 15], 30),
        (120, &[60, 59], 3540),
        (120, &all, 360_360),
        // the greatest of 119 points and of 120: the one takes 32 bits, the other more
        (119, &[5, 7, 8, 9, 11, 13, 17, 19, 29], 3_375_492_120),
        (120, &[5, 7, 9, 11, 13, 16, 17, 19, 23], 5_354_228_880),
    ];
    for (n, lengths, expected) in cases {
        assert_eq!(period(&with_cycles(n, lengths)), expected, "{n} {lengths:?}");
    }
}

#[test]
fn refused_periods() {
    let bad = |n: usize, place: usize, byte: u8| {
        let mut table = vec![0; n];
        table[place] = byte;
        table
    };
    for (n, reply) in [(120, 1), (121, -13), (122, -13), (128, -13), (199, -13), (200, -13), (201, -1), (256, -1), (376, -1), (10_000, -1)] {
        assert_eq!(period(&vec![0; n]), reply, "{n}");
        // a byte that is no point comes last
        for place in [0, n / 2, n - 1] {
            assert_eq!(period(&bad(n, place, 255)), if reply == 1 { -2 } else { reply }, "{n} {place}");
        }
    }
    for n in [1, 2, 5, 119, 120] {
        assert_eq!((period(&bad(n, n - 1, n as u8 - 1)), period(&bad(n, n - 1, n as u8)), period(&bad(n, 0, n as u8))), (1, -2, -2), "{n}");
    }
}

/// The period by the words of the paper: when every point is on a cycle, all are moved step by step until each is back.
fn tried(table: &[u8]) -> i64 {
    let step = |points: &[u8]| points.iter().map(|&x| table[x as usize]).collect::<Vec<u8>>();
    let settled = (0..table.len()).fold((0..table.len() as u8).collect::<Vec<u8>>(), |points, _| step(&points));
    let (mut points, mut steps) = (step(&settled), 1);
    while points != settled {
        (points, steps) = (step(&points), steps + 1);
    }
    steps
}

#[test]
fn periods_bring_each_point_back() {
    for table in (0..=6).flat_map(every_table) {
        assert_eq!(period(&table), tried(&table), "{table:?}");
    }
    let state = &mut 4;
    for _ in 0..2000 {
        let n = 1 + random(state, 40);
        let table = some_map(state, n);
        assert_eq!(period(&table), tried(&table), "{table:?}");
    }
}

/// The greatest period of n points, and a code that has it, in an output of so many places.
fn longest(n: usize, room: usize) -> Result<(i64, Vec<u8>), i64> {
    filled(room, |out| {
        let reply = greatest_period(n, out);
        (reply.period, reply.length)
    })
}

/// The greatest of the least common multiples of all partitions of n points, each built up from its greatest part down.
fn greatest_of_partitions(n: usize, most: usize, multiple: usize) -> usize {
    let joined = |part: usize| (1..).map(|times| times * multiple).find(|number| number % part == 0).expect("a multiple");
    (1..=n.min(most)).map(|part| greatest_of_partitions(n - part, part, joined(part))).max().unwrap_or(multiple)
}

#[test]
fn greatest_periods() {
    let code = |n, room| longest(n, room).map(|(_, code)| code);
    assert_eq!((code(0, 1000), code(1, 1000), code(5, 1001)), (Ok(vec![0, 0]), Ok(vec![1, 1, 1, 1]), Ok(vec![5, 2, 2, 1, 1, 3, 1, 1, 1])));
    assert_eq!(code(7, 5000), Ok(vec![7, 2, 3, 1, 1, 1, 4, 1, 1, 1, 1]));
    // a point that no cycle takes
    assert_eq!(code(6, 1000), Ok(vec![6, 3, 1, 1, 2, 1, 1, 3, 1, 1, 1]));
    // Landau's function, OEIS A000793; the greatest of 120 points takes more than 32 bits
    for (n, period) in [(0, 1), (5, 6), (7, 12), (13, 60), (15, 105), (30, 4620), (100, 232_792_560), (119, 3_375_492_120), (120, 5_354_228_880)] {
        assert_eq!(longest(n, 1000).map(|(period, _)| period), Ok(period), "{n}");
    }
    for n in 0..=40 {
        assert_eq!(longest(n, 1000).map(|(period, _)| period), Ok(greatest_of_partitions(n, n, 1) as i64), "{n}");
    }
}

#[test]
fn codes_have_the_greatest_period() {
    for n in 0..=MOST_PERIOD_POINTS {
        let (greatest, code) = longest(n, 1000).unwrap();
        let table = written(|out| map_of_code(&code, out)).unwrap();
        assert_eq!((accept(&code), period(&table)), (n as i64, greatest), "{n}");
        assert_eq!((longest(n, 1001), longest(n, 4000)), (Ok((greatest, code.clone())), Ok((greatest, code))), "{n}");
    }
}

#[test]
fn refused_greatest_periods() {
    for n in (0..=300).chain([1 << 32, (1 << 32) + 5, 1 << 63, usize::MAX]) {
        for room in [0, 1, 2, 10, 804, 998, 999, 1000, 5000] {
            let refusal = match n {
                201.. => Some(-1),
                121.. => Some(-13),
                _ => (room < 1000).then_some(-8),
            };
            assert_eq!(longest(n, room).err(), refusal, "{n} {room}");
        }
    }
}

#[test]
fn no_period_is_above_the_greatest() {
    let greatest: Vec<i64> = (0..=MOST_PERIOD_POINTS).map(|n| longest(n, 1000).unwrap().0).collect();
    for n in 0..=6 {
        assert_eq!(every_table(n).map(|table| period(&table)).max(), Some(greatest[n]), "{n}");
    }
    let state = &mut 5;
    for _ in 0..5000 {
        let n = 1 + random(state, MOST_PERIOD_POINTS);
        let (mut lengths, mut left) = (Vec::new(), n);
        while left > 0 {
            lengths.push(1 + random(state, left.min(30)));
            left -= lengths[lengths.len() - 1];
        }
        let found = period(&with_cycles(n, &lengths));
        assert!((1..=greatest[n]).contains(&found) && lengths.iter().all(|&length| found % length as i64 == 0), "{lengths:?}");
    }
}

/// The digraph6 line of a code, or the reply.
fn line(code: &[u8]) -> Result<Vec<u8>, i64> {
    written(|out| digraph6_of_code(code, out))
}

/// The code of a digraph6 line, or the reply.
fn read_in(line: &[u8]) -> Result<Vec<u8>, i64> {
    written(|out| code_of_digraph6(line, out))
}

#[test]
fn sizes_and_bits_of_nautys_description() {
    assert_eq!((size(30), size(12345), size(460_175_067)), (vec![93], vec![126, 66, 63, 120], vec![126, 126, 63, 90, 90, 90, 90, 90]));
    assert_eq!((size(0), size(62), size(63), size(200)), (vec![63], vec![125], vec![126, 63, 63, 126], vec![126, 63, 66, 71]));
    assert_eq!((size(258_047), size(258_048)), (vec![126, 125, 126, 126], vec![126, 126, 63, 63, 63, 126, 63, 63]));
    // five points and the arcs 0 to 2, 0 to 4, 3 to 1 and 3 to 4
    let arcs: Vec<bool> = "0010100000000000100100000".chars().map(|bit| bit == '1').collect();
    assert_eq!(packed(&arcs), [73, 63, 65, 79, 63]);
    assert_eq!(read_in(&[38, 68, 73, 63, 65, 79, 63]), Err(-15));
}

#[test]
fn lines_of_small_maps() {
    let cases: [(&[u8], &[u8], &[u8]); 6] = [
        (&[], &[0, 0], b"&?"),
        (&[0], &[1, 1, 1, 1], b"&@_"),
        (&[1, 0], &[2, 1, 2, 1, 1], b"&AW"),
        (&[0, 0], &[2, 1, 1, 2, 1], b"&Ag"),
        (&[1, 2, 0], &[3, 1, 3, 1, 1, 1], b"&BP_"),
        (&[0, 0, 1], &[3, 1, 1, 3, 2, 1], b"&BcO"),
    ];
    for (table, code, expected) in cases {
        assert_eq!(written(|out| map_of_code(code, out)).as_deref(), Ok(table));
        assert_eq!((line(code).as_deref(), read_in(expected).as_deref()), (Ok(expected), Ok(code)));
    }
    // the cycle 0 to 2 to 1 to 0 goes out as 0 to 1 to 2 to 0
    assert_eq!(read_in(b"&BKO"), Ok(vec![3, 1, 3, 1, 1, 1]));
}

#[test]
fn lengths_of_lines() {
    for (n, start, length) in [(62, "&}", 643), (63, "&~??~", 667), (64, "&~?@?", 688), (200, "&~?BG", EVERY_LINE)] {
        let code = written(|out| first(n, out)).unwrap();
        let line = line(&code).unwrap();
        assert!(line.starts_with(start.as_bytes()) && line.len() == length, "{n}");
        assert_eq!(read_in(&line), Ok(code));
    }
}

/// 3 points on a cycle with the size in these bytes.
fn with_size(size: &[u8]) -> Vec<u8> {
    [b"&", size, b"P_"].concat()
}

#[test]
fn refused_lines() {
    let cases: [(&[u8], i64); 29] = [
        // no & in front
        (b"", -14),
        (b"BP_", -14),
        (b":BP_", -14),
        (b">>digraph6<<&BP_", -14),
        // a size that is cut short, or has a byte outside of the format
        (b"&", -14),
        (b"&~", -14),
        (b"&~?B", -14),
        (b"&~~", -14),
        (b"&~~????B", -14),
        (&[38, 62], -14),
        (&[38, 127], -14),
        (&[38, 126, 63, 66, 127], -14),
        (&[38, 126, 62, 66, 72], -14),
        (&[38, 126, 126, 63, 63, 63, 63, 66, 10], -14),
        // 201 points in both forms, and as many as there can be
        (b"&~?BH", -1),
        (b"&~~????BH", -1),
        (b"&~~~~~~~~", -1),
        // a longer form than needed
        (&with_size(b"~??B"), -14),
        (&with_size(b"~~?????B"), -14),
        (b"&~~????BG", -14),
        // a wrong length, a byte outside of the format, a padding bit
        (b"&BP", -14),
        (b"&BP_?", -14),
        (b"&BP_\n", -14),
        (&[38, 66, 80, 62], -14),
        (&[38, 66, 127, 95], -14),
        (b"&@`", -14),
        // a row without a mark, no row with one, a row with two
        (b"&@?", -15),
        (b"&A?", -15),
        (b"&Aw", -15),
    ];
    for (line, reply) in cases {
        assert_eq!(code_of_digraph6(line, &mut []), reply, "{line:?}");
        assert_eq!(read_in(line), Err(reply), "{line:?}");
    }
}

#[test]
fn order_of_the_checks_of_a_line() {
    let cases: [(&[u8], i64); 12] = [
        // no &, and a count above 200
        (b"~?BH", -14),
        // a count above 200, cut short
        (b"&~C?", -14),
        // a count above 200 with a byte outside of the format
        (&[38, 126, 66, 62, 63], -14),
        (&[38, 126, 126, 126, 63, 63, 63, 63, 127], -14),
        // a count above 200 in a longer form, and with bytes behind it that have no form
        (&[38, 126, 126, 63, 63, 63, 63, 66, 72, 0], -1),
        (&[38, 126, 63, 66, 72, 255], -1),
        // a longer form than needed, and a wrong length, or a row without a mark
        (b"&~??B", -14),
        (b"&~??@?", -14),
        // a row without a mark, and a wrong length, a byte outside of the format, a padding bit
        (b"&A", -14),
        (&[38, 66, 63, 62], -14),
        (b"&@@", -14),
        // two rows are wrong
        (b"&Ao", -15),
    ];
    for (line, reply) in cases {
        assert_eq!(code_of_digraph6(line, &mut []), reply, "{line:?}");
    }
}

#[test]
fn room_of_lines_comes_last() {
    let (code, expected) = ([3, 1, 3, 1, 1, 1], b"&BP_");
    let mut out = [7; 8];
    assert_eq!((digraph6_of_code(&code, &mut out[..3]), code_of_digraph6(expected, &mut out[..5])), (-8, -8));
    assert_eq!((digraph6_of_code(&[3, 1], &mut out[..3]), code_of_digraph6(b"&A?", &mut out[..3])), (-3, -15));
    assert_eq!(out, [7; 8]);
    assert_eq!((digraph6_of_code(&code, &mut out), &out), (4, &[38, 66, 80, 95, 7, 7, 7, 7]));
    assert_eq!((code_of_digraph6(expected, &mut out[..6]), &out), (6, &[3, 1, 3, 1, 1, 1, 7, 7]));
    let bad: [(&[u8], i64); 6] = [(&[201, 1], -1), (&[], -3), (&[129, 0], -4), (&[0, 1], -5), (&[3, 1, 2, 2, 1, 1], -6), (&[1, 1, 1, 1, 9], -7)];
    for (code, reply) in bad {
        assert_eq!((line(code), digraph6_of_code(code, &mut [])), (Err(reply), reply), "{code:?}");
    }
}

#[test]
fn codes_go_out_and_come_in_again() {
    for code in (0..=8).flat_map(listing) {
        assert_eq!(read_in(&line(&code).unwrap()), Ok(code));
    }
    let state = &mut 6;
    for _ in 0..1000 {
        let n = 1 + random(state, 200);
        let code = written(|out| code_of_map(&some_map(state, n), out)).unwrap();
        assert_eq!(read_in(&line(&code).unwrap()), Ok(code));
    }
}

/// The line of a map of at most 62 points: where each point's mark stands is worked out, and no other bit is.
fn line_by_marks(table: &[u8]) -> Vec<u8> {
    let n = table.len();
    let mut line = vec![63; 2 + (n * n).div_ceil(6)];
    (line[0], line[1]) = (38, 63 + n as u8);
    for (x, &image) in table.iter().enumerate() {
        let place = x * n + image as usize;
        line[2 + place / 6] += 32 >> (place % 6);
    }
    line
}

#[test]
fn a_line_in_has_the_code_of_its_map() {
    for table in (0..=6).flat_map(every_table) {
        assert_eq!(read_in(&line_by_marks(&table)), written(|out| code_of_map(&table, out)), "{table:?}");
    }
    let state = &mut 7;
    for _ in 0..2000 {
        let n = 1 + random(state, 62);
        let table = some_map(state, n);
        let code = written(|out| code_of_map(&table, out)).unwrap();
        assert_eq!(read_in(&line_by_marks(&table)).as_ref(), Ok(&code), "{table:?}");
        assert_eq!(line(&code), Ok(line_by_marks(&written(|out| map_of_code(&code, out)).unwrap())));
    }
}
