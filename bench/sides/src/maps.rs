//! Kinds of maps, from the random to the extreme. Each makes a table of n points, n at least 1 and at most 256.

use crate::random::Random;

pub type Kind = (&'static str, fn(usize, &mut Random) -> Vec<u8>);

/// The table of a function of points.
fn table(n: usize, image: impl FnMut(usize) -> usize) -> Vec<u8> {
    (0..n).map(image).map(|image| image as u8).collect()
}

pub fn uniform(n: usize, random: &mut Random) -> Vec<u8> {
    table(n, |_| random.below(n))
}

pub fn star(n: usize, _: &mut Random) -> Vec<u8> {
    table(n, |_| 0)
}

pub fn path(n: usize, _: &mut Random) -> Vec<u8> {
    table(n, |x| x.saturating_sub(1))
}

pub fn one_cycle(n: usize, _: &mut Random) -> Vec<u8> {
    table(n, |x| (x + 1) % n)
}

pub fn fixed_points(n: usize, _: &mut Random) -> Vec<u8> {
    table(n, |x| x)
}

/// Cycles of two points, and a fixed point where n is odd.
pub fn pairs(n: usize, _: &mut Random) -> Vec<u8> {
    table(n, |x| (x ^ 1).min(n - 1))
}

/// One cycle of each length 1, 2 and on; the last one takes what is left.
pub fn every_cycle(n: usize, _: &mut Random) -> Vec<u8> {
    let (mut images, mut start, mut length) = (Vec::new(), 0, 1);
    while start < n {
        let points = if n - start < 2 * length + 1 { n - start } else { length };
        images.extend((0..points).map(|x| (start + (x + 1) % points) as u8));
        start += points;
        length += 1;
    }
    images
}

/// Cycles of these lengths, one after another.
pub fn with_cycles(lengths: &[usize]) -> Vec<u8> {
    let mut images = Vec::new();
    for &length in lengths {
        let start = images.len();
        images.extend((0..length).map(|x| (start + (x + 1) % length) as u8));
    }
    images
}

/// A random permutation.
pub fn cycles(n: usize, random: &mut Random) -> Vec<u8> {
    let images = random.permutation(n);
    table(n, |x| images[x])
}

/// One component with a fixed point, each point attached to a random earlier one.
pub fn tree(n: usize, random: &mut Random) -> Vec<u8> {
    table(n, |x| if x == 0 { 0 } else { random.below(x) })
}

/// A complete binary tree over a fixed point.
pub fn binary_tree(n: usize, _: &mut Random) -> Vec<u8> {
    table(n, |x| x.saturating_sub(1) / 2)
}

/// A cycle of the first half of the points, each with one point attached.
pub fn comb(n: usize, _: &mut Random) -> Vec<u8> {
    let k = n.div_ceil(2);
    table(n, |x| if x < k { (x + 1) % k } else { x - k })
}

/// A short cycle, and all other points attached at random to it or to each other.
pub fn short_cycle(n: usize, random: &mut Random) -> Vec<u8> {
    let k = 1 + random.below(n.min(5));
    table(n, |x| if x < k { (x + 1) % k } else { random.below(x) })
}

/// A long cycle with few trees.
pub fn long_cycle(n: usize, random: &mut Random) -> Vec<u8> {
    let k = n - n / 10;
    table(n, |x| if x < k { (x + 1) % k } else { random.below(x) })
}

/// Random components of a few points each, so that many have equal sizes.
pub fn small_components(n: usize, random: &mut Random) -> Vec<u8> {
    let size = 1 + random.below(n.min(8));
    table(n, |x| {
        let start = x - x % size;
        start + random.below(size.min(n - start))
    })
}

/// One random map of a few points, repeated.
pub fn repeated(n: usize, random: &mut Random) -> Vec<u8> {
    let size = 1 + random.below(n.min(12));
    let one = uniform(size, random);
    table(n, |x| {
        let start = x - x % size;
        (start + one[x % size] as usize).min(n - 1)
    })
}

/// Two components of half of the points each, both random trees over cycles of two points.
pub fn two_halves(n: usize, random: &mut Random) -> Vec<u8> {
    let half = n / 2;
    table(n, |x| {
        let (start, length) = if x < half { (0, half) } else { (half, n - half) };
        match x - start {
            0 => start + 1 % length,
            1 => start,
            inside => start + random.below(inside),
        }
    })
}

/// Every arrow goes to one of the nearest smaller points, which makes deep trees.
pub fn deep(n: usize, random: &mut Random) -> Vec<u8> {
    table(n, |x| x.saturating_sub(1 + random.below(3)))
}

/// A tree: of each point the earlier one that it hangs at. The root stands first, and its number says nothing.
type Tree = Vec<usize>;

/// Small random trees of so many points together.
fn trees(points: usize, random: &mut Random) -> Vec<Tree> {
    let (most, mut left, mut found) = (1 + random.below(4), points, Vec::new());
    while left > 0 {
        let size = 1 + random.below(left.min(most));
        found.push((0..size).map(|x| random.below(x.max(1))).collect());
        left -= size;
    }
    found
}

/// Trees of at most so many points, a few or more of them, to stand along a cycle over and over.
fn period(most: usize, random: &mut Random) -> Vec<Tree> {
    let points = most.min(*random.pick(&[1, 3, 12, 70]));
    trees(1 + random.below(points), random)
}

fn points(trees: &[Tree]) -> usize {
    trees.iter().map(Vec::len).sum()
}

/// The component with these trees along its cycle.
fn along_cycle(trees: &[Tree]) -> Vec<u8> {
    let mut images = Vec::new();
    for (place, tree) in trees.iter().enumerate() {
        let root = images.len();
        let next = if place + 1 == trees.len() { 0 } else { root + tree.len() };
        images.extend(tree.iter().enumerate().map(|(x, &at)| if x == 0 { next as u8 } else { (root + at) as u8 }));
    }
    images
}

/// A few trees along a cycle, over and over. The points that are left make a cycle of their own.
pub fn periodic(n: usize, random: &mut Random) -> Vec<u8> {
    let period = period(n, random);
    let mut images = along_cycle(&vec![&period[..]; n / points(&period)].concat());
    let (start, left) = (images.len(), n - images.len());
    images.extend((0..left).map(|x| (start + (x + 1) % left) as u8));
    images
}

/// A few trees along a cycle, over and over as long as there are points; of the last tree there may be a part.
pub fn cut_off(n: usize, random: &mut Random) -> Vec<u8> {
    let (period, mut left, mut found) = (period(n, random), n, Vec::new());
    for tree in period.iter().cycle() {
        let size = tree.len().min(left);
        left -= size;
        found.push(tree[..size].to_vec());
        if left == 0 {
            break;
        }
    }
    along_cycle(&found)
}

/// A few trees along a cycle, over and over. The points that are left, at least one, hang at one point, so that one tree is another.
pub fn one_changed(n: usize, random: &mut Random) -> Vec<u8> {
    if n == 1 {
        return vec![0];
    }
    let period = period(n - 1, random);
    let mut images = along_cycle(&vec![&period[..]; (n - 1) / points(&period)].concat());
    images.resize(n, random.below(images.len()) as u8);
    images
}

/// Kinds whose cycles are periodic, or nearly so. They stand beside the others, which have rows of their own in the tables of times.
pub const PERIODIC: [Kind; 3] = [("periodic cycle", periodic), ("periodic cycle, cut off", cut_off), ("periodic cycle, one tree changed", one_changed)];

/// All other kinds.
pub const KINDS: [Kind; 17] = [
    ("random", uniform),
    ("star", star),
    ("path", path),
    ("one cycle", one_cycle),
    ("fixed points", fixed_points),
    ("cycles of 2", pairs),
    ("a cycle of each length", every_cycle),
    ("random permutation", cycles),
    ("random tree", tree),
    ("binary tree", binary_tree),
    ("comb", comb),
    ("short cycle", short_cycle),
    ("long cycle", long_cycle),
    ("small components", small_components),
    ("one component repeated", repeated),
    ("two halves", two_halves),
    ("deep trees", deep),
];

/// The map with its points renamed at random.
pub fn shuffled(table: &[u8], random: &mut Random) -> Vec<u8> {
    let names = random.permutation(table.len());
    let mut other = vec![0; table.len()];
    for (x, &image) in table.iter().enumerate() {
        other[names[x]] = names[image as usize] as u8;
    }
    other
}

/// Each point once, and following f and then r equals r and then g.
pub fn is_isomorphism(f: &[u8], g: &[u8], r: &[u8]) -> bool {
    let mut seen = vec![false; f.len()];
    r.len() == f.len()
        && g.len() == f.len()
        && r.iter().all(|&y| (y as usize) < g.len() && !std::mem::replace(&mut seen[y as usize], true))
        && (0..f.len()).all(|x| r[f[x] as usize] == g[r[x] as usize])
}
