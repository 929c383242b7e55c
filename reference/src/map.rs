//! Tables and codes (document 01, and document 004, Definitions 1, 2 and 14).

use crate::component::{codes, Component};
use crate::generation::Path;
use crate::{Cause, MOST_POINTS};
use std::cmp::Ordering;

pub fn checked(table: &[u8]) -> Result<(), Cause> {
    if table.len() > MOST_POINTS {
        Err(Cause::Count)
    } else if table.iter().any(|&image| image as usize >= table.len()) {
        Err(Cause::Image)
    } else {
        Ok(())
    }
}

/// The points on no cycle, each before its image.
fn off_cycles(table: &[u8]) -> Vec<usize> {
    let mut preimages = vec![0; table.len()];
    for &image in table {
        preimages[image as usize] += 1;
    }
    let mut order: Vec<usize> = (0..table.len()).filter(|&x| preimages[x] == 0).collect();
    let mut done = 0;
    while done < order.len() {
        let image = table[order[done]] as usize;
        preimages[image] -= 1;
        if preimages[image] == 0 {
            order.push(image);
        }
        done += 1;
    }
    order
}

/// The cycles, each from its least point on.
fn cycles(table: &[u8], off: &[usize]) -> Vec<Vec<usize>> {
    let mut open = vec![true; table.len()];
    for &x in off {
        open[x] = false;
    }
    let mut found = Vec::new();
    for start in 0..table.len() {
        let (mut cycle, mut x) = (Vec::new(), start);
        while open[x] {
            open[x] = false;
            cycle.push(x);
            x = table[x] as usize;
        }
        if !cycle.is_empty() {
            found.push(cycle);
        }
    }
    found
}

/// A tree of a map: its code, and its points in the order in which the code has them.
struct Planted {
    code: Vec<u8>,
    points: Vec<u8>,
}

/// The tree with this root: the branches are sorted by their codes.
fn plant(root: usize, mut branches: Vec<Planted>) -> Planted {
    branches.sort_by(|a, b| a.code.cmp(&b.code));
    let size = 1 + branches.iter().map(|b| b.code.len()).sum::<usize>();
    let (mut code, mut points) = (Vec::with_capacity(size), Vec::with_capacity(size));
    code.push(size as u8);
    points.push(root as u8);
    for branch in &branches {
        code.extend(&branch.code);
        points.extend(&branch.points);
    }
    Planted { code, points }
}

/// Where the least rotation of a list starts.
fn least_rotation(trees: &[Planted]) -> usize {
    let k = trees.len();
    let (mut i, mut j, mut same) = (0, 1, 0);
    while i < k && j < k && same < k {
        match trees[(i + same) % k].code.cmp(&trees[(j + same) % k].code) {
            Ordering::Equal => same += 1,
            Ordering::Less => (j, same) = (j + same + 1, 0),
            Ordering::Greater => (i, same) = (i + same + 1, 0),
        }
        if i == j {
            j += 1;
        }
    }
    i.min(j)
}

/// A component of a map, and its points in the order in which its code has them.
type Placed = (Component, Vec<u8>);

fn component(mut trees: Vec<Planted>) -> Placed {
    let start = least_rotation(&trees);
    trees.rotate_left(start);
    let flat = trees.iter().flat_map(|t| &t.code).copied().collect();
    let points = trees.iter().flat_map(|t| &t.points).copied().collect();
    (Component { flat, trees: trees.len() }, points)
}

/// Definition 14: by number of points, then in the order of generation, which is only asked for where it decides.
fn sort(placed: &mut [Placed]) {
    placed.sort_by_key(|(c, _)| c.points());
    for group in placed.chunk_by_mut(|(c, _), (d, _)| c.points() == d.points()) {
        if group.len() > 1 {
            group.sort_by_cached_key(|(c, _)| Path::of(c));
        }
    }
}

/// The system of a map, and the map's points in the order in which its code has them.
pub fn system_of_map(table: &[u8]) -> (Vec<Component>, Vec<u8>) {
    let off = off_cycles(table);
    let mut hanging: Vec<Vec<Planted>> = table.iter().map(|_| Vec::new()).collect();
    for &x in &off {
        let tree = plant(x, std::mem::take(&mut hanging[x]));
        hanging[table[x] as usize].push(tree);
    }
    let mut placed = Vec::new();
    for cycle in cycles(table, &off) {
        placed.push(component(cycle.into_iter().map(|x| plant(x, std::mem::take(&mut hanging[x]))).collect()));
    }
    sort(&mut placed);
    let points = placed.iter().flat_map(|(_, points)| points).copied().collect();
    (placed.into_iter().map(|(c, _)| c).collect(), points)
}

/// The branches of a tree that starts at `root` go to their roots.
fn plant_branches(tree: &[u8], root: usize, table: &mut [u8]) {
    let mut at = root + 1;
    for branch in codes(&tree[1..]) {
        table[at] = root as u8;
        plant_branches(branch, at, table);
        at += branch.len();
    }
}

/// The numbers of the trees, in written order, are the points 0, 1 and on.
pub fn map_of_system(system: &[Component]) -> Vec<u8> {
    let mut table = vec![0; system.iter().map(Component::points).sum()];
    let mut start = 0;
    for c in system {
        let mut root = start;
        for tree in codes(&c.flat) {
            plant_branches(tree, root, &mut table);
            let next = root + tree.len();
            table[root] = if next == start + c.points() { start } else { next } as u8;
            root = next;
        }
        start = root;
    }
    table
}

/// The table in which the point that x is called goes to what the image of x is called.
fn rename(f: &[u8], name: impl Fn(usize) -> usize, table: &mut [u8]) {
    for (x, &image) in f.iter().enumerate() {
        table[name(x)] = name(image as usize) as u8;
    }
}

/// Both maps side by side: as long as each has points left they take turns.
pub fn side_by_side(f: &[u8], g: &[u8]) -> Vec<u8> {
    let (n, m) = (f.len(), g.len());
    let mut table = vec![0; n + m];
    rename(f, |x| if x < m { 2 * x } else { m + x }, &mut table);
    rename(g, |y| if y < n { 2 * y + 1 } else { n + y }, &mut table);
    table
}

/// The map of pairs, each half moving by its own map. One after another come the pairs with the same second half.
pub fn in_pairs(f: &[u8], g: &[u8]) -> Vec<u8> {
    g.iter().flat_map(|&y| f.iter().map(move |&x| (y as usize * f.len() + x as usize) as u8)).collect()
}

/// The cycle lengths of a map, each with the number of such cycles.
pub fn cycle_lengths(table: &[u8]) -> Vec<(u8, u8)> {
    let mut counts = [0; MOST_POINTS + 1];
    for cycle in cycles(table, &off_cycles(table)) {
        counts[cycle.len()] += 1;
    }
    (0u8..).zip(counts).filter(|&(_, count)| count > 0).collect()
}

/// After how many steps all points on cycles are back for the first time (document 02, paper 8: round length). The least common multiple of the cycle lengths has as much
/// of each prime as the length that has most of it.
pub fn period(table: &[u8]) -> u64 {
    let mut powers = [1; MOST_POINTS + 1];
    for (length, _) in cycle_lengths(table) {
        let (mut left, mut divisor) = (length as usize, 2);
        while left > 1 {
            let mut power = 1;
            while left % divisor == 0 {
                power *= divisor as u64;
                left /= divisor;
            }
            powers[divisor] = power.max(powers[divisor]);
            divisor += 1;
        }
    }
    powers.iter().product()
}

/// The greatest distance of a point from its cycle.
pub fn height(table: &[u8]) -> usize {
    let mut distance = vec![0; table.len()];
    for &x in off_cycles(table).iter().rev() {
        distance[x] = distance[table[x] as usize] + 1;
    }
    distance.into_iter().max().unwrap_or(0)
}
