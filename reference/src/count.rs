//! How many tables have a code (document 02, paper 7). The tables are made, not the symmetries divided out: n names are handed out to the components, those of each
//! component to its trees, and those of each tree to its root and its branches. Equal parts come out in every order, and are counted once.

use crate::component::{codes, Component};

/// In how many orders equal neighbours can stand: a list of m equal ones has m!, and groups of different ones are independent.
fn orders_of_equals<T: PartialEq>(parts: &[T]) -> u128 {
    parts.chunk_by(|a, b| a == b).map(|group| (1..=group.len() as u128).product::<u128>()).product()
}

/// In how many ways so many names are parted into two sets, the second of this size.
fn chosen(names: usize, size: usize) -> u128 {
    (0..size as u128).fold(1, |ways, i| ways * (names as u128 - i) / (i + 1))
}

/// In how many ways the names are handed out to the parts of a list, and each part is named with its own. A part has a size and its own number of ways.
fn named(parts: impl Iterator<Item = (usize, u128)>) -> u128 {
    let (mut names, mut ways) = (0, 1);
    for (size, own) in parts {
        names += size;
        ways *= chosen(names, size) * own;
    }
    ways
}

/// The trees with these names that have a code: any name may be the root's.
fn trees(tree: &[u8]) -> u128 {
    let branches: Vec<&[u8]> = codes(&tree[1..]).collect();
    tree.len() as u128 * named(branches.iter().map(|branch| (branch.len(), trees(branch)))) / orders_of_equals(&branches)
}

/// The components with these names: a cycle is met once from each of its trees from which it looks the same.
fn components(component: &Component) -> u128 {
    named(codes(&component.flat).map(|tree| (tree.len(), trees(tree)))) / component.turns() as u128
}

/// The tables of a system, which is one of a code, so that equal components are neighbours.
pub fn tables(system: &[Component]) -> u128 {
    named(system.iter().map(|component| (component.points(), components(component)))) / orders_of_equals(system)
}
