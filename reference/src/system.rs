//! Systems (document 004, Definition 14 and Lemma 16; sizes in the order of document 000).

use crate::component::Component;
use crate::generation::{self, Path};
use crate::written::{cut, read};
use crate::Cause;

/// Two components that follow each other in a code: fewer points first, then the order of generation.
fn in_order(c: &Component, d: &Component) -> bool {
    c.points() < d.points() || c == d || (c.points() == d.points() && Path::of(c) < Path::of(d))
}

fn is_canonical(system: &[Component]) -> bool {
    system.iter().all(Component::is_canonical) && system.windows(2).all(|two| in_order(&two[0], &two[1]))
}

/// Reads a written code and checks it.
pub fn accepted(code: &[u8]) -> Result<Vec<Component>, Cause> {
    let system = read(&cut(code)?)?;
    if is_canonical(&system) {
        Ok(system)
    } else {
        Err(Cause::NotCanonical)
    }
}

/// The next nondecreasing list with the same sum: the last two sizes are replaced by as many equal ones as fit, and the rest.
fn next_sizes(mut sizes: Vec<usize>) -> Option<Vec<usize>> {
    let last = sizes.pop()?;
    let least = sizes.pop()? + 1;
    let mut left = last + least - 1;
    while left >= 2 * least {
        sizes.push(least);
        left -= least;
    }
    sizes.push(left);
    Some(sizes)
}

/// The rightmost component that has a successor takes it, those of the same size to the right take it too, and the larger ones start again.
pub fn successor(system: &[Component]) -> Option<Vec<Component>> {
    for i in (0..system.len()).rev() {
        // A component equal to its right neighbour has no successor either.
        if system.get(i + 1) == Some(&system[i]) {
            continue;
        }
        if let Some(next) = generation::successor(&system[i]) {
            let start_again = |d: &Component| if d.points() == next.points() { next.clone() } else { Component::cycle(d.points()) };
            return Some(system[..i].iter().cloned().chain(system[i..].iter().map(start_again)).collect());
        }
    }
    let sizes = next_sizes(system.iter().map(Component::points).collect())?;
    Some(sizes.into_iter().map(Component::cycle).collect())
}

/// The nondecreasing list before, with the same sum: the rightmost size that can be less is so by as little as can be, and one size takes the rest.
fn previous_sizes(mut sizes: Vec<usize>) -> Option<Vec<usize>> {
    let mut rest = 0;
    while let Some(size) = sizes.pop() {
        rest += size;
        // What is left must not be less again, which binds only where the last size is parted.
        let less = (size - 1).min(rest / 2);
        if less >= *sizes.last().unwrap_or(&1) {
            sizes.extend([less, rest - less]);
            return Some(sizes);
        }
    }
    None
}

/// The rightmost component that can take its predecessor does so, and all to the right of it become the last of their sizes.
pub fn predecessor(system: &[Component]) -> Option<Vec<Component>> {
    for i in (0..system.len()).rev() {
        // A component equal to its left neighbour would come to stand before it.
        if i > 0 && system[i - 1] == system[i] {
            continue;
        }
        if let Some(before) = generation::predecessor(&system[i]) {
            let last = system[i + 1..].iter().map(|d| generation::last(d.points()));
            return Some(system[..i].iter().cloned().chain([before]).chain(last).collect());
        }
    }
    let sizes = previous_sizes(system.iter().map(Component::points).collect())?;
    Some(sizes.into_iter().map(generation::last).collect())
}
