//! The order of generation (document 004, Lemma 12 and Theorem 13).

use crate::component::{is_least_rotation, last_branch, tree_at, Component};
use std::cmp::Ordering;

/// The candidate merge of a parent at a place, if it is a child: left merges have the places 0 to k - 2, right merges those from k - 1 on.
fn child_at(parent: &Component, place: usize) -> Option<Component> {
    let right = place >= parent.trees - 1;
    let start = if right { place - (parent.trees - 1) } else { place };
    // All trees before the merged one are points here, so a tree is found at its own index.
    let (first, second) = (tree_at(&parent.flat, start), tree_at(&parent.flat, start + parent.flat[start] as usize));
    // The parent has the lesser tree first; where both are equal the two merges are one, and it has been met as the left one.
    let from_here = if right { first < second && last_branch(second) <= first } else { first <= second && last_branch(first) <= second };
    if !from_here {
        return None;
    }
    let (kept, both) = (first.len(), first.len() + second.len());
    let mut flat = parent.flat.clone();
    if right {
        flat[start..start + both].rotate_left(kept);
    }
    flat[start] = both as u8;
    is_least_rotation(&flat).then_some(Component { flat, trees: parent.trees - 1 })
}

/// How many pairs of trees may become a child, by a left merge or a right one, and how many pairs there are: at their number the places of the right merges begin.
fn places(parent: &Component) -> (usize, usize) {
    // A child's leftmost tree that is no point is the merged one, so only points stand before it.
    let pairs = parent.trees - 1;
    (pairs.min(parent.leading_points() + 1), pairs)
}

/// The first child at this place or a later one.
fn child_from(parent: &Component, place: usize) -> Option<Component> {
    let (starts, pairs) = places(parent);
    (place..starts).chain(place.max(pairs)..pairs + starts).find_map(|p| child_at(parent, p))
}

/// The last child before this place.
fn child_before(parent: &Component, place: usize) -> Option<Component> {
    let (starts, pairs) = places(parent);
    (0..place.min(starts)).chain(pairs..place.min(pairs + starts)).rev().find_map(|p| child_at(parent, p))
}

/// The last of all children.
fn last_child(parent: &Component) -> Option<Component> {
    child_before(parent, usize::MAX)
}

/// The first one written of a component and its descendants.
fn entered(c: Component) -> Component {
    if c.depth() % 2 == 1 {
        child_from(&c, 0).unwrap_or(c)
    } else {
        c
    }
}

/// What is written after a component and all its descendants.
fn after_descendants(mut c: Component) -> Option<Component> {
    let place = c.climb()?;
    match child_from(&c, place + 1) {
        Some(sibling) => Some(entered(sibling)),
        None if c.depth() % 2 == 1 => Some(c),
        None => after_descendants(c),
    }
}

/// Theorem 13: the component that is generated next.
pub fn successor(c: &Component) -> Option<Component> {
    if c.depth() % 2 == 0 {
        if let Some(child) = child_from(c, 0) {
            return Some(entered(child));
        }
    }
    after_descendants(c.clone())
}

/// The last one written of a component and its descendants.
fn finished(c: Component) -> Component {
    if c.depth() % 2 == 0 {
        last_child(&c).unwrap_or(c)
    } else {
        c
    }
}

/// What is written before a component and all its descendants.
fn before_descendants(mut c: Component) -> Option<Component> {
    let place = c.climb()?;
    match child_before(&c, place) {
        Some(sibling) => Some(finished(sibling)),
        None if c.depth() % 2 == 0 => Some(c),
        None => before_descendants(c),
    }
}

/// The component that is generated just before.
pub fn predecessor(c: &Component) -> Option<Component> {
    if c.depth() % 2 == 1 {
        if let Some(child) = last_child(c) {
            return Some(finished(child));
        }
    }
    before_descendants(c.clone())
}

/// The component of so many points that is generated last.
pub fn last(points: usize) -> Component {
    finished(Component::cycle(points))
}

/// A component's place among its siblings, and those of all its ancestors, from the cycle down.
#[derive(PartialEq, Eq)]
pub struct Path(Vec<usize>);

impl Path {
    pub fn of(c: &Component) -> Path {
        let mut c = c.clone();
        let mut places: Vec<usize> = std::iter::from_fn(|| c.climb()).collect();
        places.reverse();
        Path(places)
    }
}

impl Ord for Path {
    /// Ancestors at even depth come before their descendants, ancestors at odd depth after them.
    fn cmp(&self, other: &Path) -> Ordering {
        let shorter = self.0.len().min(other.0.len());
        let along = self.0[..shorter].cmp(&other.0[..shorter]);
        let length = self.0.len().cmp(&other.0.len());
        along.then(if shorter % 2 == 0 { length } else { length.reverse() })
    }
}

impl PartialOrd for Path {
    fn partial_cmp(&self, other: &Path) -> Option<Ordering> {
        Some(self.cmp(other))
    }
}
