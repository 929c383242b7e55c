//! Trees and components (document 004, Definitions 1 to 10).

use std::cmp::Ordering;

/// A connected functional digraph: the codes of its trees along the cycle, one after another. The first number of a tree is its size, so it tells where the next
/// tree starts. No number is above 200, so a number is a byte.
#[derive(Clone, Debug, PartialEq, Eq)]
pub struct Component {
    pub flat: Vec<u8>,
    pub trees: usize,
}

/// The codes that stand one after another in a list of numbers.
pub fn codes(flat: &[u8]) -> impl Iterator<Item = &[u8]> {
    let mut rest = flat;
    std::iter::from_fn(move || {
        let size = *rest.first()? as usize;
        let (code, after) = rest.split_at(size);
        rest = after;
        Some(code)
    })
}

/// The tree whose code starts at this place.
pub fn tree_at(flat: &[u8], start: usize) -> &[u8] {
    &flat[start..start + flat[start] as usize]
}

/// The last branch of a tree: empty, and so the least of all lists, where the tree is a point.
pub fn last_branch(tree: &[u8]) -> &[u8] {
    codes(&tree[1..]).last().unwrap_or(&[])
}

/// Definition 1: the branches are codes of trees, in nondecreasing order.
pub fn is_tree(tree: &[u8]) -> bool {
    let mut before: &[u8] = &[];
    codes(&tree[1..]).all(|branch| {
        let rises = before <= branch;
        before = branch;
        rises && is_tree(branch)
    })
}

/// Definition 2: no rotation is less. It is Duval's test: the list is read once, and each tree is compared with the one a period further left.
pub fn is_least_rotation(flat: &[u8]) -> bool {
    let (mut there, mut here, mut period) = (0, flat[0] as usize, flat[0] as usize);
    while here < flat.len() {
        let tree = tree_at(flat, here);
        here += tree.len();
        match tree.cmp(tree_at(flat, there)) {
            Ordering::Less => return false,
            Ordering::Equal => there += tree.len(),
            Ordering::Greater => (there, period) = (0, here),
        }
    }
    flat.len() % period == 0
}

impl Component {
    pub fn cycle(points: usize) -> Component {
        Component { flat: vec![1; points], trees: points }
    }

    pub fn points(&self) -> usize {
        self.flat.len()
    }

    /// The number of parents up to the cycle.
    pub fn depth(&self) -> usize {
        self.points() - self.trees
    }

    pub fn is_canonical(&self) -> bool {
        codes(&self.flat).all(is_tree) && is_least_rotation(&self.flat)
    }

    /// How many of the rotations of the list of trees equal it (document 02, paper 6). All are looked at, the list itself being one of them.
    pub fn turns(&self) -> usize {
        let trees: Vec<&[u8]> = codes(&self.flat).collect();
        let rotation = |start: usize| [&trees[start..], &trees[..start]].concat();
        (0..trees.len()).filter(|&start| rotation(start) == trees).count()
    }

    /// How many trees at the beginning are points.
    pub fn leading_points(&self) -> usize {
        self.flat.iter().take_while(|&&size| size == 1).count()
    }

    /// Lemma 8: turns a component into its parent. The result is the component's own place among the candidate merges of that parent; the cycle has no parent.
    pub fn climb(&mut self) -> Option<usize> {
        let start = self.leading_points();
        if start == self.points() {
            return None;
        }
        let branch = last_branch(tree_at(&self.flat, start)).len();
        let end = start + self.flat[start] as usize;
        let tree = &mut self.flat[start..end];
        let kept = tree.len() - branch;
        tree[0] = kept as u8;
        self.trees += 1;
        if tree[..kept] <= tree[kept..] {
            return Some(start);
        }
        tree.rotate_left(kept);
        Some(self.trees - 1 + start)
    }
}
