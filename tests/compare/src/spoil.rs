//! Sheets with one fault: in their bytes, or in what they say but laid out as it should be. Some faults leave a sheet.

use crate::forge::{branch, swap};
use crate::kind::{Branch, Kind, Number, To};
use crate::picture::{Diagram, Node};
use crate::rng::Rng;
use crate::shape::Shape;
use crate::sheet::{self, MOST_SETTINGS};

/// What a byte is changed to: up and down by one, one bit, the kinds of branches, the bounds.
pub fn others(rng: &mut Rng, old: u8) -> Vec<u8> {
    let bit = old ^ 1 << rng.below(8);
    let mut new = vec![old.wrapping_add(1), old.wrapping_sub(1), bit, 0, 1, 2, 8, 255];
    new.sort_unstable();
    new.dedup();
    new.retain(|&x| x != old);
    new
}

/// The bytes with that at an index changed.
pub fn changed(bytes: &[u8], i: usize, new: u8) -> Vec<u8> {
    let mut bytes = bytes.to_vec();
    bytes[i] = new;
    bytes
}

/// Bytes with some more at the end, with one more or one less within, twice over.
pub fn longer_and_shorter(rng: &mut Rng, bytes: &[u8]) -> Vec<Vec<u8>> {
    let i = rng.below(bytes.len());
    let split = |more: &[u8], from: usize| [&bytes[..i], more, &bytes[from..]].concat();
    let mut all: Vec<Vec<u8>> =
        [&[0][..], &[1], &[170], &[255], &[0, 0, 0], bytes].iter().map(|more| [bytes, more].concat()).collect();
    all.extend([split(&[0], i), split(&[bytes[i]], i), split(&[], i + 1), bytes[i..].to_vec()]);
    all
}

/// A node goes in at an index: those from there on are numbered one higher.
fn insert(diagram: &mut Diagram, i: usize, node: Node) {
    diagram.targets().filter(|t| **t >= i).for_each(|t| *t += 1);
    diagram.nodes.insert(i, node);
}

/// A node goes in after node i, and one of the branches to that leads to it instead, not one of its own.
fn insert_above(rng: &mut Rng, diagram: &mut Diagram, i: usize, node: Node) {
    let count = diagram.targets().filter(|t| **t == i).count();
    let chosen = rng.below(count.max(1));
    insert(diagram, i + 1, Node { feature: node.feature, branches: Vec::new() });
    if let Some(target) = diagram.targets().filter(|t| **t == i).nth(chosen) {
        *target = i + 1;
    }
    diagram.nodes[i + 1] = node;
}

/// A node of a feature with any branches to phrases and to the nodes before.
fn any_node(rng: &mut Rng, shape: &Shape, before: usize) -> Node {
    let feature = rng.below(shape.features());
    Node { feature, branches: (0..shape.sizes[feature]).map(|_| branch(rng, Kind::Rules, before)).collect() }
}

/// A node whose branches all lead to node i, of a feature before that one's where there is one.
fn all_equal(rng: &mut Rng, shape: &Shape, diagram: &Diagram, i: usize) -> Node {
    let feature = rng.below(diagram.nodes[i].feature.max(1));
    Node { feature, branches: vec![Branch { adds: 0, to: To::Node(i) }; shape.sizes[feature]] }
}

/// One fault in the nodes.
fn fault_in_nodes(rng: &mut Rng, shape: &Shape, diagram: &mut Diagram) {
    let n = diagram.nodes.len();
    let i = rng.below(n);
    match rng.below(9) {
        0 => {
            let twin = diagram.nodes[i].clone();
            insert_above(rng, diagram, i, twin);
        }
        1 => {
            let node = all_equal(rng, shape, diagram, i);
            insert_above(rng, diagram, i, node);
        }
        2 => {
            let unreached = any_node(rng, shape, i);
            insert(diagram, i, unreached);
        }
        3 if n > 1 => swap(diagram, rng.below(n - 1)),
        4 => diagram.nodes[i].branches.rotate_left(1),
        5 => diagram.nodes[i].branches.reverse(),
        6 => diagram.nodes[i].feature = rng.below(shape.features() + 1),
        7 => diagram.nodes[i].branches.fill((rng.below(3) as u16).end()),
        _ => {
            let v = rng.below(diagram.nodes[i].branches.len());
            diagram.nodes[i].branches[v] = branch(rng, Kind::Rules, n);
        }
    }
}

/// One fault in the features or the roots, or none.
fn fault_around(rng: &mut Rng, shape: &mut Shape, diagram: &mut Diagram) {
    let n = diagram.nodes.len();
    let k = rng.below(shape.features());
    // a list too long for the model becomes one too long for a sheet
    let longest = if shape.settings() << (16 - shape.features()) <= MOST_SETTINGS { 16 } else { 17 };
    match rng.below(8) {
        0 => shape.sizes[k] = rng.pick(&[0, 1, 2, 3, 8, 9]),
        1 => shape.sizes.push(2),
        2 => shape.sizes.resize(rng.pick(&[0, longest, 17]), 2),
        3 => diagram.roots[0] = branch(rng, Kind::Rules, n),
        4 => diagram.roots.push(branch(rng, Kind::Rules, n)),
        5 => diagram.roots.clear(),
        6 => diagram.nodes.push(any_node(rng, shape, n)),
        _ => {}
    }
}

/// The sheet of a diagram with one fault.
pub fn faulty(rng: &mut Rng, shape: &Shape, diagram: &Diagram) -> Vec<u8> {
    let (mut shape, mut diagram) = (shape.clone(), diagram.clone());
    if diagram.nodes.is_empty() || rng.once_in(4) {
        fault_around(rng, &mut shape, &mut diagram);
    } else {
        fault_in_nodes(rng, &shape, &mut diagram);
    }
    sheet::lay_out(&shape, &diagram)
}

#[cfg(test)]
mod tests {
    use super::*;
    use crate::model::BAD_SHEET;
    use crate::picture;

    fn to_node(i: usize) -> Branch {
        Branch { adds: 0, to: To::Node(i) }
    }

    /// Sizes 2, 2: three nodes, that of feature 0 the last.
    fn base() -> (Shape, Diagram) {
        let shape = Shape { sizes: vec![2, 2] };
        let diagram = picture::diagram(&shape, &[vec![7u16, 9, 9, 7]]);
        (shape, diagram)
    }

    #[test]
    fn a_twin_that_is_reached() {
        let (shape, mut diagram) = base();
        let twin = diagram.nodes[0].clone();
        insert_above(&mut Rng::new(1), &mut diagram, 0, twin);
        assert_eq!(diagram.nodes[3].branches, [to_node(1), to_node(2)]);
        assert_eq!(sheet::read(&sheet::lay_out(&shape, &diagram)), Err(BAD_SHEET));
    }

    #[test]
    fn a_node_with_equal_branches() {
        let (shape, mut diagram) = base();
        let node = all_equal(&mut Rng::new(1), &shape, &diagram, 1);
        insert_above(&mut Rng::new(1), &mut diagram, 1, node);
        assert_eq!(diagram.nodes[2].branches, [to_node(1), to_node(1)]);
        assert_eq!(diagram.nodes[3].branches, [to_node(0), to_node(2)]);
    }

    #[test]
    fn faults_leave_a_sheet_or_not() {
        let (shape, diagram) = base();
        let mut rng = Rng::new(1);
        let good = (0..500).filter(|_| sheet::read(&faulty(&mut rng, &shape, &diagram)).is_ok()).count();
        assert!((20..200).contains(&good), "{good}");
    }
}
