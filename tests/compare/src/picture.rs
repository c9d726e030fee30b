//! The words of a table, laid out from its rules or costs alone: one node for each rest, as a walk from the roots in turn
//! finishes them, branch 0 first. A sound table has just these words, so `word` and `sum` lines can be foretold.

use crate::kind::{Branch, Number, Pair, To, ROOT_WORDS};
use crate::model::Table;
use crate::shape::Shape;
use std::collections::HashMap;

pub const ROOTS: usize = 32;
pub const HEADS: usize = 4096;
pub const RECORDS: usize = 8192;
pub const RECORD: usize = 16;
pub const BODY: usize = 12;
pub const LINK: usize = 13;
pub const PAIR: usize = 14;
pub const COUNT: usize = 19;
pub const SIZES: usize = 3;

/// How many words a table of a capacity needs.
pub fn bound(capacity: usize) -> usize {
    RECORDS + 32 * capacity
}

/// The hash of a record's feature and its 12 body words: a number below 4096.
pub fn hash(feature: u32, body: &[u32]) -> usize {
    let step = |h: u32, &x: &u32| h.wrapping_mul(2_654_435_761).wrapping_add(x);
    (body.iter().fold(feature, step) >> 20) as usize
}

#[derive(Clone)]
pub struct Node {
    pub feature: usize,
    pub branches: Vec<Branch>,
}

/// Nodes in order, and the roots: of all places, or of one rule.
#[derive(Clone)]
pub struct Diagram {
    pub nodes: Vec<Node>,
    pub roots: Vec<Branch>,
}

impl Diagram {
    /// All branches, the roots with them.
    pub fn branches(&mut self) -> impl Iterator<Item = &mut Branch> {
        self.nodes.iter_mut().flat_map(|n| n.branches.iter_mut()).chain(self.roots.iter_mut())
    }

    /// The indices of the nodes that branches go to.
    pub fn targets(&mut self) -> impl Iterator<Item = &mut usize> {
        self.branches().filter_map(|b| match &mut b.to {
            To::Node(i) => Some(i),
            To::End(_) => None,
        })
    }

    /// The branch that a branch leads to at value v of feature k, what both add together: itself if it skips k.
    fn step(&self, branch: Branch, k: usize, v: usize) -> Branch {
        match branch.to {
            To::Node(i) if self.nodes[i].feature == k => {
                let next = self.nodes[i].branches[v];
                Branch { adds: branch.adds + next.adds, to: next.to }
            }
            _ => branch,
        }
    }

    /// Adds the numbers that a branch gives the settings of the features k and up, in order.
    fn tell(&self, shape: &Shape, k: usize, branch: Branch, numbers: &mut Vec<i64>) {
        match branch.to {
            To::End(x) if k == shape.features() => numbers.push(branch.adds + i64::from(x)),
            _ => (0..shape.sizes[k]).for_each(|v| self.tell(shape, k + 1, self.step(branch, k, v), numbers)),
        }
    }

    /// What node i gives the settings of its feature and those after it, in order. Branches go to higher features.
    pub fn amounts(&self, shape: &Shape, i: usize) -> Vec<i64> {
        let mut numbers = Vec::new();
        self.tell(shape, self.nodes[i].feature, Branch { adds: 0, to: To::Node(i) }, &mut numbers);
        numbers
    }

    /// The functions of the roots, if they are in range at every setting. Branches go to higher features.
    pub fn functions<N: Number>(&self, shape: &Shape) -> Option<Vec<Vec<N>>> {
        let function = |&root: &Branch| {
            let mut numbers = Vec::new();
            self.tell(shape, 0, root, &mut numbers);
            numbers.into_iter().map(N::of).collect()
        };
        self.roots.iter().map(function).collect()
    }
}

struct Layout<'a, N> {
    shape: &'a Shape,
    nodes: Vec<Node>,
    /// The pair of each node, from all amounts of its rest.
    pairs: Vec<Pair>,
    /// For each feature the nodes of the rests so far.
    known: Vec<HashMap<Vec<N>, usize>>,
}

impl<N: Number> Layout<'_, N> {
    /// The branch of a function of the features k and up; nodes that it needs are laid first.
    fn branch(&mut self, k: usize, function: &[N]) -> Branch {
        let end = function[0].end();
        if k == self.shape.features() {
            return end;
        }
        let part = self.shape.span(k + 1);
        if function.chunks(part).all(|p| p == &function[..part]) {
            return self.branch(k + 1, &function[..part]);
        }
        let rest = N::rest(function);
        let known = self.known[k].get(rest.as_ref()).copied();
        let i = known.unwrap_or_else(|| self.node(k, &rest));
        Branch { adds: end.adds, to: To::Node(i) }
    }

    /// A node is laid for a rest.
    fn node(&mut self, k: usize, rest: &[N]) -> usize {
        let part = self.shape.span(k + 1);
        let branches = rest.chunks(part).map(|p| self.branch(k + 1, p)).collect();
        self.nodes.push(Node { feature: k, branches });
        self.pairs.push(N::pair(rest));
        let i = self.nodes.len() - 1;
        self.known[k].insert(rest.to_vec(), i);
        i
    }
}

/// Lays record i, and links it before the chain of its hash, in which the pair has no part.
fn lay<N: Number>(words: &mut [u32], i: usize, node: &Node, pair: Pair) {
    let at = RECORDS + RECORD * i;
    words[at] = node.feature as u32;
    words[at + 1..at + 1 + BODY].copy_from_slice(&N::body(&node.branches));
    let h = hash(words[at], &words[at + 1..at + 1 + BODY]);
    words[at + LINK] = words[HEADS + h];
    words[HEADS + h] = i as u32 + 1;
    words[at + PAIR..at + RECORD].copy_from_slice(&pair);
}

/// The diagram of the functions, and the pair of each node.
pub fn paired<N: Number>(shape: &Shape, functions: &[Vec<N>]) -> (Diagram, Vec<Pair>) {
    let known = vec![HashMap::new(); shape.features()];
    let mut layout = Layout { shape, nodes: Vec::new(), pairs: Vec::new(), known };
    let roots = functions.iter().map(|f| layout.branch(0, f)).collect();
    (Diagram { nodes: layout.nodes, roots }, layout.pairs)
}

/// The diagram of the functions.
pub fn diagram<N: Number>(shape: &Shape, functions: &[Vec<N>]) -> Diagram {
    paired(shape, functions).0
}

/// The words of a diagram with these pairs, its chains with it, up to the capacity's bound.
pub fn lay_out<N: Number>(shape: &Shape, capacity: usize, diagram: &Diagram, pairs: &[Pair]) -> Vec<u32> {
    assert_eq!(pairs.len(), diagram.nodes.len(), "a pair for each node");
    let mut words = vec![0; bound(capacity)];
    words[0] = N::KIND.word();
    words[1] = capacity as u32;
    words[2] = shape.features() as u32;
    for (k, &size) in shape.sizes.iter().enumerate() {
        words[SIZES + k] = size as u32;
    }
    words[COUNT] = diagram.nodes.len() as u32;
    words[ROOTS..ROOTS + ROOT_WORDS].copy_from_slice(&N::root_words(&diagram.roots));
    for (i, (node, &pair)) in diagram.nodes.iter().zip(pairs).enumerate() {
        lay::<N>(&mut words, i, node, pair);
    }
    words
}

/// The words of the table, up to its bound.
pub fn words<N: Number>(table: &Table<N>) -> Vec<u32> {
    let (diagram, pairs) = paired(&table.shape, &table.places);
    lay_out::<N>(&table.shape, table.capacity, &diagram, &pairs)
}
