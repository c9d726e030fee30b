//! The pairs of forged diagrams, which may be formed in any way: as a careful forger lays them, right wherever they can
//! be and fitting each other elsewhere, or one of them false and those after it made to fit.

use crate::kind::{biased, unbiased, Branch, Kind, Number, Pair, To, MOST_ADDED, MOST_COST};
use crate::picture::Diagram;
use crate::rng::Rng;
use crate::shape::Shape;

/// The lowest and the highest sum of a node.
type Ends = [i64; 2];

/// How an integer that 32 bits do not hold becomes one that they do.
pub type Hold = fn(i64) -> i64;

/// An integer wrapped around, as a sum of words that is not tested is.
pub fn wrapped(z: i64) -> i64 {
    unbiased(biased(z))
}

/// An integer stopped at the most that a branch may add.
pub fn stopped(z: i64) -> i64 {
    z.clamp(-MOST_ADDED, MOST_ADDED)
}

struct Forger<'a> {
    shape: &'a Shape,
    diagram: &'a Diagram,
    hold: Hold,
    ends: Vec<Ends>,
}

impl<'a> Forger<'a> {
    /// One round makes the pairs right where branches go to earlier nodes; elsewhere some more make most of them fit.
    fn new(shape: &'a Shape, diagram: &'a Diagram, hold: Hold) -> Forger<'a> {
        let nodes = diagram.nodes.len();
        let mut forger = Forger { shape, diagram, hold, ends: vec![[0, 0]; nodes] };
        (0..=nodes).for_each(|_| forger.settle(0));
        forger
    }

    /// The branches that the record of node i says, for as many values as its feature has.
    fn branches(&self, i: usize) -> Vec<Branch> {
        let node = &self.diagram.nodes[i];
        let size = self.shape.sizes.get(node.feature).copied().unwrap_or(node.branches.len());
        i64::branches(&i64::body(&node.branches), size)
    }

    /// What a branch adds with what is below it: nothing is below the end, nor where there is no such node.
    fn through(&self, branch: &Branch) -> Ends {
        let below = match branch.to {
            To::Node(j) => self.ends.get(j).copied().unwrap_or_default(),
            To::End(_) => [0, 0],
        };
        below.map(|z| branch.adds + z)
    }

    /// The lowest and the highest through any of the branches.
    fn over(&self, branches: &[Branch]) -> Ends {
        let wider = |a: Ends, b: Ends| [a[0].min(b[0]), a[1].max(b[1])];
        let all = branches.iter().map(|b| self.through(b));
        all.reduce(wider).unwrap_or_default().map(self.hold)
    }

    /// The pairs from that of a node on follow from the branches.
    fn settle(&mut self, from: usize) {
        for i in from..self.ends.len() {
            self.ends[i] = self.over(&self.branches(i));
        }
    }

    /// Pairs that node i might have by mistake, some of them right by chance; v is one of its values.
    fn mistakes(&self, i: usize, v: usize, other: usize) -> Vec<Ends> {
        let [low, high] = self.ends[i];
        let branches = self.branches(i);
        let but_one = [&branches[..v], &branches[v + 1..]].concat();
        let added: Vec<Branch> = branches.iter().map(|b| b.adds.end()).collect();
        let below: Vec<Branch> = branches.iter().map(|b| Branch { adds: 0, to: b.to }).collect();
        let base = self.diagram.roots.iter().find(|r| r.to == To::Node(i)).map_or(1, |r| r.adds);
        let mut all = vec![[high, low], [low, low], [high, high], [low + base, high + base], self.ends[other]];
        all.extend([self.through(&branches[0]), self.through(&branches[v])]);
        all.extend([self.over(&but_one), self.over(&added), self.over(&below)]);
        all.extend([[low - 1, high], [low + 1, high], [low, high - 1], [low, high + 1], [low - 1, high + 1]]);
        all.extend([[0, 0], [unbiased(0); 2], [-MOST_COST, MOST_COST], [-MOST_ADDED, MOST_ADDED]]);
        all
    }

    fn words(&self) -> Vec<Pair> {
        self.ends.iter().map(|e| e.map(biased)).collect()
    }
}

/// A place of which node i is the root gets a base from which these ends just stay in range.
fn move_base(rng: &mut Rng, diagram: &mut Diagram, i: usize, [low, high]: Ends) {
    let base = if rng.once_in(2) { MOST_COST - high } else { -MOST_COST - low };
    if let Some(root) = diagram.roots.iter_mut().find(|r| r.to == To::Node(i)) {
        root.adds = base.clamp(-MOST_COST, MOST_COST);
    }
}

/// The pairs of costs with that of one node false, often where only a right one shows that a place leaves its range.
fn false_pair(rng: &mut Rng, shape: &Shape, diagram: &mut Diagram, i: usize) -> Vec<Pair> {
    let mut forger = Forger::new(shape, diagram, wrapped);
    let v = rng.below(forger.branches(i).len());
    let other = rng.below(forger.ends.len());
    let ends = rng.pick(&forger.mistakes(i, v, other)).map(wrapped);
    forger.ends[i] = ends;
    forger.settle(i + 1);
    let words = forger.words();
    if rng.once_in(2) {
        move_base(rng, diagram, i, ends);
    }
    words
}

/// The pairs of a diagram with one of them false: in a rule, where all are 0, as in a cost or otherwise.
pub fn faulty(rng: &mut Rng, kind: Kind, shape: &Shape, diagram: &mut Diagram) -> Vec<Pair> {
    let i = rng.below(diagram.nodes.len());
    if kind == Kind::Costs {
        return false_pair(rng, shape, diagram, i);
    }
    let mut pairs = vec![[0, 0]; diagram.nodes.len()];
    pairs[i] = rng.pick(&[[biased(0); 2], [biased(0), biased(1)], [0, 1], [1, 0], [u32::MAX; 2]]);
    pairs
}

/// The pairs of a diagram, as right as they can be; what 32 bits do not hold is made to fit.
pub fn right(kind: Kind, shape: &Shape, diagram: &Diagram, hold: Hold) -> Vec<Pair> {
    match kind {
        Kind::Rules => vec![[0, 0]; diagram.nodes.len()],
        Kind::Costs => Forger::new(shape, diagram, hold).words(),
    }
}

#[cfg(test)]
mod tests {
    use super::*;
    use crate::model::Costs;
    use crate::picture::{self, Node};
    use crate::scatter;
    use crate::sound;

    const CAPACITY: usize = 60;

    fn to_node(adds: i64, i: usize) -> Branch {
        Branch { adds, to: To::Node(i) }
    }

    fn is_sound(shape: &Shape, diagram: &Diagram, pairs: &[Pair]) -> bool {
        sound::read::<i64>(&picture::lay_out::<i64>(shape, CAPACITY, diagram, pairs)).is_some()
    }

    /// The scope's P, Q and P + Q.
    fn examples() -> (Shape, Diagram) {
        let mut t = Costs::fresh(Shape { sizes: vec![2, 3] }, 3);
        assert_eq!([t.price(0, 0, &[10, 4]), t.price(1, 1, &[0, 5, -3]), t.add(2, 0, 1)], [Ok(()); 3]);
        let diagram = picture::diagram(&t.shape, &t.places);
        (t.shape, diagram)
    }

    #[test]
    fn the_pairs_of_the_examples() {
        let (shape, diagram) = examples();
        let pairs = [[-6, 0], [-3, 5], [-9, 5]].map(|e| e.map(biased));
        assert_eq!(right(Kind::Costs, &shape, &diagram, wrapped), pairs);
        assert_eq!(right(Kind::Rules, &shape, &diagram, wrapped), [[0, 0]; 3]);
    }

    #[test]
    fn pairs_by_branches_are_those_of_the_rests() {
        let mut rng = Rng::new(1);
        for sizes in [&[2, 3, 2][..], &[3, 2, 2, 2], &[8, 2], &[2, 2, 3, 2, 2]] {
            let shape = Shape { sizes: sizes.to_vec() };
            let table = scatter::table::<i64>(&mut rng, &shape, CAPACITY);
            let (diagram, pairs) = picture::paired(&shape, &table.places);
            assert_eq!(right(Kind::Costs, &shape, &diagram, wrapped), pairs);
            assert_eq!(right(Kind::Costs, &shape, &diagram, stopped), pairs);
        }
    }

    /// Branches to itself, to a later node, to none; a feature that there is not; values too many and too few.
    #[test]
    fn any_diagram_has_pairs() {
        let shape = Shape { sizes: vec![2, 3] };
        let most = i64::from(i32::MAX);
        let node = |feature, branches: Vec<Branch>| Node { feature, branches };
        let nodes = vec![
            node(1, vec![to_node(0, 1), to_node(7, 9), (-2i64).end()]),
            node(2, vec![0i64.end(), 3i64.end()]),
            node(0, vec![0i64.end(), 4i64.end(), 9i64.end()]),
            node(1, vec![0i64.end(), 4i64.end()]),
            node(0, vec![to_node(0, 4), to_node(most, 4)]),
        ];
        let diagram = Diagram { nodes, roots: vec![to_node(0, 0)] };
        let pairs = right(Kind::Costs, &shape, &diagram, wrapped);
        assert_eq!(pairs[..3], [[-2, 7], [0, 3], [0, 4]].map(|e| e.map(biased)));
        assert_eq!(pairs[3], [0, biased(4)], "the word 0 says the lowest integer of 32 bits");
        assert_eq!(right(Kind::Costs, &shape, &diagram, stopped)[4], [biased(0), biased(MOST_ADDED)]);
    }

    #[test]
    fn a_later_node_counts_as_an_earlier_one() {
        let (shape, mut diagram) = examples();
        crate::forge::swap(&mut diagram, 1);
        let pairs = [[-6, 0], [-9, 5], [-3, 5]].map(|e| e.map(biased));
        assert_eq!(right(Kind::Costs, &shape, &diagram, wrapped), pairs);
    }

    #[test]
    fn a_false_pair_is_never_sound() {
        let (shape, diagram) = examples();
        let forger = Forger::new(&shape, &diagram, wrapped);
        let good = forger.words();
        assert!(is_sound(&shape, &diagram, &good));
        for (i, v) in [(0, 1), (1, 0), (1, 1), (1, 2), (2, 1)] {
            for ends in forger.mistakes(i, v, (i + 1) % 3) {
                let mut pairs = good.clone();
                pairs[i] = ends.map(biased);
                assert_eq!(is_sound(&shape, &diagram, &pairs), pairs == good, "node {i}: {ends:?}");
            }
        }
    }

    #[test]
    fn faults_make_false_pairs() {
        let (shape, diagram) = examples();
        let mut rng = Rng::new(1);
        let mut sound = 0;
        for _ in 0..500 {
            let mut diagram = diagram.clone();
            let pairs = faulty(&mut rng, Kind::Costs, &shape, &mut diagram);
            sound += usize::from(is_sound(&shape, &diagram, &pairs));
        }
        assert!((10..200).contains(&sound), "{sound}");
    }
}
