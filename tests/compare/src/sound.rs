//! Whether words are a sound table of a kind, condition by condition as docs/SOUND.md defines it, and the rules or costs
//! that they then say.

use crate::kind::{unbiased, Branch, Kind, Number, To, MOST_ADDED, ROOT_WORDS};
use crate::model::Table;
use crate::picture::{bound, hash, Diagram, Node, BODY, COUNT, HEADS, LINK, PAIR, RECORD, RECORDS, ROOTS, SIZES};
use crate::shape::Shape;
use std::marker::PhantomData;

struct Words<'a, N> {
    words: &'a [u32],
    kind: PhantomData<N>,
}

impl<N: Number> Words<'_, N> {
    fn at(&self, i: usize) -> usize {
        self.words.get(i).map_or(0, |&w| w as usize)
    }

    fn zeros(&self, from: usize, to: usize) -> bool {
        (from..to).all(|i| self.at(i) == 0)
    }

    fn capacity(&self) -> usize {
        self.at(1)
    }

    fn features(&self) -> usize {
        self.at(2)
    }

    fn size(&self, k: usize) -> usize {
        self.at(SIZES + k)
    }

    fn count(&self) -> usize {
        self.at(COUNT)
    }

    fn record(&self, i: usize, j: usize) -> usize {
        self.at(RECORDS + RECORD * i + j)
    }

    fn feature(&self, i: usize) -> usize {
        self.record(i, 0)
    }

    fn body(&self, i: usize) -> &[u32] {
        let at = RECORDS + RECORD * i + 1;
        &self.words[at..at + BODY]
    }

    fn branches(&self, i: usize) -> Vec<Branch> {
        N::branches(self.body(i), self.size(self.feature(i)))
    }

    fn roots(&self) -> Vec<Branch> {
        N::roots(&self.words[ROOTS..ROOTS + ROOT_WORDS])
    }

    /// Kind, capacity, features, nodes in use, sizes, and the words that are 0 in a table at rest.
    fn header(&self) -> bool {
        self.at(0) == N::KIND.word() as usize
            && (1..=4096).contains(&self.capacity())
            && bound(self.capacity()) <= self.words.len()
            && (1..=16).contains(&self.features())
            && self.count() <= self.capacity()
            && (0..self.features()).all(|k| (2..=8).contains(&self.size(k)))
            && self.zeros(SIZES + self.features(), COUNT)
            && self.zeros(COUNT + 1, ROOTS)
            && self.zeros(ROOTS + ROOT_WORDS, HEADS)
            && self.zeros(RECORDS + RECORD * self.count(), bound(self.capacity()))
    }

    /// The branch goes to the end, or to a node below m of feature k or higher.
    fn sits(&self, m: usize, k: usize, branch: &Branch) -> bool {
        match branch.to {
            To::End(_) => true,
            To::Node(i) => i < m && k <= self.feature(i),
        }
    }

    fn node(&self, i: usize) -> bool {
        let k = self.feature(i);
        if k >= self.features() {
            return false;
        }
        let branches = self.branches(i);
        branches.iter().all(|b| self.sits(i, k + 1, b))
            && branches[0].adds == 0
            && branches.iter().all(|b| (-MOST_ADDED..=MOST_ADDED).contains(&b.adds))
            && branches.iter().any(|b| b != &branches[0])
            // the words past its size are 0
            && N::body(&branches) == self.body(i)
    }

    /// Each node links to the last before it of its hash, each head is the last node of its hash, no node has a twin.
    fn chained(&self) -> bool {
        let mut heads = vec![0; 4096];
        for i in 0..self.count() {
            let h = hash(self.feature(i) as u32, self.body(i));
            if self.record(i, LINK) != heads[h] {
                return false;
            }
            heads[h] = i + 1;
        }
        let same = |i, j| self.feature(i) == self.feature(j) && self.body(i) == self.body(j);
        heads.iter().enumerate().all(|(h, &head)| self.at(HEADS + h) == head)
            && (0..self.count()).all(|i| !(0..i).any(|j| same(i, j)))
    }

    /// The walk from a branch, the nodes below `done` met: how many are met after it, or none where one is out of turn.
    fn walk(&self, branch: &Branch, done: usize) -> Option<usize> {
        let i = match branch.to {
            To::Node(i) if i >= done => i,
            _ => return Some(done),
        };
        let met = self.branches(i).iter().try_fold(done, |d, b| self.walk(b, d))?;
        Some(met + 1).filter(|_| met == i)
    }

    /// All but the pairs and the range.
    fn shaped(&self) -> bool {
        self.header()
            && (0..self.count()).all(|i| self.node(i))
            && self.chained()
            && self.roots().iter().all(|r| self.sits(self.count(), 0, r))
            && self.roots().iter().try_fold(0, |d, r| self.walk(r, d)) == Some(self.count())
    }

    fn diagram(&self) -> Diagram {
        let node = |i| Node { feature: self.feature(i), branches: self.branches(i) };
        Diagram { nodes: (0..self.count()).map(node).collect(), roots: self.roots() }
    }

    /// The last two words of record i are 0 in a rule; in a cost they say the lowest and the highest that the node
    /// gives any setting of its feature and those after it.
    fn paired(&self, shape: &Shape, diagram: &Diagram, i: usize) -> bool {
        let pair = [PAIR, PAIR + 1].map(|j| self.record(i, j) as u32);
        match N::KIND {
            Kind::Rules => pair == [0, 0],
            Kind::Costs => {
                let amounts = diagram.amounts(shape, i);
                [amounts.iter().min(), amounts.iter().max()] == [Some(&unbiased(pair[0])), Some(&unbiased(pair[1]))]
            }
        }
    }
}

/// The table that the words say, if they are sound.
pub fn read<N: Number>(words: &[u32]) -> Option<Table<N>> {
    let w: Words<N> = Words { words, kind: PhantomData };
    if !w.shaped() {
        return None;
    }
    let shape = Shape { sizes: (0..w.features()).map(|k| w.size(k)).collect() };
    let diagram = w.diagram();
    if !(0..w.count()).all(|i| w.paired(&shape, &diagram, i)) {
        return None;
    }
    let places = diagram.functions(&shape)?;
    Some(Table { capacity: w.capacity(), places, shape })
}

#[cfg(test)]
mod tests {
    use super::*;
    use crate::kind::MOST_COST;
    use crate::model::{Costs, Rules};
    use crate::picture;

    fn rules() -> Rules {
        let mut t = Rules::fresh(Shape::of(&[2, 3]).unwrap(), 4);
        t.literal(0, 1, 5).unwrap();
        t.literal(1, 0, 2).unwrap();
        t.apply(2, 1, 0, 1).unwrap();
        t
    }

    fn costs() -> Costs {
        let mut t = Costs::fresh(Shape::of(&[2, 3]).unwrap(), 4);
        t.price(0, 0, &[10, 4]).unwrap();
        t.price(1, 1, &[0, 5, -3]).unwrap();
        t.add(2, 0, 1).unwrap();
        t
    }

    #[test]
    fn a_picture_is_sound_and_says_its_numbers() {
        assert_eq!(read(&picture::words(&rules())), Some(rules()));
        assert_eq!(read(&picture::words(&costs())), Some(costs()));
    }

    #[test]
    fn no_table_is_of_both_kinds() {
        let (mut r, mut c) = (picture::words(&rules()), picture::words(&costs()));
        assert_eq!((read::<i64>(&r), read::<u16>(&c)), (None, None));
        (r[0], c[0]) = (2, 1);
        assert_eq!((read::<i64>(&r), read::<u16>(&c)), (None, None));
    }

    #[test]
    fn the_words_of_the_examples() {
        let words = picture::words(&rules());
        assert_eq!(words[..5], [1, 4, 2, 2, 3]);
        assert_eq!(words[COUNT], 3);
        assert_eq!(words[ROOTS..ROOTS + 4], [65536, 65537, 65538, 0]);
        assert_eq!(words[RECORDS..RECORDS + 5], [1, 1, 0, 1, 0]);
        assert_eq!(words[RECORDS + 16..RECORDS + 20], [0, 0, 1, 0]);
        assert_eq!(words[RECORDS + 32..RECORDS + 36], [0, 0, 65536, 0]);
        (0..3).for_each(|i| assert_eq!(words[RECORDS + 16 * i + 14..RECORDS + 16 * i + 16], [0, 0]));
    }

    #[test]
    fn the_words_of_the_cost_examples() {
        let words = picture::words(&costs());
        let zero = 1 << 31;
        assert_eq!(words[..5], [2, 4, 2, 2, 3]);
        assert_eq!(words[COUNT], 3);
        assert_eq!(words[ROOTS..ROOTS + 4], [1, 2, 3, 0]);
        assert_eq!(words[ROOTS + 16..ROOTS + 20], [zero + 10, zero, zero + 10, zero]);
        // P: to the end with 0 and -6; Q: to the end with 0, 5 and -3; the sum: to Q's node with 0 and -6
        assert_eq!(words[RECORDS..RECORDS + 8], [0, 0, 0, 0, 0, zero, zero - 6, 0]);
        assert_eq!(words[RECORDS + 16..RECORDS + 25], [1, 0, 0, 0, 0, zero, zero + 5, zero - 3, 0]);
        assert_eq!(words[RECORDS + 32..RECORDS + 40], [0, 2 + (2 << 16), 0, 0, 0, zero, zero - 6, 0]);
        // P: from -6 to 0; Q: from -3 to 5; the sum: from -6 - 3 to 5
        assert_eq!(words[RECORDS + 14..RECORDS + 16], [zero - 6, zero]);
        assert_eq!(words[RECORDS + 30..RECORDS + 32], [zero - 3, zero + 5]);
        assert_eq!(words[RECORDS + 46..RECORDS + 48], [zero - 9, zero + 5]);
        assert_eq!(words[RECORDS + 62..RECORDS + 64], [0, 0], "not in use");
    }

    #[test]
    fn one_word_off_is_not_sound() {
        let (r, c) = (picture::words(&rules()), picture::words(&costs()));
        let pairs = [8206, 8207, 8222, 8223, 8238, 8239, 8254];
        for i in [&[0, 3, 5, 18, 19, 20, 31, 64, 4095, 4096, 8192, 8193, 8205, 8240, 8255, 8319][..], &pairs].concat() {
            let (mut r, mut c) = (r.clone(), c.clone());
            r[i] ^= 0x10000;
            c[i] ^= 0x10000;
            assert_eq!((read::<u16>(&r), read::<i64>(&c)), (None, None), "word {i}");
        }
        assert_eq!(read::<u16>(&r[..r.len() - 1]), None);
        assert_eq!(read::<i64>(&c[..c.len() - 1]), None);
    }

    /// The pair of P and of the sum false by one, turned around, as in a rule, and the other's.
    #[test]
    fn a_false_pair_is_not_sound() {
        let good = picture::words(&costs());
        let zero = 1 << 31;
        for at in [RECORDS + 14, RECORDS + 46] {
            let [low, high] = [good[at], good[at + 1]];
            let others = [[low - 1, high], [low + 1, high], [low, high - 1], [low, high + 1], [high, low]];
            let wrong = [[low, low], [high, high], [0, 0], [zero, zero], [zero - 3, zero + 5], [low + 10, high + 10]];
            for pair in others.iter().chain(&wrong) {
                let mut words = good.clone();
                words[at..at + 2].copy_from_slice(pair);
                assert_eq!(read::<i64>(&words), None, "{pair:?} at {at}");
            }
        }
    }

    /// Pairs as costs have them are none of a rule's.
    #[test]
    fn a_rule_has_no_pair() {
        let mut words = picture::words(&rules());
        words[RECORDS + 14..RECORDS + 16].fill(1 << 31);
        assert_eq!(read::<u16>(&words), None);
        words[RECORDS + 14..RECORDS + 16].fill(0);
        assert_eq!(read(&words), Some(rules()));
    }

    /// The base of the sum's place up to where its highest amount, 5 above, is the most, and one more.
    #[test]
    fn the_range_is_part_of_it() {
        let mut words = picture::words(&costs());
        words[ROOTS + 16 + 2] = (1 << 31) + MOST_COST as u32 - 5;
        let found = read::<i64>(&words).expect("the highest is the most");
        assert_eq!(found.places[2].iter().max(), Some(&MOST_COST));
        words[ROOTS + 16 + 2] += 1;
        assert_eq!(read::<i64>(&words), None);
    }
}
