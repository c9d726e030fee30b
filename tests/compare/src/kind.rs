//! What tables of rules and tables of costs differ in: their numbers, and how words say branches. All else is one.

use crate::picture::BODY;
use std::borrow::Cow;
use std::hash::Hash;

/// The words that the roots of all places take, those of their bases with them.
pub const ROOT_WORDS: usize = 32;
/// The most that a cost may be, above 0 or below.
pub const MOST_COST: i64 = 1_000_000_000;
/// The most that a branch may add.
pub const MOST_ADDED: i64 = 2_000_000_000;
/// An integer stands as the word that is this much more.
const BIAS: i64 = 1 << 31;
/// A rule's branch word from here on says a node: this number and its index.
const NODE: u32 = 65536;

/// The last two words of a record: of a cost the lowest and the highest amount of the node's rest, of a rule 0.
pub type Pair = [u32; 2];

/// The word that an integer stands as, wrapped around where 32 bits do not hold it.
pub fn biased(z: i64) -> u32 {
    (z + BIAS) as u32
}

/// The integer that a word stands for.
pub fn unbiased(word: u32) -> i64 {
    i64::from(word) - BIAS
}

#[derive(Clone, Copy, PartialEq, Eq, Hash, Debug)]
pub enum Kind {
    Rules,
    Costs,
}

impl Kind {
    /// Word 0 of a table.
    pub fn word(self) -> u32 {
        self as u32 + 1
    }

    pub fn places(self) -> usize {
        match self {
            Kind::Rules => 32,
            Kind::Costs => 16,
        }
    }

    /// The command of this name, which both kinds have.
    pub fn command(self, name: &str) -> String {
        match self {
            Kind::Rules => name.to_string(),
            Kind::Costs => format!("c{name}"),
        }
    }
}

/// Where a branch goes: to the end, with a phrase number (a cost's has 0), or to the node of an index.
#[derive(Clone, Copy, PartialEq, Eq, Debug)]
pub enum To {
    End(u16),
    Node(usize),
}

/// A branch, and the integer that it adds: 0 in a rule.
#[derive(Clone, Copy, PartialEq, Eq, Debug)]
pub struct Branch {
    pub adds: i64,
    pub to: To,
}

/// The number of a setting: a phrase number or an amount.
pub trait Number: Copy + Eq + Hash {
    const KIND: Kind;

    /// The number that an integer is, if it is in range.
    fn of(x: i64) -> Option<Self>;

    fn integer(self) -> i64;

    /// What remains of a function as a rest: a cost without its amount where all remaining features are 0.
    fn rest(function: &[Self]) -> Cow<'_, [Self]>;

    /// The pair of the node of a rest.
    fn pair(rest: &[Self]) -> Pair;

    /// The branch to the end that gives this number.
    fn end(self) -> Branch;

    /// The body words of a record.
    fn body(branches: &[Branch]) -> [u32; BODY];

    /// The branches that the body words say, for so many values.
    fn branches(body: &[u32], size: usize) -> Vec<Branch>;

    fn root_words(roots: &[Branch]) -> [u32; ROOT_WORDS];

    fn roots(words: &[u32]) -> Vec<Branch>;
}

fn rule_word(branch: &Branch) -> u32 {
    match branch.to {
        To::End(x) => u32::from(x),
        To::Node(i) => NODE + i as u32,
    }
}

fn rule_branch(&word: &u32) -> Branch {
    let to = if word < NODE { To::End(word as u16) } else { To::Node((word - NODE) as usize) };
    Branch { adds: 0, to }
}

/// A phrase number.
impl Number for u16 {
    const KIND: Kind = Kind::Rules;

    fn of(x: i64) -> Option<u16> {
        u16::try_from(x).ok()
    }

    fn integer(self) -> i64 {
        i64::from(self)
    }

    fn rest(function: &[u16]) -> Cow<'_, [u16]> {
        Cow::Borrowed(function)
    }

    fn pair(_: &[u16]) -> Pair {
        [0, 0]
    }

    fn end(self) -> Branch {
        Branch { adds: 0, to: To::End(self) }
    }

    fn body(branches: &[Branch]) -> [u32; BODY] {
        let mut body = [0; BODY];
        body.iter_mut().zip(branches).for_each(|(word, b)| *word = rule_word(b));
        body
    }

    fn branches(body: &[u32], size: usize) -> Vec<Branch> {
        body[..size].iter().map(rule_branch).collect()
    }

    fn root_words(roots: &[Branch]) -> [u32; ROOT_WORDS] {
        let mut words = [0; ROOT_WORDS];
        words.iter_mut().zip(roots).for_each(|(word, b)| *word = rule_word(b));
        words
    }

    fn roots(words: &[u32]) -> Vec<Branch> {
        words.iter().map(rule_branch).collect()
    }
}

fn target_word(branch: &Branch) -> u32 {
    match branch.to {
        To::End(_) => 0,
        To::Node(i) => 1 + i as u32,
    }
}

fn cost_branch(target: u32, added: u32) -> Branch {
    let to = if target == 0 { To::End(0) } else { To::Node(target as usize - 1) };
    Branch { adds: unbiased(added), to }
}

/// An amount.
impl Number for i64 {
    const KIND: Kind = Kind::Costs;

    fn of(x: i64) -> Option<i64> {
        Some(x).filter(|x| (-MOST_COST..=MOST_COST).contains(x))
    }

    fn integer(self) -> i64 {
        self
    }

    fn rest(function: &[i64]) -> Cow<'_, [i64]> {
        if function[0] == 0 {
            return Cow::Borrowed(function);
        }
        function.iter().map(|x| x - function[0]).collect()
    }

    /// A rest is 0 where all its features are 0, so 0 is among its amounts.
    fn pair(rest: &[i64]) -> Pair {
        let lowest = rest.iter().fold(0, |low, &x| x.min(low));
        let highest = rest.iter().fold(0, |high, &x| x.max(high));
        [biased(lowest), biased(highest)]
    }

    fn end(self) -> Branch {
        Branch { adds: self, to: To::End(0) }
    }

    /// Two targets a word, value 0 in the low half of the first, then the added integers.
    fn body(branches: &[Branch]) -> [u32; BODY] {
        let mut body = [0; BODY];
        for (v, branch) in branches.iter().enumerate() {
            body[v / 2] += target_word(branch) << (16 * (v % 2));
            body[4 + v] = biased(branch.adds);
        }
        body
    }

    fn branches(body: &[u32], size: usize) -> Vec<Branch> {
        let target = |v: usize| body[v / 2] >> (16 * (v % 2)) & 65535;
        (0..size).map(|v| cost_branch(target(v), body[4 + v])).collect()
    }

    /// The targets of the places, then their bases.
    fn root_words(roots: &[Branch]) -> [u32; ROOT_WORDS] {
        let mut words = [0; ROOT_WORDS];
        for (p, root) in roots.iter().enumerate() {
            words[p] = target_word(root);
            words[16 + p] = biased(root.adds);
        }
        words
    }

    fn roots(words: &[u32]) -> Vec<Branch> {
        (0..16).map(|p| cost_branch(words[p], words[16 + p])).collect()
    }
}

#[cfg(test)]
mod tests {
    use super::*;

    #[test]
    fn a_rule_record_by_hand() {
        let branches = [7u16.end(), Branch { adds: 0, to: To::Node(3) }];
        assert_eq!(u16::body(&branches), [7, 65539, 0, 0, 0, 0, 0, 0, 0, 0, 0, 0]);
        assert_eq!(u16::branches(&u16::body(&branches), 2), branches);
    }

    #[test]
    fn a_cost_record_by_hand() {
        let branches = [0i64.end(), Branch { adds: -3, to: To::Node(4) }, 5i64.end()];
        let body = [5 << 16, 0, 0, 0, 2147483648, 2147483645, 2147483653, 0, 0, 0, 0, 0];
        assert_eq!(i64::body(&branches), body);
        assert_eq!(i64::branches(&body, 3), branches);
    }

    #[test]
    fn numbers_in_range() {
        assert_eq!((u16::of(65535), u16::of(65536), u16::of(-1)), (Some(65535), None, None));
        assert_eq!(i64::of(-1_000_000_000), Some(-1_000_000_000));
        assert_eq!((i64::of(1_000_000_001), i64::of(-1_000_000_001)), (None, None));
    }

    #[test]
    fn a_rest_has_0_where_all_is_0() {
        assert_eq!(i64::rest(&[10, 15, 7]).as_ref(), [0, 5, -3]);
        assert_eq!(u16::rest(&[10, 15, 7]).as_ref(), [10, 15, 7]);
    }

    #[test]
    fn a_pair_by_hand() {
        assert_eq!(i64::pair(&[0, 5, -3]), [2147483645, 2147483653]);
        assert_eq!(i64::pair(&[0, 2_000_000_000]), [2147483648, 4147483648]);
        assert_eq!(i64::pair(&[0, -2_000_000_000]), [147483648, 2147483648]);
        assert_eq!(u16::pair(&[0, 5, 3]), [0, 0]);
    }

    #[test]
    fn integers_as_words() {
        assert_eq!((biased(-(1 << 31)), biased(0), biased((1 << 31) - 1)), (0, 1 << 31, u32::MAX));
        assert_eq!((biased(1 << 31), biased(1 << 32)), (0, 1 << 31), "wrapped around");
        assert_eq!((unbiased(0), unbiased(1 << 31), unbiased(u32::MAX)), (-(1 << 31), 0, (1 << 31) - 1));
    }
}
