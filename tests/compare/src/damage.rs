//! Damage: every change of one word of a small sound table is either refused as DAMAGED by every call, or gives another
//! sound table with the rules or costs that its words say.

use crate::kind::{biased, unbiased, Kind, Number, MOST_ADDED, MOST_COST};
use crate::model::{Costs, Rules, Table};
use crate::parts::Parts;
use crate::picture::{self, COUNT, HEADS, PAIR, RECORD, RECORDS, ROOTS};
use crate::scope::Scope;
use crate::shape::Shape;
use crate::side::BUFFER;
use crate::sound;

/// The calls, in turn, on words that are not sound: each must answer DAMAGED, bad arguments or not.
const RULE_CALLS: [&str; 20] = [
    "look 0 0 0",
    "same 0 1",
    "constant 0 1",
    "copy 1 0",
    "look 32",
    "same 32 0",
    "constant 32 65536",
    "copy 0 32",
    "literal 0 1 5",
    "case 0 0 0",
    "apply 0 1 0 1",
    "restrict 0 0 1 0",
    "forget 0 0 1",
    "count 0 1",
    "next 0 1 0 0",
    "literal 32 9 9",
    "write 0 40",
    "write 32 2",
    "read 0 0001010002020300000001000007",
    "read 32 000102",
];
const COST_CALLS: [&str; 18] = [
    "clook 0 0 0",
    "csame 0 1",
    "cconstant 0 1",
    "ccopy 1 0",
    "clook 16",
    "csame 16 0",
    "cconstant 16 1000000001",
    "ccopy 0 16",
    "price 0 1 5 0 5",
    "add 0 0 1",
    "subtract 0 0 1",
    "smaller 0 0 1",
    "larger 0 0 1",
    "scale 0 0 2",
    "price 16 9",
    "add 16 0 1",
    "scale 16 0 1000000001",
    "scale 0 0 1000000000",
];
const BOTH_CALLS: [&str; 6] =
    ["choose 0 0 0 1", "less 0 0 1", "lowest 0 0", "choose 16 32 0 0", "less 32 16 0", "lowest 16 32"];

/// The words of a number of changes of word i: up and down by one, the bit between phrases and nodes or between halves,
/// all bits off and on; in a cost table the integer 0 too, and the ends of the range for a base.
fn changes(kind: Kind, i: usize, old: u32) -> Vec<u32> {
    let mut new = vec![old.wrapping_add(1), old.wrapping_sub(1), old ^ 0x10000, 0, u32::MAX];
    let zero = 1 << 31;
    if kind == Kind::Costs && !(HEADS..RECORDS).contains(&i) {
        new.push(zero);
    }
    if kind == Kind::Costs && (ROOTS + 16..ROOTS + 32).contains(&i) {
        let most = MOST_COST as u32;
        new.extend([zero - most - 1, zero - most, zero + most, zero + most + 1]);
    }
    others(new, old)
}

/// More of them for a word of a pair: each bit, the other word of the pair, 0 and the same on the other side of 0, and
/// the ends of what a cost may be and of what a branch may add, with those next to them.
fn pair_changes(old: u32, other: u32) -> Vec<u32> {
    let bits = (0..32).map(|b| old ^ 1 << b);
    let far = [MOST_COST, MOST_ADDED].iter().flat_map(|&most| [most - 1, most, most + 1]);
    let ends = far.flat_map(|z| [biased(z), biased(-z)]);
    bits.chain(ends).chain([other, biased(0), biased(-unbiased(old))]).collect()
}

/// Each of the words once, without the old one.
fn others(mut words: Vec<u32>, old: u32) -> Vec<u32> {
    words.sort_unstable();
    words.dedup();
    words.retain(|&x| x != old);
    words
}

fn fresh<N: Number>(capacity: usize) -> Table<N> {
    Table::fresh(Shape { sizes: vec![2, 3] }, capacity)
}

/// The small tables: the scope's a, b and c, and one node in use at capacity 1 and 2.
fn small_rules() -> [Rules; 3] {
    let (mut three, mut one, mut two) = (fresh(3), fresh(1), fresh(2));
    let made = one.literal(0, 1, 5).is_ok()
        && two.literal(7, 0, 2).is_ok()
        && two.constant(1, 65535).is_ok()
        && three.literal(0, 1, 5).is_ok()
        && three.literal(1, 0, 2).is_ok()
        && three.apply(2, 1, 0, 1).is_ok();
    assert!(made, "the small tables have room");
    [three, one, two]
}

/// The same of costs: P, Q and their sum, and one node with ends of the range.
fn small_costs() -> [Costs; 3] {
    let (mut three, mut one, mut two) = (fresh(3), fresh(1), fresh(2));
    let made = one.price(0, 1, &[0, 5, -3]).is_ok()
        && two.price(7, 0, &[-MOST_COST, MOST_COST]).is_ok()
        && two.constant(1, MOST_COST).is_ok()
        && three.price(0, 0, &[10, 4]).is_ok()
        && three.price(1, 1, &[0, 5, -3]).is_ok()
        && three.add(2, 0, 1).is_ok();
    assert!(made, "the small tables have room");
    [three, one, two]
}

/// Costs with the widest pairs that there are, and one to both sides of 0.
fn wide_costs() -> Costs {
    let mut wide = fresh(3);
    let made = wide.price(0, 0, &[-MOST_COST, MOST_COST]).is_ok()
        && wide.price(1, 0, &[MOST_COST, -MOST_COST]).is_ok()
        && wide.price(2, 1, &[0, MOST_COST, -MOST_COST]).is_ok();
    assert!(made, "the wide table has room");
    wide
}

/// Calls in turn that find damage.
fn calls(kind: Kind, scope: Scope) -> Vec<&'static str> {
    let own = if kind == Kind::Rules { &RULE_CALLS[..] } else { &COST_CALLS };
    let both = BOTH_CALLS.iter().filter(|_| scope == Scope::All);
    own.iter().chain(both).copied().collect()
}

struct Damage<N> {
    table: Table<N>,
    words: Vec<u32>,
    calls: Vec<&'static str>,
    parts: Parts,
}

impl<N: Number> Damage<N> {
    /// Beside the table there is a sound one of the other kind.
    fn new(table: Table<N>, scope: Scope) -> Damage<N> {
        let mut words = picture::words(&table);
        words.resize(BUFFER, 0);
        let mut parts = Parts::on(&table);
        if scope != Scope::Rules {
            parts.before(if N::KIND == Kind::Rules { "copen 1 2 3" } else { "open 1 2 3" }.to_string());
        }
        Damage { table, words, calls: calls(N::KIND, scope), parts }
    }

    /// A command that both kinds have, by its name for rules.
    fn say(&mut self, line: &str) {
        self.parts.say(N::KIND.command(line));
    }

    /// One changed word: calls that find it, or the answers of the other sound table.
    fn change(&mut self, i: usize, new: u32, turn: usize) {
        let old = self.words[i];
        self.say(&format!("poke {i} {new}"));
        self.words[i] = new;
        let sound = sound::read::<N>(&self.words).is_some();
        self.words[i] = old;
        self.say("tally");
        if sound {
            ["look 0 0 0", "look 0 1 2", "look 7 1 1", "same 0 7"].iter().for_each(|l| self.say(l));
        } else {
            self.parts.say(self.calls[turn % self.calls.len()].to_string());
        }
    }

    /// The words of the pairs of the nodes in use.
    fn pairs(&self) -> Vec<usize> {
        let record = |i: usize| RECORDS + RECORD * i;
        (0..self.words[COUNT] as usize).flat_map(|i| record(i) + PAIR..record(i) + RECORD).collect()
    }

    /// The changes of word i.
    fn changes(&self, i: usize) -> Vec<u32> {
        let old = self.words[i];
        let mut new = changes(N::KIND, i, old);
        if self.pairs().contains(&i) {
            new.extend(pair_changes(old, self.words[i ^ 1]));
        }
        others(new, old)
    }

    /// Every change of each of the words.
    fn all(mut self, indices: impl Iterator<Item = usize>) -> Vec<Vec<String>> {
        let mut turn = 0;
        for i in indices {
            for new in self.changes(i) {
                self.change(i, new, turn);
                turn += 1;
            }
            self.say(&format!("poke {i} {}", self.words[i]));
            self.parts.rest();
        }
        self.parts.done()
    }

    /// Of the first table each word up to the bound, of others those that are not far from words in use; some past it.
    fn scripts(self, whole: bool) -> Vec<Vec<String>> {
        let end = picture::bound(self.table.capacity);
        let near = |i: &usize| whole || *i < 2 * ROOTS + 8 || (HEADS - 2..HEADS + 2).contains(i) || *i >= RECORDS - 2;
        let used: Vec<usize> = (HEADS + 2..RECORDS - 2).filter(|&i| !whole && self.words[i] != 0).collect();
        self.all((0..end + 4).filter(near).chain(used).chain([BUFFER - 1]))
    }
}

fn scripts_of<N: Number>(tables: [Table<N>; 3], scope: Scope) -> Vec<Vec<String>> {
    let each = tables.into_iter().enumerate();
    each.flat_map(|(i, t)| Damage::new(t, scope).scripts(i == 0)).collect()
}

/// The scripts of every change of one word of each small table.
pub fn scripts(scope: Scope) -> Vec<Vec<String>> {
    let mut scripts = scripts_of(small_rules(), scope);
    if scope != Scope::Rules {
        scripts.extend(scripts_of(small_costs(), scope));
        let wide = Damage::new(wide_costs(), scope);
        let pairs = wide.pairs();
        scripts.extend(wide.all(pairs.into_iter()));
    }
    scripts
}

#[cfg(test)]
mod tests {
    use super::*;

    #[test]
    fn changes_of_a_word() {
        assert_eq!(changes(Kind::Rules, 0, 0), [1, 65536, u32::MAX]);
        assert_eq!(changes(Kind::Rules, 50, 1), [0, 2, 65537, u32::MAX]);
        assert_eq!(changes(Kind::Costs, 5000, 0), [1, 65536, u32::MAX]);
        assert_eq!(changes(Kind::Costs, 50, 1 << 31).len(), 9);
    }

    #[test]
    fn changes_of_a_word_of_a_pair() {
        let new = pair_changes(1 << 31, 2147483642);
        for word in [0, 2147483649, 2147483642, 3147483648, 1147483648, 4147483648, 147483648, 147483647, 4147483649] {
            assert!(new.contains(&word), "{word}");
        }
        assert!((0..32).all(|b| new.contains(&(1 << 31 ^ 1 << b))));
    }

    /// Of a table the words of pairs, and how many changes of any of them alone leave it sound.
    fn changed_pairs<N: Number>(table: Table<N>) -> (usize, usize) {
        let damage = Damage::new(table, Scope::All);
        let pairs = damage.pairs();
        let changes = pairs.iter().flat_map(|&i| damage.changes(i).into_iter().map(move |new| (i, new)));
        let is_sound = |&(i, new): &(usize, u32)| {
            let mut words = damage.words.clone();
            words[i] = new;
            sound::read::<N>(&words).is_some()
        };
        (pairs.len(), changes.filter(is_sound).count())
    }

    #[test]
    fn no_change_of_a_pair_is_sound() {
        assert_eq!(small_rules().map(changed_pairs), [(6, 0), (2, 0), (2, 0)]);
        assert_eq!(small_costs().map(changed_pairs), [(6, 0), (2, 0), (2, 0)]);
        assert_eq!(changed_pairs(wide_costs()), (6, 0));
    }

    #[test]
    fn the_small_tables_are_sound() {
        for t in small_rules() {
            assert_eq!(sound::read(&picture::words(&t)), Some(t));
        }
        for t in small_costs() {
            assert_eq!(sound::read(&picture::words(&t)), Some(t));
        }
    }
}
