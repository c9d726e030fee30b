//! The lines of random scripts that open tables, damage them, lend less of them, and look at their words.

use crate::args::line;
use crate::desk::OnDesk;
use crate::kind::Kind;
use crate::picture::{self, bound, HEADS, RECORDS};
use crate::scatter;
use crate::script::{table, Maker};
use crate::side::BUFFER;

/// Lengths of scratch: none, too short for the calls, which then use words of their own, just enough, and more.
const SCRATCH: [i64; 12] = [0, 0, 1, 11, 1000, 4096, 5632, 6143, 6144, 6149, 8000, 16384];

/// Words of the header, and at the ends of what follows it.
const HEADER: [usize; 17] = [0, 1, 2, 18, 19, 20, 31, 32, 33, 47, 48, 63, 64, HEADS - 1, HEADS, RECORDS - 1, RECORDS];

impl Maker {
    fn capacity(&self, kind: Kind) -> Option<usize> {
        match kind {
            Kind::Rules => self.desk.rules.table().map(|t| t.capacity),
            Kind::Costs => self.desk.costs.table().map(|t| t.capacity),
        }
    }

    /// Where the words of the table of a buffer end.
    fn end(&self, kind: Kind) -> usize {
        self.capacity(kind).map_or(RECORDS, bound)
    }

    /// The words of a buffer that are not 0.
    fn used(&mut self, kind: Kind) -> Vec<usize> {
        let words = self.desk.words(kind);
        (0..BUFFER).filter(|&i| words[i] != 0).collect()
    }

    /// An index of the table's words: the header, a word in use, any, or one past the bound.
    fn index(&mut self, kind: Kind) -> usize {
        let used = self.used(kind);
        let end = self.end(kind);
        let rng = &mut self.args.rng;
        match rng.below(8) {
            0..=1 => rng.pick(&HEADER),
            2..=5 if !used.is_empty() => rng.pick(&used),
            6 => rng.within(end, BUFFER).min(BUFFER - 1),
            _ => rng.below(end),
        }
    }

    /// One word is changed, some calls are made, and most often the word is put back.
    fn damage(&mut self, kind: Kind) {
        let i = self.index(kind);
        let old = self.desk.words(kind)[i];
        let rng = &mut self.args.rng;
        let new = match rng.below(7) {
            0 => old.wrapping_add(1),
            1 => old.wrapping_sub(1),
            2 => old ^ 0x10000,
            3 => old ^ 1 << 31,
            4 => 0,
            5 => u32::MAX,
            _ => rng.next() as u32,
        };
        let poke = kind.command("poke");
        self.say(format!("{poke} {i} {new}"));
        for _ in 0..self.args.rng.within(1, 4) {
            self.command(false);
        }
        if !self.args.rng.once_in(8) {
            self.say(format!("{poke} {i} {old}"));
        }
    }

    /// Fewer words are lent for some calls.
    fn lend(&mut self, kind: Kind) {
        let end = self.end(kind);
        let length = self.args.rng.pick(&[0, 1, 63, 8192, end - 1, end, end + 1]).min(BUFFER);
        let lend = kind.command("lend");
        self.say(format!("{lend} {length}"));
        for _ in 0..self.args.rng.within(1, 3) {
            self.command(false);
        }
        self.say(format!("{lend} {BUFFER}"));
    }

    pub fn scratch(&mut self) {
        let length = self.args.rng.pick(&SCRATCH);
        let any = self.args.rng.next() as u32;
        let word = self.args.rng.pick(&[0, 1, 65535, 65536, u32::MAX, any]);
        self.say(format!("scratch {length} {word}"));
    }

    /// Another list for a table: a new one, one like the other table's, or that one itself.
    pub fn other_list(&mut self, kind: Kind) {
        let mut shape = match kind {
            Kind::Rules => self.args.costs.shape.clone(),
            Kind::Costs => self.args.rules.shape.clone(),
        };
        let costs = self.with_costs();
        let rng = &mut self.args.rng;
        match rng.below(6) {
            0 => shape.sizes.rotate_left(1),
            1 if shape.features() > 1 => shape.sizes.truncate(shape.features() - 1),
            2 => shape.sizes[0] = rng.within(2, 8),
            3..=4 => shape = self.style.shape(rng, costs),
            _ => {}
        }
        self.args.lot_mut(kind).shape = shape;
    }

    /// An opening in vain, or another table in the same buffer.
    fn reopen(&mut self, kind: Kind) {
        if self.args.rng.once_in(2) {
            let text = self.args.bad_opening(kind);
            return self.say(text);
        }
        self.other_list(kind);
        self.open(kind);
    }

    pub fn open_with(&mut self, kind: Kind, capacity: usize) {
        let sizes: Vec<i64> = self.args.lot(kind).shape.sizes.iter().map(|&s| s as i64).collect();
        let open = kind.command("open");
        self.say(line(&format!("{open} {capacity}"), &sizes));
    }

    /// A table is opened.
    pub fn open(&mut self, kind: Kind) {
        let capacity = self.args.rng.pick(self.style.capacities());
        self.open_with(kind, capacity);
    }

    /// Constants, and literals or price lists, into the places.
    pub fn sow(&mut self, kind: Kind) {
        for i in 0..self.args.lot(kind).places.len() {
            let p = self.args.lot(kind).places[i];
            let k = self.args.feature(kind);
            let text = match kind {
                _ if i % 3 == 0 => line(&kind.command("constant"), &[p, i as i64 / 3 % 8]),
                Kind::Rules => line("literal", &[p, k, self.args.bits(k)]),
                Kind::Costs => line("price", &[vec![p, k], self.args.prices(k)].concat()),
            };
            self.say(text);
        }
    }

    /// The words of a table: with any functions, or as random calls leave it.
    fn planted<N: OnDesk>(&mut self, seed: u64) -> Vec<u32> {
        let capacity = self.capacity(N::KIND).unwrap_or(1);
        let shape = self.args.lot(N::KIND).shape.clone();
        if self.args.rng.once_in(3) {
            return picture::words(&table::<N>(seed, &shape, capacity));
        }
        picture::words(&scatter::table::<N>(&mut self.args.rng, &shape, capacity))
    }

    /// Another table is poked into the buffer, so that calls meet nodes that no call before has made.
    pub fn plant(&mut self, kind: Kind, seed: u64) {
        let words = match kind {
            Kind::Rules => self.planted::<u16>(seed),
            Kind::Costs => self.planted::<i64>(seed),
        };
        for (i, word) in words.into_iter().enumerate() {
            if self.desk.words(kind)[i] != word {
                self.say(format!("{} {i} {word}", kind.command("poke")));
            }
        }
    }

    /// Every word of the table that is not 0 is looked at.
    pub fn look_over(&mut self, kind: Kind) {
        for i in self.used(kind) {
            if self.room() {
                self.say(format!("{} {i}", kind.command("word")));
            }
        }
    }

    /// A command on a buffer, by its name for rules; a sum where others may not be nested.
    pub fn handle(&mut self, kind: Kind, name: &str, nests: bool) {
        match name {
            "word" => {
                let i = self.index(kind);
                self.say(format!("{} {i}", kind.command("word")));
            }
            "lend" if nests => self.lend(kind),
            "poke" if nests => self.damage(kind),
            "open" if nests => self.reopen(kind),
            _ => self.say(kind.command("sum")),
        }
    }
}
