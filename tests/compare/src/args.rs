//! Random arguments of calls: most of them good, some outside their range in every way.

use crate::kind::{Kind, MOST_COST};
use crate::rng::Rng;
use crate::shape::Shape;

const PAST_32_BITS: i64 = 1 << 32;
const BAD_NUMBERS: [i64; 8] = [65536, 65537, 131072, -1, 4294967295, PAST_32_BITS, PAST_32_BITS + 1, i64::MIN];
const BAD_OPERATORS: [i64; 7] = [0, 6, -1, 255, 257, PAST_32_BITS + 1, i64::MIN];
const BAD_AMOUNTS: [i64; 8] =
    [MOST_COST + 1, 2 * MOST_COST, 1 << 31, PAST_32_BITS, PAST_32_BITS + 1, PAST_32_BITS - 3, i64::MAX - 1, i64::MAX];

/// A table's feature list, and the places that the script works on.
pub struct Lot {
    pub shape: Shape,
    pub places: Vec<i64>,
}

pub struct Args {
    pub rng: Rng,
    pub rules: Lot,
    pub costs: Lot,
    /// One argument in so many is bad.
    pub bad: usize,
    /// One amount in so many is large.
    pub large: usize,
}

/// A line: a command and its numbers.
pub fn line(name: &str, numbers: &[i64]) -> String {
    let words = numbers.iter().map(|n| format!(" {n}"));
    std::iter::once(name.to_string()).chain(words).collect()
}

impl Args {
    pub fn lot(&self, kind: Kind) -> &Lot {
        match kind {
            Kind::Rules => &self.rules,
            Kind::Costs => &self.costs,
        }
    }

    pub fn lot_mut(&mut self, kind: Kind) -> &mut Lot {
        match kind {
            Kind::Rules => &mut self.rules,
            Kind::Costs => &mut self.costs,
        }
    }

    fn sizes(&self, kind: Kind) -> &[usize] {
        &self.lot(kind).shape.sizes
    }

    fn is_bad(&mut self) -> bool {
        self.rng.once_in(self.bad)
    }

    pub fn place(&mut self, kind: Kind) -> i64 {
        let past = kind.places() as i64;
        if self.is_bad() {
            let far = [4294967295, PAST_32_BITS, PAST_32_BITS + 1, i64::MAX, i64::MIN];
            return self.rng.pick(&[&[past, past + 1, 2 * past - 1, 63, -1][..], &far].concat());
        }
        let i = self.rng.below(self.lot(kind).places.len());
        self.lot(kind).places[i]
    }

    /// A phrase number: most are small, so that places agree and selectors are in reach.
    pub fn number(&mut self) -> i64 {
        if self.is_bad() {
            return self.rng.pick(&BAD_NUMBERS);
        }
        match self.rng.below(8) {
            0..=3 => self.rng.below(2) as i64,
            4..=6 => self.rng.below(8) as i64,
            _ => self.rng.pick(&[8, 9, 255, 256, 257, 32768, 65534, 65535]),
        }
    }

    /// An amount: small, near the ends of the range or half as far, any, or outside.
    pub fn amount(&mut self) -> i64 {
        let sign = self.rng.pick(&[1, -1]);
        if self.is_bad() {
            return sign * self.rng.pick(&BAD_AMOUNTS);
        }
        if !self.rng.once_in(self.large) {
            let most = self.rng.pick(&[3, 9, 60]);
            return sign * self.rng.below(most) as i64;
        }
        let off = self.rng.below(4) as i64;
        match self.rng.below(6) {
            0..=2 => sign * (MOST_COST - off),
            3 => sign * (MOST_COST / 2 + off),
            4 => sign * (MOST_COST / 3 + off),
            _ => sign * self.rng.below(MOST_COST as usize) as i64,
        }
    }

    /// A price for each value of a feature, often 0 for the first; of another length where it is bad.
    pub fn prices(&mut self, k: i64) -> Vec<i64> {
        let size = self.size(Kind::Costs, k);
        let length = if self.is_bad() { self.rng.pick(&[0, size - 1, size + 1, 8, 9, 64, 65]) } else { size };
        let mut prices: Vec<i64> = (0..length).map(|_| self.amount()).collect();
        if length > 0 && self.rng.once_in(2) {
            prices[0] = 0;
        }
        if self.rng.once_in(12) {
            prices.fill(self.rng.below(3) as i64);
        }
        prices
    }

    /// What a cost is scaled by, where its amounts reach so far from 0: small, large, just within the range or just not.
    pub fn factor(&mut self, reach: i64) -> i64 {
        let sign = self.rng.pick(&[1, -1]);
        let edge = MOST_COST / reach.max(1);
        match self.rng.below(9) {
            0 => 0,
            1..=2 => sign,
            3 => sign * self.rng.within(2, 5) as i64,
            4 => sign * edge,
            5 => sign * (edge + 1),
            6 => sign * (MOST_COST - self.rng.below(2) as i64),
            // a divisor of one more than the most
            7 => sign * ((MOST_COST + 1) / self.rng.pick(&[7, 11, 13, 19])),
            _ => self.amount(),
        }
    }

    pub fn feature(&mut self, kind: Kind) -> i64 {
        let n = self.sizes(kind).len();
        if self.is_bad() {
            return self.rng.pick(&[n as i64, n as i64 + 1, 16, 255, 256, -1, PAST_32_BITS]);
        }
        self.rng.below(n) as i64
    }

    /// The size of a feature, 8 for one that there is not.
    fn size(&self, kind: Kind, k: i64) -> usize {
        usize::try_from(k).ok().and_then(|k| self.sizes(kind).get(k).copied()).unwrap_or(8)
    }

    pub fn value(&mut self, k: i64) -> i64 {
        let size = self.size(Kind::Rules, k);
        if self.is_bad() {
            return self.rng.pick(&[size as i64, 8, 255, 256, -1, PAST_32_BITS, i64::MAX]);
        }
        self.rng.below(size) as i64
    }

    pub fn bits(&mut self, k: i64) -> i64 {
        let past = 1 << self.size(Kind::Rules, k);
        if self.is_bad() {
            return self.rng.pick(&[past, past + 1, past * 2 - 1, 1 << 31, PAST_32_BITS, PAST_32_BITS + 1, -1]);
        }
        let bits = self.rng.below(past as usize) as i64;
        // the empty and the full set less often than chance has them
        if (bits == 0 || bits == past - 1) && !self.rng.once_in(4) {
            return self.rng.within(1, past as usize - 2) as i64;
        }
        bits
    }

    pub fn operator(&mut self) -> i64 {
        if self.is_bad() {
            return self.rng.pick(&BAD_OPERATORS);
        }
        self.rng.within(1, 5) as i64
    }

    /// A setting of a feature list: too short, too long or with a value too high where it is bad.
    pub fn setting_of(&mut self, sizes: &[usize]) -> Vec<i64> {
        let mut values: Vec<i64> = sizes.iter().map(|&s| self.rng.below(s) as i64).collect();
        if !self.is_bad() || values.is_empty() {
            return values;
        }
        let k = self.rng.below(values.len());
        match self.rng.below(7) {
            0 => values.truncate(k),
            1 => values.push(0),
            2 => values.resize(16, 0),
            3 => values.resize(64, 0),
            4 => values[k] = sizes[k] as i64,
            5 => values[k] += 256,
            _ => values[k] = -1,
        }
        values
    }

    pub fn setting(&mut self, kind: Kind) -> Vec<i64> {
        let sizes = self.sizes(kind).to_vec();
        self.setting_of(&sizes)
    }

    /// A line of the stepper, over a list of its own: any of 1 to 16 features, or one outside the numbers.
    pub fn step(&mut self) -> String {
        let length = self.rng.within(1, 16);
        let mut sizes: Vec<usize> = (0..length).map(|_| self.rng.within(2, 8)).collect();
        let mut values = self.setting_of(&sizes);
        if self.rng.once_in(3) && values.len() == length {
            let full = self.rng.below(length);
            (full..length).for_each(|k| values[k] = sizes[k] as i64 - 1);
        }
        match self.rng.below(24) {
            0 => sizes[0] = self.rng.pick(&[0, 1, 9, 255, 256, 258]),
            1 => sizes.resize(17, 2),
            2 => sizes.resize(64, 2),
            _ => {}
        }
        let list: Vec<String> = sizes.iter().map(|s| s.to_string()).collect();
        line(&format!("step {}", list.join(",")), &values)
    }

    /// A line that opens a table anew in vain: a list or capacity outside the numbers.
    pub fn bad_opening(&mut self, kind: Kind) -> String {
        let mut sizes: Vec<i64> = self.sizes(kind).iter().map(|&s| s as i64).collect();
        let mut capacity = self.rng.within(1, 256) as i64;
        let k = self.rng.below(sizes.len());
        match self.rng.below(7) {
            0 => sizes.clear(),
            1 => sizes[k] = self.rng.pick(&[0, 1, 9, -1, 255, 256, 258, PAST_32_BITS + 2]),
            2 => sizes.resize(17, 2),
            3 => sizes.resize(64, 2),
            4 => capacity = 0,
            5 => capacity = self.rng.pick(&[257, 4096, 4097]),
            _ => capacity = self.rng.pick(&[-1, 65537, PAST_32_BITS, PAST_32_BITS + 1, i64::MAX, i64::MIN]),
        }
        sizes.insert(0, capacity);
        line(&kind.command("open"), &sizes)
    }
}
