//! The calls on a cost table.

use crate::kind::Number;
use crate::model::{Cost, Costs, Told, BAD_ARGUMENT, RANGE};

impl Costs {
    /// RANGE comes before NO ROOM, even in a full table.
    pub fn put_in_range(&mut self, p: usize, result: Cost) -> Told<()> {
        if result.iter().any(|&x| i64::of(x).is_none()) {
            return Err(RANGE);
        }
        self.put(p, result)
    }

    /// A price for each value of a feature.
    pub fn price(&mut self, p: i64, k: i64, prices: &[i64]) -> Told<()> {
        let p = self.place(p)?;
        let k = self.feature(k)?;
        let prices = prices.iter().map(|&x| self.number(x)).collect::<Told<Cost>>()?;
        if prices.len() != self.shape.sizes[k] {
            return Err(BAD_ARGUMENT);
        }
        let result = self.function(|i| prices[self.shape.value(i, k)]);
        self.put(p, result)
    }

    /// At each setting what the operator gives the amounts of two places.
    fn join(&mut self, p: i64, a: i64, b: i64, operator: impl Fn(i64, i64) -> i64) -> Told<()> {
        let p = self.place(p)?;
        let a = self.place(a)?;
        let b = self.place(b)?;
        let result = self.function(|i| operator(self.places[a][i], self.places[b][i]));
        self.put_in_range(p, result)
    }

    pub fn add(&mut self, p: i64, a: i64, b: i64) -> Told<()> {
        self.join(p, a, b, |x, y| x + y)
    }

    pub fn subtract(&mut self, p: i64, a: i64, b: i64) -> Told<()> {
        self.join(p, a, b, |x, y| x - y)
    }

    pub fn smaller(&mut self, p: i64, a: i64, b: i64) -> Told<()> {
        self.join(p, a, b, i64::min)
    }

    pub fn larger(&mut self, p: i64, a: i64, b: i64) -> Told<()> {
        self.join(p, a, b, i64::max)
    }

    pub fn scale(&mut self, p: i64, a: i64, factor: i64) -> Told<()> {
        let p = self.place(p)?;
        let a = self.place(a)?;
        let factor = self.number(factor)?;
        let result = self.function(|i| self.places[a][i] * factor);
        self.put_in_range(p, result)
    }
}

#[cfg(test)]
mod tests {
    use super::*;
    use crate::kind::MOST_COST;
    use crate::model::{BAD_PLACE, NO_ROOM};
    use crate::shape::Shape;

    fn fresh(capacity: usize) -> Costs {
        Costs::fresh(Shape::of(&[2, 3]).unwrap(), capacity)
    }

    /// The scope's P, Q and P + Q in places 0, 1 and 2.
    fn examples(capacity: usize) -> Costs {
        let mut t = fresh(capacity);
        assert_eq!(t.price(0, 0, &[10, 4]), Ok(()));
        assert_eq!(t.price(1, 1, &[0, 5, -3]), Ok(()));
        assert_eq!(t.add(2, 0, 1), Ok(()));
        t
    }

    #[test]
    fn p_q_and_their_sum() {
        let mut t = examples(3);
        assert_eq!(t.places[0], [10, 10, 10, 4, 4, 4]);
        assert_eq!(t.places[1], [0, 5, -3, 0, 5, -3]);
        assert_eq!(t.places[2], [10, 15, 7, 4, 9, 1]);
        assert_eq!(t.tally(), 3);
        assert_eq!(t.look(2, &[1, 2]), Ok((1, 2)));
        assert_eq!(t.constant(0, 0), Ok(()));
        assert_eq!(t.constant(1, 0), Ok(()));
        assert_eq!(t.tally(), 2, "the sum alone");
    }

    #[test]
    fn operations() {
        let mut t = examples(30);
        assert_eq!(t.subtract(3, 2, 1), Ok(()));
        assert_eq!(t.same(3, 0), Ok(1));
        assert_eq!(t.constant(4, 5), Ok(()));
        assert_eq!(t.smaller(5, 1, 4), Ok(()));
        assert_eq!(t.same(5, 1), Ok(1));
        assert_eq!(t.larger(5, 1, 0), Ok(()));
        assert_eq!(t.places[5], [10, 10, 10, 4, 5, 4]);
        assert_eq!(t.smaller(5, 1, 0), Ok(()));
        assert_eq!(t.places[5], [0, 5, -3, 0, 4, -3]);
        assert_eq!(t.scale(5, 2, -2), Ok(()));
        assert_eq!(t.places[5], [-20, -30, -14, -8, -18, -2]);
        assert_eq!(t.scale(5, 2, 0), Ok(()));
        assert_eq!(t.places[5], [0; 6]);
    }

    #[test]
    fn range() {
        let mut t = fresh(1);
        assert_eq!(t.price(0, 0, &[-MOST_COST, MOST_COST]), Ok(()));
        assert_eq!(t.constant(1, MOST_COST), Ok(()));
        assert_eq!(t.constant(2, 1), Ok(()));
        assert_eq!(t.add(3, 1, 2), Err(RANGE), "even in a full table");
        assert_eq!(t.add(3, 1, 4), Ok(()), "plus 0");
        assert_eq!(t.add(3, 0, 2), Err(RANGE), "where feature 0 is 1 only");
        assert_eq!(t.subtract(3, 0, 2), Err(RANGE));
        assert_eq!(t.scale(3, 0, -1), Err(NO_ROOM));
        assert_eq!(t.scale(3, 0, 2), Err(RANGE), "before NO ROOM");
        assert_eq!(t.scale(3, 1, MOST_COST), Err(RANGE));
        assert_eq!(t.scale(3, 2, -MOST_COST), Ok(()));
        assert_eq!(t.scale(3, 2, MOST_COST + 1), Err(BAD_ARGUMENT));
        assert_eq!(t.constant(3, -MOST_COST - 1), Err(BAD_ARGUMENT));
    }

    #[test]
    fn room() {
        let mut t = fresh(2);
        assert_eq!(t.price(0, 0, &[10, 4]), Ok(()));
        assert_eq!(t.price(1, 1, &[0, 5, -3]), Ok(()));
        assert_eq!(t.add(2, 0, 1), Err(NO_ROOM));
        assert_eq!(t.add(0, 0, 1), Err(NO_ROOM), "the old destination counts too");
        assert_eq!(t.price(2, 0, &[16, 10]), Ok(()), "the same rest, 6 more everywhere");
        assert_eq!(t.price(2, 0, &[10, 5]), Err(NO_ROOM));
        assert_eq!(t.constant(1, 9), Ok(()));
        assert_eq!(t.add(3, 0, 1), Ok(()));
        assert_eq!(t.tally(), 1);
    }

    #[test]
    fn price_lists() {
        let mut t = fresh(1);
        for prices in [&[][..], &[1], &[1, 2, 3], &[0, MOST_COST + 1], &[-MOST_COST - 1, 0]] {
            assert_eq!(t.price(0, 0, prices), Err(BAD_ARGUMENT));
        }
        assert_eq!(t.price(0, 2, &[0, 1]), Err(BAD_ARGUMENT));
        assert_eq!(t.price(16, 2, &[]), Err(BAD_PLACE));
        assert_eq!(t.price(0, 0, &[7, 7]), Ok(()));
        assert_eq!(t.tally(), 0);
    }
}
