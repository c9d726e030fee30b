//! A table as plain numbers: for each place the number of every setting, by rank. Each call answers what the documents
//! say, or the lowest refusal number that applies. Here are the calls that rules and costs share.

use crate::kind::Number;
use crate::rests;
use crate::shape::Shape;

pub const DAMAGED: u32 = 1;
pub const BAD_PLACE: u32 = 2;
pub const NEWER: u32 = 3;
pub const BAD_SHEET: u32 = 4;
pub const OTHER_FEATURES: u32 = 5;
pub const BAD_ARGUMENT: u32 = 6;
pub const BAD_SELECTOR: u32 = 7;
pub const RANGE: u32 = 8;
pub const NO_ROOM: u32 = 9;
pub const NO_SPACE: u32 = 10;
pub const NONE: u32 = 11;
pub const BAD_OPENING: u32 = 12;

/// A result, or a refusal number.
pub type Told<T> = Result<T, u32>;

#[derive(Clone, PartialEq, Eq, Debug)]
pub struct Table<N> {
    pub shape: Shape,
    pub capacity: usize,
    pub places: Vec<Vec<N>>,
}

/// A rule has the phrase number of each setting, a cost the amount.
pub type Rule = Vec<u16>;
pub type Cost = Vec<i64>;
pub type Rules = Table<u16>;
pub type Costs = Table<i64>;

/// What a function gives the setting of a rank, and how many features it asks there.
pub fn looked<N: Number>(shape: &Shape, function: &[N], rank: usize) -> (i64, usize) {
    (function[rank].integer(), rests::asked(shape, function, rank))
}

impl<N: Number> Table<N> {
    /// A table whose places all hold the constant 0.
    pub fn fresh(shape: Shape, capacity: usize) -> Table<N> {
        let zero = N::of(0).expect("0 is in every range");
        let function = vec![zero; shape.settings()];
        Table { shape, capacity, places: vec![function; N::KIND.places()] }
    }

    pub fn place(&self, p: i64) -> Told<usize> {
        usize::try_from(p).ok().filter(|&p| p < self.places.len()).ok_or(BAD_PLACE)
    }

    pub fn number(&self, x: i64) -> Told<N> {
        N::of(x).ok_or(BAD_ARGUMENT)
    }

    pub fn feature(&self, k: i64) -> Told<usize> {
        usize::try_from(k).ok().filter(|&k| k < self.shape.features()).ok_or(BAD_ARGUMENT)
    }

    pub fn setting(&self, values: &[i64]) -> Told<usize> {
        self.shape.rank(values).ok_or(BAD_ARGUMENT)
    }

    pub fn function<T>(&self, number_at: impl Fn(usize) -> T) -> Vec<T> {
        (0..self.shape.settings()).map(number_at).collect()
    }

    /// The result goes into the place, unless the rests of all places before and its own exceed the capacity.
    pub fn put(&mut self, p: usize, result: Vec<N>) -> Told<()> {
        let mut all: Vec<&[N]> = self.places.iter().map(|f| f.as_slice()).collect();
        all.push(&result);
        if rests::distinct(&self.shape, &all) > self.capacity {
            return Err(NO_ROOM);
        }
        self.places[p] = result;
        Ok(())
    }

    pub fn constant(&mut self, p: i64, x: i64) -> Told<()> {
        let p = self.place(p)?;
        let x = self.number(x)?;
        let result = self.function(|_| x);
        self.put(p, result)
    }

    pub fn copy(&mut self, p: i64, from: i64) -> Told<()> {
        let p = self.place(p)?;
        let from = self.place(from)?;
        let result = self.places[from].clone();
        self.put(p, result)
    }

    /// The number, and how many features were asked.
    pub fn look(&self, p: i64, values: &[i64]) -> Told<(i64, usize)> {
        let p = self.place(p)?;
        let rank = self.setting(values)?;
        Ok(looked(&self.shape, &self.places[p], rank))
    }

    pub fn same(&self, p: i64, q: i64) -> Told<i64> {
        let p = self.place(p)?;
        let q = self.place(q)?;
        Ok(i64::from(self.places[p] == self.places[q]))
    }

    pub fn tally(&self) -> usize {
        let all: Vec<&[N]> = self.places.iter().map(|f| f.as_slice()).collect();
        rests::distinct(&self.shape, &all)
    }
}
