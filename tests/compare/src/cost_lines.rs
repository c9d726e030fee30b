//! The lines of random scripts that are about costs, or about costs and rules.

use crate::args::line;
use crate::junk::COST_JUNK;
use crate::kind::Kind::{Costs, Rules};
use crate::kind::MOST_COST;
use crate::model::Cost;
use crate::picture::{RECORD, RECORDS, ROOTS};
use crate::rng::Rng;
use crate::script::Maker;
use crate::shape::Shape;
use crate::side::BUFFER;

/// What takes amounts just to an end of the range, or past it by so much; no more than a price may be.
fn to_an_end(rng: &mut Rng, amounts: &[i64], past: i64) -> i64 {
    let low = amounts.iter().copied().min().unwrap_or(0);
    let high = amounts.iter().copied().max().unwrap_or(0);
    let (down, up) = (-MOST_COST - low - past, MOST_COST - high + past);
    let shift = if down < -MOST_COST || up <= MOST_COST && rng.once_in(2) { up } else { down };
    shift.clamp(-MOST_COST, MOST_COST)
}

/// What takes a cost to an end of the range for each value of feature k, for one of them past it by so much.
fn to_the_ends(rng: &mut Rng, shape: &Shape, cost: &Cost, k: usize, past: i64) -> Vec<i64> {
    let beyond = rng.below(shape.sizes[k]);
    let amounts = |v: usize| -> Cost { (0..cost.len()).filter(|&i| shape.value(i, k) == v).map(|i| cost[i]).collect() };
    (0..shape.sizes[k]).map(|v| to_an_end(rng, &amounts(v), if v == beyond { past } else { 0 })).collect()
}

impl Maker {
    /// The cost of a place, if there is one.
    fn cost(&self, p: i64) -> Option<&Cost> {
        self.desk.costs.table().and_then(|t| t.places.get(p as usize))
    }

    /// How far from 0 the amounts of a place reach.
    fn reach(&self, p: i64) -> i64 {
        self.cost(p).and_then(|c| c.iter().map(|x| x.abs()).max()).unwrap_or(1)
    }

    /// The amounts of two places together, added by a sign of 1 or subtracted by -1.
    fn together(&self, a: i64, b: i64, sign: i64) -> Option<Cost> {
        Some(self.cost(a)?.iter().zip(self.cost(b)?).map(|(x, y)| x + sign * y).collect())
    }

    /// A constant or a price list is put into place p that takes a cost just to an end of the range or just past it,
    /// added by a sign of 1 or subtracted by -1. The highest of the cost and of the list need not meet, nor the lowest.
    fn edge(&mut self, p: i64, cost: &Cost, sign: i64) {
        let shape = match self.desk.costs.table() {
            Some(table) => table.shape.clone(),
            None => return,
        };
        let rng = &mut self.args.rng;
        let past = rng.below(2) as i64;
        let text = if rng.once_in(4) {
            line("cconstant", &[p, sign * to_an_end(rng, cost, past)])
        } else {
            let k = rng.below(shape.features());
            let prices = to_the_ends(rng, &shape, cost, k, past).into_iter().map(|x| sign * x);
            line("price", &[p, k as i64].into_iter().chain(prices).collect::<Vec<i64>>())
        };
        self.say(text);
    }

    /// A place that with place a is at an end of the range or just past it: with another cost in it, or without.
    fn at_the_edge(&mut self, a: i64, sign: i64) -> i64 {
        let first = self.poor(Costs);
        // most often not place a itself
        let p = if first == a { self.poor(Costs) } else { first };
        if self.args.rng.once_in(3) {
            let c = self.rich(Costs);
            if let Some(cost) = self.together(a, c, sign) {
                self.edge(p, &cost, sign);
                self.say(line("add", &[p, p, c]));
            }
        } else if let Some(cost) = self.cost(a).cloned() {
            self.edge(p, &cost, sign);
        }
        p
    }

    /// `add` or `subtract`, some at the end of the range.
    fn sum(&mut self, name: &str) -> String {
        let a = self.rich(Costs);
        let sign = if name == "add" { 1 } else { -1 };
        let b = if self.args.rng.once_in(3) { self.at_the_edge(a, sign) } else { self.rich(Costs) };
        line(name, &[self.poor(Costs), a, b])
    }

    /// A call that writes a place.
    fn cost_write(&mut self, name: &str) {
        let p = self.poor(Costs);
        let text = match name {
            "cconstant" => line(name, &[p, self.args.amount()]),
            "ccopy" => line(name, &[p, self.args.place(Costs)]),
            "price" => {
                let k = self.args.feature(Costs);
                line(name, &[vec![p, k], self.args.prices(k)].concat())
            }
            "add" | "subtract" => self.sum(name),
            "scale" => {
                let a = self.rich(Costs);
                let reach = self.reach(a);
                line(name, &[p, a, self.args.factor(reach)])
            }
            "choose" => line(name, &[p, self.rich(Rules), self.rich(Costs), self.rich(Costs)]),
            "less" => line(name, &[self.poor(Rules), self.rich(Costs), self.rich(Costs)]),
            _ => line(name, &[p, self.rich(Costs), self.rich(Costs)]),
        };
        self.say(text);
        if self.args.rng.once_in(4) {
            self.peek(p);
        }
    }

    /// The words that say the cost of a place: root, base, one of the pair of its node or another.
    fn peek(&mut self, p: i64) {
        if (0..Costs.places() as i64).contains(&p) {
            let root = ROOTS + p as usize;
            self.say(format!("cword {root}"));
            self.say(format!("cword {}", root + 16));
            if self.args.rng.once_in(2) {
                return self.peek_pair(root);
            }
        }
        self.handle(Costs, "word", false);
    }

    /// A word of the pair of the node that a root word goes to; one before all records where it goes to the end.
    fn peek_pair(&mut self, root: usize) {
        let past = RECORDS + RECORD * self.desk.words(Costs)[root] as usize;
        let i = past - self.args.rng.within(1, 2);
        self.say(format!("cword {}", i.min(BUFFER - 1)));
    }

    /// A call that only reads.
    fn cost_ask(&mut self, name: &str) {
        let p = self.args.place(Costs);
        let text = match name {
            "clook" => line(name, &[vec![p], self.args.setting(Costs)].concat()),
            "csame" => line(name, &[p, self.args.place(Costs)]),
            "lowest" => {
                // constants and literals too, which are a number other than 0 on large parts
                let rule = if self.args.rng.once_in(2) { self.rich(Rules) } else { self.args.place(Rules) };
                line(name, &[self.rich(Costs), rule])
            }
            _ => name.to_string(),
        };
        self.say(text);
    }

    /// A command on costs, or on both tables.
    pub fn cost_command(&mut self, name: &str, nests: bool) {
        match name {
            "clend" | "cpoke" | "copen" | "csum" | "cword" => self.handle(Costs, &name[1..], nests),
            "scratch" => self.scratch(),
            "cjunk" => {
                let text = self.args.rng.pick(&COST_JUNK);
                self.say(text.to_string());
            }
            "clook" | "csame" | "ctally" | "lowest" => self.cost_ask(name),
            _ => self.cost_write(name),
        }
    }
}
