//! Random scripts: openings, calls good and bad, damage, and sums around what must change nothing.

use crate::args::{Args, Lot};
use crate::desk::{Desk, Expected, OnDesk};
use crate::kind::{Kind, Number};
use crate::model::Table;
use crate::rng::Rng;
use crate::scope::Scope;
use crate::shape::Shape;
use crate::style::{Style, BOTH_COMMANDS, COST_COMMANDS, RULE_COMMANDS};
use std::collections::HashSet;

/// Calls of a script, beside those that set it up and the sums around them.
const CALLS: usize = 100;
/// A script stops growing here, well within what `shelf` reads.
const FULL: usize = 60_000;
/// Where costs are worked on too, one command in so many is on rules alone.
const RULES_AMONG_COSTS: usize = 4;

pub struct Maker {
    pub args: Args,
    pub desk: Desk,
    pub style: Style,
    lines: Vec<String>,
    bytes: usize,
    rule_weights: Vec<usize>,
    /// Those of the commands on costs, where there are any.
    cost_weights: Option<Vec<usize>>,
}

/// The buffers that a line is about.
fn kinds(line: &str) -> &'static [Kind] {
    let name = line.split(' ').next().unwrap_or("");
    if BOTH_COMMANDS.contains(&name) {
        return &[Kind::Rules, Kind::Costs];
    }
    if COST_COMMANDS.iter().any(|(other, _)| *other == name) {
        return &[Kind::Costs];
    }
    &[Kind::Rules]
}

/// How many functions of its later features the rule or cost of a place has, 0 where there is no such place.
fn wealth<N: Number>(table: Option<&Table<N>>, p: i64) -> usize {
    let unlike = |table: &Table<N>| {
        let span = table.shape.span((table.shape.features() + 1) / 2);
        let function = table.places.get(p as usize);
        function.map_or(0, |f| f.chunks(span).collect::<HashSet<_>>().len())
    };
    table.map_or(0, unlike)
}

impl Maker {
    fn new(seed: u64, style: Style, scope: Scope) -> Maker {
        let mut rng = Rng::new(seed);
        let used = match style {
            Style::Mixed => rng.pick(&[3, 5, 8, 16, 32]),
            Style::Filling => rng.within(2, 5),
            Style::Growing => rng.pick(&[10, 16, 32]),
        };
        let places = |kind: Kind| {
            let of = kind.places();
            (0..used.min(of)).map(|i| ((i * 13 + of - 1) % of) as i64).collect()
        };
        let bad = if style == Style::Mixed { rng.pick(&[12, 40, 150]) } else { 400 };
        let large = if style == Style::Growing { rng.pick(&[6, 60, 400]) } else { rng.pick(&[2, 4, 12, 60]) };
        let with_costs = scope != Scope::Rules;
        let shape = style.shape(&mut rng, with_costs);
        let costs = Lot { shape: shape.clone(), places: places(Kind::Costs) };
        let args = Args { rng, rules: Lot { shape, places: places(Kind::Rules) }, costs, bad, large };
        let cost_weights = Some(scope.weights(style)).filter(|_| with_costs);
        let rule_weights = style.weights(&RULE_COMMANDS);
        Maker { args, desk: Desk::new(), style, lines: Vec::new(), bytes: 0, rule_weights, cost_weights }
    }

    fn push(&mut self, line: String) {
        self.bytes += line.len() + 1;
        self.lines.push(line);
    }

    /// A line goes into the script; one that changes nothing often has sums before and after it.
    pub fn say(&mut self, line: String) {
        let refused = match self.desk.answer(&line) {
            Expected::Line(answer) => !answer.starts_with('0'),
            Expected::Sum(..) => false,
        };
        let name = line.split(' ').next().unwrap_or("");
        let reads = ["look", "slook", "same", "count", "next", "tally", "write", "clook", "csame", "ctally", "lowest"];
        let summed = (refused && self.args.rng.once_in(2)) || (reads.contains(&name) && self.args.rng.once_in(8));
        let sums: Vec<String> = kinds(&line).iter().filter(|_| summed).map(|k| k.command("sum")).collect();
        sums.iter().for_each(|sum| self.push(sum.clone()));
        self.push(line);
        sums.into_iter().for_each(|sum| self.push(sum));
    }

    fn wealth(&self, kind: Kind, p: i64) -> usize {
        match kind {
            Kind::Rules => wealth(self.desk.rules.table(), p),
            Kind::Costs => wealth(self.desk.costs.table(), p),
        }
    }

    /// Of some places the richest, so that rules and costs grow; a bad one stays.
    pub fn rich(&mut self, kind: Kind) -> i64 {
        let first = self.args.place(kind);
        let more = [self.args.place(kind), self.args.place(kind)];
        let richer = |a, b| if self.wealth(kind, b) > self.wealth(kind, a) { b } else { a };
        let best = more.into_iter().fold(first, richer);
        if (0..kind.places() as i64).contains(&first) {
            best
        } else {
            first
        }
    }

    /// Of some places the poorest where rules and costs grow: what is rich stays.
    pub fn poor(&mut self, kind: Kind) -> i64 {
        let first = self.args.place(kind);
        if self.style == Style::Growing {
            let more = [self.args.place(kind), self.args.place(kind)];
            let poorer = |a, b| if self.wealth(kind, b) < self.wealth(kind, a) { b } else { a };
            return more.into_iter().fold(first, poorer);
        }
        first
    }

    /// One random command; one that holds others only where they may be nested.
    pub fn command(&mut self, nests: bool) {
        let rng = &mut self.args.rng;
        match &self.cost_weights {
            Some(weights) if !rng.once_in(RULES_AMONG_COSTS) => {
                let name = COST_COMMANDS[rng.weighted(weights)].0;
                self.cost_command(name, nests);
            }
            _ => {
                let name = RULE_COMMANDS[rng.weighted(&self.rule_weights)].0;
                self.rule_command(name, nests);
            }
        }
    }

    pub fn with_costs(&self) -> bool {
        self.cost_weights.is_some()
    }

    pub fn room(&self) -> bool {
        self.bytes < FULL
    }

    /// The kinds of tables that the script works on.
    fn kinds(&self) -> &'static [Kind] {
        if self.with_costs() {
            &[Kind::Rules, Kind::Costs]
        } else {
            &[Kind::Rules]
        }
    }

    /// The first tables of a script: fresh, planted, or with something in each place where rules and costs grow.
    fn start(&mut self, seed: u64) {
        if self.args.rng.once_in(8) {
            self.other_list(Kind::Costs);
        }
        let seldom = if self.style == Style::Growing && self.with_costs() { 3 } else { 12 };
        for &kind in self.kinds() {
            self.open(kind);
            if self.args.rng.once_in(seldom) {
                self.plant(kind, seed ^ 0x5eed);
            } else if self.style == Style::Growing || kind == Kind::Rules && self.with_costs() {
                self.sow(kind);
            }
        }
    }

    /// Tables that were damaged for good are opened anew, and lists that differ become one again.
    fn mend(&mut self) {
        for &kind in self.kinds() {
            if !self.desk.is_sound(kind) && self.args.rng.once_in(4) {
                self.open(kind);
            }
        }
        if self.with_costs() && self.args.rng.once_in(16) && self.args.rules.shape != self.args.costs.shape {
            self.args.costs.shape = self.args.rules.shape.clone();
            self.open(Kind::Costs);
        }
    }
}

/// A table over the feature list, as random calls leave it.
pub fn table<N: OnDesk>(seed: u64, shape: &Shape, capacity: usize) -> Table<N> {
    let scope = if N::KIND == Kind::Rules { Scope::Rules } else { Scope::Apart };
    let mut maker = Maker::new(seed, Style::Growing, scope);
    maker.args.lot_mut(N::KIND).shape = shape.clone();
    maker.open_with(N::KIND, capacity);
    maker.sow(N::KIND);
    for _ in 0..CALLS / 2 {
        maker.command(false);
    }
    N::side(&maker.desk).table().expect("calls leave a table sound").clone()
}

/// The script of a seed: of rules alone, or of both kinds.
pub fn script(seed: u64, scope: Scope) -> Vec<String> {
    let mut maker = Maker::new(seed, Style::of(seed), scope.of(seed));
    if maker.args.rng.once_in(8) {
        maker.command(false);
        maker.command(false);
    }
    if maker.args.rng.once_in(2) {
        maker.scratch();
    }
    maker.start(seed);
    for _ in 0..CALLS {
        if maker.room() {
            maker.command(true);
        }
        maker.mend();
    }
    if seed % 4 == 1 {
        maker.kinds().iter().rev().for_each(|&kind| maker.look_over(kind));
    }
    maker.lines
}

#[cfg(test)]
mod tests {
    use super::*;
    use crate::kind::MOST_COST;
    use crate::model::Cost;
    use std::collections::{HashMap, HashSet};

    /// What commands on costs may be answered: taken, and every refusal that docs/SCOPE.md has for them.
    const ENDINGS: [(&str, &[&str]); 17] = [
        ("copen", &["0", "12"]),
        ("cconstant", &["0", "1", "2", "6"]),
        ("ccopy", &["0", "1", "2"]),
        ("price", &["0", "1", "2", "6", "9"]),
        ("add", &["0", "1", "2", "8", "9"]),
        ("subtract", &["0", "1", "2", "8", "9"]),
        ("smaller", &["0", "1", "2", "9"]),
        ("larger", &["0", "1", "2", "9"]),
        ("scale", &["0", "1", "2", "6", "8", "9"]),
        ("choose", &["0", "1", "2", "5", "9"]),
        ("less", &["0", "1", "2", "5", "9"]),
        ("lowest", &["0", "1", "2", "5", "11"]),
        ("clook", &["0", "1", "2", "6"]),
        ("csame", &["0", "1", "2"]),
        ("ctally", &["0", "1"]),
        ("cpoke", &["0"]),
        ("cword", &["0"]),
    ];

    /// The seeds of scripts on costs, among so many.
    fn seeds(count: u64) -> impl Iterator<Item = u64> {
        (1000..1000 + count).filter(|&s| Scope::All.of(s) == Scope::All)
    }

    fn ending(desk: &mut Desk, line: &str) -> String {
        match desk.answer(line) {
            Expected::Line(answer) => answer.split(' ').take(1).collect(),
            Expected::Sum(..) => String::new(),
        }
    }

    #[test]
    fn every_ending_is_met() {
        let mut met: HashMap<(String, String), usize> = HashMap::new();
        for seed in seeds(160) {
            let mut desk = Desk::new();
            for line in script(seed, Scope::All) {
                let name = line.split(' ').take(1).collect();
                *met.entry((name, ending(&mut desk, &line))).or_default() += 1;
            }
        }
        for (name, endings) in ENDINGS {
            let unmet = |e: &&&str| !met.contains_key(&(name.to_string(), e.to_string()));
            assert_eq!(endings.iter().find(unmet), None, "{name}");
        }
    }

    /// The two costs whose sum a line asks for.
    fn operands(desk: &Desk, line: &str) -> Option<[Cost; 2]> {
        let (name, rest) = line.split_once(' ')?;
        let sign = match name {
            "add" => 1,
            "subtract" => -1,
            _ => return None,
        };
        let numbers: Vec<usize> = rest.split(' ').filter_map(|n| n.parse().ok()).collect();
        let cost = |i: usize| desk.costs.table()?.places.get(*numbers.get(i)?);
        Some([cost(1)?.clone(), cost(2)?.iter().map(|x| sign * x).collect()])
    }

    /// The lowest and the highest.
    fn ends(cost: impl Iterator<Item = i64> + Clone) -> [i64; 2] {
        [cost.clone().min().unwrap_or(0), cost.max().unwrap_or(0)]
    }

    fn is_in_range(ends: [i64; 2]) -> bool {
        -MOST_COST <= ends[0] && ends[1] <= MOST_COST
    }

    /// Of sums of two costs that are no constants, how many end in which way.
    #[derive(Default, Debug)]
    struct Sums {
        /// Refused, and in range where all features are 0.
        inner: usize,
        /// In range, though the lowest or highest of both together are not.
        misleading: usize,
        /// At an end of the range, and past it by one.
        at_the_end: usize,
        past_by_one: usize,
    }

    impl Sums {
        fn add(&mut self, [x, y]: [Cost; 2]) {
            let sum = x.iter().zip(&y).map(|(a, b)| a + b);
            let [a, b, ends] = [ends(x.iter().copied()), ends(y.iter().copied()), ends(sum)];
            if a[0] == a[1] || b[0] == b[1] {
                return;
            }
            let taken = is_in_range(ends);
            self.inner += usize::from(!taken && (x[0] + y[0]).abs() <= MOST_COST);
            self.misleading += usize::from(taken && !is_in_range([a[0] + b[0], a[1] + b[1]]));
            self.at_the_end += usize::from(taken && (ends[0] == -MOST_COST || ends[1] == MOST_COST));
            self.past_by_one += usize::from(!taken && is_in_range([ends[0] + 1, ends[1] - 1]));
        }
    }

    #[test]
    fn sums_are_often_at_the_ends_of_the_range() {
        let mut sums = Sums::default();
        for seed in seeds(160) {
            let mut desk = Desk::new();
            for line in script(seed, Scope::All) {
                if let Some(both) = operands(&desk, &line) {
                    sums.add(both);
                }
                desk.answer(&line);
            }
        }
        let least = [sums.inner, sums.misleading, sums.at_the_end, sums.past_by_one].into_iter().min();
        assert!(least > Some(30), "{sums:?}");
    }

    /// What a line that forgets finds over the values, at some setting: 0 alone, one other beside 0, one other alone, two that differ.
    fn forgotten(desk: &Desk, line: &str) -> Option<[bool; 4]> {
        let table = desk.rules.table()?;
        let numbers: Vec<usize> = line.strip_prefix("forget ")?.split(' ').filter_map(|n| n.parse().ok()).collect();
        let &[_, from, k] = numbers.as_slice() else { return None };
        let (rule, size) = (table.places.get(from)?, *table.shape.sizes.get(k)?);
        let mut found = [false; 4];
        for i in 0..rule.len() {
            let met: HashSet<u16> = (0..size).map(|v| rule[table.shape.with(i, k, v)]).collect();
            let zero = usize::from(met.contains(&0));
            let kind = match (met.len() - zero, zero) {
                (0, _) => 0,
                (1, 1) => 1,
                (1, _) => 2,
                _ => 3,
            };
            found[kind] = true;
        }
        Some(found)
    }

    #[test]
    fn forgetting_meets_every_sentence() {
        let mut met = [0; 4];
        for seed in 1000..1160 {
            let mut desk = Desk::new();
            for line in script(seed, Scope::All) {
                let found = forgotten(&desk, &line);
                if ending(&mut desk, &line) == "0" {
                    (0..4).for_each(|kind| met[kind] += usize::from(found.is_some_and(|f| f[kind])));
                }
            }
        }
        assert!(met.into_iter().min() > Some(50), "{met:?}");
    }

    #[test]
    fn no_script_is_longer_than_shelf_reads() {
        for seed in 1000..1064 {
            let bytes: usize = script(seed, Scope::All).iter().map(|line| line.len() + 1).sum();
            assert!(bytes <= crate::shelf::MOST_BYTES, "seed {seed}: {bytes}");
        }
    }
}
