//! Sheets written and read: into every kind of output, into tables with and without room and over other lists, whole,
//! cut at every length, changed at every byte, and with faults in what they say.

use crate::hex;
use crate::kind::{Branch, Number, To};
use crate::model::{Rule, Rules};
use crate::parts::Parts;
use crate::picture::{self, Diagram, Node};
use crate::rng::Rng;
use crate::script;
use crate::shape::Shape;
use crate::sheet;
use crate::side::listed;
use crate::spoil;

const LISTS: [&[usize]; 6] = [&[2], &[2, 3], &[2, 2, 2], &[3, 2, 4], &[8], &[2, 2, 3, 2]];
/// The longest sheet that is cut and changed at every byte.
const LONGEST: usize = 120;
/// Faulty sheets for each table.
const FAULTY: usize = 60;

/// A rule of some numbers, most often few.
pub fn any_rule(rng: &mut Rng, shape: &Shape) -> Rule {
    let most = rng.pick(&[1, 2, 2, 3, 9, 65536]);
    let mut rule: Rule = (0..shape.settings()).map(|_| rng.below(most) as u16).collect();
    // often the same for each value of the first feature, so that rests are shared
    if rng.once_in(2) {
        let part = shape.span(1);
        (part..rule.len()).for_each(|i| rule[i] = rule[i - part]);
        let last = rule.len() - 1;
        rule[last] = rng.below(3) as u16;
    }
    rule
}

struct Exchange {
    rng: Rng,
    table: Rules,
    parts: Parts,
}

impl Exchange {
    fn new(seed: u64) -> Exchange {
        let mut rng = Rng::new(seed);
        let shape = Shape { sizes: rng.pick(&LISTS).to_vec() };
        let room = rng.within(1, 24);
        let mut table = script::table::<u16>(rng.next(), &shape, room);
        // some more nodes than are in use, none too
        table.capacity = table.tally().max(1) + rng.pick(&[0, 1, 3, 8, 30]);
        Exchange { rng, parts: Parts::on(&table), table }
    }

    /// The bytes are read into one of two places, whose rules come into question afterwards.
    fn read(&mut self, bytes: &[u8]) {
        let p = self.rng.pick(&[3, 30]);
        self.parts.say(format!("read {p} {}", hex::written(bytes)));
        match self.rng.below(8) {
            0 => self.parts.say("sum".to_string()),
            1 => self.parts.say("same 3 30".to_string()),
            2 => self.parts.say("tally".to_string()),
            3 => self.parts.say(format!("write {p} 60")),
            4 | 5 => self.look_in(bytes),
            _ => {}
        }
        self.parts.rest();
    }

    /// The number of some setting is looked up in the bytes.
    fn look_in(&mut self, bytes: &[u8]) {
        let setting = self.table.shape.setting(self.rng.below(self.table.shape.settings()));
        self.parts.say(listed(&format!("slook {}", hex::written(bytes)), setting));
    }

    /// The place's sheet into outputs of every kind of length, and into other places.
    fn write(&mut self, p: usize) {
        let length = sheet::written(&self.table.shape, &self.table.places[p]).len();
        for space in [0, 1, length / 2, length - 1, length, length + 1, length + 9] {
            self.parts.say(format!("write {p} {space}"));
        }
        for p in ["32", "-1", "4294967296"] {
            self.parts.say(format!("write {p} {length}"));
        }
        self.parts.say("sum".to_string());
        self.parts.rest();
    }

    /// A good sheet, then cut at every length, changed at every byte, longer and shorter.
    fn every_byte(&mut self, bytes: &[u8]) {
        self.read(bytes);
        (0..bytes.len()).for_each(|n| self.read(&bytes[..n]));
        for (i, &old) in bytes.iter().enumerate() {
            for new in spoil::others(&mut self.rng, old) {
                self.read(&spoil::changed(bytes, i, new));
            }
        }
        for other in spoil::longer_and_shorter(&mut self.rng, bytes) {
            self.read(&other);
        }
    }

    /// Sheets with a fault in what they say, of the table's rules and of others.
    fn faulty(&mut self) {
        let shape = self.table.shape.clone();
        for i in 0..FAULTY {
            let rule = if i % 2 == 0 { any_rule(&mut self.rng, &shape) } else { self.table.places[i % 32].clone() };
            let diagram = picture::diagram(&shape, &[rule]);
            let bytes = spoil::faulty(&mut self.rng, &shape, &diagram);
            self.read(&bytes);
        }
    }

    /// Good sheets: of the table's rules, of others over its list, over other lists, to no place.
    fn good(&mut self) {
        let own = self.table.shape.clone();
        for p in 0..32 {
            self.read(&sheet::written(&own, &self.table.places[p].clone()));
        }
        for list in LISTS {
            let shape = Shape { sizes: list.to_vec() };
            for _ in 0..4 {
                let rule = any_rule(&mut self.rng, &shape);
                self.read(&sheet::written(&shape, &rule));
            }
        }
        self.parts.say("read 32 000102".to_string());
        self.parts.say("read 31 000102".to_string());
        self.parts.say("read -1 -".to_string());
        self.parts.say("read 31 -".to_string());
    }

    /// The place whose sheet is the longest of those that are not too long.
    fn rich(&self) -> usize {
        let length = |p: &usize| sheet::written(&self.table.shape, &self.table.places[*p]).len();
        (0..32).filter(|p| length(p) <= LONGEST).max_by_key(length).unwrap_or(0)
    }

    fn scripts(mut self) -> Vec<Vec<String>> {
        let p = self.rich();
        let bytes = sheet::written(&self.table.shape, &self.table.places[p]);
        self.write(p);
        self.good();
        if bytes.len() <= LONGEST {
            self.every_byte(&bytes);
        }
        self.faulty();
        self.parts.done()
    }
}

/// Every byte of the scope's two sheets changed to every other value.
fn every_value() -> Vec<Vec<String>> {
    let shape = Shape { sizes: vec![2] };
    let mut parts = Parts::on(&Rules::fresh(shape.clone(), 1));
    for rule in [vec![7, 9], vec![5, 5]] {
        let good = sheet::written(&shape, &rule);
        for (i, &old) in good.iter().enumerate() {
            for new in (0..=255).filter(|&new| new != old) {
                parts.say(format!("read 5 {}", hex::written(&spoil::changed(&good, i, new))));
                parts.say("tally".to_string());
                parts.rest();
            }
            parts.say("look 5 1".to_string());
        }
    }
    parts.done()
}

/// Thirteen features of size 2: all 4,095 nodes of the first twelve, and so many of the last.
fn large(last: usize) -> Vec<u8> {
    let shape = Shape { sizes: vec![2; 13] };
    let rule = (0..8192).map(|i| if i / 2 < last { i as u16 } else { 10_000 + (i / 2) as u16 }).collect();
    sheet::written(&shape, &rule)
}

/// Sheets of 4,096 nodes and of one more, over the table's list and another.
fn large_scripts() -> Vec<Vec<String>> {
    let mut scripts = Vec::new();
    for features in [13, 12] {
        let open = format!("open 256{}", " 2".repeat(features));
        for last in [1, 2] {
            let read = format!("read 0 {}", hex::written(&large(last)));
            scripts.push(vec![open.clone(), read, "tally".to_string()]);
        }
    }
    scripts
}

/// A chain of nodes over all sixteen features, read with room for it and with room for one less.
fn chain_scripts() -> Vec<Vec<String>> {
    let shape = Shape { sizes: vec![2; 16] };
    let to_node = |i: usize| Branch { adds: 0, to: To::Node(i) };
    let node = |k: usize, below: Branch| Node { feature: k, branches: vec![below, 5u16.end()] };
    let mut nodes = vec![node(15, 4u16.end())];
    (0..15).rev().for_each(|k| nodes.push(node(k, to_node(nodes.len() - 1))));
    let chain = Diagram { nodes, roots: vec![to_node(15)] };
    let read = |d: &Diagram| format!("read 0 {}", hex::written(&sheet::lay_out(&shape, d)));
    let open = |capacity: usize| format!("open {capacity}{}", " 2".repeat(16));
    vec![vec![open(16), read(&chain), "tally".to_string(), "write 0 140".to_string(), open(15), read(&chain)]]
}

/// The scripts of so many seeds, and those that no chance is in.
pub fn scripts(seed: u64, count: u64) -> impl Iterator<Item = Vec<String>> {
    let fixed = every_value().into_iter().chain(large_scripts()).chain(chain_scripts());
    fixed.chain((seed..seed + count).flat_map(|s| Exchange::new(s).scripts()))
}
