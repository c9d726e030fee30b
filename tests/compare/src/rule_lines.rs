//! The lines of random scripts that are about rules.

use crate::args::line;
use crate::exchange::any_rule;
use crate::hex;
use crate::junk::JUNK;
use crate::kind::Kind::Rules;
use crate::model::Rule;
use crate::picture;
use crate::script::Maker;
use crate::shape::Shape;
use crate::sheet;
use crate::spoil;

/// The longest sheet of a line.
const SHEET: usize = 500;

impl Maker {
    /// The rule of a place, if there is one.
    fn rule(&self, p: i64) -> Option<&Rule> {
        self.desk.rules.table().and_then(|t| t.places.get(p as usize))
    }

    /// A number, most often one that the rule of the place has.
    fn number_of(&mut self, p: i64) -> i64 {
        let any = self.args.number();
        let i = self.args.rng.next() as usize;
        match self.rule(p).map(|r| r[i % r.len()]) {
            Some(x) if !self.args.rng.once_in(4) => i64::from(x),
            _ => any,
        }
    }

    /// A selector, often one that chooses, and how many branches it asks for.
    fn selector(&mut self) -> (i64, usize) {
        let mut chosen = self.args.place(Rules);
        let mut asks = 1;
        for _ in 0..4 {
            let most = self.rule(chosen).and_then(|r| r.iter().max()).map_or(0, |&m| m as usize);
            asks = most + 1;
            if (1..8).contains(&most) {
                break;
            }
            chosen = self.rich(Rules);
        }
        (chosen, asks)
    }

    fn case(&mut self, p: i64) -> String {
        let (selector, asks) = self.selector();
        let rng = &mut self.args.rng;
        let length = match rng.below(40) {
            0 => rng.pick(&[0, 9, 64, 65]),
            1..=3 => rng.within(1, 8),
            _ => (asks + rng.below(3)).clamp(1, 8),
        };
        let mut numbers = vec![p, selector];
        for _ in 0..length {
            numbers.push(self.rich(Rules));
        }
        line("case", &numbers)
    }

    /// A call that writes a place.
    fn write(&mut self, name: &str) {
        let p = self.poor(Rules);
        let text = match name {
            "constant" => line(name, &[p, self.args.number()]),
            "copy" => line(name, &[p, self.args.place(Rules)]),
            "literal" => {
                let k = self.args.feature(Rules);
                line(name, &[p, k, self.args.bits(k)])
            }
            "case" => self.case(p),
            "apply" => line(name, &[p, self.args.operator(), self.rich(Rules), self.rich(Rules)]),
            "restrict" => {
                let k = self.args.feature(Rules);
                line(name, &[p, self.rich(Rules), k, self.args.value(k)])
            }
            _ => self.forget(p),
        };
        self.say(text);
    }

    /// A feature is forgotten; often the rule has got a phrase at some of its values just before, so that numbers differ there.
    fn forget(&mut self, p: i64) -> String {
        let (from, k) = (self.rich(Rules), self.args.feature(Rules));
        if !self.args.rng.once_in(3) {
            let (phrase, values) = (self.poor(Rules), self.poor(Rules));
            let (number, bits) = (self.args.number(), self.args.bits(k));
            self.say(line("constant", &[phrase, number]));
            self.say(line("literal", &[values, k, bits]));
            self.say(line("case", &[from, values, from, phrase]));
        }
        line("forget", &[p, from, k])
    }

    /// A call that only reads.
    fn ask(&mut self, name: &str) {
        let p = self.args.place(Rules);
        let text = match name {
            "look" => line(name, &[vec![p], self.args.setting(Rules)].concat()),
            "same" => line(name, &[p, self.args.place(Rules)]),
            "count" => line(name, &[p, self.number_of(p)]),
            "next" => line(name, &[vec![p, self.number_of(p)], self.args.setting(Rules)].concat()),
            _ => name.to_string(),
        };
        self.say(text);
    }

    /// The sheet of a place, into an output of any kind of length.
    fn write_sheet(&mut self) {
        let p = self.rich(Rules);
        let table = self.desk.rules.table();
        let rule = table.and_then(|t| Some(sheet::written(&t.shape, t.places.get(p as usize)?)));
        let length = rule.map_or(20, |bytes| bytes.len());
        let any = self.args.rng.below(length);
        let space = self.args.rng.pick(&[0, any, length - 1, length, length, length + 1, length + 30, 8192]);
        self.say(format!("write {p} {space}"));
    }

    /// A rule whose sheet may be read: of a place, another over the list, or over another list.
    fn sheet_rule(&mut self) -> (Shape, Rule) {
        let mut shape = self.args.rules.shape.clone();
        let p = self.rich(Rules);
        let once = self.args.rng.once_in(2);
        if let Some(rule) = self.rule(p).filter(|r| once && r.len() == shape.settings()) {
            return (shape, rule.clone());
        }
        if self.args.rng.once_in(6) {
            shape.sizes.rotate_left(1);
        }
        if self.args.rng.once_in(6) {
            shape.sizes.truncate(2);
        }
        let rule = any_rule(&mut self.args.rng, &shape);
        (shape, rule)
    }

    /// A sheet and its list, once in three times with a fault; one that is too long for a line gives way to a constant's.
    fn some_sheet(&mut self) -> (Shape, Vec<u8>) {
        let (shape, mut rule) = self.sheet_rule();
        if sheet::written(&shape, &rule).len() > SHEET {
            rule.fill(7);
        }
        let diagram = picture::diagram(&shape, std::slice::from_ref(&rule));
        let good = sheet::lay_out(&shape, &diagram);
        let rng = &mut self.args.rng;
        let i = rng.below(good.len());
        let bytes = match rng.below(12) {
            0 => spoil::faulty(rng, &shape, &diagram),
            1 => spoil::changed(&good, i, rng.next() as u8),
            2 => good[..i].to_vec(),
            3 => [&good[..], &[0]].concat(),
            _ => good,
        };
        (shape, bytes)
    }

    fn read_sheet(&mut self) {
        let p = self.poor(Rules);
        let (_, bytes) = self.some_sheet();
        self.say(format!("read {p} {}", hex::written(&bytes)));
    }

    fn look_in_sheet(&mut self) {
        let (shape, bytes) = self.some_sheet();
        let setting = self.args.setting_of(&shape.sizes);
        self.say(line(&format!("slook {}", hex::written(&bytes)), &setting));
    }

    /// A command on rules, or on none of both.
    pub fn rule_command(&mut self, name: &str, nests: bool) {
        match name {
            "step" => {
                let text = self.args.step();
                self.say(text);
            }
            "scratch" => self.scratch(),
            "junk" => {
                let text = self.args.rng.pick(&JUNK);
                self.say(text.to_string());
            }
            "write" => self.write_sheet(),
            "read" => self.read_sheet(),
            "slook" => self.look_in_sheet(),
            "look" | "same" | "count" | "next" | "tally" => self.ask(name),
            "lend" | "poke" | "open" | "sum" | "word" => self.handle(Rules, name, nests),
            _ => self.write(name),
        }
    }
}
