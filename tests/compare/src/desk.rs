//! What `shelf` must answer: each line of a script, read as shared/SHELF.md says, against the model.

use crate::both;
use crate::hex;
use crate::kind::{Kind, Number};
use crate::model::{looked, Told, BAD_ARGUMENT};
use crate::shape::Shape;
use crate::sheet;
use crate::side::{asked, is_length, is_word, listed, plain, valued, Side, LIST};

/// The longest output of `write`, and what its bytes are before.
const OUTPUT: i64 = 8192;
const BEFORE: u8 = 170;

/// A foretold answer: a line, or the checksum of these words of a buffer.
#[derive(Debug)]
pub enum Expected {
    Line(String),
    Sum(Kind, Vec<u32>),
}

pub struct Desk {
    pub rules: Side<u16>,
    pub costs: Side<i64>,
}

/// The side of the desk that a kind has.
pub trait OnDesk: Number {
    fn side(desk: &Desk) -> &Side<Self>;
}

impl OnDesk for u16 {
    fn side(desk: &Desk) -> &Side<u16> {
        &desk.rules
    }
}

impl OnDesk for i64 {
    fn side(desk: &Desk) -> &Side<i64> {
        &desk.costs
    }
}

/// The number that a word is: digits, with or without a minus sign, that 64 bits hold.
fn number(word: &str) -> Option<i64> {
    let digits = word.strip_prefix('-').unwrap_or(word);
    if digits.is_empty() || !digits.bytes().all(|b| b.is_ascii_digit()) {
        return None;
    }
    word.parse().ok()
}

fn numbers<'a>(words: impl Iterator<Item = &'a str>) -> Option<Vec<i64>> {
    words.map(number).collect()
}

/// `step S0,S1,.. V0 V1 ..` after its first word.
fn step(words: &[&str]) -> Option<String> {
    let sizes = numbers(words.first()?.split(','))?;
    let values = numbers(words[1..].iter().copied())?;
    if sizes.len() > LIST || values.len() > LIST {
        return None;
    }
    let after = Shape::of(&sizes).and_then(|shape| shape.after(&values));
    Some(match after {
        None => format!("{BAD_ARGUMENT} 0"),
        Some(None) => listed("0 1", vec![0; values.len()]),
        Some(Some(next)) => listed("0 0", next.into_iter().map(|v| v as usize)),
    })
}

/// `slook HEX V0 V1 ..` after its first word.
fn look_in(words: &[&str]) -> Option<String> {
    let bytes = hex::read(words.first()?)?;
    let values = numbers(words[1..].iter().copied())?;
    if values.len() > LIST {
        return None;
    }
    Some(asked(sheet::read(&bytes).and_then(|(shape, rule)| {
        let rank = shape.rank(&values).ok_or(BAD_ARGUMENT)?;
        Ok(looked(&shape, &rule, rank))
    })))
}

impl Desk {
    pub fn new() -> Desk {
        Desk { rules: Side::new(), costs: Side::new() }
    }

    /// The words of a buffer.
    pub fn words(&mut self, kind: Kind) -> &[u32] {
        match kind {
            Kind::Rules => self.rules.words(),
            Kind::Costs => self.costs.words(),
        }
    }

    /// Whether a buffer holds a sound table.
    pub fn is_sound(&self, kind: Kind) -> bool {
        match kind {
            Kind::Rules => self.rules.table().is_some(),
            Kind::Costs => self.costs.table().is_some(),
        }
    }

    fn next(&self, p: i64, x: i64, values: &[i64]) -> String {
        match self.rules.lent().and_then(|t| t.next(p, x, values)) {
            Ok(setting) => self.rules.printed("0", setting),
            Err(refusal) => self.rules.printed(&refusal.to_string(), Vec::new()),
        }
    }

    /// The calls of a rule table alone.
    fn rule_call(&mut self, name: &str, n: &[i64]) -> Option<String> {
        let rules = &mut self.rules;
        Some(match (name, n) {
            ("literal", &[p, k, bits]) => valued(rules.change(|t| t.literal(p, k, bits))),
            ("case", [p, selector, list @ ..]) if list.len() <= LIST => {
                plain(rules.change(|t| t.case(*p, *selector, list)))
            }
            ("apply", &[p, o, a, b]) => plain(rules.change(|t| t.apply(p, o, a, b))),
            ("restrict", &[p, from, k, v]) => plain(rules.change(|t| t.restrict(p, from, k, v))),
            ("forget", &[p, from, k]) => plain(rules.change(|t| t.forget(p, from, k))),
            ("count", &[p, x]) => valued(rules.lent().and_then(|t| t.count(p, x))),
            ("next", [p, x, values @ ..]) if values.len() <= LIST => self.next(*p, *x, values),
            ("write", &[p, length]) => self.sheet(p, length)?,
            _ => return None,
        })
    }

    /// The calls of a cost table alone.
    fn cost_call(&mut self, name: &str, n: &[i64]) -> Option<String> {
        let costs = &mut self.costs;
        Some(plain(match (name, n) {
            ("price", [p, k, prices @ ..]) if prices.len() <= LIST => costs.change(|t| t.price(*p, *k, prices)),
            ("add", &[p, a, b]) => costs.change(|t| t.add(p, a, b)),
            ("subtract", &[p, a, b]) => costs.change(|t| t.subtract(p, a, b)),
            ("smaller", &[p, a, b]) => costs.change(|t| t.smaller(p, a, b)),
            ("larger", &[p, a, b]) => costs.change(|t| t.larger(p, a, b)),
            ("scale", &[p, a, factor]) => costs.change(|t| t.scale(p, a, factor)),
            _ => return None,
        }))
    }

    fn choose(&mut self, p: i64, rule: i64, a: i64, b: i64) -> Told<()> {
        let rules = self.rules.lent()?;
        self.costs.change(|costs| both::choose(rules, costs, p, rule, a, b))
    }

    fn less(&mut self, p: i64, a: i64, b: i64) -> Told<()> {
        let costs = self.costs.lent()?;
        self.rules.change(|rules| both::less(rules, costs, p, a, b))
    }

    /// The setting is printed as one of the cost table.
    fn lowest(&self, a: i64, rule: i64) -> String {
        let lent = self.rules.lent().and_then(|rules| Ok((rules, self.costs.lent()?)));
        match lent.and_then(|(rules, costs)| both::lowest(rules, costs, a, rule)) {
            Ok((cost, setting)) => self.costs.printed(&format!("0 {cost}"), setting),
            Err(refusal) => self.costs.printed(&format!("{refusal} 0"), Vec::new()),
        }
    }

    /// The calls that are lent both tables.
    fn both_call(&mut self, name: &str, n: &[i64]) -> Option<String> {
        Some(match (name, n) {
            ("choose", &[p, rule, a, b]) => plain(self.choose(p, rule, a, b)),
            ("less", &[p, a, b]) => plain(self.less(p, a, b)),
            ("lowest", &[a, rule]) => self.lowest(a, rule),
            _ => return None,
        })
    }

    /// `write P LENGTH`: the whole output, the sheet at its front.
    fn sheet(&self, p: i64, length: i64) -> Option<String> {
        if !(0..=OUTPUT).contains(&length) {
            return None;
        }
        let mut output = vec![BEFORE; length as usize];
        let told = self.rules.lent().and_then(|t| t.write(p, output.len()));
        let count = told.as_ref().map_or(0, |sheet| sheet.len());
        let ending = *told.as_ref().err().unwrap_or(&0);
        output[..count].copy_from_slice(&told.unwrap_or_default());
        Some(format!("{ending} {count} {}", hex::written(&output)))
    }

    /// `read P HEX` after its first word.
    fn read(&mut self, words: &[&str]) -> Option<String> {
        if words.len() != 2 {
            return None;
        }
        let p = number(words[0])?;
        let bytes = hex::read(words[1])?;
        Some(plain(self.rules.change(|t| t.read(p, &bytes))))
    }

    /// A command and its numbers. Scratch has no part in any answer.
    fn command(&mut self, name: &str, n: &[i64]) -> Option<String> {
        if let ("scratch", &[i, x]) = (name, n) {
            return Some("0".to_string()).filter(|_| is_length(i) && is_word(x));
        }
        if let Some(answer) = self.rules.command(name, n).or_else(|| self.rule_call(name, n)) {
            return Some(answer);
        }
        let shared = name.strip_prefix('c').and_then(|shared| self.costs.command(shared, n));
        shared.or_else(|| self.cost_call(name, n)).or_else(|| self.both_call(name, n))
    }

    /// What the line must be answered; the desk is then as after it.
    pub fn answer(&mut self, line: &str) -> Expected {
        let words: Vec<&str> = line.split(' ').collect();
        let answer = match (line, words[0]) {
            ("", _) => Some(String::new()),
            ("sum", _) => return Expected::Sum(Kind::Rules, self.rules.words().to_vec()),
            ("csum", _) => return Expected::Sum(Kind::Costs, self.costs.words().to_vec()),
            (_, "step") => step(&words[1..]),
            (_, "read") => self.read(&words[1..]),
            (_, "slook") => look_in(&words[1..]),
            (_, name) => numbers(words[1..].iter().copied()).and_then(|n| self.command(name, &n)),
        };
        Expected::Line(answer.unwrap_or_else(|| "?".to_string()))
    }
}

#[cfg(test)]
mod tests {
    use super::*;

    fn says(desk: &mut Desk, line: &str) -> String {
        match desk.answer(line) {
            Expected::Line(text) => text,
            Expected::Sum(..) => "sum".to_string(),
        }
    }

    #[test]
    fn lines_that_are_no_command() {
        let mut desk = Desk::new();
        for line in ["tally ", " tally", "tally 1", "look", "copy 1", "copy 1  2", "copy 1 +2", "copy 1 -", "Tally"] {
            assert_eq!(says(&mut desk, line), "?", "{line}");
        }
        assert_eq!(says(&mut desk, "copy 1 9223372036854775808"), "?");
        assert_eq!(says(&mut desk, "copy 1 -9223372036854775808"), "1");
        assert_eq!(says(&mut desk, ""), "");
    }

    #[test]
    fn before_and_after_an_opening() {
        let mut desk = Desk::new();
        assert_eq!(says(&mut desk, "next 0 0 0 0"), "1");
        assert_eq!(says(&mut desk, "open 257 2 3"), "12");
        assert_eq!(says(&mut desk, "open 1 2 3"), "0");
        assert_eq!(says(&mut desk, "next 0 0 1 1"), "0 1 1");
        assert_eq!(says(&mut desk, "next 0 5 1 1"), "11 0 0");
        assert_eq!(says(&mut desk, "lend 8223"), "0");
        assert_eq!(says(&mut desk, "look 0 0 0"), "1 0 0");
        assert_eq!(says(&mut desk, "lend 8224"), "0");
        assert_eq!(says(&mut desk, "look 0 0 0"), "0 0 0");
    }

    #[test]
    fn damage_and_mending() {
        let mut desk = Desk::new();
        says(&mut desk, "open 1 2 3");
        assert_eq!(says(&mut desk, "literal 0 1 5"), "0 2");
        assert_eq!(says(&mut desk, "poke 8193 0"), "0");
        assert_eq!(says(&mut desk, "tally"), "1 0");
        assert_eq!(says(&mut desk, "poke 8193 1"), "0");
        assert_eq!(says(&mut desk, "tally"), "0 1");
        assert_eq!(says(&mut desk, "poke 40 9"), "0");
        assert_eq!(says(&mut desk, "look 8 0 0"), "0 9 0");
    }

    #[test]
    fn sheets() {
        let mut desk = Desk::new();
        assert_eq!(says(&mut desk, "write 0 2"), "1 0 aaaa");
        says(&mut desk, "open 1 2");
        assert_eq!(says(&mut desk, "write 0 0"), "10 0 -");
        assert_eq!(says(&mut desk, "write 0 14"), "0 13 00010100010200000001000000aa");
        assert_eq!(says(&mut desk, "write 0 8193"), "?");
        assert_eq!(says(&mut desk, "write 0 -1"), "?");
        assert_eq!(says(&mut desk, "read 1 0001010001020001000000070000090001010000"), "0");
        assert_eq!(says(&mut desk, "look 1 1"), "0 9 1");
        assert_eq!(says(&mut desk, "read 1 -"), "4");
        assert_eq!(says(&mut desk, "read 1 000"), "?");
        assert_eq!(says(&mut desk, "read 1"), "?");
        assert_eq!(says(&mut desk, "slook 0001010001020001000000070000090001010000 1"), "0 9 1");
        assert_eq!(says(&mut desk, "slook 0001010001020001000000070000090001010000 2"), "6 0 0");
        assert_eq!(says(&mut desk, "slook 00010100010200000001000005 1"), "0 5 0");
        assert_eq!(says(&mut desk, "slook 000102"), "3 0 0");
        assert_eq!(says(&mut desk, "slook -"), "4 0 0");
        assert_eq!(says(&mut desk, "slook"), "?");
    }

    #[test]
    fn steps() {
        let mut desk = Desk::new();
        assert_eq!(says(&mut desk, "step 2,3 0 2"), "0 0 1 0");
        assert_eq!(says(&mut desk, "step 2,3 1 2"), "0 1 0 0");
        assert_eq!(says(&mut desk, "step 2,9 1 2"), "6 0");
        assert_eq!(says(&mut desk, "step 2,,3 1 2"), "?");
    }

    #[test]
    fn costs_beside_rules() {
        let mut desk = Desk::new();
        assert_eq!(says(&mut desk, "ctally"), "1 0");
        assert_eq!(says(&mut desk, "copen 257 2 3"), "12");
        assert_eq!(says(&mut desk, "copen 1 2 3"), "0");
        assert_eq!(says(&mut desk, "tally"), "1 0");
        assert_eq!(says(&mut desk, "price 3 1 -5 7 0"), "0");
        assert_eq!(says(&mut desk, "clook 3 1 0"), "0 -5 1");
        assert_eq!(says(&mut desk, "clook 3 1 3"), "6 0 0");
        assert_eq!(says(&mut desk, "scale 3 3 -200000000"), "8");
        assert_eq!(says(&mut desk, "csame 3 0"), "0 0");
        assert_eq!(says(&mut desk, "cword 51"), "0 2147483643");
        assert_eq!(says(&mut desk, "cpoke 51 2147483644"), "0");
        assert_eq!(says(&mut desk, "clook 3 1 0"), "0 -4 1");
        assert_eq!(says(&mut desk, "word 51"), "0 0");
        assert_eq!(says(&mut desk, "clend 8223"), "0");
        assert_eq!(says(&mut desk, "ctally"), "1 0");
        for line in ["price 0", "price 0 0 x", "add 1 2", "clend", "csum 0", "ccount 0 0", "cliteral 0 0 1", "lowest 0"]
        {
            assert_eq!(says(&mut desk, line), "?", "{line}");
        }
    }

    #[test]
    fn both_tables() {
        let mut desk = Desk::new();
        assert_eq!(says(&mut desk, "lowest 0 0"), "1 0");
        says(&mut desk, "copen 2 2 3");
        assert_eq!(says(&mut desk, "lowest 0 0"), "1 0 0 0", "no rule table");
        assert_eq!(says(&mut desk, "choose 16 0 0 0"), "1");
        says(&mut desk, "open 2 2");
        assert_eq!(says(&mut desk, "lowest 0 0"), "5 0 0 0");
        assert_eq!(says(&mut desk, "less 32 0 0"), "2");
        assert_eq!(says(&mut desk, "less 31 0 0"), "5");
        says(&mut desk, "open 2 2 3");
        assert_eq!(says(&mut desk, "lowest 0 0"), "11 0 0 0");
        says(&mut desk, "price 0 1 3 -4 -4");
        says(&mut desk, "constant 0 9");
        assert_eq!(says(&mut desk, "lowest 0 0"), "0 -4 0 1");
        assert_eq!(says(&mut desk, "less 1 0 1"), "0");
        assert_eq!(says(&mut desk, "count 1 1"), "0 4");
        assert_eq!(says(&mut desk, "choose 2 1 0 1"), "0");
        assert_eq!(says(&mut desk, "clook 2 0 0"), "0 0 1");
        says(&mut desk, "lend 0");
        assert_eq!(says(&mut desk, "choose 2 1 0 1"), "1");
        assert_eq!(says(&mut desk, "clook 2 0 1"), "0 -4 1");
    }
}
