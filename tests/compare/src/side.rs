//! One of the two tables on the desk: its buffer, what of it is lent, and the commands that rules and costs share.

use crate::kind::Number;
use crate::model::{Table, Told, BAD_OPENING, DAMAGED};
use crate::picture::{self, bound};
use crate::shape::Shape;
use crate::sound;

/// The words of a buffer.
pub const BUFFER: usize = 16384;
/// The longest list after a command.
pub const LIST: usize = 64;

pub struct Side<N> {
    /// The table, where the buffer's words are sound.
    table: Option<Table<N>>,
    /// The buffer's words; those of the table are older than it where `stale`.
    words: Vec<u32>,
    stale: bool,
    /// How many words are lent to the calls.
    lent: usize,
    /// How many values of a setting are printed.
    features: usize,
}

pub fn plain(told: Told<()>) -> String {
    told.err().unwrap_or(0).to_string()
}

pub fn valued(told: Told<i64>) -> String {
    match told {
        Ok(x) => format!("0 {x}"),
        Err(refusal) => format!("{refusal} 0"),
    }
}

pub fn asked(told: Told<(i64, usize)>) -> String {
    match told {
        Ok((x, asked)) => format!("0 {x} {asked}"),
        Err(refusal) => format!("{refusal} 0 0"),
    }
}

pub fn listed(first: &str, values: impl IntoIterator<Item = usize>) -> String {
    let rest = values.into_iter().map(|v| format!(" {v}"));
    std::iter::once(first.to_string()).chain(rest).collect()
}

/// A length of a buffer, an index in it, a word.
pub fn is_length(i: i64) -> bool {
    (0..=BUFFER as i64).contains(&i)
}

fn is_index(i: i64) -> bool {
    (0..BUFFER as i64).contains(&i)
}

pub fn is_word(x: i64) -> bool {
    u32::try_from(x).is_ok()
}

impl<N: Number> Side<N> {
    pub fn new() -> Side<N> {
        Side { table: None, words: vec![0; BUFFER], stale: false, lent: BUFFER, features: 0 }
    }

    /// The table of the buffer, sound or not lent in full.
    pub fn table(&self) -> Option<&Table<N>> {
        self.table.as_ref()
    }

    /// The buffer's words.
    pub fn words(&mut self) -> &[u32] {
        if let (true, Some(table)) = (self.stale, &self.table) {
            let words = picture::words(table);
            self.words[..words.len()].copy_from_slice(&words);
        }
        self.stale = false;
        &self.words
    }

    /// The table that a call finds in the lent words.
    pub fn lent(&self) -> Told<&Table<N>> {
        self.table.as_ref().filter(|t| bound(t.capacity) <= self.lent).ok_or(DAMAGED)
    }

    pub fn change<T>(&mut self, call: impl FnOnce(&mut Table<N>) -> Told<T>) -> Told<T> {
        self.lent()?;
        let told = self.table.as_mut().map_or(Err(DAMAGED), call);
        self.stale |= told.is_ok();
        told
    }

    fn open(&mut self, capacity: i64, sizes: &[i64]) -> Told<()> {
        let shape = Shape::of(sizes).ok_or(BAD_OPENING)?;
        if !(1..=4096).contains(&capacity) || bound(capacity as usize) > self.lent {
            return Err(BAD_OPENING);
        }
        self.words();
        self.features = shape.features();
        self.table = Some(Table::fresh(shape, capacity as usize));
        self.stale = true;
        Ok(())
    }

    fn poke(&mut self, i: usize, word: u32) {
        self.words();
        self.words[i] = word;
        self.table = sound::read(&self.words);
    }

    /// A setting is printed with as many values as the list of the last opening has.
    pub fn printed(&self, first: &str, mut setting: Vec<usize>) -> String {
        setting.resize(self.features, 0);
        listed(first, setting)
    }

    /// The commands on the buffer.
    fn handle(&mut self, name: &str, n: &[i64]) -> Option<String> {
        match (name, n) {
            ("lend", &[i]) if is_length(i) => self.lent = i as usize,
            ("word", &[i]) if is_index(i) => return Some(format!("0 {}", self.words()[i as usize])),
            ("poke", &[i, x]) if is_index(i) && is_word(x) => self.poke(i as usize, x as u32),
            _ => return None,
        }
        Some("0".to_string())
    }

    /// The calls.
    fn call(&mut self, name: &str, n: &[i64]) -> Option<String> {
        Some(match (name, n) {
            ("open", [capacity, sizes @ ..]) if sizes.len() <= LIST => plain(self.open(*capacity, sizes)),
            ("constant", &[p, x]) => plain(self.change(|t| t.constant(p, x))),
            ("copy", &[p, from]) => plain(self.change(|t| t.copy(p, from))),
            ("look", [p, values @ ..]) if values.len() <= LIST => asked(self.lent().and_then(|t| t.look(*p, values))),
            ("same", &[p, q]) => valued(self.lent().and_then(|t| t.same(p, q))),
            ("tally", []) => valued(self.lent().map(|t| t.tally() as i64)),
            _ => return None,
        })
    }

    /// What a command that both kinds have is answered, by its name for rules.
    pub fn command(&mut self, name: &str, n: &[i64]) -> Option<String> {
        self.handle(name, n).or_else(|| self.call(name, n))
    }
}
