//! Lines cut into scripts that `shelf` reads whole: each begins with the same table, and has a sum at both ends.

use crate::desk::Desk;
use crate::kind::{Kind, Number};
use crate::model::Table;
use crate::picture;
use crate::shape::Shape;

/// A script may be cut from here on; the lines up to the next place for a cut come after it.
const FULL: usize = 60_000;

pub struct Parts {
    kind: Kind,
    start: Vec<String>,
    lines: Vec<String>,
    bytes: usize,
    scripts: Vec<Vec<String>>,
}

fn length(lines: &[String]) -> usize {
    lines.iter().map(|l| l.len() + 1).sum()
}

/// The lines that open a table of the capacity that the words say, and poke the words into it.
pub fn poked(desk: &mut Desk, kind: Kind, shape: &Shape, words: &[u32]) -> Vec<String> {
    let sizes: String = shape.sizes.iter().map(|s| format!(" {s}")).collect();
    let open = format!("{} {}{sizes}", kind.command("open"), words[1]);
    desk.answer(&open);
    let others = words.iter().zip(desk.words(kind)).enumerate().filter(|(_, (new, old))| new != old);
    let poke = kind.command("poke");
    let pokes = others.map(|(i, (word, _))| format!("{poke} {i} {word}")).collect::<Vec<String>>();
    std::iter::once(open).chain(pokes).collect()
}

impl Parts {
    /// The table is poked into a fresh one, word by word.
    pub fn on<N: Number>(table: &Table<N>) -> Parts {
        let start = poked(&mut Desk::new(), N::KIND, &table.shape, &picture::words(table));
        Parts { kind: N::KIND, bytes: length(&start), start, lines: Vec::new(), scripts: Vec::new() }
    }

    /// Each script begins with this line.
    pub fn before(&mut self, line: String) {
        self.bytes += line.len() + 1;
        self.start.insert(0, line);
    }

    pub fn say(&mut self, line: String) {
        self.bytes += line.len() + 1;
        self.lines.push(line);
    }

    /// The lines so far are a script of their own.
    fn cut(&mut self) {
        let sum = || self.kind.command("sum");
        let mut script = self.start.clone();
        script.push(sum());
        script.append(&mut self.lines);
        script.push(sum());
        self.scripts.push(script);
        self.bytes = length(&self.start);
    }

    /// Here the lines may be cut.
    pub fn rest(&mut self) {
        if self.bytes > FULL {
            self.cut();
        }
    }

    /// The scripts of all lines.
    pub fn done(mut self) -> Vec<Vec<String>> {
        self.cut();
        self.scripts
    }
}
