//! The proved program, run on a script, and its answers held against the foretold ones.

use crate::desk::{Desk, Expected};
use crate::kind::Kind;
use std::collections::HashMap;
use std::io::Write;
use std::process::{Command, Stdio};

/// The most bytes that `shelf` reads.
pub const MOST_BYTES: usize = 65536;

/// The first line of a script whose answer is another than foretold.
pub struct Failure {
    pub line: usize,
    pub expected: String,
    pub came: String,
}

pub struct Shelf {
    /// The script tests/lib/program.
    pub program: String,
}

/// The script as `shelf` reads it.
pub fn text(script: &[String]) -> String {
    script.iter().map(|line| format!("{line}\n")).collect()
}

impl Shelf {
    /// The lines that the program answers.
    fn answers(&self, script: &[String]) -> Result<Vec<String>, String> {
        let mut child = Command::new("sh")
            .args([self.program.as_str(), "shelf"])
            .stdin(Stdio::piped())
            .stdout(Stdio::piped())
            .spawn()
            .map_err(|e| format!("sh {} shelf: {e}", self.program))?;
        // The program reads all of its input before it writes, so this does not block.
        let written = child.stdin.take().map(|mut input| input.write_all(text(script).as_bytes()));
        let output = child.wait_with_output().map_err(|e| e.to_string())?;
        if !output.status.success() {
            return Err(format!("the program ended with {}", output.status));
        }
        if let Some(Err(e)) = written {
            return Err(format!("the program did not read its input: {e}"));
        }
        let text = String::from_utf8(output.stdout).map_err(|e| e.to_string())?;
        Ok(text.split_terminator('\n').map(String::from).collect())
    }

    /// Runs the script, and gives the first answer that is wrong.
    pub fn check(&self, script: &[String]) -> Option<Failure> {
        assert!(text(script).len() <= MOST_BYTES, "a script longer than shelf reads");
        match self.answers(script) {
            Ok(answers) => compare(script, &answers),
            Err(came) => Some(Failure { line: script.len(), expected: "an answer to each line".to_string(), came }),
        }
    }
}

/// The sums of a buffer so far: equal words have equal sums, and other words another sum.
#[derive(Default)]
struct Sums {
    of: HashMap<Vec<u32>, (String, usize)>,
}

impl Sums {
    /// What a sum should have been, if it is wrong.
    fn wrong(&mut self, line: usize, words: Vec<u32>, came: &str) -> Option<String> {
        if let Some((sum, before)) = self.of.get(&words) {
            let told = format!("{sum}, the sum of line {}", before + 1);
            return if sum == came { None } else { Some(told) };
        }
        if !came.strip_prefix("0 ").map_or(false, |s| s.parse::<u64>().is_ok()) {
            return Some("0 and a sum".to_string());
        }
        if let Some((_, before)) = self.of.values().find(|(sum, _)| sum == came) {
            return Some(format!("another sum than that of line {}, as the words differ", before + 1));
        }
        self.of.insert(words, (came.to_string(), line));
        None
    }
}

/// The first line whose answer is wrong.
fn compare(script: &[String], answers: &[String]) -> Option<Failure> {
    let mut desk = Desk::new();
    let mut sums: HashMap<Kind, Sums> = HashMap::new();
    for (line, command) in script.iter().enumerate() {
        let came = match answers.get(line) {
            Some(answer) => answer.as_str(),
            None => "no line",
        };
        let wrong = match desk.answer(command) {
            Expected::Sum(kind, words) => sums.entry(kind).or_default().wrong(line, words, came),
            Expected::Line(text) if text == came => None,
            Expected::Line(text) => Some(text),
        };
        if let Some(expected) = wrong {
            return Some(Failure { line, expected, came: came.to_string() });
        }
    }
    let line = script.len();
    let came = answers.get(line)?.clone();
    Some(Failure { line, expected: "no more lines".to_string(), came })
}
