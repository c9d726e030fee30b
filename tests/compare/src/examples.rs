//! Examples with answers worked out by hand: the scope's of rules, of costs, of both; forgetting; the laws of cost arithmetic.

use crate::desk::{Desk, Expected};
use crate::scope::Scope;

const TEXTS: [(Scope, &str); 5] = [
    (Scope::Rules, include_str!("../examples.txt")),
    (Scope::Rules, include_str!("../forget_examples.txt")),
    (Scope::Apart, include_str!("../cost_examples.txt")),
    (Scope::Apart, include_str!("../arithmetic_examples.txt")),
    (Scope::All, include_str!("../both_examples.txt")),
];

/// The commands and their answers; lines that begin with # are comments.
pub fn lines(scope: Scope) -> Vec<(String, String)> {
    let texts = TEXTS.iter().filter(|(of, _)| *of <= scope);
    let lines = texts.flat_map(|(_, text)| text.lines()).filter(|l| !l.is_empty() && !l.starts_with('#'));
    let pair = |l: &str| l.split_once(" => ").map(|(c, a)| (c.to_string(), a.to_string()));
    lines.map(|l| pair(l).unwrap_or_else(|| panic!("an example has no answer: {l}"))).collect()
}

/// The first example that the model answers otherwise.
pub fn foretold_otherwise(scope: Scope) -> Option<String> {
    let mut desk = Desk::new();
    for (i, (command, answer)) in lines(scope).iter().enumerate() {
        match desk.answer(command) {
            Expected::Line(text) if text == *answer => {}
            other => return Some(format!("example {}: {command}: by hand {answer}, foretold {other:?}", i + 1)),
        }
    }
    None
}

#[cfg(test)]
mod tests {
    use super::*;

    #[test]
    fn the_model_answers_as_by_hand() {
        for scope in [Scope::Rules, Scope::Apart, Scope::All] {
            assert_eq!(foretold_otherwise(scope), None);
        }
    }
}
