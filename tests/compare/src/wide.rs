//! Costs over sixteen features, whose 65,536 settings take the model some time: a few calls of each kind.

use crate::scope::Scope;

/// A price list on every feature, added one after the other, then each kind of call on the sum.
fn lines(scope: Scope) -> Vec<String> {
    let list = " 2".repeat(16);
    let mut lines = vec![format!("copen 256{list}"), format!("open 40{list}"), "scratch 16384 7".to_string()];
    for k in 0..16 {
        lines.push(format!("price 0 {k} {} {}", k % 3, 32768 >> k));
        lines.push("add 1 1 0".to_string());
    }
    for k in [3, 8, 15] {
        lines.push(format!("price 0 {k} 40000 0"));
        lines.push("scratch 0 0".to_string());
        lines.push("smaller 2 1 0".to_string());
        lines.push("larger 3 2 0".to_string());
        lines.push("ctally".to_string());
    }
    lines.extend(["subtract 4 1 2", "scale 5 1 15000", "scale 5 1 -16000", "add 6 4 3"].map(String::from));
    if scope == Scope::All {
        lines.extend(["literal 0 15 2", "literal 1 0 1", "apply 2 2 0 1"].map(String::from));
        lines.extend(["choose 7 2 1 3", "less 3 1 0", "lowest 1 2", "lowest 7 3", "lowest 2 31"].map(String::from));
    }
    // to both sides of 0: with its opposite the highest of both together leave the range, and the sum is 0 everywhere
    lines.extend(["cconstant 8 32775", "subtract 8 1 8", "scale 8 8 30000", "scale 9 8 -1"].map(String::from));
    lines.extend(["add 10 8 9", "csame 10 15", "subtract 10 8 8", "subtract 10 8 9"].map(String::from));
    for p in 1..8 {
        lines.push(format!("clook {p} 1 0 1 1 0 0 1 0 1 1 1 0 1 0 0 1"));
    }
    lines.extend(["ctally", "tally", "csum", "cword 8192", "cword 8206", "cword 8207", "cword 8360"].map(String::from));
    lines
}

pub fn scripts(scope: Scope) -> Vec<Vec<String>> {
    if scope == Scope::Rules {
        return Vec::new();
    }
    vec![lines(scope)]
}
