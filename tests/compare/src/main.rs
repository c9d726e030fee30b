//! Compares the proved program `shelf` with plain tables of all settings, on random scripts and on damaged tables.
//!
//! usage: compare PROGRAM [SEED [SCRIPTS]]
//! PROGRAM is the script tests/lib/program. Script i has the seed SEED + i, so a failing script is run again by its own
//! seed and the number 1. With COMPARE=apart in the environment choose, less and lowest are left out, with COMPARE=rules
//! every command on costs.

mod args;
mod asking;
mod both;
mod buffer_lines;
mod cost_lines;
mod costs;
mod damage;
mod desk;
mod examples;
mod exchange;
mod forge;
mod hex;
mod junk;
mod kind;
mod model;
mod pairs;
mod parts;
mod picture;
mod rests;
mod rng;
mod rule_lines;
mod rules;
mod scatter;
mod scope;
mod script;
mod shape;
mod sheet;
mod shelf;
mod shrink;
mod side;
mod sound;
mod spoil;
mod style;
mod wide;

use scope::Scope;
use shelf::Shelf;
use std::process::ExitCode;

const SEED: u64 = 1000;
/// Random scripts, of which half are on rules alone; scripts of forged tables, of each kind; of sheets.
const SCRIPTS: u64 = 320;
const FORGED: u64 = 15;
const EXCHANGES: u64 = 20;

/// Runs a script; where it fails, prints the shortest script that still does.
fn agrees(shelf: &Shelf, name: &str, script: Vec<String>) -> bool {
    let first = match shelf.check(&script) {
        None => return true,
        Some(failure) => failure,
    };
    println!("{name}: line {} of {}: {}", first.line + 1, script.len(), shown(&script, first.line));
    println!("  expected: {}\n  came:     {}", first.expected, first.came);
    let short = shrink::shortest(script, |s| shelf.check(s).is_some());
    println!("the shortest script that still fails:\n{}", shelf::text(&short));
    if let Some(last) = shelf.check(&short) {
        println!("{name}: line {}: {}", last.line + 1, shown(&short, last.line));
        println!("  expected: {}\n  came:     {}", last.expected, last.came);
    }
    false
}

fn shown(script: &[String], line: usize) -> &str {
    script.get(line).map_or("(the end)", |l| l.as_str())
}

/// The examples, against the answers by hand.
fn examples_agree(shelf: &Shelf, scope: Scope) -> bool {
    if let Some(wrong) = examples::foretold_otherwise(scope) {
        println!("{wrong}");
        return false;
    }
    let commands = examples::lines(scope).into_iter().map(|(command, _)| command).collect();
    agrees(shelf, "examples", commands)
}

/// Runs the scripts in turn up to the first that fails.
fn part(shelf: &Shelf, name: &str, scripts: impl Iterator<Item = (String, Vec<String>)>) -> bool {
    let (mut count, mut lines) = (0, 0);
    for (which, script) in scripts {
        count += 1;
        lines += script.len();
        if !agrees(shelf, &which, script) {
            return false;
        }
    }
    println!("{name}: {count} scripts, {lines} lines, every answer as foretold");
    true
}

fn all_agree(shelf: &Shelf, seed: u64, scripts: u64, scope: Scope) -> bool {
    let random = (seed..seed + scripts).map(|s| (format!("seed {s}"), script::script(s, scope)));
    let forged = forge::scripts(seed, FORGED, scope).into_iter().map(|s| (format!("forged tables of seed {seed}"), s));
    let damage = damage::scripts(scope).into_iter().map(|s| ("damage".to_string(), s));
    let sheets = exchange::scripts(seed, EXCHANGES).map(|s| (format!("sheets of seed {seed}"), s));
    let asking = asking::scripts(seed, scope).map(|s| (format!("every setting of seed {seed}"), s));
    let wide = wide::scripts(scope).into_iter().map(|s| ("sixteen features".to_string(), s));
    examples_agree(shelf, scope)
        && part(shelf, "random calls", random)
        && part(shelf, "every setting", asking)
        && part(shelf, "sixteen features", wide)
        && part(shelf, "sheets", sheets)
        && part(shelf, "forged tables", forged)
        && part(shelf, "damage", damage)
}

fn main() -> ExitCode {
    let mut args = std::env::args().skip(1);
    let program = match args.next() {
        Some(program) => program,
        None => {
            println!("usage: compare PROGRAM [SEED [SCRIPTS]]");
            return ExitCode::from(2);
        }
    };
    let mut number = |default| args.next().map_or(Some(default), |a| a.parse::<u64>().ok());
    let name = std::env::var("COMPARE").unwrap_or_else(|_| "all".to_string());
    let (seed, scripts, scope) = match (number(SEED), number(SCRIPTS), Scope::named(&name)) {
        (Some(seed), Some(scripts), Some(scope)) => (seed, scripts, scope),
        _ => {
            println!("the seed and the number of scripts are numbers, COMPARE is all, apart or rules");
            return ExitCode::from(2);
        }
    };
    println!("seed {seed}, {name}");
    ExitCode::from(u8::from(!all_agree(&Shelf { program }, seed, scripts, scope)))
}
