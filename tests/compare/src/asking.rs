//! Look up at every setting, in tables and in sheets: the number, and how many features are asked for it.

use crate::hex;
use crate::kind::Number;
use crate::model::{Costs, Rules, Table};
use crate::parts::Parts;
use crate::rng::Rng;
use crate::scatter;
use crate::scope::Scope;
use crate::shape::Shape;
use crate::sheet;
use crate::side::listed;

const LISTS: [&[usize]; 6] = [&[2], &[8], &[2, 3], &[3, 2, 4], &[2, 2, 3, 2], &[2, 2, 2, 2, 2, 2]];
/// Places whose sheets are looked up in.
const SHEETS: usize = 6;

/// Every setting, after the words of a command.
fn settings(parts: &mut Parts, shape: &Shape, command: &str) {
    for rank in 0..shape.settings() {
        parts.say(listed(command, shape.setting(rank)));
        parts.rest();
    }
}

/// Every place, at every setting.
fn places<N: Number>(table: &Table<N>) -> Vec<Vec<String>> {
    let mut parts = Parts::on(table);
    for p in 0..table.places.len() {
        settings(&mut parts, &table.shape, &format!("{} {p}", N::KIND.command("look")));
    }
    parts.done()
}

/// The sheets of the first places, at every setting.
fn sheets(table: &Rules) -> Vec<Vec<String>> {
    let mut parts = Parts::on(table);
    for rule in &table.places[..SHEETS] {
        let bytes = sheet::written(&table.shape, rule);
        settings(&mut parts, &table.shape, &format!("slook {}", hex::written(&bytes)));
    }
    parts.done()
}

/// The tables of a seed over a list.
fn tables(seed: u64, list: &[usize]) -> (Rules, Costs) {
    let mut rng = Rng::new(seed);
    let shape = Shape { sizes: list.to_vec() };
    (scatter::table(&mut rng, &shape, 256), scatter::table(&mut rng, &shape, 256))
}

pub fn scripts(seed: u64, scope: Scope) -> impl Iterator<Item = Vec<String>> {
    LISTS.into_iter().flat_map(move |list| {
        let (rules, costs) = tables(seed, list);
        let costs = if scope == Scope::Rules { Vec::new() } else { places(&costs) };
        [places(&rules), sheets(&rules), costs].concat()
    })
}

#[cfg(test)]
mod tests {
    use super::*;
    use crate::model::looked;

    /// How often each number of features is asked.
    fn met<N: Number>(table: &Table<N>, met: &mut [usize]) {
        for function in &table.places {
            for rank in 0..function.len() {
                met[looked(&table.shape, function, rank).1] += 1;
            }
        }
    }

    #[test]
    fn every_number_of_features_is_asked() {
        let mut counts = [[0; 7]; 2];
        for seed in 1000..1004 {
            let (rules, costs) = tables(seed, LISTS[5]);
            met(&rules, &mut counts[0]);
            met(&costs, &mut counts[1]);
        }
        assert!(counts.iter().all(|c| c[..6].iter().all(|&n| n > 60)), "{counts:?}");
    }
}
