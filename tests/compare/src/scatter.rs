//! Rules and costs with any numbers over a few features each: richer than a few calls make them.

use crate::kind::{Number, MOST_COST};
use crate::model::Table;
use crate::rng::Rng;
use crate::shape::Shape;

/// The most that the sizes of the features of a function come to together.
const MOST: usize = 60;
/// The most nodes of a table, so that the lines that poke it leave room in a script.
const NODES: usize = 60;

/// Some features, in order.
fn features(rng: &mut Rng, shape: &Shape) -> Vec<usize> {
    let mut settings = 1;
    let mut chosen = Vec::new();
    for k in 0..shape.features() {
        if settings * shape.sizes[k] <= MOST && rng.once_in(2) {
            settings *= shape.sizes[k];
            chosen.push(k);
        }
    }
    chosen
}

/// Any numbers, few or many, near each other or far apart.
fn numbers<N: Number>(rng: &mut Rng, count: usize) -> Vec<N> {
    let unlike = rng.pick(&[2, 2, 3, 5, 9]);
    let step = rng.pick(&[1, 1, 1, 7, 1000, MOST_COST / unlike as i64]);
    let from = rng.pick(&[0, 0, 1, -MOST_COST]);
    let number = |i: usize| N::of(from + step * i as i64).or_else(|| N::of(i as i64));
    (0..count).filter_map(|_| number(rng.below(unlike))).collect()
}

fn function<N: Number>(rng: &mut Rng, shape: &Shape) -> Vec<N> {
    let chosen = features(rng, shape);
    let few = Shape { sizes: chosen.iter().map(|&k| shape.sizes[k]).collect() };
    let numbers = numbers(rng, few.settings());
    let rank = |i: usize| chosen.iter().fold(0, |rank, &k| rank * shape.sizes[k] + shape.value(i, k));
    (0..shape.settings()).map(|i| numbers[rank(i)]).collect()
}

/// A table with such functions in its places, as many as fit.
pub fn table<N: Number>(rng: &mut Rng, shape: &Shape, capacity: usize) -> Table<N> {
    let mut table = Table::fresh(shape.clone(), capacity.min(NODES));
    for p in 0..N::KIND.places() {
        let result = function(rng, shape);
        // without room the place stays as it was
        let _ = table.put(p, result);
    }
    Table { capacity, ..table }
}

#[cfg(test)]
mod tests {
    use super::*;

    #[test]
    fn tables_are_rich() {
        let shape = Shape::of(&[2, 3, 2, 4, 2, 2]).unwrap();
        let mut rng = Rng::new(1);
        let rules: Vec<usize> = (0..20).map(|_| table::<u16>(&mut rng, &shape, 256).tally()).collect();
        let costs: Vec<usize> = (0..20).map(|_| table::<i64>(&mut rng, &shape, 256).tally()).collect();
        assert!(rules.iter().chain(&costs).all(|n| (30..=NODES).contains(n)), "{rules:?} {costs:?}");
    }
}
