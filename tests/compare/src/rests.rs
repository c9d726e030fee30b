//! Distinct rests, straight from docs/SCOPE.md: what a rule or a cost leaves once the features before k are fixed, kept
//! where it depends on feature k. In a table of all settings in dictionary order each remainder is one run of entries.

use crate::kind::Number;
use crate::shape::Shape;
use std::borrow::Cow;
use std::collections::HashSet;

type Rests<'a, N> = HashSet<(usize, Cow<'a, [N]>)>;

/// Whether what is left depends on feature k, the first of its features.
fn depends<N: Number>(shape: &Shape, k: usize, rest: &[N]) -> bool {
    let part = shape.span(k + 1);
    rest.chunks(part).any(|p| p != &rest[..part])
}

/// Adds the rests of a function, each with its k.
fn add<'a, N: Number>(shape: &Shape, function: &'a [N], rests: &mut Rests<'a, N>) {
    for k in 0..shape.features() {
        for rest in function.chunks(shape.span(k)) {
            if depends(shape, k, rest) {
                rests.insert((k, N::rest(rest)));
            }
        }
    }
}

/// The number of distinct rests of all the functions together.
pub fn distinct<N: Number>(shape: &Shape, functions: &[&[N]]) -> usize {
    let mut rests = Rests::new();
    for (i, function) in functions.iter().enumerate() {
        if !functions[..i].contains(function) {
            add(shape, function, &mut rests);
        }
    }
    rests.len()
}

/// How many features a function asks at the setting of a rank, straight from document 02: those k such that, with the
/// features below k fixed as in the setting, the rest depends on k.
pub fn asked<N: Number>(shape: &Shape, function: &[N], rank: usize) -> usize {
    let rest = |k: usize| &function[rank - rank % shape.span(k)..][..shape.span(k)];
    (0..shape.features()).filter(|&k| depends(shape, k, rest(k))).count()
}

#[cfg(test)]
mod tests {
    use super::*;

    #[test]
    fn the_rests_of_the_examples() {
        let shape = Shape::of(&[2, 3]).unwrap();
        let a: &[u16] = &[1, 0, 1, 1, 0, 1];
        let b: &[u16] = &[0, 0, 0, 1, 1, 1];
        let c: &[u16] = &[0, 0, 0, 1, 0, 1];
        assert_eq!(distinct(&shape, &[a]), 1);
        assert_eq!(distinct(&shape, &[b]), 1);
        assert_eq!(distinct(&shape, &[c]), 2);
        assert_eq!(distinct(&shape, &[a, b, c]), 3);
        assert_eq!(distinct(&shape, &[a, c]), 2);
        assert_eq!(distinct::<u16>(&shape, &[&[7; 6], &[0; 6]]), 0);
    }

    #[test]
    fn the_rests_of_the_cost_examples() {
        let shape = Shape::of(&[2, 3]).unwrap();
        let p: &[i64] = &[10, 10, 10, 4, 4, 4];
        let q: &[i64] = &[0, 5, -3, 0, 5, -3];
        let sum: &[i64] = &[10, 15, 7, 4, 9, 1];
        assert_eq!(distinct(&shape, &[p]), 1);
        assert_eq!(distinct(&shape, &[q]), 1);
        assert_eq!(distinct(&shape, &[sum]), 2);
        assert_eq!(distinct(&shape, &[p, q, sum]), 3);
        // one less everywhere is the same rest
        assert_eq!(distinct(&shape, &[sum, &[9, 14, 6, 3, 8, 0]]), 2);
        assert_eq!(distinct::<i64>(&shape, &[&[7; 6], &[0; 6]]), 0);
    }

    #[test]
    fn the_features_asked_in_the_examples() {
        let shape = Shape::of(&[2, 3]).unwrap();
        let all = |f: &[i64]| -> Vec<usize> { (0..6).map(|rank| asked(&shape, f, rank)).collect() };
        assert_eq!(all(&[1, 0, 1, 1, 0, 1]), [1; 6], "a");
        assert_eq!(all(&[0, 0, 0, 1, 1, 1]), [1; 6], "b");
        assert_eq!(all(&[0, 0, 0, 1, 0, 1]), [1, 1, 1, 2, 2, 2], "c");
        assert_eq!(all(&[10, 15, 7, 4, 9, 1]), [2; 6], "P + Q");
        assert_eq!(all(&[7; 6]), [0; 6]);
        assert_eq!(asked::<u16>(&shape, &[0, 0, 0, 1, 0, 1], 2), 1);
    }

    #[test]
    fn equal_functions_at_two_features_are_two_rests() {
        let shape = Shape::of(&[2, 2]).unwrap();
        assert_eq!(distinct::<u16>(&shape, &[&[0, 0, 1, 1], &[0, 1, 0, 1]]), 2);
        assert_eq!(distinct::<u16>(&shape, &[&[0, 1, 1, 0]]), 3);
        assert_eq!(distinct::<i64>(&shape, &[&[0, 1, 1, 0]]), 3);
        // the halves 0 1 and 5 6 are one rest, so there are two with that of feature 0
        assert_eq!(distinct::<i64>(&shape, &[&[0, 1, 5, 6]]), 2);
    }
}
