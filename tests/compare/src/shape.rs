//! A feature list, its settings in dictionary order, and their ranks.

#[derive(Clone, PartialEq, Eq, Debug)]
pub struct Shape {
    pub sizes: Vec<usize>,
}

impl Shape {
    /// The feature list of these numbers, if they are one: 1 to 16 sizes, each from 2 to 8.
    pub fn of(sizes: &[i64]) -> Option<Shape> {
        if sizes.is_empty() || sizes.len() > 16 || sizes.iter().any(|s| !(2..=8).contains(s)) {
            return None;
        }
        Some(Shape { sizes: sizes.iter().map(|&s| s as usize).collect() })
    }

    pub fn features(&self) -> usize {
        self.sizes.len()
    }

    /// How many ways there are to give values to the features k and up.
    pub fn span(&self, k: usize) -> usize {
        self.sizes[k..].iter().product()
    }

    /// How many settings there are.
    pub fn settings(&self) -> usize {
        self.span(0)
    }

    /// The rank of the setting of these values, if they are one.
    pub fn rank(&self, values: &[i64]) -> Option<usize> {
        if values.len() != self.features() {
            return None;
        }
        let mut rank = 0;
        for (&v, &size) in values.iter().zip(&self.sizes) {
            if v < 0 || v >= size as i64 {
                return None;
            }
            rank = rank * size + v as usize;
        }
        Some(rank)
    }

    /// The value of feature k in the setting of a rank.
    pub fn value(&self, rank: usize, k: usize) -> usize {
        rank / self.span(k + 1) % self.sizes[k]
    }

    /// The rank of the same setting with feature k at v.
    pub fn with(&self, rank: usize, k: usize, v: usize) -> usize {
        rank - self.value(rank, k) * self.span(k + 1) + v * self.span(k + 1)
    }

    /// The values of the setting of a rank.
    pub fn setting(&self, rank: usize) -> Vec<usize> {
        (0..self.features()).map(|k| self.value(rank, k)).collect()
    }

    /// The setting after that of the values, or none after the last; nothing if the values are no setting.
    /// It counts by hand, as a list may have too many settings for a rank.
    pub fn after(&self, values: &[i64]) -> Option<Option<Vec<i64>>> {
        if values.len() != self.features() {
            return None;
        }
        if values.iter().zip(&self.sizes).any(|(&v, &s)| v < 0 || v >= s as i64) {
            return None;
        }
        let grows = (0..values.len()).rev().find(|&k| values[k] + 1 < self.sizes[k] as i64);
        Some(grows.map(|g| {
            let mut next = vec![0; values.len()];
            next[..g].copy_from_slice(&values[..g]);
            next[g] = values[g] + 1;
            next
        }))
    }
}

#[cfg(test)]
mod tests {
    use super::*;

    #[test]
    fn ranks_are_in_dictionary_order() {
        let shape = Shape::of(&[2, 3]).unwrap();
        assert_eq!(shape.settings(), 6);
        assert_eq!(shape.rank(&[1, 2]), Some(5));
        assert_eq!(shape.rank(&[1, 3]), None);
        assert_eq!(shape.rank(&[1]), None);
        assert_eq!(shape.setting(4), vec![1, 1]);
        assert_eq!(shape.with(4, 0, 0), 1);
        assert_eq!(shape.with(4, 1, 2), 5);
    }

    #[test]
    fn steps() {
        let shape = Shape::of(&[2, 3]).unwrap();
        assert_eq!(shape.after(&[0, 2]), Some(Some(vec![1, 0])));
        assert_eq!(shape.after(&[1, 2]), Some(None));
        assert_eq!(shape.after(&[2, 0]), None);
    }

    #[test]
    fn lists_outside_the_numbers() {
        assert!(Shape::of(&[]).is_none());
        assert!(Shape::of(&[2, 1]).is_none());
        assert!(Shape::of(&[9]).is_none());
        assert!(Shape::of(&[2; 16]).is_some());
        assert!(Shape::of(&[2; 17]).is_none());
    }
}
