//! The styles of random scripts: which commands come how often, over which lists and capacities.

use crate::rng::Rng;
use crate::shape::Shape;

/// A command, and how often it comes: in a mixed script, where places are filled and replaced, and where rules grow.
type Often = (&'static str, [usize; 3]);

pub const RULE_COMMANDS: [Often; 23] = [
    ("constant", [8, 14, 2]),
    ("copy", [5, 4, 2]),
    ("literal", [18, 30, 10]),
    ("case", [18, 16, 32]),
    ("apply", [20, 26, 28]),
    ("restrict", [7, 5, 9]),
    ("forget", [6, 4, 8]),
    ("look", [7, 3, 5]),
    ("same", [4, 1, 2]),
    ("count", [4, 1, 3]),
    ("next", [6, 1, 4]),
    ("tally", [4, 6, 4]),
    ("step", [3, 0, 0]),
    ("scratch", [3, 3, 3]),
    ("lend", [1, 0, 0]),
    ("word", [3, 2, 2]),
    ("poke", [2, 0, 0]),
    ("sum", [2, 3, 3]),
    ("junk", [2, 0, 0]),
    ("open", [1, 0, 0]),
    ("write", [5, 2, 3]),
    ("read", [8, 10, 4]),
    ("slook", [6, 2, 3]),
];

pub const COST_COMMANDS: [Often; 21] = [
    ("cconstant", [6, 10, 3]),
    ("ccopy", [4, 3, 2]),
    ("price", [16, 26, 10]),
    ("add", [16, 18, 16]),
    ("subtract", [10, 8, 10]),
    ("smaller", [9, 8, 16]),
    ("larger", [9, 8, 16]),
    ("scale", [9, 8, 6]),
    ("choose", [10, 8, 14]),
    ("less", [8, 4, 6]),
    ("lowest", [8, 3, 6]),
    ("clook", [7, 3, 5]),
    ("csame", [4, 1, 2]),
    ("ctally", [4, 6, 4]),
    ("scratch", [4, 4, 4]),
    ("clend", [1, 0, 0]),
    ("cword", [4, 4, 4]),
    ("cpoke", [2, 0, 0]),
    ("csum", [2, 3, 3]),
    ("cjunk", [2, 0, 0]),
    ("copen", [1, 0, 0]),
];
/// Those that are lent both tables.
pub const BOTH_COMMANDS: [&str; 3] = ["choose", "less", "lowest"];

/// How seldom a list of a script of rules has 16 features: their 65,536 settings take the model some seconds.
const ONCE_IN: usize = 300;

/// A feature list of at most so many features and settings.
fn shape(rng: &mut Rng, features: usize, settings: usize, most: usize) -> Shape {
    let mut sizes = vec![rng.within(2, most)];
    while sizes.len() < features {
        let size = rng.within(2, most);
        if sizes.iter().product::<usize>() * size > settings {
            break;
        }
        sizes.push(size);
    }
    Shape { sizes }
}

/// Mixed scripts; those that fill and replace places; those whose rules grow, simple ones being written over first.
#[derive(Clone, Copy, PartialEq)]
pub enum Style {
    Mixed,
    Filling,
    Growing,
}

impl Style {
    /// Of each eight seeds in a row one fills, three grow.
    pub fn of(seed: u64) -> Style {
        match seed % 8 {
            0 => Style::Filling,
            1..=3 => Style::Growing,
            _ => Style::Mixed,
        }
    }

    pub fn weights(self, commands: &[Often]) -> Vec<usize> {
        commands.iter().map(|(_, often)| often[self as usize]).collect()
    }

    pub fn capacities(self) -> &'static [usize] {
        match self {
            Style::Mixed => &[1, 2, 3, 4, 6, 8, 12, 20, 40, 100, 256],
            Style::Filling => &[1, 3, 3, 256],
            Style::Growing => &[3, 10, 30, 60, 100, 200, 256],
        }
    }

    /// A feature list: one or two features, a few, some thousand settings, or many features of two or three values.
    pub fn shape(self, rng: &mut Rng, costs: bool) -> Shape {
        if costs {
            return self.small_shape(rng);
        }
        if rng.once_in(ONCE_IN) {
            return Shape { sizes: vec![2; 16] };
        }
        let often = if self == Style::Growing { [1, 4, 12, 6, 6] } else { [20, 40, 24, 10, 10] };
        match rng.weighted(&often) {
            0 => shape(rng, 2, 64, 8),
            1 => shape(rng, 4, 100, 5),
            2 => shape(rng, 6, 700, 8),
            3 => shape(rng, 8, 5000, 8),
            _ => shape(rng, 12, 4096, 3),
        }
    }

    /// The same with fewer settings where costs are worked on too.
    fn small_shape(self, rng: &mut Rng) -> Shape {
        let often = if self == Style::Growing { [1, 4, 12, 8] } else { [20, 40, 24, 6] };
        match rng.weighted(&often) {
            0 => shape(rng, 2, 64, 8),
            1 => shape(rng, 4, 100, 5),
            2 => shape(rng, 6, 700, 8),
            _ => shape(rng, 11, 2048, 3),
        }
    }
}
