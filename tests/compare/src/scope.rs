//! What of `shelf` is compared: all, or without commands that it may not have yet.

use crate::style::{Style, BOTH_COMMANDS, COST_COMMANDS};

#[derive(Clone, Copy, PartialEq, PartialOrd)]
pub enum Scope {
    /// Rule tables alone.
    Rules,
    /// Rule tables and cost tables, but no call that is lent both.
    Apart,
    All,
}

impl Scope {
    /// The scope of this name.
    pub fn named(name: &str) -> Option<Scope> {
        match name {
            "rules" => Some(Scope::Rules),
            "apart" => Some(Scope::Apart),
            "all" => Some(Scope::All),
            _ => None,
        }
    }

    /// The scope of one script: of each sixteen seeds in a row eight are on rules alone.
    pub fn of(self, seed: u64) -> Scope {
        if seed / 8 % 2 == 0 {
            Scope::Rules
        } else {
            self
        }
    }

    /// How often the commands on costs come.
    pub fn weights(self, style: Style) -> Vec<usize> {
        let mut weights = style.weights(&COST_COMMANDS);
        for (weight, (name, _)) in weights.iter_mut().zip(COST_COMMANDS) {
            if self == Scope::Apart && BOTH_COMMANDS.contains(&name) {
                *weight = 0;
            }
        }
        weights
    }
}
