//! Literals of propositional variables.

use std::fmt;
use std::ops::Not;

/// Twice the variable, and one more where negative.
#[derive(Clone, Copy, PartialEq, Eq, PartialOrd, Ord)]
pub struct Lit(u32);

impl Lit {
    pub fn positive(var: u32) -> Lit {
        Lit(2 * var)
    }

    pub fn negative(var: u32) -> Lit {
        Lit(2 * var + 1)
    }

    pub fn var(self) -> u32 {
        self.0 / 2
    }

    pub fn is_positive(self) -> bool {
        self.0 % 2 == 0
    }

    /// The literal's place in an array of all.
    pub fn index(self) -> usize {
        self.0 as usize
    }
}

impl Not for Lit {
    type Output = Lit;

    fn not(self) -> Lit {
        Lit(self.0 ^ 1)
    }
}

impl fmt::Display for Lit {
    fn fmt(&self, f: &mut fmt::Formatter) -> fmt::Result {
        write!(f, "{}{}", if self.is_positive() { "" } else { "-" }, self.var())
    }
}
