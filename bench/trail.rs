//! Which variables are chosen and denied, in the order in which they were, and what each of these follows from.

use crate::literals::Lit;

/// The clause that a literal follows from: one of the formula, which isn't written down, or one of the log.
#[derive(Clone, Copy, PartialEq, Eq)]
pub enum Reason {
    /// None: the variable was chosen freely.
    Choice,
    /// One of the candidates of a want that holds from the start.
    First { want: u32 },
    /// Not the variable, or one of the candidates of a want that it asks for.
    Asked { by: u32, want: u32 },
    /// Not both, since their tiles have a cell in common.
    Apart { one: u32, other: u32 },
    /// The clause of this index in the log.
    Line { index: u32 },
}

/// Since when a variable is chosen or denied.
#[derive(Clone, Copy)]
struct Since {
    reason: Reason,
    /// How many free choices there were.
    depth: u32,
    place: u32,
}

pub struct Trail {
    /// By variable, whether it is chosen, where it isn't open. There is no variable 0, so it counts as denied.
    values: Vec<Option<bool>>,
    since: Vec<Since>,
    /// The true literals.
    made: Vec<Lit>,
    /// By depth from 1, how many were made before its choice.
    starts: Vec<usize>,
    /// How many were propagated.
    propagated: usize,
}

impl Trail {
    pub fn new(vars: u32) -> Trail {
        let count = vars as usize + 1;
        let mut values = vec![None; count];
        values[0] = Some(false);
        let since = vec![Since { reason: Reason::Choice, depth: 0, place: 0 }; count];
        Trail { values, since, made: Vec::with_capacity(count), starts: Vec::new(), propagated: 0 }
    }

    #[inline]
    pub fn value(&self, var: u32) -> Option<bool> {
        self.values[var as usize]
    }

    #[inline]
    pub fn is_denied(&self, var: u32) -> bool {
        self.value(var) == Some(false)
    }

    /// Whether the literal is true, where its variable isn't open.
    #[inline]
    pub fn truth(&self, lit: Lit) -> Option<bool> {
        self.value(lit.var()).map(|value| value == lit.is_positive())
    }

    /// The literal of a variable that is false.
    pub fn false_literal(&self, var: u32) -> Lit {
        if self.is_denied(var) {
            Lit::positive(var)
        } else {
            Lit::negative(var)
        }
    }

    pub fn reason(&self, var: u32) -> Reason {
        self.since[var as usize].reason
    }

    /// The reason of the literal made after so many others.
    pub fn reason_at(&self, place: u32) -> Reason {
        self.reason(self.made[place as usize].var())
    }

    pub fn place(&self, var: u32) -> u32 {
        self.since[var as usize].place
    }

    /// The depth of a variable that isn't open.
    pub fn depth_of(&self, var: u32) -> u32 {
        self.since[var as usize].depth
    }

    pub fn depth(&self) -> u32 {
        self.starts.len() as u32
    }

    pub fn made(&self) -> &[Lit] {
        &self.made
    }

    #[inline]
    pub fn assign(&mut self, lit: Lit, reason: Reason) {
        let var = lit.var() as usize;
        self.values[var] = Some(lit.is_positive());
        self.since[var] = Since { reason, depth: self.depth(), place: self.made.len() as u32 };
        self.made.push(lit);
    }

    pub fn choose(&mut self, var: u32) {
        self.starts.push(self.made.len());
        self.assign(Lit::positive(var), Reason::Choice);
    }

    /// The next literal to be propagated.
    pub fn next(&mut self) -> Option<Lit> {
        let lit = self.made.get(self.propagated).copied();
        self.propagated += usize::from(lit.is_some());
        lit
    }

    /// Makes the last literal of a depth above this one open; whether it was propagated.
    pub fn undo(&mut self, depth: u32) -> Option<(Lit, bool)> {
        let start = *self.starts.get(depth as usize)?;
        if self.made.len() == start {
            self.starts.truncate(depth as usize);
            self.propagated = self.propagated.min(start);
            return None;
        }
        let lit = self.made.pop()?;
        self.values[lit.var() as usize] = None;
        Some((lit, self.made.len() < self.propagated))
    }
}
