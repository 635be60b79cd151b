//! The clauses that a search learnt or was given, each watched by its first two literals.

use crate::lists::Lists;
use crate::literals::Lit;
use crate::trail::{Reason, Trail};

/// Where a clause is from.
#[derive(Clone, Copy, PartialEq, Eq)]
pub enum Origin {
    /// It follows from its reasons.
    Learnt,
    Given,
    /// It is a clause of the formula.
    Copy(Reason),
}

/// A clause that is watched, and another literal of it.
#[derive(Clone, Copy)]
struct Watch {
    index: u32,
    other: Lit,
}

pub struct Store {
    clauses: Lists<Lit>,
    origins: Vec<Origin>,
    /// By clause, what it follows from: reasons in the order of their use, the false one last.
    reasons: Lists<Reason>,
    copies: usize,
    given: Vec<u32>,
    /// By literal; empty where there is no clause.
    watches: Vec<Vec<Watch>>,
}

impl Store {
    pub fn new() -> Store {
        Store {
            clauses: Lists::new(),
            origins: Vec::new(),
            reasons: Lists::new(),
            copies: 0,
            given: Vec::new(),
            watches: Vec::new(),
        }
    }

    pub fn count(&self) -> usize {
        self.clauses.len()
    }

    /// How many were learnt or given.
    pub fn lines(&self) -> usize {
        self.count() - self.copies
    }

    pub fn clause(&self, index: u32) -> &[Lit] {
        self.clauses.get(index as usize)
    }

    pub fn origin(&self, index: u32) -> Origin {
        self.origins[index as usize]
    }

    pub fn reasons(&self, index: u32) -> &[Reason] {
        self.reasons.get(index as usize)
    }

    pub fn given(&self) -> &[u32] {
        &self.given
    }

    /// The reason in the place of a copied clause.
    pub fn named(&self, reason: Reason) -> Reason {
        match reason {
            Reason::Line { index } => match self.origin(index) {
                Origin::Copy(reason) => reason,
                _ => Reason::Line { index },
            },
            reason => reason,
        }
    }

    /// Forgets what watches the clauses.
    pub fn close(&mut self) {
        self.watches = Vec::new();
    }

    /// Adds a clause over so many variables.
    pub fn add(&mut self, vars: u32, clause: &[Lit], origin: Origin, reasons: &[Reason]) -> Reason {
        let index = self.count() as u32;
        self.clauses.push(clause.iter().copied());
        self.reasons.push(reasons.iter().copied());
        self.origins.push(origin);
        match origin {
            Origin::Learnt => {}
            Origin::Given => self.given.push(index),
            Origin::Copy(_) => self.copies += 1,
        }
        if let [first, second, ..] = *clause {
            self.watches.resize(2 * vars as usize + 2, Vec::new());
            self.watches[first.index()].push(Watch { index, other: second });
            self.watches[second.index()].push(Watch { index, other: first });
        }
        Reason::Line { index }
    }

    /// What follows where the literal is false now, or the false clause.
    pub fn visit(&mut self, lit: Lit, trail: &mut Trail) -> Result<(), Reason> {
        let Some(list) = self.watches.get_mut(lit.index()).filter(|list| !list.is_empty()) else {
            return Ok(());
        };
        let mut list = std::mem::take(list);
        let mut answer = Ok(());
        list.retain_mut(|watch| answer.is_err() || self.stays(watch, lit, trail, &mut answer));
        self.watches[lit.index()] = list;
        answer
    }

    /// Whether the false literal goes on watching.
    fn stays(&mut self, watch: &mut Watch, lit: Lit, trail: &mut Trail, answer: &mut Result<(), Reason>) -> bool {
        if trail.truth(watch.other) == Some(true) {
            return true;
        }
        let clause = self.clauses.get_mut(watch.index as usize);
        if clause[0] == lit {
            clause.swap(0, 1);
        }
        let first = clause[0];
        if first != watch.other && trail.truth(first) == Some(true) {
            watch.other = first;
            return true;
        }
        let third = clause[2..].iter().position(|third| trail.truth(*third) != Some(false));
        if let Some(at) = third {
            clause.swap(1, at + 2);
            self.watches[clause[1].index()].push(Watch { index: watch.index, other: first });
            return false;
        }
        watch.other = first;
        let reason = Reason::Line { index: watch.index };
        match trail.truth(first) {
            None => trail.assign(first, reason),
            _ => *answer = Err(reason),
        }
        true
    }
}
