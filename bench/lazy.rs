//! A search over a table that writes down no clause but those that it learns. The wants of variables that are open
//! aren't looked at, so a learnt clause may contain that of such a want. Then no line is made: the want's clause
//! denies the variable late, and a copy of it is watched from then on.

use crate::learning::{Learner, Learnt};
use crate::literals::Lit;
use crate::store::{Origin, Store};
use crate::tables::Table;
use crate::trail::{Reason, Trail};
use crate::wants::Wants;
use std::cmp::Reverse;

#[derive(PartialEq, Eq)]
pub enum Found {
    /// The chosen variables, and no others.
    Model,
    Refuted,
    /// As many lines as there are turns.
    Spent,
}

/// What is chosen and denied, and the clauses by which it follows.
pub struct State<'a> {
    pub table: &'a Table,
    pub trail: Trail,
    pub wants: Wants<'a>,
    pub store: Store,
}

impl State<'_> {
    /// The variables of a reason's clause.
    #[inline]
    pub fn members(&self, reason: Reason) -> impl Iterator<Item = u32> + '_ {
        let (vars, candidates, clause): ([u32; 2], &[u32], &[Lit]) = match reason {
            Reason::Choice => ([0, 0], &[], &[]),
            Reason::First { want } => ([0, 0], self.wants.candidates(want), &[]),
            Reason::Asked { by, want } => ([by, 0], self.wants.candidates(want), &[]),
            Reason::Apart { one, other } => ([one, other], &[], &[]),
            Reason::Line { index } => ([0, 0], &[], self.store.clause(index)),
        };
        let vars = vars.into_iter().filter(|var| *var > 0);
        vars.chain(candidates.iter().copied()).chain(clause.iter().map(|lit| lit.var()))
    }

    /// The clause that is false, if there is one.
    fn propagate(&mut self) -> Result<(), Reason> {
        while let Some(lit) = self.trail.next() {
            if lit.is_positive() {
                self.wants.choose(lit.var(), &mut self.trail)?;
            } else {
                self.wants.deny(lit.var(), &mut self.trail)?;
            }
            self.store.visit(!lit, &mut self.trail)?;
        }
        Ok(())
    }

    fn back_to(&mut self, depth: u32) {
        while let Some((lit, was_propagated)) = self.trail.undo(depth) {
            if was_propagated && lit.is_positive() {
                self.wants.release(lit.var());
            }
        }
    }

    fn add(&mut self, clause: &[Lit], origin: Origin, reasons: &[Reason]) -> Reason {
        self.store.add(self.table.vars(), clause, origin, reasons)
    }

    /// Adds a clause whose first literal alone is true or open once the depths above that of its others are undone.
    fn assert(&mut self, mut clause: Vec<Lit>, origin: Origin, reasons: &[Reason]) {
        let depth_at = |at: &usize| self.trail.depth_of(clause[*at].var());
        let latest = (1..clause.len()).max_by_key(|at| (depth_at(at), Reverse(*at)));
        let depth = latest.as_ref().map_or(0, depth_at);
        if let Some(at) = latest {
            clause.swap(1, at);
        }
        self.back_to(depth);
        let line = self.add(&clause, origin, reasons);
        self.trail.assign(clause[0], line);
    }

    /// The greatest open variable of a given clause that is false where open variables are denied.
    fn open_in_given(&self, index: u32) -> Option<u32> {
        let mut open = None;
        for lit in self.store.clause(index) {
            match self.trail.truth(*lit) {
                Some(true) => return None,
                None if !lit.is_positive() => return None,
                None => open = open.max(Some(lit.var())),
                Some(false) => {}
            }
        }
        open
    }

    /// The variable to be chosen next, or None where nothing is wanted any more.
    fn next_choice(&self) -> Option<u32> {
        let open_in_given = || self.store.given().iter().find_map(|index| self.open_in_given(*index));
        self.wants.best(&self.trail).or_else(open_in_given)
    }
}

/// A search with the log of what it learnt and was given.
pub struct Search<'a> {
    state: State<'a>,
    learner: Learner,
    turns: usize,
    is_open: bool,
    /// What the empty clause follows from.
    last: Option<Vec<Reason>>,
}

impl<'a> Search<'a> {
    pub fn new(table: &'a Table, turns: usize) -> Search<'a> {
        let vars = table.vars();
        let (trail, wants, store) = (Trail::new(vars), Wants::new(table), Store::new());
        let state = State { table, trail, wants, store };
        Search { state, learner: Learner::new(vars), turns, is_open: false, last: None }
    }

    /// The clauses and their reasons; and the reasons of the empty clause, where that was reached.
    pub fn into_log(self) -> (Store, Option<Vec<Reason>>) {
        let mut store = self.state.store;
        store.close();
        (store, self.last)
    }

    pub fn is_spent(&self) -> bool {
        self.state.store.lines() >= self.turns
    }

    /// The chosen variables, rising.
    pub fn chosen(&self) -> Vec<u32> {
        let positive = self.state.trail.made().iter().filter(|lit| lit.is_positive());
        let mut chosen: Vec<u32> = positive.map(|lit| lit.var()).collect();
        chosen.sort_unstable();
        chosen
    }

    fn refute(&mut self, conflict: Reason) -> Found {
        self.last = Some(self.learner.reasons(&self.state, &[], conflict));
        Found::Refuted
    }

    fn learn(&mut self, conflict: Reason) {
        let Learnt { clause, reasons } = self.learner.learn(&self.state, conflict);
        match self.learner.want_within(&mut self.state, &clause) {
            None => self.state.assert(clause, Origin::Learnt, &reasons),
            Some(reason) => {
                let others = self.state.members(reason).filter(|var| *var != clause[0].var());
                let copy = [clause[0]].into_iter().chain(others.map(Lit::positive)).collect();
                self.state.assert(copy, Origin::Copy(reason), &[]);
            }
        }
    }

    pub fn next(&mut self) -> Found {
        if self.last.is_some() {
            return Found::Refuted;
        }
        if !self.is_open {
            self.is_open = true;
            if let Err(conflict) = self.state.wants.open(&mut self.state.trail) {
                return self.refute(conflict);
            }
        }
        loop {
            match self.state.propagate() {
                Err(conflict) if self.state.trail.depth() == 0 => return self.refute(conflict),
                Err(_) if self.is_spent() => return Found::Spent,
                Err(conflict) => self.learn(conflict),
                Ok(()) => match self.state.next_choice() {
                    Some(var) => self.state.trail.choose(var),
                    None => return Found::Model,
                },
            }
        }
    }

    /// Adds a clause that is false in the model found last.
    pub fn give(&mut self, mut clause: Vec<Lit>) {
        let trail = &self.state.trail;
        let depth_of = |lit: &Lit| match trail.truth(*lit) {
            None => u32::MAX,
            Some(_) => trail.depth_of(lit.var()),
        };
        clause.sort_by_key(|lit| Reverse(depth_of(lit)));
        let depths = [0, 1].map(|at| clause.get(at).map_or(0, depth_of));
        match depths {
            [0, _] => {
                let line = self.state.add(&clause, Origin::Given, &[]);
                self.refute(line);
            }
            [_, u32::MAX] => {
                self.state.add(&clause, Origin::Given, &[]);
            }
            [first, second] if first > second => self.state.assert(clause, Origin::Given, &[]),
            [first, _] => {
                self.state.back_to(first - 1);
                self.state.add(&clause, Origin::Given, &[]);
            }
        }
    }
}
