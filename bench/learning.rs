//! What is learnt from a conflict: a clause by the first unique implication point, without the literals that follow
//! from its others, and the reasons that show it.

use crate::lazy::State;
use crate::literals::Lit;
use crate::trail::Reason;

#[derive(Clone, Copy, PartialEq, Eq)]
enum Mark {
    None,
    /// In the clause.
    Kept,
    /// It follows from those in the clause.
    Follows,
    /// It doesn't, as far as is known.
    Free,
}

pub struct Learner {
    marks: Vec<Mark>,
    marked: Vec<u32>,
    /// By depth, whether the clause has a literal of it.
    has_depth: Vec<bool>,
}

/// A clause, the literal that it asserts first, and its reasons, the false one last.
pub struct Learnt {
    pub clause: Vec<Lit>,
    pub reasons: Vec<Reason>,
}

impl Learner {
    pub fn new(vars: u32) -> Learner {
        Learner { marks: vec![Mark::None; vars as usize + 1], marked: Vec::new(), has_depth: Vec::new() }
    }

    fn mark(&mut self, var: u32, mark: Mark) {
        if self.marks[var as usize] == Mark::None {
            self.marked.push(var);
        }
        self.marks[var as usize] = mark;
    }

    fn clear(&mut self) {
        self.marked.drain(..).for_each(|var| self.marks[var as usize] = Mark::None);
    }

    pub fn learn(&mut self, state: &State, conflict: Reason) -> Learnt {
        let mut clause = self.resolve(state, conflict);
        self.shorten(state, &mut clause);
        self.clear();
        let reasons = self.reasons(state, &clause, conflict);
        Learnt { clause, reasons }
    }

    /// The clause with one literal of the present depth, which comes first.
    fn resolve(&mut self, state: &State, conflict: Reason) -> Vec<Lit> {
        let trail = &state.trail;
        let mut earlier = trail.made().iter().rev();
        let mut clause = vec![trail.false_literal(0)];
        let (mut reason, mut left) = (conflict, 0);
        loop {
            for var in state.members(reason) {
                if self.marks[var as usize] != Mark::None || trail.depth_of(var) == 0 {
                    continue;
                }
                self.mark(var, Mark::Kept);
                if trail.depth_of(var) == trail.depth() {
                    left += 1;
                } else {
                    clause.push(trail.false_literal(var));
                }
            }
            let lit = earlier.find(|lit| self.marks[lit.var() as usize] == Mark::Kept).expect("a marked literal");
            left -= 1;
            if left == 0 {
                clause[0] = !*lit;
                return clause;
            }
            self.mark(lit.var(), Mark::Follows);
            reason = trail.reason(lit.var());
        }
    }

    /// Drops the literals that follow from the others.
    fn shorten(&mut self, state: &State, clause: &mut Vec<Lit>) {
        let trail = &state.trail;
        self.has_depth.clear();
        self.has_depth.resize(trail.depth() as usize + 1, false);
        clause.iter().for_each(|lit| self.has_depth[trail.depth_of(lit.var()) as usize] = true);
        let asserted = clause[0];
        clause.retain(|lit| *lit == asserted || !self.is_implied(state, lit.var()));
    }

    /// Whether the other literals of the variable's reason follow.
    fn is_implied(&mut self, state: &State, var: u32) -> bool {
        let reason = state.trail.reason(var);
        reason != Reason::Choice && state.members(reason).all(|other| other == var || self.follows(state, other))
    }

    fn follows(&mut self, state: &State, var: u32) -> bool {
        let depth = state.trail.depth_of(var) as usize;
        match self.marks[var as usize] {
            Mark::Kept | Mark::Follows => true,
            Mark::Free => false,
            Mark::None if depth == 0 => true,
            Mark::None => {
                let follows = self.has_depth[depth] && self.is_implied(state, var);
                self.mark(var, if follows { Mark::Follows } else { Mark::Free });
                follows
            }
        }
    }

    /// The reasons by which the conflict follows where the clause is false.
    pub fn reasons(&mut self, state: &State, clause: &[Lit], conflict: Reason) -> Vec<Reason> {
        clause.iter().for_each(|lit| self.mark(lit.var(), Mark::Kept));
        let mut places: Vec<u32> = Vec::new();
        let (mut reason, mut looked) = (conflict, 0);
        loop {
            for var in state.members(reason) {
                if self.marks[var as usize] == Mark::None {
                    self.mark(var, Mark::Follows);
                    places.push(state.trail.place(var));
                }
            }
            let Some(place) = places.get(looked) else {
                break;
            };
            reason = state.trail.reason_at(*place);
            looked += 1;
        }
        self.clear();
        places.sort_unstable();
        let reasons = places.iter().map(|place| state.trail.reason_at(*place)).chain([conflict]);
        reasons.map(|reason| state.store.named(reason)).collect()
    }

    /// The clause of a want that lies within this one, where the variable of its first literal asks for that.
    pub fn want_within(&mut self, state: &mut State, clause: &[Lit]) -> Option<Reason> {
        let by = clause[0].var();
        if clause[0].is_positive() {
            return None;
        }
        let positive = clause.iter().filter(|lit| lit.is_positive());
        positive.for_each(|lit| self.mark(lit.var(), Mark::Kept));
        let is_kept = |var: u32| self.marks[var as usize] == Mark::Kept;
        let table = state.table;
        let is_within = |want: &usize| table.candidates(*want).iter().all(|var| is_kept(*var));
        let mut want = table.asked(by).find(is_within).map(|want| want as u32);
        if want.is_none() && table.level_of(by) > 1 && table.supporters(by).all(is_kept) {
            want = Some(state.wants.support(by));
        }
        self.clear();
        want.map(|want| Reason::Asked { by, want })
    }
}
