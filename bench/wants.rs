//! What follows from the table where a variable is chosen or denied: those that share a cell with a chosen one are
//! denied, and of a want that holds the last candidate that isn't denied is chosen. Two candidates that aren't denied
//! watch each want that holds and isn't served.

use crate::lists::Lists;
use crate::literals::Lit;
use crate::tables::{cell_of_want, want_for, Table};
use crate::trail::{Reason, Trail};

/// The asker of a want that holds from the start.
const START: u32 = u32::MAX;

#[derive(Clone, Copy, Default)]
struct Want {
    /// The chosen variable that asked for it first, START, or 0 where it doesn't hold.
    asker: u32,
    /// Two candidates that watch it, or 0. They stay where it holds no more.
    one: u32,
    other: u32,
}

/// The wants for cells have the numbers of the table. Behind them come those for a supporter of a variable, which are
/// listed where they are asked for first.
pub struct Wants<'a> {
    table: &'a Table,
    wants: Vec<Want>,
    supporters: Lists<u32>,
    /// By variable, the want for a supporter of it, or 0.
    support: Vec<usize>,
    /// By cell, the chosen variable whose tile has it, or 0.
    chosen_at: Vec<u32>,
    /// The wants that hold, in the order in which they were asked for: those for cells, and those for supporters.
    for_cells: Vec<u32>,
    for_supporters: Vec<u32>,
    /// By variable the wants that it watches, and some that it watched.
    watched: Vec<Vec<u32>>,
}

impl<'a> Wants<'a> {
    pub fn new(table: &'a Table) -> Wants<'a> {
        let vars = table.vars() as usize + 1;
        Wants {
            table,
            wants: vec![Want::default(); table.cell_wants()],
            supporters: Lists::new(),
            support: vec![0; vars],
            chosen_at: vec![0; table.cell_count()],
            for_cells: Vec::new(),
            for_supporters: Vec::new(),
            watched: vec![Vec::new(); vars],
        }
    }

    #[inline]
    pub fn candidates(&self, want: u32) -> &[u32] {
        let want = want as usize;
        match want.checked_sub(self.table.cell_wants()) {
            None => self.table.candidates(want),
            Some(at) => self.supporters.get(at),
        }
    }

    fn reason(&self, want: u32) -> Reason {
        match self.wants[want as usize].asker {
            START => Reason::First { want },
            by => Reason::Asked { by, want },
        }
    }

    /// The want of a variable of level 2 or more for a supporter.
    pub fn support(&mut self, var: u32) -> u32 {
        let want = &mut self.support[var as usize];
        if *want == 0 {
            *want = self.wants.len();
            self.wants.push(Want::default());
            self.supporters.push(self.table.supporters(var));
        }
        *want as u32
    }

    /// The wants hold that hold from the start, and each variable is denied that asks for a cell without candidates.
    pub fn open(&mut self, trail: &mut Trail) -> Result<(), Reason> {
        for c in &self.table.first {
            let want = want_for(*c as usize, 1);
            self.wants[want].asker = START;
            self.for_cells.push(want as u32);
            self.begin(want as u32, trail)?;
        }
        let asking = self.table.ends[self.table.level() - 1];
        for by in 1..=asking {
            let Some(want) = self.table.asked(by).find(|want| self.table.candidates(*want).is_empty()) else {
                continue;
            };
            let reason = Reason::Asked { by, want: want as u32 };
            match trail.value(by) {
                None => trail.assign(Lit::negative(by), reason),
                Some(true) => return Err(reason),
                Some(false) => {}
            }
        }
        Ok(())
    }

    /// The want holds now.
    fn begin(&mut self, want: u32, trail: &mut Trail) -> Result<(), Reason> {
        let Want { one, other, .. } = self.wants[want as usize];
        if !trail.is_denied(one) && !trail.is_denied(other) {
            return Ok(());
        }
        let mut left = self.candidates(want).iter().rev().copied().filter(|var| !trail.is_denied(*var));
        let Some(first) = left.next() else {
            return Err(self.reason(want));
        };
        let second = left.next();
        let beside = second.unwrap_or(if one == first { other } else { one });
        for var in [first, beside] {
            if var != one && var != other {
                self.watched[var as usize].push(want);
            }
        }
        let state = &mut self.wants[want as usize];
        (state.one, state.other) = (first, beside);
        if second.is_none() && trail.value(first).is_none() {
            trail.assign(Lit::positive(first), self.reason(want));
        }
        Ok(())
    }

    /// What follows where the variable is chosen now.
    pub fn choose(&mut self, var: u32, trail: &mut Trail) -> Result<(), Reason> {
        let table = self.table;
        table.cells(var).for_each(|c| self.chosen_at[c] = var);
        let known = self.for_cells.len();
        for want in table.asked(var) {
            let asker = &mut self.wants[want].asker;
            if *asker == 0 {
                *asker = var;
                self.for_cells.push(want as u32);
            }
        }
        for other in table.cells(var).flat_map(|c| table.holders(c)).copied() {
            let reason = Reason::Apart { one: var, other };
            match trail.value(other) {
                None => trail.assign(Lit::negative(other), reason),
                Some(true) if other != var => return Err(reason),
                _ => {}
            }
        }
        for at in known..self.for_cells.len() {
            self.begin(self.for_cells[at], trail)?;
        }
        if table.level_of(var) > 1 {
            let want = self.support(var);
            self.wants[want as usize].asker = var;
            self.for_supporters.push(want);
            self.begin(want, trail)?;
        }
        Ok(())
    }

    /// What follows where the variable is denied now.
    pub fn deny(&mut self, var: u32, trail: &mut Trail) -> Result<(), Reason> {
        if self.watched[var as usize].is_empty() {
            return Ok(());
        }
        let mut list = std::mem::take(&mut self.watched[var as usize]);
        let mut answer = Ok(());
        list.retain(|want| answer.is_err() || self.stays(*want, var, trail, &mut answer));
        self.watched[var as usize] = list;
        answer
    }

    /// Whether the denied variable goes on watching.
    fn stays(&mut self, want: u32, var: u32, trail: &mut Trail, answer: &mut Result<(), Reason>) -> bool {
        let Want { asker, one, other } = self.wants[want as usize];
        let beside = match var {
            _ if one == var => other,
            _ if other == var => one,
            _ => return false,
        };
        if asker == 0 || trail.value(beside) == Some(true) || self.is_covered(want) {
            return true;
        }
        let is_left = |candidate: &&u32| **candidate != beside && !trail.is_denied(**candidate);
        if let Some(third) = self.candidates(want).iter().rev().find(is_left).copied() {
            let state = &mut self.wants[want as usize];
            (state.one, state.other) = (third, beside);
            self.watched[third as usize].push(want);
            return false;
        }
        let reason = self.reason(want);
        match trail.value(beside) {
            None => trail.assign(Lit::positive(beside), reason),
            _ => *answer = Err(reason),
        }
        true
    }

    /// Whether a want is for a cell that a chosen variable up to its level has.
    fn is_covered(&self, want: u32) -> bool {
        let (c, level) = cell_of_want(want as usize);
        let chosen = self.chosen_at.get(c).copied().unwrap_or(0);
        chosen != 0 && self.table.level_of(chosen) <= level
    }

    /// The variable is chosen no more; what it asked for came last.
    pub fn release(&mut self, var: u32) {
        self.table.cells(var).for_each(|c| self.chosen_at[c] = 0);
        for list in [&mut self.for_cells, &mut self.for_supporters] {
            while let Some(want) = list.pop_if(|want| self.wants[*want as usize].asker == var) {
                self.wants[want as usize].asker = 0;
            }
        }
    }

    /// The last open candidate of the first want with the fewest, of those that aren't served; wants for cells come
    /// first.
    pub fn best(&self, trail: &Trail) -> Option<u32> {
        let mut fewest = usize::MAX;
        let mut best = None;
        for want in &self.for_cells {
            if self.chosen_at[cell_of_want(*want as usize).0] != 0 {
                continue;
            }
            let open = self.candidates(*want).iter().filter(|var| trail.value(**var).is_none());
            let count = open.take(fewest).count();
            if count < fewest {
                (fewest, best) = (count, Some(*want));
            }
        }
        let is_served = |want: &u32| self.candidates(*want).iter().any(|var| trail.value(*var) == Some(true));
        let want = best.or_else(|| self.for_supporters.iter().copied().find(|want| !is_served(want)))?;
        self.candidates(want).iter().rev().copied().find(|var| trail.value(*var).is_none())
    }
}
