//! A solver that learns clauses and logs each with its hints: a first unique implication point, shortened by what
//! follows from its other literals; decisions on the most constrained cell; watched literals, with another literal in
//! each entry.

use crate::literals::Lit;
use std::ops::Range;

/// Clauses over the variables 1 to `vars`, one after the other in one array, numbered from 1.
pub struct Formula {
    vars: u32,
    literals: Vec<Lit>,
    ends: Vec<u32>,
}

impl Formula {
    pub fn new(vars: u32) -> Formula {
        Formula { vars, literals: Vec::new(), ends: vec![0] }
    }

    pub fn add(&mut self, clause: impl IntoIterator<Item = Lit>) {
        self.literals.extend(clause);
        self.end();
    }

    /// Adds a literal to the clause that `end` ends.
    pub fn push(&mut self, lit: Lit) {
        self.literals.push(lit);
    }

    pub fn end(&mut self) {
        self.ends.push(self.literals.len() as u32);
    }

    /// How many literals there are in all.
    pub fn size(&self) -> usize {
        self.literals.len()
    }

    pub fn vars(&self) -> u32 {
        self.vars
    }

    /// How many clauses there are.
    pub fn count(&self) -> u32 {
        self.ends.len() as u32 - 1
    }

    fn range(&self, clause: u32) -> Range<usize> {
        self.ends[clause as usize - 1] as usize..self.ends[clause as usize] as usize
    }

    pub fn clause(&self, clause: u32) -> &[Lit] {
        &self.literals[self.range(clause)]
    }
}

/// An entry of the list of a watched literal: its clause, and another literal of it. A clause of two literals is
/// flagged, and then the other literal is all that is left of it.
#[derive(Clone, Copy)]
struct Watch {
    clause: u32,
    other: Lit,
}

const OF_TWO: u32 = 1 << 31;

/// The level of an assignment, and the clause that made it, or 0.
#[derive(Clone, Copy, Default)]
struct Fact {
    level: u32,
    reason: u32,
}

/// The clauses with at most one negative literal: those without one, and by variable those with its negation.
struct Covers {
    free: Vec<u32>,
    guarded: Vec<Vec<u32>>,
}

impl Covers {
    fn of(formula: &Formula) -> Covers {
        let mut covers = Covers { free: Vec::new(), guarded: vec![Vec::new(); formula.vars as usize + 1] };
        for number in 1..=formula.count() {
            let mut negative = formula.clause(number).iter().filter(|lit| !lit.is_positive());
            match (negative.next(), negative.next()) {
                (None, _) => covers.free.push(number),
                (Some(guard), None) => covers.guarded[guard.var() as usize].push(number),
                _ => {}
            }
        }
        covers
    }
}

/// What the analysis of a conflict knows of the variables.
struct Marks {
    seen: Vec<bool>,
    follows: Vec<Option<bool>>,
    touched: Vec<u32>,
    judged: Vec<u32>,
    /// How many of those seen are of the present level and not resolved.
    pending: usize,
}

impl Marks {
    fn clear(&mut self) {
        for var in self.touched.drain(..) {
            self.seen[var as usize] = false;
        }
        for var in self.judged.drain(..) {
            self.follows[var as usize] = None;
        }
        self.pending = 0;
    }
}

#[derive(Clone, Copy, PartialEq, Eq, Debug)]
pub enum Found {
    Model,
    Refuted,
    Spent,
}

/// How many reasons in a row a literal may follow by.
const DEPTH: u32 = 500;

pub struct Solver {
    formula: Formula,
    given: u32,
    covers: Covers,
    turns: usize,
    watches: Vec<Vec<Watch>>,
    /// By literal: 1 where true, -1 where false.
    values: Vec<i8>,
    facts: Vec<Fact>,
    made: Vec<Lit>,
    starts: Vec<usize>,
    head: usize,
    /// So much of the trail has no cover without a true literal, but for what is true beyond it.
    settled: usize,
    marks: Marks,
    /// By line of the log, its hints.
    pub lines: Vec<Vec<u32>>,
    /// The hints of the line that refutes the formula.
    pub last: Option<Vec<u32>>,
}

impl Solver {
    pub fn new(formula: Formula, turns: usize) -> Solver {
        let vars = formula.vars as usize + 1;
        let given = formula.count();
        let mut solver = Solver {
            given,
            covers: Covers::of(&formula),
            turns,
            watches: watch_lists(&formula),
            values: vec![0; 2 * vars],
            facts: vec![Fact::default(); vars],
            made: Vec::with_capacity(vars),
            starts: Vec::new(),
            head: 0,
            settled: usize::MAX,
            marks: Marks {
                seen: vec![false; vars],
                follows: vec![None; vars],
                touched: Vec::new(),
                judged: Vec::new(),
                pending: 0,
            },
            lines: Vec::new(),
            last: None,
            formula,
        };
        solver.last = (1..=given).find(|clause| solver.formula.clause(*clause).is_empty()).map(|clause| vec![clause]);
        for clause in 1..=given {
            if let [lit] = *solver.formula.clause(clause) {
                solver.assert_unit(lit, clause);
            }
        }
        solver
    }

    pub fn is_true(&self, var: u32) -> bool {
        self.values[Lit::positive(var).index()] > 0
    }

    /// Whether the log has as many lines as there are turns.
    pub fn is_spent(&self) -> bool {
        self.lines.len() == self.turns
    }

    /// The clause of a line, from 0, in the order of the variables.
    pub fn line_clause(&self, line: usize) -> Vec<Lit> {
        let mut clause = self.formula.clause(self.given + 1 + line as u32).to_vec();
        clause.sort_unstable();
        clause
    }

    fn value(&self, lit: Lit) -> i8 {
        self.values[lit.index()]
    }

    fn fact(&self, lit: Lit) -> Fact {
        self.facts[lit.var() as usize]
    }

    fn assign(&mut self, lit: Lit, reason: u32) {
        self.values[lit.index()] = 1;
        self.values[(!lit).index()] = -1;
        self.facts[lit.var() as usize] = Fact { level: self.starts.len() as u32, reason };
        self.made.push(lit);
    }

    /// Makes the only literal of a clause true at level 0.
    fn assert_unit(&mut self, lit: Lit, clause: u32) {
        match self.value(lit) {
            0 => self.assign(lit, clause),
            1 => {}
            _ if self.last.is_none() => self.refute(clause),
            _ => {}
        }
    }

    fn back_to(&mut self, level: usize) {
        if level < self.starts.len() {
            let start = self.starts[level];
            for lit in self.made.drain(start..) {
                self.values[lit.index()] = 0;
                self.values[(!lit).index()] = 0;
            }
            self.starts.truncate(level);
            self.head = start;
            if start < self.settled {
                self.settled = usize::MAX;
            }
        }
    }

    /// Goes on to a model, a refutation or the last turn.
    pub fn next(&mut self) -> Found {
        if self.last.is_some() {
            return Found::Refuted;
        }
        loop {
            if let Some(conflict) = self.propagate() {
                if self.starts.is_empty() {
                    self.refute(conflict);
                    return Found::Refuted;
                }
                if self.is_spent() {
                    return Found::Spent;
                }
                self.learn(conflict);
            } else if let Some(lit) = self.choose() {
                self.starts.push(self.made.len());
                self.assign(lit, 0);
            } else {
                return Found::Model;
            }
        }
    }

    /// Makes true what the clauses force; a clause with all literals false, if one comes.
    fn propagate(&mut self) -> Option<u32> {
        while self.head < self.made.len() {
            let lit = !self.made[self.head];
            self.head += 1;
            let mut list = std::mem::take(&mut self.watches[lit.index()]);
            let conflict = self.visit(lit, &mut list);
            self.watches[lit.index()] = list;
            if conflict.is_some() {
                return conflict;
            }
        }
        None
    }

    /// Visits the entries of a literal that became false, and keeps those whose clause still watches it.
    fn visit(&mut self, lit: Lit, list: &mut Vec<Watch>) -> Option<u32> {
        let mut kept = 0;
        let mut conflict = None;
        let mut next = 0;
        while next < list.len() {
            let mut watch = list[next];
            next += 1;
            if self.value(watch.other) <= 0 && watch.clause & OF_TWO == 0 {
                match self.rewatch(lit, watch) {
                    None => continue,
                    Some(first) => watch.other = first,
                }
            }
            list[kept] = watch;
            kept += 1;
            let clause = watch.clause & !OF_TWO;
            match self.value(watch.other) {
                0 => self.assign(watch.other, clause),
                1 => {}
                _ => {
                    conflict = Some(clause);
                    break;
                }
            }
        }
        list.copy_within(next.., kept);
        list.truncate(list.len() - (next - kept));
        conflict
    }

    /// The other watched literal of the clause, where it is true or no third literal can be watched; else one is.
    fn rewatch(&mut self, lit: Lit, watch: Watch) -> Option<Lit> {
        let range = self.formula.range(watch.clause);
        let clause = &mut self.formula.literals[range];
        if clause[0] == lit {
            clause.swap(0, 1);
        }
        let first = clause[0];
        if self.values[first.index()] > 0 {
            return Some(first);
        }
        let values = &self.values;
        let Some(at) = clause[2..].iter().position(|third| values[third.index()] >= 0) else {
            return Some(first);
        };
        clause.swap(1, at + 2);
        self.watches[clause[1].index()].push(Watch { clause: watch.clause, other: first });
        None
    }

    /// The literal to decide: the last open one of the cover with the fewest, made true; else the first open variable,
    /// false.
    fn choose(&mut self) -> Option<Lit> {
        let news = self.made.get(self.settled..);
        if news.is_none_or(|news| news.iter().any(|lit| lit.is_positive())) {
            if let Some(clause) = self.tightest() {
                return self.formula.clause(clause).iter().copied().filter(|lit| self.value(*lit) == 0).max();
            }
            self.settled = self.made.len();
        }
        (1..=self.formula.vars).map(Lit::negative).find(|lit| self.value(*lit) == 0)
    }

    /// The first of the covers without a true literal that has the fewest open ones: of those that are free, and then
    /// of those that true variables guard, in the order of the trail.
    fn tightest(&self) -> Option<u32> {
        let (mut least, mut best) = (u32::MAX, None);
        let chosen = self.made.iter().filter(|lit| lit.is_positive());
        let guarded = chosen.flat_map(|lit| &self.covers.guarded[lit.var() as usize]);
        for clause in self.covers.free.iter().chain(guarded) {
            if let Some(count) = self.open_below(*clause, least) {
                (least, best) = (count, Some(*clause));
                if count <= 2 {
                    break;
                }
            }
        }
        best
    }

    /// How many literals of the clause are open, where none is true and fewer than `most` are open.
    fn open_below(&self, clause: u32, most: u32) -> Option<u32> {
        let mut count = 0;
        for lit in self.formula.clause(clause) {
            match self.value(*lit) {
                0 => count += 1,
                1 => return None,
                _ => continue,
            }
            if count >= most {
                return None;
            }
        }
        Some(count)
    }

    fn see(&mut self, clause: u32) {
        let here = self.starts.len() as u32;
        for at in self.formula.range(clause) {
            let var = self.formula.literals[at].var() as usize;
            if !std::mem::replace(&mut self.marks.seen[var], true) {
                self.marks.touched.push(var as u32);
                self.marks.pending += (self.facts[var].level == here) as usize;
            }
        }
    }

    /// Whether a variable follows from those that are seen and from level 0, by at most `depth` reasons in a row.
    fn follows(&mut self, var: u32, depth: u32) -> bool {
        if let Some(known) = self.marks.follows[var as usize] {
            return known;
        }
        let reason = self.facts[var as usize].reason;
        if depth == 0 || reason == 0 {
            return false;
        }
        let all = self.formula.range(reason).all(|at| {
            let other = self.formula.literals[at].var();
            other == var
                || self.marks.seen[other as usize]
                || self.facts[other as usize].level == 0
                || self.follows(other, depth - 1)
        });
        self.marks.judged.push(var);
        self.marks.follows[var as usize] = Some(all);
        all
    }

    /// Sees the clause that is left after resolving the conflict with reasons, back along the trail, until `stop`
    /// literals of the present level are left, and with the reasons of what follows; the hints, in the order of the
    /// trail.
    fn resolve(&mut self, conflict: u32, stop: usize) -> Vec<u32> {
        let here = self.starts.len() as u32;
        let mut hints = vec![conflict];
        self.see(conflict);
        let mut at = self.made.len();
        while self.marks.pending > stop {
            at -= 1;
            let lit = self.made[at];
            if self.marks.seen[lit.var() as usize] {
                self.resolve_on(lit, &mut hints);
                self.marks.pending -= 1;
            }
        }
        let mut passed = hints.len();
        while at > 0 && passed < self.marks.touched.len() {
            at -= 1;
            let lit = self.made[at];
            if self.marks.seen[lit.var() as usize] && self.fact(lit).level < here {
                passed += 1;
                if self.follows(lit.var(), DEPTH) {
                    self.resolve_on(lit, &mut hints);
                }
            }
        }
        hints.reverse();
        hints
    }

    fn resolve_on(&mut self, lit: Lit, hints: &mut Vec<u32>) {
        let reason = self.fact(lit).reason;
        hints.push(reason);
        self.see(reason);
        self.marks.seen[lit.var() as usize] = false;
    }

    fn refute(&mut self, conflict: u32) {
        let hints = self.resolve(conflict, 0);
        self.marks.clear();
        self.last = Some(hints);
    }

    /// Learns a clause from the conflict, goes back to where it forces a literal, and makes that true.
    fn learn(&mut self, conflict: u32) {
        let hints = self.resolve(conflict, 1);
        let left = self.marks.touched.iter().filter(|var| self.marks.seen[**var as usize]);
        let mut clause: Vec<Lit> =
            left.map(|var| if self.is_true(*var) { Lit::negative(*var) } else { Lit::positive(*var) }).collect();
        self.marks.clear();
        self.lines.push(hints);
        self.latest_first(&mut clause);
        self.back_to(clause.get(1).map_or(0, |lit| self.fact(*lit).level as usize));
        let number = self.add(&clause);
        self.assign(clause[0], number);
    }

    /// Puts a literal of the highest level first, and one of the next behind it.
    fn latest_first(&self, clause: &mut [Lit]) {
        for to in 0..clause.len().min(2) {
            let latest = (to..clause.len()).max_by_key(|at| self.fact(clause[*at]).level).unwrap();
            clause.swap(to, latest);
        }
    }

    /// The clause stands last, and its first two literals are watched; its number.
    fn add(&mut self, clause: &[Lit]) -> u32 {
        self.formula.add(clause.iter().copied());
        let number = self.formula.count();
        watch(&mut self.watches, clause, number);
        number
    }
}

/// Watches the first two literals of a clause.
fn watch(lists: &mut [Vec<Watch>], clause: &[Lit], number: u32) {
    if let [one, two, ..] = *clause {
        let clause = if clause.len() == 2 { number | OF_TWO } else { number };
        lists[one.index()].push(Watch { clause, other: two });
        lists[two.index()].push(Watch { clause, other: one });
    }
}

/// The lists of all literals, each with the room that it takes.
fn watch_lists(formula: &Formula) -> Vec<Vec<Watch>> {
    let mut counts = vec![0; 2 * formula.vars as usize + 2];
    for number in 1..=formula.count() {
        if let [one, two, ..] = *formula.clause(number) {
            counts[one.index()] += 1;
            counts[two.index()] += 1;
        }
    }
    let mut lists: Vec<Vec<Watch>> = counts.into_iter().map(Vec::with_capacity).collect();
    for number in 1..=formula.count() {
        watch(&mut lists, formula.clause(number), number);
    }
    lists
}
