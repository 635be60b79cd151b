//! The second corona formula of a universe: its size, and the numbers of its clauses. Of two placements that meet one
//! is forbidden by the owner of a cell that both have.

use crate::proofs::Numbering;
use crate::tables::{cell_of_want, want_for, Table};
use crate::trail::Reason;

/// How many clauses and variables come before those of a cell's owner.
#[derive(Clone, Copy)]
struct Owned {
    clauses: u32,
    vars: u32,
}

/// How many owner variables a cell with so many holders has.
fn digits(holders: usize) -> u32 {
    match holders {
        0 | 1 => 0,
        _ => usize::BITS - (holders - 1).leading_zeros(),
    }
}

/// Whether the formula has at most so many literals. A count of no fewer is tried first.
pub fn fits(table: &Table, size: u64) -> bool {
    at_most(table) <= size || literals(table) <= size
}

/// No fewer literals than the formula has.
fn at_most(table: &Table) -> u64 {
    let most_around = (0..table.forms.around.len()).map(|form| table.forms.around.get(form).len()).max().unwrap_or(0);
    let most_near = (0..table.forms.near.len()).map(|form| table.forms.near.get(form).len()).max().unwrap_or(0);
    let most_holders = (0..table.cell_count()).map(|c| table.holders(c).len()).max().unwrap_or(0);
    let tile = table.forms.cells.get(0).len();
    let each = most_around * (1 + most_holders) + 1 + most_near + 2 * tile * digits(most_holders) as usize;
    (table.first.len() * most_holders + table.vars() as usize * each) as u64
}

fn literals(table: &Table) -> u64 {
    let asking = table.ends[table.level() - 1];
    let first: usize = table.first.iter().map(|c| table.candidates(want_for(*c as usize, 1)).len()).sum();
    let asked = (1..=asking).flat_map(|var| table.asked(var));
    let covering: usize = asked.map(|want| 1 + table.candidates(want).len()).sum();
    let supported = table.ends[1] + 1..=table.vars();
    let support: usize = supported.map(|var| 1 + table.supporters(var).count()).sum();
    let holders = (0..table.cell_count()).map(|c| table.holders(c).len());
    let owners: usize = holders.map(|count| 2 * count * digits(count) as usize).sum();
    (first + covering + support + owners) as u64
}

pub struct CoronaNumbers<'a> {
    table: &'a Table,
    /// By variable below the last level, from 0: where its clauses for wanted cells end.
    covering: Vec<u32>,
    /// How many clauses come before those for supporters.
    before_support: u32,
    /// By cell, and behind them for all.
    owned: Vec<Owned>,
    /// By owner variable the number of the line of the log in which it was set last, and whether it was made true.
    set: Vec<(u32, bool)>,
    line: u32,
}

impl<'a> CoronaNumbers<'a> {
    pub fn new(table: &'a Table) -> CoronaNumbers<'a> {
        let mut covering = vec![table.first.len() as u32];
        for var in 1..=table.ends[table.level() - 1] {
            covering.push(covering[var as usize - 1] + table.around(var).count() as u32);
        }
        let asked = covering[covering.len() - 1];
        let mut before = Owned { clauses: asked + table.vars() - table.ends[1], vars: table.vars() };
        let mut owned = vec![before];
        for holders in (0..table.cell_count()).map(|c| table.holders(c).len()) {
            before.clauses += holders as u32 * digits(holders);
            before.vars += digits(holders);
            owned.push(before);
        }
        let set = vec![(0, false); (before.vars - table.vars()) as usize];
        CoronaNumbers { table, covering, before_support: asked, owned, set, line: 0 }
    }

    fn first(&self, want: u32) -> u32 {
        let (cell, _) = cell_of_want(want as usize);
        1 + self.table.first.iter().position(|c| *c as usize == cell).expect("a cell around the shape") as u32
    }

    fn asked(&self, by: u32, want: u32) -> u32 {
        if want as usize >= self.table.cell_wants() {
            return self.before_support + by - self.table.ends[1];
        }
        let (cell, _) = cell_of_want(want as usize);
        let place = self.table.around(by).position(|c| c == cell).expect("a cell around the tile");
        self.covering[by as usize - 1] + place as u32 + 1
    }

    /// The number of the clause of a cell's holder for the lowest digit, and its rank.
    fn owner(&self, c: usize, var: u32) -> (u32, u32) {
        let holders = self.table.holders(c);
        let rank = holders.partition_point(|other| *other < var) as u32;
        (self.owned[c].clauses + rank * digits(holders.len()) + 1, rank)
    }

    /// The numbers by which one denies the other, or by which that is a conflict. Whether it is one already.
    fn apart(&mut self, one: u32, other: u32, hints: &mut Vec<u32>) -> bool {
        let table = self.table;
        let mut found = None;
        for c in table.cells(one).filter(|c| table.cells(other).any(|d| d == *c)) {
            let ((clause, rank), (other_clause, other_rank)) = (self.owner(c, one), self.owner(c, other));
            let first = self.owned[c].vars - table.vars();
            for digit in 0..self.owned[c + 1].vars - self.owned[c].vars {
                let bit = rank >> digit & 1 == 1;
                let differs = (rank ^ other_rank) >> digit & 1 == 1;
                let var = (first + digit) as usize;
                match self.set[var] {
                    (line, set) if line == self.line && set != bit => {
                        hints.push(clause + digit);
                        return true;
                    }
                    (line, _) if line == self.line && differs => {
                        hints.push(other_clause + digit);
                        return false;
                    }
                    _ if differs && found.is_none() => found = Some((clause + digit, var, bit, other_clause + digit)),
                    _ => {}
                }
            }
        }
        let (clause, var, bit, other_clause) = found.expect("two holders of a cell");
        self.set[var] = (self.line, bit);
        hints.extend([clause, other_clause]);
        false
    }
}

impl Numbering for CoronaNumbers<'_> {
    fn count(&self) -> u32 {
        self.owned[self.table.cell_count()].clauses
    }

    fn name(&self, var: u32) -> u32 {
        var
    }

    fn hints(&mut self, reasons: &[Reason], line: impl Fn(u32) -> u32, hints: &mut Vec<u32>) {
        self.line += 1;
        for reason in reasons {
            match *reason {
                Reason::Choice => unreachable!("a choice in a line"),
                Reason::First { want } => hints.push(self.first(want)),
                Reason::Asked { by, want } => hints.push(self.asked(by, want)),
                Reason::Line { index } => hints.push(line(index)),
                Reason::Apart { one, other } => {
                    if self.apart(one, other, hints) {
                        return;
                    }
                }
            }
        }
    }
}
