//! Searches for periodic covers of a triple over the cells of its torus, and the logs of those that find none. The log
//! of a triple serves those that a turn takes it to, with its variables renamed.

use crate::grids::{Grid, Isometry};
use crate::lattices::Triple;
use crate::lazy::{Found, Search};
use crate::lists::Lists;
use crate::masks::{bits, Mask, Torus};
use crate::proofs::{Log, Numbering};
use crate::shapes::Shape;
use crate::tables::{cell_of_want, Forms, Table, Tile};
use crate::trail::Reason;
use std::cmp::Ordering;

/// The torus of a triple, and the place of the first triple that a turn takes it to.
pub struct Planned {
    pub torus: Torus,
    pub first: usize,
}

/// These triples by their classes under turns.
pub fn plan(grid: &'static Grid, triples: impl Iterator<Item = Triple>) -> Vec<Planned> {
    let mut plan: Vec<Planned> = Vec::new();
    for triple in triples {
        let mut turned: Vec<Triple> = (0..grid.turns).map(|turn| triple.turned(grid, turn)).collect();
        turned.dedup();
        let is_first = |(at, known): (usize, &Planned)| at == known.first && turned.contains(&known.torus.triple);
        let first = plan.iter().enumerate().position(is_first).unwrap_or(plan.len());
        plan.push(Planned { torus: Torus::new(grid, triple), first });
    }
    plan
}

/// The log of a triple without a cover.
pub struct Period<'a> {
    torus: &'a Torus,
    /// By variable from 1, its residue set.
    sets: Vec<Mask>,
    pub log: Log,
}

fn table(torus: &Torus, sets: &[Mask]) -> Table {
    let mut forms = Forms { cells: Lists::new(), around: Lists::new(), near: Lists::new() };
    sets.iter().for_each(|set| forms.cells.push(bits(*set).map(|c| c as i32)));
    let first: Vec<u32> = torus.cells().collect();
    let mut table = Table::new(forms, first.last().map_or(0, |c| *c as usize + 1), first);
    table.add_level((0..sets.len() as u32).map(|form| Tile { form, first: 0 }), Vec::new());
    table
}

impl<'a> Period<'a> {
    /// The log for a triple that has no cover.
    pub fn search(torus: &'a Torus, images: &[(Shape, Isometry)], turns: usize) -> Period<'a> {
        let sets = torus.residue_sets(images);
        let table = table(torus, &sets);
        let mut search = Search::new(&table, turns);
        assert!(search.next() != Found::Model, "a cover that the masks missed");
        let (store, last) = search.into_log();
        Period { torus, sets, log: Log { store, last, cuts: Vec::new() } }
    }

    /// Appends the proof for a triple that a turn takes this one to.
    pub fn write(&self, grid: &Grid, to: &Torus, images: &[(Shape, Isometry)], text: &mut Vec<u8>) {
        if to.triple == self.torus.triple {
            let names = (1..=self.sets.len() as u32).collect();
            self.log.write(&mut TorusNumbers::new(to, &self.sets, names, (0..64).collect()), text);
            return;
        }
        let sets = to.residue_sets(images);
        let takes = |turn: &u32| self.torus.triple.turned(grid, *turn) == to.triple;
        let turn = (0..grid.turns).find(takes).expect("a turn between triples of a class");
        let cell_names: Vec<u32> = (0..64)
            .map(|number| self.torus.cell(number).map_or(0, |c| to.number(grid.turned(turn, c)) as u32))
            .collect();
        let name = |set: &Mask| {
            let turned = bits(*set).fold(0, |mask, c| mask | 1 << cell_names[c as usize]);
            let place = sets.binary_search_by(|other| before(*other, turned)).expect("a residue set");
            place as u32 + 1
        };
        let names = self.sets.iter().map(name).collect();
        self.log.write(&mut TorusNumbers::new(to, &sets, names, cell_names), text);
    }
}

/// The order of residue sets by their cell lists.
fn before(one: Mask, other: Mask) -> Ordering {
    other.reverse_bits().cmp(&one.reverse_bits())
}

/// The numbers of the clauses of a torus formula.
struct TorusNumbers<'a> {
    sets: &'a [Mask],
    cells: Vec<u32>,
    /// By variable from 1, and by number of a cell: those of the formula.
    names: Vec<u32>,
    cell_names: Vec<u32>,
    /// By variable from 1, how many clauses come before those of it and a later one; and all.
    before: Vec<u32>,
    /// By variable from 1, the later ones that meet it, where they were asked for.
    later: Vec<Vec<u32>>,
}

impl<'a> TorusNumbers<'a> {
    fn new(torus: &Torus, sets: &'a [Mask], names: Vec<u32>, cell_names: Vec<u32>) -> TorusNumbers<'a> {
        let cells: Vec<u32> = torus.cells().collect();
        let mut before = vec![cells.len() as u32];
        for (place, set) in sets.iter().enumerate() {
            let meeting: u32 = sets[place + 1..].iter().map(|other| u32::from(set & other != 0)).sum();
            before.push(before[place] + meeting);
        }
        let later = vec![Vec::new(); sets.len()];
        TorusNumbers { sets, cells, names, cell_names, before, later }
    }

    fn apart(&mut self, one: u32, other: u32) -> u32 {
        let (one, other) = (self.name(one), self.name(other));
        let (var, other) = (one.min(other), one.max(other));
        let (place, sets) = (var as usize - 1, self.sets);
        let later = &mut self.later[place];
        if later.is_empty() {
            let meets = |other: &u32| sets[place] & sets[*other as usize - 1] != 0;
            later.extend((var + 1..=sets.len() as u32).filter(meets));
        }
        self.before[place] + later.partition_point(|before| *before <= other) as u32
    }
}

impl Numbering for TorusNumbers<'_> {
    fn count(&self) -> u32 {
        self.before[self.sets.len()]
    }

    fn name(&self, var: u32) -> u32 {
        self.names[var as usize - 1]
    }

    fn hints(&mut self, reasons: &[Reason], line: impl Fn(u32) -> u32, hints: &mut Vec<u32>) {
        for reason in reasons {
            hints.push(match *reason {
                Reason::First { want } => {
                    let name = self.cell_names[cell_of_want(want as usize).0];
                    self.cells.partition_point(|c| *c <= name) as u32
                }
                Reason::Apart { one, other } => self.apart(one, other),
                Reason::Line { index } => line(index),
                Reason::Choice | Reason::Asked { .. } => unreachable!("no reason on a torus"),
            });
        }
    }
}
