//! The clauses of torus formulas by their numbers. Residue sets are masks, and the clauses of two
//! that meet are counted by sums.

use crate::literals::Lit;
use crate::grids::{Cell, Grid, Isometry};
use crate::lattices::Triple;
use crate::logs::Source;
use crate::shapes::Shape;
use crate::words::Words;
use std::cmp::Reverse;

/// A set of reduced cells: bit i of all words is the cell of number i, in cell order.
type Mask<const W: usize> = [u64; W];

fn meet<const W: usize>(one: &Mask<W>, other: &Mask<W>) -> bool {
    one.iter().zip(other).any(|(word, beside)| word & beside != 0)
}

/// The reduced cells of a triple, numbered in cell order in the lines of rows of p units. Some
/// numbers are of no cell where some classes have none.
struct Torus<'a> {
    grid: &'a Grid,
    triple: Triple,
}

impl Torus<'_> {
    fn len(&self) -> usize {
        self.triple.p as usize * self.triple.q as usize * self.grid.classes()
    }

    fn number(&self, unit: Cell, class: usize) -> usize {
        let (unit, columns) = (self.triple.reduced(unit), self.grid.columns as usize);
        let line = unit.b as usize * self.grid.lines as usize + class / columns;
        (line * self.triple.p as usize + unit.a as usize) * columns + class % columns
    }

    /// The unit and the class of a number.
    fn place(&self, number: usize) -> (Cell, usize) {
        let (p, columns) = (self.triple.p as usize, self.grid.columns as usize);
        let (line, lines) = (number / columns / p, self.grid.lines as usize);
        let unit = Cell { a: (number / columns % p) as i32, b: (line / lines) as i32 };
        (unit, line % lines * columns + number % columns)
    }

    fn is_cell(&self, number: usize) -> bool {
        let (unit, class) = self.place(number);
        self.grid.cell_of(unit, class).is_some()
    }

    /// By number, that of the cell moved by so many units.
    fn moves(&self, da: i32, db: i32) -> Vec<usize> {
        let moved = |number: usize| {
            let (unit, class) = self.place(number);
            self.number(Cell { a: unit.a + da, b: unit.b + db }, class)
        };
        (0..self.len()).map(moved).collect()
    }

    /// The different residue sets of the images' translates, in the order of their cell lists.
    fn residue_sets<const W: usize>(&self, images: &[(Shape, Isometry)]) -> Vec<Mask<W>> {
        let (beside, above) = (self.moves(1, 0), self.moves(0, 1));
        let mask = |numbers: &[usize]| {
            let mut mask: Mask<W> = [0; W];
            numbers.iter().for_each(|number| mask[number / 64] |= 1 << (number % 64));
            mask
        };
        let mut sets = Vec::new();
        for (image, _) in images {
            let number = |c: &Cell| self.number(self.grid.unit_of(*c), self.grid.class(*c));
            let mut low: Vec<usize> = image.cells().iter().map(number).collect();
            if mask(&low).iter().map(|word| word.count_ones()).sum::<u32>() < low.len() as u32 {
                continue;
            }
            for _ in 0..self.triple.q {
                let mut numbers = low.clone();
                for _ in 0..self.triple.p {
                    sets.push(mask(&numbers));
                    numbers.iter_mut().for_each(|number| *number = beside[*number]);
                }
                low.iter_mut().for_each(|number| *number = above[*number]);
            }
        }
        sets.sort_unstable_by_key(|mask: &Mask<W>| Reverse(mask.map(u64::reverse_bits)));
        sets.dedup();
        sets
    }
}

/// By variable, which later ones it meets, as a row of bits.
struct Meetings {
    words: usize,
    bits: Vec<u64>,
}

impl Meetings {
    fn of<const W: usize>(sets: &[Mask<W>]) -> Meetings {
        let words = sets.len().div_ceil(64);
        let mut bits = vec![0; words * sets.len()];
        for (i, set) in sets.iter().enumerate() {
            let row = &mut bits[words * i..words * (i + 1)];
            for (other, _) in
                sets.iter().enumerate().skip(i + 1).filter(|(_, other)| meet(set, other))
            {
                row[other / 64] |= 1 << (other % 64);
            }
        }
        Meetings { words, bits }
    }

    fn row(&self, var: usize) -> &[u64] {
        &self.bits[self.words * (var - 1)..self.words * var]
    }

    fn count(&self, var: usize) -> u32 {
        self.row(var).iter().map(|word| word.count_ones()).sum()
    }

    /// The later variable with so many before it in the row.
    fn nth(&self, var: usize, mut before: u32) -> u32 {
        for (word, first) in self.row(var).iter().copied().zip((1..).step_by(64)) {
            if before < word.count_ones() {
                let rest = (0..before).fold(word, |word, _| word & (word - 1));
                return first + rest.trailing_zeros();
            }
            before -= word.count_ones();
        }
        unreachable!("a number of a clause of these")
    }
}

/// The torus formula of a shape and a triple whose reduced cells have at most 64 times W numbers.
pub struct TorusClauses<const W: usize> {
    sets: Vec<Mask<W>>,
    /// By reduced cell in cell order, the variables that have it.
    holders: Vec<Vec<u32>>,
    meetings: Meetings,
    /// By variable, how many clauses come before those of it and a later one.
    before: Vec<u32>,
}

impl<const W: usize> TorusClauses<W> {
    pub fn new(grid: &Grid, triple: Triple, images: &[(Shape, Isometry)]) -> TorusClauses<W> {
        let torus = Torus { grid, triple };
        let sets = torus.residue_sets(images);
        let mut holders = vec![Vec::new(); torus.len()];
        for (var, set) in (1..).zip(&sets) {
            for (i, mut word) in set.iter().copied().enumerate() {
                while word != 0 {
                    holders[64 * i + word.trailing_zeros() as usize].push(var);
                    word &= word - 1;
                }
            }
        }
        let by_cell = holders.into_iter().enumerate().filter(|(number, _)| torus.is_cell(*number));
        let holders: Vec<Vec<u32>> = by_cell.map(|(_, holders)| holders).collect();
        let meetings = Meetings::of(&sets);
        let mut before = vec![0, holders.len() as u32];
        for var in 1..=sets.len() {
            before.push(before[var] + meetings.count(var));
        }
        TorusClauses { sets, holders, meetings, before }
    }

    /// The two variables of a clause of two that meet.
    fn pair(&self, number: u32) -> (u32, u32) {
        let var = self.before.partition_point(|before| *before < number) - 1;
        (var as u32, self.meetings.nth(var, number - self.before[var] - 1))
    }
}

impl<const W: usize> Source for TorusClauses<W> {
    fn vars(&self) -> u32 {
        self.sets.len() as u32
    }

    fn count(&self) -> u32 {
        self.before[self.sets.len() + 1]
    }

    fn walk(&mut self, number: u32, mut each: impl FnMut(Lit) -> bool) {
        let _ = match self.holders.get(number as usize - 1) {
            Some(holders) => holders.iter().all(|var| each(Lit::positive(*var))),
            None => {
                let (var, other) = self.pair(number);
                each(Lit::negative(var)) && each(Lit::negative(other))
            }
        };
    }

    fn within(&self, clause: &[Lit], has: impl Fn(Lit) -> bool) -> bool {
        let negations = clause.iter().filter(|lit| !lit.is_positive());
        let sets: Vec<Mask<W>> = negations.map(|lit| self.sets[lit.var() as usize - 1]).collect();
        self.holders.iter().any(|holders| holders.iter().all(|var| has(Lit::positive(*var))))
            || sets
                .iter()
                .enumerate()
                .any(|(i, set)| sets[i + 1..].iter().any(|other| meet(set, other)))
    }

    /// No cut is lawful over a torus.
    fn cut(&mut self, _: &mut Words) -> Option<Vec<Lit>> {
        None
    }
}
