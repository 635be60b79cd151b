//! Tori of at most 64 numbers of cells: sets of cells as masks, moved by steps, and exact covers by them.

use crate::grids::{Cell, Grid, Isometry};
use crate::lattices::Triple;
use crate::shapes::Shape;
use std::cmp::Reverse;

/// A set of reduced cells: bit i is the one of number i.
pub type Mask = u64;

/// The torus of a triple. Its cells stand in cell order, in lines of p units, as many lines a row as the grid has. Some
/// numbers are of no cell where some classes have none.
pub struct Torus {
    grid: &'static Grid,
    pub triple: Triple,
    all: Mask,
    /// The numbers of a line, the last unit of each, and those that stay in their lines where a row goes over the top.
    wide: i32,
    last: Mask,
    staying: Mask,
}

/// A residue set: of an image, moved by so many units.
#[derive(Clone, Copy)]
struct Place {
    mask: Mask,
    image: u8,
    da: u8,
    db: u8,
}

impl Torus {
    pub fn new(grid: &'static Grid, triple: Triple) -> Torus {
        let wide = triple.p * grid.columns;
        let numbers = wide * triple.q * grid.lines;
        assert!(numbers <= 64, "a torus of at most 64 numbers");
        let numbers_where = |holds: &dyn Fn(i32) -> bool| (0..numbers).filter(|i| holds(*i)).map(|i| 1 << i).sum();
        let staying = grid.columns * if triple.s == 0 { triple.p } else { triple.s };
        let mut torus = Torus { grid, triple, all: 0, wide, last: 0, staying: 0 };
        torus.last = numbers_where(&|i| i % wide >= wide - grid.columns);
        torus.staying = numbers_where(&|i| i % wide < staying);
        torus.all = numbers_where(&|i| torus.cell(i as usize).is_some());
        torus
    }

    /// The reduced cell of a number, if it has one.
    pub fn cell(&self, number: usize) -> Option<Cell> {
        let Grid { lines, columns, .. } = *self.grid;
        let (line, at) = (number as i32 / self.wide, number as i32 % self.wide);
        let unit = Cell { a: at / columns, b: line / lines };
        self.grid.cell_of(unit, (line % lines * columns + at % columns) as usize)
    }

    /// The number of the reduced cell of a cell.
    pub fn number(&self, c: Cell) -> usize {
        let Grid { lines, columns, .. } = *self.grid;
        let (unit, class) = (self.triple.reduced(self.grid.unit_of(c)), self.grid.class(c) as i32);
        let line = unit.b * lines + class / columns;
        (line * self.wide + unit.a * columns + class % columns) as usize
    }

    /// The numbers of the reduced cells, in order.
    pub fn cells(&self) -> impl Iterator<Item = u32> {
        bits(self.all)
    }

    /// The reduced cells of these cells, or None where two are the same.
    fn mask(&self, cells: &[Cell]) -> Option<Mask> {
        let mask: Mask = cells.iter().fold(0, |mask, c| mask | 1 << self.number(*c));
        (mask.count_ones() as usize == cells.len()).then_some(mask)
    }

    /// The set moved by one unit in a.
    fn beside(&self, mask: Mask) -> Mask {
        let unit = self.grid.columns;
        (mask & !self.last) << unit | (mask & self.last) >> (self.wide - unit)
    }

    /// The set moved by one unit in b; what goes over the top comes in below, moved by -s.
    fn above(&self, mask: Mask) -> Mask {
        let Triple { p, q, s } = self.triple;
        let row = self.wide * self.grid.lines;
        let top = mask >> (row * (q - 1));
        let along = (p - s) % p * self.grid.columns;
        let wrapped = (top & self.staying) << along | (top & !self.staying) >> (self.wide - along);
        let below = if q == 1 { 0 } else { mask << row & self.all };
        below | wrapped
    }

    /// The residue sets of the translates of an image, none where cells of it fall together.
    fn places(&self, image: u8, cells: &[Cell], places: &mut Vec<Place>) {
        let Some(mut low) = self.mask(cells) else {
            return;
        };
        for db in 0..self.triple.q as u8 {
            let mut mask = low;
            for da in 0..self.triple.p as u8 {
                places.push(Place { mask, image, da, db });
                mask = self.beside(mask);
            }
            low = self.above(low);
        }
    }

    /// The different residue sets of the images' translates, in the order of their cell lists.
    pub fn residue_sets(&self, images: &[(Shape, Isometry)]) -> Vec<Mask> {
        let mut places = Vec::new();
        images.iter().for_each(|(image, _)| self.places(0, image.cells(), &mut places));
        let mut sets: Vec<Mask> = places.iter().map(|place| place.mask).collect();
        sets.sort_unstable_by_key(|mask| Reverse(mask.reverse_bits()));
        sets.dedup();
        sets
    }

    /// So many tiles by these images that cover the torus, the first one fixed by a translation.
    pub fn cover(&self, images: &[(Shape, Isometry)], count: usize) -> Option<Vec<Isometry>> {
        let mut places = Vec::new();
        let mut starts = Vec::new();
        for (number, (image, _)) in (0..).zip(images) {
            starts.push(places.len());
            self.places(number, image.cells(), &mut places);
        }
        starts.retain(|start| *start < places.len());
        starts.dedup();
        let isometry = |Place { image, da, db, .. }: &Place| {
            let by = images[*image as usize].1;
            Isometry { turn: by.turn, da: by.da + i32::from(*da), db: by.db + i32::from(*db) }
        };
        starts.iter().find_map(|start| {
            let first = places[*start];
            let mut cover = Cover { left: Vec::new(), chosen: vec![first] };
            cover.left.extend(places[*start..].iter().filter(|place| place.mask & first.mask == 0));
            let found = cover.fill(0, self.all & !first.mask, count - 1);
            found.then(|| cover.chosen.iter().map(isometry).collect())
        })
    }
}

/// The places of the bits, rising.
pub fn bits(mut mask: Mask) -> impl Iterator<Item = u32> {
    std::iter::from_fn(move || {
        let bit = (mask != 0).then(|| mask.trailing_zeros());
        mask &= mask.wrapping_sub(1);
        bit
    })
}

/// A search for an exact cover: the places that are apart from the chosen ones, those of deeper choices last.
struct Cover {
    left: Vec<Place>,
    chosen: Vec<Place>,
}

impl Cover {
    /// Whether so many of the places left from here on cover the open cells, and are chosen then. The cell that is
    /// covered next has one place, or else two, or else is the first.
    fn fill(&mut self, from: usize, open: Mask, count: usize) -> bool {
        if count == 1 {
            let last = self.left[from..].iter().find(|place| place.mask == open);
            self.chosen.extend(last);
            return last.is_some();
        }
        let (mut once, mut twice, mut thrice) = (0, 0, 0);
        for place in &self.left[from..] {
            thrice |= twice & place.mask;
            twice |= once & place.mask;
            once |= place.mask;
        }
        if open & !once != 0 {
            return false;
        }
        let among = [open & !twice, open & !thrice, open].into_iter().find(|cells| *cells != 0).unwrap_or(0);
        let (cell, end) = (among & among.wrapping_neg(), self.left.len());
        for at in from..end {
            let place = self.left[at];
            if place.mask & cell == 0 {
                continue;
            }
            for other in from..end {
                if self.left[other].mask & place.mask == 0 {
                    self.left.push(self.left[other]);
                }
            }
            self.chosen.push(place);
            if self.fill(end, open & !place.mask, count - 1) {
                return true;
            }
            self.chosen.pop();
            self.left.truncate(end);
        }
        false
    }
}
