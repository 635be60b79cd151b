//! The free polyforms of a size, grown cell by cell into a hash set of canonical cell arrays, their images, and their
//! plain tilings: residues modulo a lattice are marked, up to the first that is marked twice.

use crate::grids::{Cell, Grid, Isometry};
use crate::lattices::{triples, Triple};
use std::collections::HashSet;

const MOST: usize = 16;

#[derive(Clone, Copy, PartialEq, Eq, Hash, PartialOrd, Ord)]
pub struct Shape {
    cells: [Cell; MOST],
    count: usize,
}

impl Shape {
    fn empty() -> Shape {
        Shape { cells: [Cell::default(); MOST], count: 0 }
    }

    /// The canonical form of the cells of a text, as `A,B` for each, or None where it isn't such a text.
    pub fn parse(grid: &Grid, text: &str) -> Option<Shape> {
        let mut shape = Shape::empty();
        for word in text.split_whitespace() {
            let (a, b) = word.split_once(',')?;
            shape = shape.with(Cell { a: a.parse().ok()?, b: b.parse().ok()? });
        }
        Some(shape.canonical(grid))
    }

    pub fn cells(&self) -> &[Cell] {
        &self.cells[..self.count]
    }

    fn with(mut self, cell: Cell) -> Shape {
        self.cells[self.count] = cell;
        self.count += 1;
        self
    }

    /// The normalised image under a turn, and the isometry that gives it.
    fn image(&self, grid: &Grid, turn: u32) -> (Shape, Isometry) {
        let mut image = *self;
        let cells = &mut image.cells[..self.count];
        let mut low = Cell { a: i32::MAX, b: i32::MAX };
        for cell in cells.iter_mut() {
            *cell = grid.turned(turn, *cell);
            let unit = grid.unit_of(*cell);
            low = Cell { a: low.a.min(unit.a), b: low.b.min(unit.b) };
        }
        for cell in cells.iter_mut() {
            *cell = grid.moved(*cell, -low.a, -low.b);
        }
        cells.sort_unstable();
        (image, Isometry { turn, da: -low.a, db: -low.b })
    }

    fn canonical(&self, grid: &Grid) -> Shape {
        (0..grid.turns).map(|turn| self.image(grid, turn).0).min().unwrap()
    }

    /// The different normalised images, each with its isometry of least turn.
    pub fn images(&self, grid: &Grid) -> Vec<(Shape, Isometry)> {
        let mut images: Vec<(Shape, Isometry)> = Vec::new();
        for turn in 0..grid.turns {
            let (image, by) = self.image(grid, turn);
            if images.iter().all(|(other, _)| *other != image) {
                images.push((image, by));
            }
        }
        images
    }
}

/// The free polyforms of so many cells, in order.
pub fn free_shapes(grid: &Grid, size: usize) -> Vec<Shape> {
    let first = grid.cell_of(Cell::default(), 0).expect("a cell of the first class");
    let mut shapes = HashSet::from([Shape::empty().with(first).canonical(grid)]);
    for _ in 1..size {
        let mut grown = HashSet::new();
        for parent in &shapes {
            for added in parent.cells().iter().flat_map(|cell| grid.adjacent(*cell)) {
                if !parent.cells().contains(&added) {
                    grown.insert(parent.with(added).canonical(grid));
                }
            }
        }
        shapes = grown;
    }
    let mut list: Vec<Shape> = shapes.into_iter().collect();
    list.sort_unstable();
    list
}

/// A cover by the translates of one tile, or of it and of its half-turned image, which is moved.
pub enum Plain {
    Translation { triple: Triple },
    HalfTurn { triple: Triple, da: i32, db: i32 },
}

/// Marks the residues of the cells; whether none was marked before.
fn mark(grid: &Grid, triple: Triple, cells: impl Iterator<Item = Cell>, marks: &mut [bool; 1024]) -> bool {
    let (wide, high) = (grid.unit * triple.p, grid.unit * triple.q);
    for c in cells {
        let rows = c.b.div_euclid(high);
        let place = c.b.rem_euclid(high) * wide + (c.a - grid.unit * triple.s * rows).rem_euclid(wide);
        if std::mem::replace(&mut marks[place as usize], true) {
            return false;
        }
    }
    true
}

/// The first plain tiling, by p, then s, then db, then da; one by translations comes first.
pub fn plain(grid: &Grid, cells: &[Cell]) -> Option<Plain> {
    for triple in triples(grid, cells.len()) {
        if mark(grid, triple, cells.iter().copied(), &mut [false; 1024]) {
            return Some(Plain::Translation { triple });
        }
    }
    for triple in triples(grid, 2 * cells.len()) {
        let mut own = [false; 1024];
        if !mark(grid, triple, cells.iter().copied(), &mut own) {
            continue;
        }
        for (db, da) in (0..triple.q).flat_map(|db| (0..triple.p).map(move |da| (db, da))) {
            let turned = cells.iter().map(|c| Cell { a: grid.unit * da - c.a, b: grid.unit * db - c.b });
            if mark(grid, triple, turned, &mut own.clone()) {
                return Some(Plain::HalfTurn { triple, da, db });
            }
        }
    }
    None
}
