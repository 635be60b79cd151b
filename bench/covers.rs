//! Periodic covers, and the classes of their tiles.

use crate::grids::{Cell, Grid, Isometry};
use crate::lattices::{triples, Triple};
use crate::shapes::Shape;

/// A triple, and one tile for each isometry.
pub struct Cover {
    pub triple: Triple,
    pub tiles: Vec<Isometry>,
}

/// The triples of domains 2 to `domain` for so many cells, in order.
pub fn domain_triples(grid: &Grid, size: usize, domain: usize) -> impl Iterator<Item = Triple> + '_ {
    (2..=domain).flat_map(move |tiles| triples(grid, size * tiles))
}

/// A tile of a cover: its class, from 1, and the symmetry of least turn that takes the first tile of the class to it.
pub struct Member {
    pub class: usize,
    pub by: Isometry,
}

/// The tiles of a cover as sorted cells.
struct Tiles<'a> {
    grid: &'a Grid,
    triple: Triple,
    tiles: Vec<Vec<Cell>>,
}

impl Tiles<'_> {
    fn image(&self, by: Isometry, tile: &[Cell]) -> Vec<Cell> {
        let mut cells: Vec<Cell> = tile.iter().map(|c| self.grid.image(by, *c)).collect();
        cells.sort_unstable();
        cells
    }

    /// The translation by units that takes one set to the other.
    fn step(&self, from: &[Cell], to: &[Cell]) -> Option<Cell> {
        let (a, b, unit) = (to[0].a - from[0].a, to[0].b - from[0].b, self.grid.unit);
        let fits = a % unit == 0 && b % unit == 0 && from.iter().zip(to).all(|(c, d)| (d.a - c.a, d.b - c.b) == (a, b));
        fits.then_some(Cell { a: a / unit, b: b / unit })
    }

    /// Whether the isometry carries each tile to a translate of a tile by the lattice.
    fn carries(&self, by: Isometry) -> bool {
        self.tiles.iter().all(|tile| {
            let image = self.image(by, tile);
            let is_vector = |step: Cell| self.triple.reduced(step) == Cell::default();
            self.tiles.iter().any(|to| self.step(&image, to).is_some_and(is_vector))
        })
    }

    /// Whether the isometry is a symmetry: it carries the tiles, and so do the lattice's vectors under its turn.
    fn is_symmetry(&self, by: Isometry) -> bool {
        self.carries(by)
            && self.triple.spanning().into_iter().all(|vector| {
                let Cell { a: da, b: db } = self.grid.turned(by.turn, vector);
                self.carries(Isometry { turn: 0, da, db })
            })
    }

    fn least_taking(&self, from: &[Cell], to: &[Cell]) -> Option<Isometry> {
        (0..self.grid.turns).find_map(|turn| {
            let step = self.step(&self.image(Isometry { turn, da: 0, db: 0 }, from), to)?;
            let by = Isometry { turn, da: step.a, db: step.b };
            self.is_symmetry(by).then_some(by)
        })
    }
}

/// The class of each tile of a cover under its symmetries.
pub fn members(grid: &Grid, shape: &Shape, cover: &Cover) -> Vec<Member> {
    let mut tiles = Tiles { grid, triple: cover.triple, tiles: Vec::new() };
    tiles.tiles = cover.tiles.iter().map(|by| tiles.image(*by, shape.cells())).collect();
    let mut firsts: Vec<&[Cell]> = Vec::new();
    let mut members = Vec::new();
    for tile in &tiles.tiles {
        let known = firsts.iter().enumerate().find_map(|(i, from)| Some((i + 1, tiles.least_taking(from, tile)?)));
        let (class, by) = known.unwrap_or_else(|| {
            firsts.push(tile);
            (firsts.len(), Isometry { turn: 0, da: 0, db: 0 })
        });
        members.push(Member { class, by });
    }
    members
}
