//! Lattices by triples.

use crate::grids::{Cell, Grid};

/// The lattice spanned by (p, 0) and (s, q), in units.
#[derive(Clone, Copy, PartialEq, Eq)]
pub struct Triple {
    pub p: i32,
    pub q: i32,
    pub s: i32,
}

impl Triple {
    /// The vector in units, moved by the lattice into the first p columns of the first q rows.
    pub fn reduced(self, v: Cell) -> Cell {
        let rows = v.b.div_euclid(self.q);
        Cell { a: (v.a - rows * self.s).rem_euclid(self.p), b: v.b.rem_euclid(self.q) }
    }

    pub fn spanning(self) -> [Cell; 2] {
        [Cell { a: self.p, b: 0 }, Cell { a: self.s, b: self.q }]
    }

    /// The triple of the lattice under a turn.
    pub fn turned(self, grid: &Grid, turn: u32) -> Triple {
        let [mut u, mut v] = self.spanning().map(|vector| grid.turned(turn, vector));
        while v.b != 0 {
            let times = u.b / v.b;
            (u, v) = (v, Cell { a: u.a - times * v.a, b: u.b - times * v.b });
        }
        let p = v.a.abs();
        Triple { p, q: u.b.abs(), s: (u.a * u.b.signum()).rem_euclid(p) }
    }
}

/// The triples of the lattices by which so many cells can be a cover, by p and then s.
pub fn triples(grid: &Grid, cells: usize) -> impl Iterator<Item = Triple> {
    let area = if cells % grid.per == 0 { (cells / grid.per) as i32 } else { 0 };
    (1..=area).filter(move |p| area % p == 0).flat_map(move |p| (0..p).map(move |s| Triple { p, q: area / p, s }))
}
