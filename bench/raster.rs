//! Cells numbered in cell order, in the lines of rows of units, so that a translation adds to them.

use crate::grids::{Cell, Grid};

/// Whether the pair is a cell of the grid.
pub fn is_cell(grid: &Grid, c: Cell) -> bool {
    (0..grid.classes()).any(|class| grid.cell_of(grid.unit_of(c), class) == Some(c))
}

/// The cells outside that touch one of these, in order.
pub fn ring_of(grid: &Grid, cells: &[Cell]) -> Vec<Cell> {
    let around = cells.iter().flat_map(|c| grid.touching(*c));
    let mut ring: Vec<Cell> = around.filter(|d| !cells.contains(d)).collect();
    ring.sort_unstable();
    ring.dedup();
    ring
}

/// So many rows and columns of units.
pub struct Raster {
    grid: &'static Grid,
    low: Cell,
    wide: i32,
    high: i32,
    /// By class, what leads from a cell to those adjacent to it, and to those that touch it.
    adjacent: Vec<Vec<i32>>,
    touching: Vec<Vec<i32>>,
}

impl Raster {
    /// A raster around these cells and the unit (0, 0), with so many units to spare at each side.
    pub fn around(grid: &'static Grid, cells: impl Iterator<Item = Cell>, spare: i32) -> Raster {
        let (mut low, mut top) = (Cell::default(), Cell::default());
        for unit in cells.map(|c| grid.unit_of(c)) {
            low = Cell { a: low.a.min(unit.a), b: low.b.min(unit.b) };
            top = Cell { a: top.a.max(unit.a), b: top.b.max(unit.b) };
        }
        let low = Cell { a: low.a - spare, b: low.b - spare };
        let (wide, high) = (top.a + spare - low.a + 1, top.b + spare - low.b + 1);
        let mut raster =
            Raster { grid, low, wide, high, adjacent: Vec::new(), touching: Vec::new() };
        for from in (0..grid.classes()).map(|class| grid.cell_of(Cell::default(), class)) {
            let step = |(c, d)| raster.number(d) - raster.number(c);
            let adjacent = from.into_iter().flat_map(|c| grid.adjacent(c).map(move |d| (c, d)));
            let touching = from.into_iter().flat_map(|c| grid.touching(c).map(move |d| (c, d)));
            let (adjacent, touching) = (adjacent.map(step).collect(), touching.map(step).collect());
            raster.adjacent.push(adjacent);
            raster.touching.push(touching);
        }
        raster
    }

    /// How many numbers there are.
    pub fn len(&self) -> usize {
        self.wide as usize * self.high as usize * self.grid.classes()
    }

    pub fn number(&self, c: Cell) -> i32 {
        let (unit, class) = (self.grid.unit_of(c), self.grid.class(c) as i32);
        let (line, column) = (class / self.grid.columns, class % self.grid.columns);
        self.shift(unit.a - self.low.a, unit.b - self.low.b) + line * self.line() + column
    }

    pub fn cell(&self, number: i32) -> Cell {
        let (row, column) = (number / self.line() / self.grid.lines, number % self.line() / self.grid.columns);
        let unit = Cell { a: column + self.low.a, b: row + self.low.b };
        self.grid.cell_of(unit, self.class(number)).expect("the number of a cell")
    }

    /// The number of a cell that lies in the raster, and not at its frame.
    pub fn inner_number(&self, c: Cell) -> Option<i32> {
        let unit = self.grid.unit_of(c);
        let (a, b) = (unit.a - self.low.a, unit.b - self.low.b);
        let is_inner = (1..self.wide - 1).contains(&a) && (1..self.high - 1).contains(&b);
        (is_inner && is_cell(self.grid, c)).then(|| self.number(c))
    }

    /// How many numbers a line has.
    fn line(&self) -> i32 {
        self.wide * self.grid.columns
    }

    /// What a translation by so many units adds.
    pub fn shift(&self, da: i32, db: i32) -> i32 {
        db * self.grid.lines * self.line() + da * self.grid.columns
    }

    pub fn class(&self, number: i32) -> usize {
        let (line, column) = (number / self.line() % self.grid.lines, number % self.grid.columns);
        (line * self.grid.columns + column) as usize
    }

    pub fn adjacent(&self, number: i32) -> impl Iterator<Item = i32> + '_ {
        self.adjacent[self.class(number)].iter().map(move |step| number + step)
    }

    pub fn touching(&self, number: i32) -> impl Iterator<Item = i32> + '_ {
        self.touching[self.class(number)].iter().map(move |step| number + step)
    }
}
