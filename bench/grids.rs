//! The square, hex, iamond and kite grids: turns of cells, adjacent and touching ones.

/// A cell. Its derived order is cell order, by b and then by a.
#[derive(Clone, Copy, PartialEq, Eq, Hash, PartialOrd, Ord, Default)]
pub struct Cell {
    pub b: i32,
    pub a: i32,
}

/// A turn, and then a translation by so many units.
#[derive(Clone, Copy, PartialEq, Eq)]
pub struct Isometry {
    pub turn: u32,
    pub da: i32,
    pub db: i32,
}

/// Steps to other cells, as (a, b).
type Steps = &'static [(i32, i32)];

/// A grid. The cells of a unit lie in lines, by b, and each line has columns, by a. The class of a cell is its place
/// there, line by line, so that the cells of all units in cell order are those of rising lines, and in a line those of
/// rising columns. Where a class has no cell, `cells` has None.
pub struct Grid {
    pub unit: i32,
    /// How many cells a unit has.
    pub per: usize,
    pub lines: i32,
    pub columns: i32,
    pub turns: u32,
    pub half_turn: u32,
    class: fn(Cell) -> i32,
    turn: fn(u32, Cell) -> Cell,
    /// By class, the cell of the unit (0, 0), as (a, b).
    cells: &'static [Option<(i32, i32)>],
    adjacent: &'static [Steps],
    touching: &'static [Steps],
}

const SQUARE_SIDES: Steps = &[(0, -1), (-1, 0), (1, 0), (0, 1)];
const SQUARE_AROUND: Steps = &[(-1, -1), (0, -1), (1, -1), (-1, 0), (1, 0), (-1, 1), (0, 1), (1, 1)];
const HEX_SIDES: Steps = &[(0, -1), (1, -1), (-1, 0), (1, 0), (-1, 1), (0, 1)];
const UP_SIDES: Steps = &[(1, -2), (-2, 1), (1, 1)];
const DOWN_SIDES: Steps = &[(-1, -1), (2, -1), (-1, 2)];
const UP_AROUND: Steps =
    &[(0, -3), (3, -3), (-2, -2), (1, -2), (4, -2), (-3, 0), (3, 0), (-2, 1), (1, 1), (-3, 3), (0, 3), (-2, 4)];
const DOWN_AROUND: Steps =
    &[(2, -4), (0, -3), (3, -3), (-1, -1), (2, -1), (-3, 0), (3, 0), (-4, 2), (-1, 2), (2, 2), (-3, 3), (0, 3)];

static SQUARE: Grid = Grid {
    unit: 1,
    per: 1,
    lines: 1,
    columns: 1,
    turns: 8,
    half_turn: 2,
    class: |_| 0,
    turn: square_turn,
    cells: &[Some((0, 0))],
    adjacent: &[SQUARE_SIDES],
    touching: &[SQUARE_AROUND],
};

static HEX: Grid = Grid {
    unit: 1,
    per: 1,
    lines: 1,
    columns: 1,
    turns: 12,
    half_turn: 3,
    class: |_| 0,
    turn: hex_turn,
    cells: &[Some((0, 0))],
    adjacent: &[HEX_SIDES],
    touching: &[HEX_SIDES],
};

static IAMOND: Grid = Grid {
    unit: 3,
    per: 2,
    lines: 2,
    columns: 1,
    turns: 12,
    half_turn: 3,
    class: |c| c.a.rem_euclid(3) - 1,
    turn: hex_turn,
    cells: &[Some((1, 1)), Some((2, 2))],
    adjacent: &[UP_SIDES, DOWN_SIDES],
    touching: &[UP_AROUND, DOWN_AROUND],
};

/// Lines of b 1, 2, 4 and 5, with a column for a below 3 and one for a from 3.
static KITE: Grid = Grid {
    unit: 6,
    per: 6,
    lines: 4,
    columns: 2,
    turns: 12,
    half_turn: 3,
    class: kite_class,
    turn: hex_turn,
    cells: &[
        Some((1, 1)),
        Some((4, 1)),
        None,
        Some((5, 2)),
        Some((1, 4)),
        None,
        Some((2, 5)),
        Some((5, 5)),
    ],
    adjacent: &[
        &[(1, -2), (3, 0), (-2, 1), (0, 3)],
        &[(1, -2), (-3, 0), (1, 1), (-3, 3)],
        &[],
        &[(-1, -1), (2, -1), (-3, 3), (0, 3)],
        &[(0, -3), (3, -3), (-2, 1), (1, 1)],
        &[],
        &[(3, -3), (-1, -1), (3, 0), (-1, 2)],
        &[(0, -3), (2, -1), (-3, 0), (-1, 2)],
    ],
    touching: &[
        &[(0, -3), (-2, -2), (1, -2), (4, -2), (-3, 0), (3, 0), (-2, 1), (0, 3), (-2, 4)],
        &[(3, -3), (-2, -2), (1, -2), (4, -2), (-3, 0), (3, 0), (1, 1), (-3, 3), (-2, 4)],
        &[],
        &[(2, -4), (0, -3), (3, -3), (-1, -1), (2, -1), (-4, 2), (2, 2), (-3, 3), (0, 3)],
        &[(0, -3), (3, -3), (-2, -2), (4, -2), (-2, 1), (1, 1), (-3, 3), (0, 3), (-2, 4)],
        &[],
        &[(2, -4), (3, -3), (-1, -1), (-3, 0), (3, 0), (-4, 2), (-1, 2), (2, 2), (-3, 3)],
        &[(2, -4), (0, -3), (2, -1), (-3, 0), (3, 0), (-4, 2), (-1, 2), (2, 2), (0, 3)],
    ],
};

fn kite_class(Cell { a, b }: Cell) -> i32 {
    let (a, b) = (a.rem_euclid(6), b.rem_euclid(6));
    let line = if b < 3 { b - 1 } else { b - 2 };
    2 * line + a / 3
}

fn square_turn(turn: u32, Cell { a, b }: Cell) -> Cell {
    let (a, b) = match turn {
        0 => (a, b),
        1 => (-b, a),
        2 => (-a, -b),
        3 => (b, -a),
        4 => (b, a),
        5 => (-a, b),
        6 => (-b, -a),
        _ => (a, -b),
    };
    Cell { a, b }
}

fn hex_turn(turn: u32, Cell { a, b }: Cell) -> Cell {
    let (a, b) = match turn {
        0 => (a, b),
        1 => (-b, a + b),
        2 => (-a - b, a),
        3 => (-a, -b),
        4 => (b, -a - b),
        5 => (a + b, -a),
        6 => (b, a),
        7 => (-a, a + b),
        8 => (-a - b, b),
        9 => (-b, -a),
        10 => (a, -a - b),
        _ => (a + b, -b),
    };
    Cell { a, b }
}

impl Grid {
    pub fn named(name: &str) -> Option<&'static Grid> {
        match name {
            "square" => Some(&SQUARE),
            "hex" => Some(&HEX),
            "iamond" => Some(&IAMOND),
            "kite" => Some(&KITE),
            _ => None,
        }
    }

    /// How many classes there are.
    pub fn classes(&self) -> usize {
        self.cells.len()
    }

    /// The class of a cell.
    pub fn class(&self, c: Cell) -> usize {
        (self.class)(c) as usize
    }

    /// The cell of a class in a unit, if it has one.
    pub fn cell_of(&self, unit: Cell, class: usize) -> Option<Cell> {
        self.cells[class].map(|(a, b)| self.moved(Cell { a, b }, unit.a, unit.b))
    }

    /// The unit that a cell lies in, as a pair of whole numbers.
    pub fn unit_of(&self, c: Cell) -> Cell {
        Cell { a: c.a.div_euclid(self.unit), b: c.b.div_euclid(self.unit) }
    }

    pub fn turned(&self, turn: u32, c: Cell) -> Cell {
        (self.turn)(turn, c)
    }

    /// The cell moved by so many units.
    pub fn moved(&self, c: Cell, da: i32, db: i32) -> Cell {
        Cell { a: c.a + self.unit * da, b: c.b + self.unit * db }
    }

    pub fn image(&self, by: Isometry, c: Cell) -> Cell {
        self.moved(self.turned(by.turn, c), by.da, by.db)
    }

    /// The cells with a common side, in cell order.
    pub fn adjacent(&self, c: Cell) -> impl Iterator<Item = Cell> {
        self.adjacent[self.class(c)].iter().map(move |(a, b)| Cell { a: c.a + a, b: c.b + b })
    }

    /// The cells with a common corner, in cell order.
    pub fn touching(&self, c: Cell) -> impl Iterator<Item = Cell> {
        self.touching[self.class(c)].iter().map(move |(a, b)| Cell { a: c.a + a, b: c.b + b })
    }
}
