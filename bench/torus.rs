//! The torus formulas of shapes, as a plain Rust program builds them by the same method: residue sets in an ordered
//! map, lists of variables by cells, marks for the pairs, and clauses in one array. Reads lines of cells as `A,B`, and prints for each shape
//! the variables, clauses and literals of its formulas for all triples of domain 4, and the time.
use std::collections::BTreeMap;
use std::io::BufRead;
use std::time::Instant;

const MOST: usize = 32;
const DOMAIN: usize = 4;

/// Cells are pairs (b, a), so that tuples compare in cell order.
type Cell = (i32, i32);

#[derive(Clone, Copy, PartialEq, Eq)]
struct Residues {
    cells: [Cell; MOST],
    count: usize,
}

impl Residues {
    fn cells(&self) -> &[Cell] {
        &self.cells[..self.count]
    }
}

impl Ord for Residues {
    fn cmp(&self, other: &Self) -> std::cmp::Ordering {
        self.cells().cmp(other.cells())
    }
}

impl PartialOrd for Residues {
    fn partial_cmp(&self, other: &Self) -> Option<std::cmp::Ordering> {
        Some(self.cmp(other))
    }
}

struct Iso {
    turn: u32,
    da: i32,
    db: i32,
}

/// Clauses one after another: each literal is twice its variable, and one more where it is positive.
#[derive(Default)]
struct Formula {
    literals: Vec<u32>,
    ends: Vec<u32>,
}

impl Formula {
    fn add(&mut self, clause: impl IntoIterator<Item = u32>) {
        self.literals.extend(clause);
        self.ends.push(self.literals.len() as u32);
    }
}

#[derive(Clone, Copy)]
struct Triple {
    p: i32,
    q: i32,
    s: i32,
}

fn turn(k: u32, (b, a): Cell) -> Cell {
    match k {
        0 => (b, a),
        1 => (a, -b),
        2 => (-b, -a),
        3 => (-a, b),
        4 => (a, b),
        5 => (b, -a),
        6 => (-a, -b),
        _ => (-b, a),
    }
}

fn reduce(triple: Triple, (b, a): Cell) -> Cell {
    let row = b.div_euclid(triple.q);
    (b.rem_euclid(triple.q), (a - row * triple.s).rem_euclid(triple.p))
}

fn residues(cells: &[Cell], triple: Triple, by: &Iso) -> Option<Residues> {
    let mut set = Residues {
        cells: [(0, 0); MOST],
        count: cells.len(),
    };
    for (i, c) in cells.iter().enumerate() {
        let (b, a) = turn(by.turn, *c);
        set.cells[i] = reduce(triple, (b + by.db, a + by.da));
    }
    set.cells[..cells.len()].sort_unstable();
    if set.cells().windows(2).any(|pair| pair[0] == pair[1]) {
        return None;
    }
    Some(set)
}

fn variables(cells: &[Cell], triple: Triple) -> Vec<(Residues, Iso)> {
    let mut found: BTreeMap<Residues, Iso> = BTreeMap::new();
    for turn in 0..8 {
        for k in 0..triple.p * triple.q {
            let by = Iso {
                turn,
                da: k % triple.p,
                db: k / triple.p,
            };
            if let Some(set) = residues(cells, triple, &by) {
                if !found.contains_key(&set) {
                    found.insert(set, by);
                }
            }
        }
    }
    found.into_iter().collect()
}

fn formula(cells: &[Cell], triple: Triple) -> (usize, Formula) {
    let variables = variables(cells, triple);
    let number = |c: &Cell| (c.0 * triple.p + c.1) as usize;
    let mut lists: Vec<Vec<u32>> = vec![Vec::new(); (triple.p * triple.q) as usize];
    for (before, (set, _)) in variables.iter().enumerate() {
        for c in set.cells() {
            lists[number(c)].push(before as u32 + 1);
        }
    }
    let mut formula = Formula::default();
    for list in &lists {
        formula.add(list.iter().map(|var| 2 * var + 1));
    }
    let mut marks = vec![0; variables.len() + 1];
    for (before, (set, _)) in variables.iter().enumerate() {
        let first = before as u32 + 1;
        for c in set.cells() {
            for var in &lists[number(c)] {
                marks[*var as usize] = first;
            }
        }
        for second in first + 1..marks.len() as u32 {
            if marks[second as usize] == first {
                formula.add([2 * first, 2 * second]);
            }
        }
    }
    (variables.len(), formula)
}

fn main() {
    for line in std::io::stdin().lock().lines() {
        let line = line.unwrap();
        let mut cells: Vec<Cell> = Vec::new();
        for word in line.split_whitespace() {
            let (a, b) = word.split_once(',').unwrap();
            cells.push((b.parse().unwrap(), a.parse().unwrap()));
        }
        cells.sort_unstable();
        let area = (cells.len() * DOMAIN) as i32;
        let start = Instant::now();
        let mut counts = (0, 0, 0);
        for p in (1..=area).filter(|p| area % p == 0) {
            for s in 0..p {
                let triple = Triple { p, q: area / p, s };
                let (vars, formula) = formula(&cells, triple);
                counts.0 += vars;
                counts.1 += formula.ends.len();
                counts.2 += formula.literals.iter().filter(|literal| **literal > 1).count();
            }
        }
        println!("{} {} {}: {} ms", counts.0, counts.1, counts.2, start.elapsed().as_millis());
    }
}
