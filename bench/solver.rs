//! The plain Rust solver (cdcl.rs) on corona formulas (coronas.rs) of shapes of squares, to compare with: `solver LEVEL
//! < SHAPES`, a shape a line as `0,0 1,0`, prints a line for each: its formula, the answer, and what was learnt.
//! `solver LEVEL emit` prints the formulas for solver.sh.
#[allow(dead_code)]
mod cdcl;
#[allow(dead_code)]
mod coronas;
#[allow(dead_code)]
mod grids;
#[allow(dead_code)]
mod lattices;
#[allow(dead_code)]
mod literals;
#[allow(dead_code)]
mod shapes;

use cdcl::{Formula, Solver};
use coronas::{Universe, Window};
use grids::Grid;
use shapes::Shape;
use std::io::BufRead;
use std::time::Instant;

const TURNS: usize = 20_000;
const SIZE: usize = 60_000_000;

fn formula(text: &str, levels: usize) -> Formula {
    let grid = Grid::named("square").unwrap();
    let shape = Shape::parse(grid, text).unwrap();
    let window = Window::new(grid, shape.cells().len(), levels);
    let mut universe = Universe::new(&window, &shape, &shape.images(grid));
    (0..levels).for_each(|_| universe.extend());
    universe.formula(SIZE).unwrap()
}

fn emit(formula: &Formula) {
    println!("vars {}", formula.vars());
    for number in 1..=formula.count() {
        let mut clause = formula.clause(number).to_vec();
        clause.sort_unstable();
        println!("{}", clause.iter().map(|lit| lit.to_string()).collect::<Vec<_>>().join(" "));
    }
    println!("solve");
}

fn solve(formula: Formula) {
    let sizes = format!("{} {} {}", formula.vars(), formula.count(), formula.size());
    let start = Instant::now();
    let mut solver = Solver::new(formula, TURNS);
    let found = solver.next();
    let took = start.elapsed();
    let literals: usize = (0..solver.lines.len()).map(|line| solver.line_clause(line).len()).sum();
    let (conflicts, hints) = (solver.lines.len(), solver.lines.iter().map(Vec::len).sum::<usize>());
    println!("{sizes}: {found:?} conflicts {conflicts} literals {literals} hints {hints} {took:.2?}");
}

fn main() {
    let args: Vec<String> = std::env::args().collect();
    let levels: usize = args[1].parse().unwrap();
    for line in std::io::stdin().lock().lines() {
        let formula = formula(&line.unwrap(), levels);
        if args.len() > 2 {
            emit(&formula);
        } else {
            solve(formula);
        }
    }
}
