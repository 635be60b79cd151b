//! The corona formula of a shape of squares, as the plain Rust program makes it (coronas.rs), to compare with `encode`:
//! `encode LEVEL A,B A,B ..`. It prints the variables, clauses and literals, and the milliseconds that the variables
//! and the whole took.
#[allow(dead_code)]
mod cdcl;
#[allow(dead_code)]
mod coronas;
#[allow(dead_code)]
mod grids;
#[allow(dead_code)]
mod lattices;
#[allow(dead_code)]
mod literals;
#[allow(dead_code)]
mod shapes;

use coronas::{Universe, Window};
use grids::Grid;
use shapes::Shape;
use std::time::Instant;

const SIZE: usize = 60_000_000;

fn main() {
    let args: Vec<String> = std::env::args().collect();
    let levels: usize = args[1].parse().unwrap();
    let grid = Grid::named("square").unwrap();
    let shape = Shape::parse(grid, &args[2..].join(" ")).unwrap();
    let start = Instant::now();
    let window = Window::new(grid, shape.cells().len(), levels);
    let mut universe = Universe::new(&window, &shape, &shape.images(grid));
    (0..levels).for_each(|_| universe.extend());
    let made = start.elapsed().as_millis();
    let formula = universe.formula(SIZE).unwrap();
    let whole = start.elapsed().as_millis();
    println!("{} {} {}", formula.vars(), formula.count(), formula.size());
    println!("universe {made} ms, all {whole} ms");
}
