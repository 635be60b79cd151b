//! The free polyforms of a size, as a plain Rust program lists them (shapes.rs): `list GRID N`, for comparison with
//! `heesch list GRID N`. `plain GRID N` adds each shape's first tiling by translations, or by translations and
//! half-turns.
#[allow(dead_code)]
mod grids;
#[allow(dead_code)]
mod lattices;
#[allow(dead_code)]
mod shapes;

use grids::{Cell, Grid};
use shapes::Plain;
use std::io::Write;

fn tiling(grid: &Grid, cells: &[Cell]) -> String {
    match shapes::plain(grid, cells) {
        Some(Plain::Translation { triple }) => format!(" translation {} {} {}", triple.p, triple.q, triple.s),
        Some(Plain::HalfTurn { triple, da, db }) => {
            format!(" halfturn {} {} {} {da} {db}", triple.p, triple.q, triple.s)
        }
        None => " none".to_string(),
    }
}

fn main() {
    let args: Vec<String> = std::env::args().collect();
    let grid = Grid::named(&args[2]).unwrap();
    let mut out = std::io::BufWriter::new(std::io::stdout().lock());
    for shape in shapes::free_shapes(grid, args[3].parse().unwrap()) {
        let line: Vec<String> = shape.cells().iter().map(|c| format!("{},{}", c.a, c.b)).collect();
        let tiling = if args[1] == "plain" { tiling(grid, shape.cells()) } else { String::new() };
        writeln!(out, "{}{tiling}", line.join(" ")).unwrap();
    }
}
