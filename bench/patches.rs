//! Layers of placements around a shape: whether they are coronas, with or without holes, and
//! spelled as a catalogue does.

use crate::grids::{Cell, Grid, Isometry};
use crate::raster::Raster;
use crate::shapes::Shape;

/// By number of a cell: the layer of the placement that has it.
type Patch = Vec<Option<usize>>;

/// A shape with its images.
#[derive(Clone, Copy)]
pub struct Subject<'a> {
    pub grid: &'static Grid,
    pub shape: &'a Shape,
    pub images: &'a [(Shape, Isometry)],
}

impl Subject<'_> {
    /// The cells of a placement by its least isometry, in order, or None where another is less.
    fn placement(&self, by: &Isometry) -> Option<Vec<Cell>> {
        let (image, of) = self.images.iter().find(|(_, of)| of.turn == by.turn)?;
        let (da, db) = (by.da - of.da, by.db - of.db);
        Some(image.cells().iter().map(|c| self.grid.moved(*c, da, db)).collect())
    }

    /// No cell of so many coronas has a coordinate further from 0.
    fn reach(&self, layers: usize) -> i32 {
        let cells = self.images.iter().flat_map(|(image, _)| image.cells());
        let extent = cells.map(|c| c.a.max(c.b)).max().unwrap_or(0);
        (extent + 2 * self.grid.unit) * (layers as i32 + 1)
    }

    /// Whether these layers are coronas, hole-free where that is asked for. A layer's places have
    /// to be least isometries, in the order of their cell lists.
    pub fn has_coronas(&self, layers: &[Vec<Isometry>], hole_free: bool) -> bool {
        let placed = |layer: &Vec<Isometry>| layer.iter().map(|by| self.placement(by)).collect();
        let Some(layers) = layers.iter().map(placed).collect::<Option<Vec<Vec<Vec<Cell>>>>>()
        else {
            return false;
        };
        let reach = self.reach(layers.len());
        let is_near = |c: &Cell| c.a.abs() <= reach && c.b.abs() <= reach;
        let spelled = layers.iter().all(|layer| layer.is_sorted_by(|one, next| one < next));
        if !spelled || !layers.iter().flatten().flatten().all(is_near) {
            return false;
        }
        let cells = layers.iter().flatten().flatten().chain(self.shape.cells()).copied();
        let raster = Raster::around(self.grid, cells, 3);
        let numbers =
            |cells: &[Cell]| -> Vec<i32> { cells.iter().map(|c| raster.number(*c)).collect() };
        let mut patch = vec![None; raster.len()];
        let mut all = numbers(self.shape.cells());
        all.iter().for_each(|c| patch[*c as usize] = Some(0));
        (1..).zip(&layers).all(|(level, layer)| {
            let tiles: Vec<Vec<i32>> = layer.iter().map(|tile| numbers(tile)).collect();
            let surrounds = add_corona(&raster, &mut patch, &all, level, &tiles);
            all.extend(tiles.iter().flatten());
            surrounds && !(hole_free && has_hole(&raster, &patch, &all))
        })
    }
}

/// Adds a layer to a patch of these cells; whether it is a corona.
fn add_corona(
    raster: &Raster,
    patch: &mut Patch,
    cells: &[i32],
    level: usize,
    tiles: &[Vec<i32>],
) -> bool {
    for tile in tiles {
        let is_apart = tile.iter().all(|c| patch[*c as usize].is_none());
        let is_earlier = |c: i32| patch[c as usize].is_some_and(|layer| layer < level);
        if !is_apart || !tile.iter().any(|c| raster.touching(*c).any(is_earlier)) {
            return false;
        }
        tile.iter().for_each(|c| patch[*c as usize] = Some(level));
    }
    cells.iter().all(|c| raster.touching(*c).all(|d| patch[d as usize].is_some()))
}

/// Whether a part of the patch's complement is shut in: beside the patch, and not reached from the
/// raster's corner. A path that leaves the raster at one side, and comes in at the other, does no
/// harm.
fn has_hole(raster: &Raster, patch: &Patch, cells: &[i32]) -> bool {
    let mut reached: Vec<bool> = patch.iter().map(Option::is_some).collect();
    let mut open = vec![0];
    while let Some(c) = open.pop() {
        for d in raster.adjacent(c) {
            if reached.get(d as usize).is_some_and(|is_reached| !is_reached) {
                reached[d as usize] = true;
                open.push(d);
            }
        }
    }
    cells.iter().any(|c| raster.adjacent(*c).any(|d| !reached[d as usize]))
}
