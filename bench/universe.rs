//! The placements around a shape, level by level, as a table: the variables of its corona formulas.

use crate::grids::{Grid, Isometry};
use crate::lists::Lists;
use crate::raster::{ring_of, Raster};
use crate::shapes::Shape;
use crate::tables::{Forms, Table, Tile, LEVELS};

/// A turned shape: its cells and those around it, when it lies where its isometry takes it.
struct Image {
    by: Isometry,
    cells: Vec<i32>,
    /// By cell, its class.
    classes: Vec<usize>,
    around: Vec<i32>,
}

pub struct Universe {
    grid: &'static Grid,
    pub raster: Raster,
    images: Vec<Image>,
    pub table: Table,
    /// By spot, whether its tile meets or touches the shape.
    is_near: Vec<bool>,
}

/// Room for the placements of all levels, and for those that touch them: those that touch each other lie no more units
/// apart than an image has rows or columns.
fn raster_for(grid: &'static Grid, images: &[(Shape, Isometry)]) -> Raster {
    let cells = || images.iter().flat_map(|(image, _)| image.cells().iter().copied());
    let extent = cells().map(|c| grid.unit_of(c)).map(|unit| unit.a.max(unit.b)).max().unwrap_or(0);
    Raster::around(grid, cells(), (LEVELS as i32 + 1) * (extent + 1) + 2)
}

/// The spots of the tiles that have one of these cells, some of them more than once.
fn spots_over<'a>(raster: &'a Raster, images: &'a [Image], cells: &'a [i32]) -> impl Iterator<Item = usize> + 'a {
    cells.iter().flat_map(move |to| {
        let class = raster.class(*to);
        images.iter().enumerate().flat_map(move |(form, image)| {
            let alike = image.cells.iter().zip(&image.classes).filter(move |(_, of)| **of == class);
            let first = image.cells[0];
            alike.map(move |(from, _)| (to - from + first) as usize * images.len() + form)
        })
    })
}

/// What tiles of the form of each image have.
fn forms_of(raster: &Raster, images: &[Image]) -> Forms {
    let (mut cells, mut around, mut near) = (Lists::new(), Lists::new(), Lists::new());
    let mut is_known = vec![false; raster.len() * images.len()];
    for (form, image) in images.iter().enumerate() {
        let first = image.cells[0];
        let spot = (first as usize * images.len() + form) as i32;
        let meeting: Vec<usize> = spots_over(raster, images, &image.cells).collect();
        meeting.iter().for_each(|other| is_known[*other] = true);
        let touching = spots_over(raster, images, &image.around);
        let touching: Vec<usize> = touching.filter(|other| !std::mem::replace(&mut is_known[*other], true)).collect();
        cells.push(image.cells.iter().map(|c| c - first));
        around.push(image.around.iter().map(|c| c - first));
        near.push(touching.iter().map(|other| *other as i32 - spot));
        meeting.iter().chain(&touching).for_each(|other| is_known[*other] = false);
    }
    Forms { cells, around, near }
}

impl Universe {
    /// No placement yet of a shape with these images.
    pub fn new(grid: &'static Grid, shape: &Shape, images: &[(Shape, Isometry)]) -> Universe {
        let raster = raster_for(grid, images);
        let image = |(image, by): &(Shape, Isometry)| Image {
            by: *by,
            cells: image.cells().iter().map(|c| raster.number(*c)).collect(),
            classes: image.cells().iter().map(|c| grid.class(*c)).collect(),
            around: ring_of(grid, image.cells()).iter().map(|c| raster.number(*c)).collect(),
        };
        let mut images: Vec<Image> = images.iter().map(image).collect();
        images.sort_unstable_by_key(|image| image.cells.iter().map(|c| c - image.cells[0]).collect::<Vec<_>>());
        let cells: Vec<i32> = shape.cells().iter().map(|c| raster.number(*c)).collect();
        let around: Vec<i32> = ring_of(grid, shape.cells()).iter().map(|c| raster.number(*c)).collect();
        let mut is_near = vec![false; raster.len() * images.len()];
        spots_over(&raster, &images, &cells)
            .chain(spots_over(&raster, &images, &around))
            .for_each(|spot| is_near[spot] = true);
        let forms = forms_of(&raster, &images);
        let mut table = Table::new(forms, raster.len(), around.iter().map(|c| *c as u32).collect());
        cells.iter().for_each(|c| table.is_own[*c as usize] = true);
        Universe { grid, raster, images, table, is_near }
    }

    /// Adds the variables of the next level: the placements that touch one of the last, or at first the shape, and
    /// don't touch the shape from level 2 on.
    pub fn extend(&mut self) {
        let mut at = vec![0; self.is_near.len()];
        let level = self.table.level();
        if level == 0 {
            let still = self.images.iter().position(|image| image.by.turn == 0).expect("the shape itself");
            let spot = (self.images[still].cells[0] as usize * self.images.len() + still) as i32;
            self.table.forms.near.get(still).iter().for_each(|step| at[(spot + step) as usize] = 1);
        } else {
            for var in self.table.of_level(level) {
                self.table.spots_near(var).for_each(|spot| at[spot] = u32::from(!self.is_near[spot]));
            }
        }
        let (mut tiles, mut count) = (Vec::new(), self.table.vars());
        for (spot, var) in at.iter_mut().enumerate().filter(|(_, var)| **var > 0) {
            count += 1;
            *var = count;
            let (first, form) = (spot / self.images.len(), spot % self.images.len());
            tiles.push(Tile { form: form as u32, first: first as i32 });
        }
        self.table.add_level(tiles, at);
    }

    /// The least isometry of a placement.
    fn isometry(&self, var: u32) -> Isometry {
        let Tile { form, first } = self.table.tile(var);
        let Image { by, cells, .. } = &self.images[form as usize];
        let (from, to) = (self.raster.cell(cells[0]), self.raster.cell(first));
        let unit = self.grid.unit;
        Isometry { turn: by.turn, da: by.da + (to.a - from.a) / unit, db: by.db + (to.b - from.b) / unit }
    }

    /// The layers of these placements, which rise: the least isometries, level by level.
    pub fn layers(&self, chosen: &[u32]) -> Vec<Vec<Isometry>> {
        let of_level = |level| chosen.iter().copied().filter(move |var| self.table.level_of(*var) == level);
        (1..=self.table.level()).map(|level| of_level(level).map(|var| self.isometry(var)).collect()).collect()
    }
}
