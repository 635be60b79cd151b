//! Cuts against holes in the patches of a model.

use crate::grids::Cell;
use crate::literals::Lit;
use crate::raster::Raster;
use crate::tables::want_for;
use crate::universe::Universe;

/// A hole that placements of so many levels enclose, the variables around it, and the clause against it.
pub struct Cut {
    pub level: usize,
    pub hole: Vec<Cell>,
    pub border: Vec<u32>,
    pub clause: Vec<Lit>,
}

/// The shape in a patch.
const SHAPE: u32 = u32::MAX;

/// By cell, the variable whose tile has it, SHAPE, or 0.
struct Patch<'a> {
    universe: &'a Universe,
    holders: Vec<u32>,
    cells: Vec<i32>,
}

#[derive(Clone, Copy, PartialEq, Eq)]
enum Place {
    Patch,
    /// Outside the patch, and touching it.
    Beside,
    Far,
    Reached,
}

/// The cells that paths through such places join to this one, in order, none where it isn't such a place. They are
/// reached now.
fn flood(raster: &Raster, from: i32, places: &mut [Place], through: &[Place]) -> Vec<i32> {
    let mut part = Vec::new();
    let mut reach = |c: i32, part: &mut Vec<i32>| {
        if through.contains(&places[c as usize]) {
            places[c as usize] = Place::Reached;
            part.push(c);
        }
    };
    reach(from, &mut part);
    let mut looked = 0;
    while let Some(c) = part.get(looked).copied() {
        looked += 1;
        raster.adjacent(c).for_each(|d| reach(d, &mut part));
    }
    part.sort_unstable();
    part
}

impl Patch<'_> {
    fn add(&mut self, cells: impl Iterator<Item = usize>, holder: u32) {
        for c in cells {
            self.holders[c] = holder;
            self.cells.push(c as i32);
        }
    }

    /// The joined parts of the patch's holes.
    ///
    /// The patch is connected, so each part of what lies outside it has one edge, and the cells along that are joined
    /// by cells along it. The least cell beside the patch is in no hole: below a hole's least cell is one of the patch,
    /// and below that at last one outside.
    fn holes(&self) -> Vec<Vec<i32>> {
        let raster = &self.universe.raster;
        let mut places = vec![Place::Far; self.holders.len()];
        self.cells.iter().for_each(|c| places[*c as usize] = Place::Patch);
        let mut beside = Vec::new();
        for c in self.cells.iter().flat_map(|c| raster.touching(*c)) {
            if places[c as usize] == Place::Far {
                places[c as usize] = Place::Beside;
                beside.push(c);
            }
        }
        let mut flood = |from: i32, through: &[Place]| flood(raster, from, &mut places, through);
        flood(beside.iter().copied().min().expect("a cell outside"), &[Place::Beside]);
        let parts = beside.iter().map(|from| flood(*from, &[Place::Beside, Place::Far]));
        parts.filter(|part| !part.is_empty()).collect()
    }

    fn cut(&self, level: usize, hole: &[i32]) -> Cut {
        let Universe { raster, table, .. } = self.universe;
        let beside = hole.iter().flat_map(|c| raster.adjacent(*c)).map(|c| self.holders[c as usize]);
        let mut border: Vec<u32> = beside.filter(|holder| ![0, SHAPE].contains(holder)).collect();
        border.sort_unstable();
        border.dedup();
        let over = |c: &i32| table.candidates(want_for(*c as usize, level)).iter();
        let fillers = hole.iter().flat_map(over).map(|var| Lit::positive(*var));
        let mut clause: Vec<Lit> = border.iter().map(|var| Lit::negative(*var)).chain(fillers).collect();
        clause.sort_unstable();
        clause.dedup();
        Cut { level, hole: hole.iter().map(|c| raster.cell(*c)).collect(), border, clause }
    }
}

/// Of the least level whose patch of these variables, which rise, has holes: the cut against one of them with the
/// fewest literals.
pub fn cut_for(universe: &Universe, chosen: &[u32]) -> Option<Cut> {
    let table = &universe.table;
    let mut patch = Patch { universe, holders: vec![0; table.cell_count()], cells: Vec::new() };
    patch.add((0..table.cell_count()).filter(|c| table.is_own[*c]), SHAPE);
    (1..=table.level()).find_map(|level| {
        for var in chosen.iter().copied().filter(|var| table.level_of(*var) == level) {
            patch.add(table.cells(var), var);
        }
        let cuts = patch.holes().into_iter().map(|hole| patch.cut(level, &hole));
        cuts.min_by_key(|cut| cut.clause.len())
    })
}
