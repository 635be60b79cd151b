//! The catalogue of a size, as a plain Rust program writes it by the methods of `heesch classify`: `classify GRID N`,
//! of version 2, with the limits by default. Plain tilings come first, then covers by masks, then coronas level by
//! level. No formula is made.
mod covers;
mod grids;
mod holes;
mod lattices;
mod lazy;
mod learning;
mod lists;
mod literals;
mod masks;
mod owners;
mod periods;
mod proofs;
#[allow(dead_code)]
mod raster;
#[allow(dead_code)]
mod shapes;
mod store;
mod tables;
mod texts;
mod trail;
mod universe;
mod wants;

use covers::Cover;
use grids::{Grid, Isometry};
use lattices::Triple;
use lazy::{Found, Search};
use owners::CoronaNumbers;
use periods::{Period, Planned};
use proofs::Log;
use shapes::{Plain, Shape};
use std::fmt::{self, Display};
use std::io::{self, Write};
use tables::LEVELS;
use texts::{push_cells, push_layer};
use universe::Universe;

const TURNS: usize = 20_000;
const DOMAIN: usize = 4;
const SIZE: u64 = 60_000_000;

impl Display for Isometry {
    fn fmt(&self, f: &mut fmt::Formatter) -> fmt::Result {
        write!(f, "{} {} {}", self.turn, self.da, self.db)
    }
}

impl Display for Triple {
    fn fmt(&self, f: &mut fmt::Formatter) -> fmt::Result {
        write!(f, "{} {} {}", self.p, self.q, self.s)
    }
}

/// The verdict line and the lines of the evidence.
struct Entry {
    verdict: String,
    evidence: Vec<u8>,
}

/// What is made once for a grid and a size.
struct Classifier {
    grid: &'static Grid,
    size: usize,
    plan: Vec<Planned>,
}

/// The answer of a search at one level.
enum Answer {
    Coronas(Vec<Vec<Isometry>>),
    None(Log),
    TooLarge,
}

/// The coronas of the universe's level, hole-free where asked for.
fn coronas(universe: &Universe, hole_free: bool) -> Answer {
    if !owners::fits(&universe.table, SIZE) {
        return Answer::TooLarge;
    }
    let mut search = Search::new(&universe.table, TURNS);
    let mut cuts = Vec::new();
    while search.next() == Found::Model {
        let chosen = search.chosen();
        let cut = if hole_free { holes::cut_for(universe, &chosen) } else { None };
        let Some(cut) = cut else {
            return Answer::Coronas(universe.layers(&chosen));
        };
        if search.is_spent() {
            break;
        }
        search.give(cut.clause.clone());
        cuts.push(cut);
    }
    let (store, last) = search.into_log();
    Answer::None(Log { store, last, cuts })
}

fn write_proof(text: &mut Vec<u8>, head: &str, universe: &Universe, log: &Log) {
    writeln!(text, "{head} {}", log.ending()).unwrap();
    log.write(&mut CoronaNumbers::new(&universe.table), text);
}

fn write_layers(text: &mut Vec<u8>, head: &str, layers: &[Vec<Isometry>]) {
    writeln!(text, "{head} {}", layers.len()).unwrap();
    layers.iter().for_each(|layer| push_layer(text, layer));
}

impl Classifier {
    fn new(grid: &'static Grid, size: usize) -> Classifier {
        Classifier { grid, size, plan: periods::plan(grid, covers::domain_triples(grid, size, DOMAIN)) }
    }

    /// The first cover by 2 tiles or more.
    fn cover(&self, images: &[(Shape, Isometry)]) -> Option<Cover> {
        let firsts = self.plan.iter().enumerate().filter(|(at, planned)| *at == planned.first);
        firsts.map(|(_, planned)| &planned.torus).find_map(|torus| {
            let Triple { p, q, .. } = torus.triple;
            let count = (p * q) as usize * self.grid.per / self.size;
            Some(Cover { triple: torus.triple, tiles: torus.cover(images, count)? })
        })
    }

    fn write_entry(&self, shape: &Shape, out: &mut impl Write) -> io::Result<()> {
        let mut text = b"shape".to_vec();
        push_cells(&mut text, shape.cells());
        writeln!(text)?;
        let still = Isometry { turn: 0, da: 0, db: 0 };
        let images = shape.images(self.grid);
        let (kind, cover) = match shapes::plain(self.grid, shape.cells()) {
            Some(Plain::Translation { triple }) => ("translation", Some(Cover { triple, tiles: vec![still] })),
            Some(Plain::HalfTurn { triple, da, db }) => {
                let turned = Isometry { turn: self.grid.half_turn, da, db };
                ("halfturn", Some(Cover { triple, tiles: vec![still, turned] }))
            }
            None => ("periodic", self.cover(&images)),
        };
        if let Some(cover) = cover {
            self.write_tiling(&mut text, kind, shape, &cover);
            return out.write_all(&text);
        }
        let Entry { verdict, evidence } = surrounded(&mut Universe::new(self.grid, shape, &images));
        writeln!(text, "verdict {verdict}")?;
        out.write_all(&text)?;
        out.write_all(&evidence)?;
        if verdict.starts_with("undecided") {
            self.write_periods(&images, out)?;
        }
        Ok(())
    }

    fn write_tiling(&self, text: &mut Vec<u8>, kind: &str, shape: &Shape, cover: &Cover) {
        let members = covers::members(self.grid, shape, cover);
        let classes = members.iter().map(|member| member.class).max().unwrap_or(0);
        writeln!(text, "verdict tiles {kind} domain {} classes {classes}", members.len()).unwrap();
        writeln!(text, "lattice {}", cover.triple).unwrap();
        for (by, member) in cover.tiles.iter().zip(&members) {
            writeln!(text, "tile {by} class {} by {}", member.class, member.by).unwrap();
        }
    }

    /// The logs of all triples, which have no cover.
    fn write_periods(&self, images: &[(Shape, Isometry)], out: &mut impl Write) -> io::Result<()> {
        let mut known: Vec<Option<Period>> = Vec::new();
        for (at, Planned { torus, first }) in self.plan.iter().enumerate() {
            known.push((*first == at).then(|| Period::search(torus, images, TURNS)));
            let period = known[*first].as_ref().expect("the log of the class");
            let mut text = Vec::new();
            writeln!(text, "triple {} {}", torus.triple, period.log.ending())?;
            period.write(self.grid, torus, images, &mut text);
            out.write_all(&text)?;
        }
        Ok(())
    }
}

/// The entry of a shape without a cover, by the hole-free coronas that it has.
fn surrounded(universe: &mut Universe) -> Entry {
    let mut evidence = b"coronas 0\n".to_vec();
    for level in 1..=LEVELS {
        universe.extend();
        let log = match coronas(universe, true) {
            Answer::Coronas(layers) => {
                evidence.clear();
                write_layers(&mut evidence, "coronas", &layers);
                continue;
            }
            Answer::TooLarge => {
                writeln!(evidence, "wall {level} size").unwrap();
                return Entry { verdict: format!("undecided size {} free {level}", level - 1), evidence };
            }
            Answer::None(log) => log,
        };
        write_proof(&mut evidence, &format!("wall {level}"), universe, &log);
        if !log.is_refuted() {
            return Entry { verdict: format!("undecided turns {} free {level}", level - 1), evidence };
        }
        if log.has_cut() {
            drop(log);
            return bare(universe, evidence);
        }
        writeln!(evidence, "bare {level} same").unwrap();
        return Entry { verdict: format!("heesch {} nontiler {level}", level - 1), evidence };
    }
    Entry { verdict: format!("undecided levels {LEVELS}"), evidence }
}

/// The entry of a shape with one hole-free corona fewer than the universe's level, by those with holes.
fn bare(universe: &mut Universe, mut evidence: Vec<u8>) -> Entry {
    let from = universe.table.level();
    let free = from - 1;
    let mut wider = Vec::new();
    for level in from..=LEVELS {
        if level > from {
            universe.extend();
        }
        let verdict = match coronas(universe, false) {
            Answer::Coronas(layers) => {
                wider = layers;
                continue;
            }
            Answer::TooLarge => {
                writeln!(evidence, "bare {level} size").unwrap();
                format!("undecided size {free} bare {level}")
            }
            Answer::None(log) => {
                write_proof(&mut evidence, &format!("bare {level}"), universe, &log);
                if log.is_refuted() {
                    format!("heesch {free} nontiler {level}")
                } else {
                    format!("undecided turns {free} bare {level}")
                }
            }
        };
        if !wider.is_empty() {
            write_layers(&mut evidence, "open", &wider);
        }
        return Entry { verdict, evidence };
    }
    writeln!(evidence, "bare {LEVELS} open").unwrap();
    write_layers(&mut evidence, "open", &wider);
    Entry { verdict: format!("undecided holes {free}"), evidence }
}

fn catalogue(grid: &'static Grid, name: &str, size: usize, out: &mut impl Write) -> io::Result<()> {
    let classifier = Classifier::new(grid, size);
    let shapes = shapes::free_shapes(grid, size);
    writeln!(out, "heesch 2 {name} {size} turns {TURNS} levels {LEVELS} domain {DOMAIN} size {SIZE}")?;
    for shape in &shapes {
        classifier.write_entry(shape, out)?;
    }
    writeln!(out, "end {}", shapes.len())
}

fn main() -> io::Result<()> {
    let args: Vec<String> = std::env::args().collect();
    let [_, name, size] = &args[..] else { panic!("classify GRID N") };
    let grid = Grid::named(name).expect("square, hex, iamond or kite");
    let mut out = io::BufWriter::new(io::stdout().lock());
    catalogue(grid, name, size.parse().expect("a size"), &mut out)?;
    out.flush()
}
