//! The truth of an entry, read line by line.

use crate::coronas::{Universe, Window};
use crate::covers::{domain_triples, members, Cover};
use crate::grids::{Cell, Grid, Isometry};
use crate::lattices::Triple;
use crate::logs::{check_proof, Ending};
use crate::numbers::{CoronaClauses, Version};
use crate::patches::Subject;
use crate::placed::Placements;
use crate::raster::is_cell;
use crate::shapes::{plain, Plain, Shape};
use crate::tori::TorusClauses;
use crate::words::{cell, place, Lines, Words};
use crate::Limits;
use std::cell::OnceCell;

/// Shapes of more cells aren't known here (shapes.rs).
const MOST_CELLS: usize = 16;

const STILL: Isometry = Isometry { turn: 0, da: 0, db: 0 };

/// Which search a limit ended: that for hole-free coronas, or that for coronas with holes.
#[derive(Clone, Copy, PartialEq)]
enum Phase {
    Free,
    Bare,
}

enum Kind {
    Translation,
    HalfTurn,
    Periodic,
}

enum Verdict {
    Tiles { kind: Kind, domain: usize, classes: usize },
    Heesch { free: usize, nontiler: usize },
    Levels { free: usize },
    Holes { free: usize },
    Turns { free: usize, phase: Phase, at: usize },
    Size { free: usize, phase: Phase, at: usize },
}

impl Verdict {
    fn read(mut words: Words) -> Option<Verdict> {
        let verdict = match words.next()? {
            "tiles" => Verdict::read_tiling(&mut words)?,
            "heesch" => {
                let free = count(&mut words)?;
                words.expect("nontiler")?;
                Verdict::Heesch { free, nontiler: count(&mut words)? }
            }
            "undecided" => Verdict::read_undecided(&mut words)?,
            _ => return None,
        };
        words.end()?;
        Some(verdict)
    }

    fn read_tiling(words: &mut Words) -> Option<Verdict> {
        let kind = match words.next()? {
            "translation" => Kind::Translation,
            "halfturn" => Kind::HalfTurn,
            "periodic" => Kind::Periodic,
            _ => return None,
        };
        words.expect("domain")?;
        let domain = count(words)?;
        words.expect("classes")?;
        Some(Verdict::Tiles { kind, domain, classes: count(words)? })
    }

    fn read_undecided(words: &mut Words) -> Option<Verdict> {
        let limit = words.next()?;
        let free = count(words)?;
        match limit {
            "levels" => return Some(Verdict::Levels { free }),
            "holes" => return Some(Verdict::Holes { free }),
            _ => {}
        }
        let phase = match words.next()? {
            "free" => Phase::Free,
            "bare" => Phase::Bare,
            _ => return None,
        };
        let at = count(words)?;
        match limit {
            "turns" => Some(Verdict::Turns { free, phase, at }),
            "size" => Some(Verdict::Size { free, phase, at }),
            _ => None,
        }
    }

    /// How many hole-free coronas there are.
    fn free(&self) -> usize {
        match self {
            Verdict::Tiles { .. } => 0,
            Verdict::Heesch { free, .. } | Verdict::Levels { free } | Verdict::Holes { free } => {
                *free
            }
            Verdict::Turns { free, .. } | Verdict::Size { free, .. } => *free,
        }
    }
}

fn count(words: &mut Words) -> Option<usize> {
    words.natural().map(|count| count as usize)
}

fn holds(condition: bool) -> Option<()> {
    condition.then_some(())
}

/// The shape of these cells, where they are the canonical list of a polyform.
pub fn polyform(grid: &Grid, cells: &[Cell]) -> Option<Shape> {
    assert!(cells.len() <= MOST_CELLS, "a shape of at most {MOST_CELLS} cells");
    holds(cells.is_sorted_by(|c, d| c < d) && cells.iter().all(|c| is_cell(grid, *c)))?;
    let mut joined = vec![*cells.first()?];
    let mut next = 0;
    while next < joined.len() {
        let beside = grid.adjacent(joined[next]).filter(|d| cells.contains(d));
        let new: Vec<Cell> = beside.filter(|d| !joined.contains(d)).collect();
        joined.extend(new);
        next += 1;
    }
    let text: Vec<String> = cells.iter().map(|c| format!("{},{}", c.a, c.b)).collect();
    let shape = Shape::parse(grid, &text.join(" "))?;
    (joined.len() == cells.len() && shape.cells() == cells).then_some(shape)
}

/// Whether each cell of the torus is had once by the tiles.
fn is_cover(grid: &Grid, shape: &Shape, cover: &Cover) -> bool {
    let images =
        cover.tiles.iter().flat_map(|by| shape.cells().iter().map(|c| grid.image(*by, *c)));
    let mut residues: Vec<(Cell, usize)> =
        images.map(|c| (cover.triple.reduced(grid.unit_of(c)), grid.class(c))).collect();
    residues.sort_unstable();
    residues.windows(2).all(|two| two[0] != two[1])
        && residues.len() == grid.per * area(cover.triple)
}

fn area(triple: Triple) -> usize {
    triple.p as usize * triple.q as usize
}

/// Checks entries under a header's grid, version and limits.
pub struct Judge {
    grid: &'static Grid,
    version: Version,
    limits: Limits,
    /// By number of cells.
    windows: [OnceCell<Window>; MOST_CELLS + 1],
}

impl Judge {
    pub fn new(grid: &'static Grid, version: Version, limits: Limits) -> Judge {
        Judge { grid, version, limits, windows: Default::default() }
    }

    /// Whether the text is that of a true entry. By its cells, `in_place` gives the shape that
    /// stands in its place.
    pub fn is_true(&self, text: &str, in_place: impl Fn(&[Cell]) -> Option<Shape>) -> bool {
        self.check(&mut Lines(text), in_place).is_some()
    }

    fn check(&self, lines: &mut Lines, in_place: impl Fn(&[Cell]) -> Option<Shape>) -> Option<()> {
        let shape = in_place(&lines.behind("shape")?.rest(cell)?)?;
        let admitted =
            |plain: &Plain| matches!(plain, Plain::Translation { .. }) || self.limits.domain >= 2;
        let plain = plain(self.grid, shape.cells()).filter(admitted);
        let verdict = Verdict::read(lines.behind("verdict")?)?;
        match (verdict, plain) {
            (Verdict::Tiles { kind, domain, classes }, plain) => {
                let cover = self.read_cover(lines, domain, &shape, classes)?;
                holds(has_kind(self.grid, &cover, kind, plain))?;
            }
            (verdict, None) => {
                let images = shape.images(self.grid);
                let window = self.windows[shape.cells().len()].get_or_init(|| {
                    Window::new(self.grid, shape.cells().len(), self.limits.levels)
                });
                let subject = Subject { grid: self.grid, shape: &shape, images: &images };
                let universe = Universe::new(window, &shape, &images);
                Search { judge: self, subject, universe }.check(lines, verdict)?;
            }
            _ => return None,
        }
        holds(lines.is_done())
    }

    /// The cover that is written, whose classes are these.
    fn read_cover(
        &self,
        lines: &mut Lines,
        domain: usize,
        shape: &Shape,
        classes: usize,
    ) -> Option<Cover> {
        let mut words = lines.behind("lattice")?;
        let triple = words.triple()?;
        words.end()?;
        holds(
            domain <= self.limits.domain
                && self.grid.per * area(triple) == shape.cells().len() * domain,
        )?;
        let (mut cover, mut written) = (Cover { triple, tiles: Vec::new() }, Vec::new());
        while lines.is_next("tile") {
            let mut words = lines.behind("tile")?;
            cover.tiles.push(words.isometry().filter(|by| by.turn < self.grid.turns)?);
            words.expect("class")?;
            let class = count(&mut words)?;
            words.expect("by")?;
            written.push((class, words.isometry()?));
            words.end()?;
        }
        holds(cover.tiles.len() == domain && is_cover(self.grid, shape, &cover))?;
        let members = members(self.grid, shape, &cover);
        let are_right = members.iter().map(|member| (member.class, member.by)).eq(written);
        holds(are_right && members.iter().map(|member| member.class).max() == Some(classes))?;
        Some(cover)
    }
}

/// Whether a cover is of its kind, where the shape has this plain tiling, or none that is
/// admitted.
fn has_kind(grid: &Grid, cover: &Cover, kind: Kind, plain: Option<Plain>) -> bool {
    match (kind, plain) {
        (Kind::Translation, Some(Plain::Translation { triple })) => {
            cover.triple == triple && cover.tiles == [STILL]
        }
        (Kind::HalfTurn, Some(Plain::HalfTurn { triple, da, db })) => {
            let turned = Isometry { turn: grid.half_turn, da, db };
            cover.triple == triple && cover.tiles == [STILL, turned]
        }
        (Kind::Periodic, None) => cover.tiles.len() >= 2,
        _ => false,
    }
}

/// What an entry says of a shape that isn't shown to tile.
struct Search<'a> {
    judge: &'a Judge,
    subject: Subject<'a>,
    universe: Universe<'a>,
}

impl Search<'_> {
    fn check(&mut self, lines: &mut Lines, verdict: Verdict) -> Option<()> {
        let free = verdict.free();
        let levels = self.judge.limits.levels;
        self.layers(lines, "coronas", free, true)?;
        match verdict {
            Verdict::Tiles { .. } => return None,
            Verdict::Heesch { free, nontiler } => {
                holds((free + 1..=levels).contains(&nontiler))?;
                return self.refuted(lines, free, nontiler);
            }
            Verdict::Levels { free } => holds(free == levels)?,
            Verdict::Holes { free } => {
                holds(self.wall(lines, free)? > 0)?;
                head(lines, "bare", levels, "open")?;
                self.layers(lines, "open", levels, false)?;
            }
            Verdict::Turns { free, phase: Phase::Free, at } => {
                holds(at == free + 1)?;
                self.proof(lines, "wall", at, self.spent())?;
            }
            Verdict::Size { free, phase: Phase::Free, at } => {
                holds(at == free + 1)?;
                self.too_large(lines, "wall", at)?;
            }
            Verdict::Turns { free, phase: Phase::Bare, at } => {
                holds(at > free && self.wall(lines, free)? > 0)?;
                holds(self.proof(lines, "bare", at, self.spent())? == 0)?;
                self.below(lines, free, at)?;
            }
            Verdict::Size { free, phase: Phase::Bare, at } => {
                holds(at > free && self.wall(lines, free)? > 0)?;
                self.too_large(lines, "bare", at)?;
                self.below(lines, free, at)?;
            }
        }
        self.triples(lines)
    }

    fn spent(&self) -> Ending {
        Ending::Spent { turns: self.judge.limits.turns }
    }

    /// So many hole-free coronas and no more, and one fewer than `nontiler` with holes.
    fn refuted(&mut self, lines: &mut Lines, free: usize, nontiler: usize) -> Option<()> {
        if self.wall(lines, free)? == 0 {
            holds(nontiler == free + 1)?;
            return head(lines, "bare", nontiler, "same");
        }
        holds(self.proof(lines, "bare", nontiler, Ending::Refuted)? == 0)?;
        self.below(lines, free, nontiler)
    }

    /// The refuted wall behind so many hole-free coronas; how many cuts its proof has.
    fn wall(&mut self, lines: &mut Lines, free: usize) -> Option<usize> {
        self.proof(lines, "wall", free + 1, Ending::Refuted)
    }

    /// The coronas with holes below a level that was sought with holes.
    fn below(&self, lines: &mut Lines, free: usize, level: usize) -> Option<()> {
        if level == free + 1 {
            return Some(());
        }
        self.layers(lines, "open", level - 1, false)
    }

    /// A line with this word and number, and so many layers behind it, which are coronas.
    fn layers(&self, lines: &mut Lines, word: &str, layers: usize, hole_free: bool) -> Option<()> {
        let mut words = lines.behind(word)?;
        holds(count(&mut words)? == layers && layers <= self.judge.limits.levels)?;
        words.end()?;
        let layer = |_| lines.behind("layer")?.rest(place);
        let layers: Vec<Vec<Isometry>> = (0..layers).map(layer).collect::<Option<_>>()?;
        holds(self.subject.has_coronas(&layers, hole_free))
    }

    /// The placements up to a level that the limits allow.
    fn placements(&mut self, level: usize) -> Option<Placements> {
        holds(level <= self.judge.limits.levels)?;
        while self.universe.level() < level {
            self.universe.extend();
        }
        let Subject { grid, shape, images } = self.subject;
        let layers = self.universe.layers(|_| true);
        Some(Placements::new(grid, shape, images, &layers))
    }

    /// A line with this word and level, and a proof behind it that ends so; how many cuts it has.
    fn proof(
        &mut self,
        lines: &mut Lines,
        word: &str,
        level: usize,
        ending: Ending,
    ) -> Option<usize> {
        head(lines, word, level, ending.word())?;
        let placements = self.placements(level)?;
        let mut clauses =
            CoronaClauses::new(&placements, self.judge.version, self.judge.limits.size)?;
        check_proof(lines, &mut clauses, ending)
    }

    /// A line that says that the formula of this level is too large.
    fn too_large(&mut self, lines: &mut Lines, word: &str, level: usize) -> Option<()> {
        head(lines, word, level, "size")?;
        let placements = self.placements(level)?;
        holds(
            CoronaClauses::new(&placements, self.judge.version, self.judge.limits.size).is_none(),
        )
    }

    /// All triples of the domains from 2 on, each with a proof.
    fn triples(&self, lines: &mut Lines) -> Option<()> {
        let size = self.subject.shape.cells().len();
        domain_triples(self.judge.grid, size, self.judge.limits.domain).try_for_each(|triple| {
            let mut words = lines.behind("triple")?;
            holds(words.triple()? == triple)?;
            let ending = match words.next()? {
                "refuted" => Ending::Refuted,
                "spent" => self.spent(),
                _ => return None,
            };
            words.end()?;
            self.torus_proof(lines, triple, ending)
        })
    }

    fn torus_proof(&self, lines: &mut Lines, triple: Triple, ending: Ending) -> Option<()> {
        let Subject { grid, images, .. } = self.subject;
        let cuts = if grid.classes() * area(triple) <= 64 {
            check_proof(lines, &mut TorusClauses::<1>::new(grid, triple, images), ending)
        } else {
            check_proof(lines, &mut TorusClauses::<3>::new(grid, triple, images), ending)
        };
        cuts.map(|_| ())
    }
}

/// A line of this word, number and last word.
fn head(lines: &mut Lines, word: &str, number: usize, last: &str) -> Option<()> {
    let mut words = lines.behind(word)?;
    holds(count(&mut words)? == number)?;
    words.expect(last)?;
    words.end()
}
