//! `heesch check` as a plain Rust program, for catalogues of shapes of at most 16 cells:
//! `check < CATALOGUE`. A clause that a hint names is computed from its number alone, and nothing
//! of a formula is made. It writes `valid COUNT`, or the first invalid part with status 1.
#[allow(dead_code)]
mod cdcl;
#[allow(dead_code)]
mod coronas;
mod covers;
mod entries;
mod grids;
#[allow(dead_code)]
mod lattices;
#[allow(dead_code)]
mod literals;
mod logs;
mod numbers;
mod patches;
mod placed;
#[allow(dead_code)]
mod raster;
mod shapes;
mod tori;
mod words;

use entries::{polyform, Judge};
use grids::{Cell, Grid};
use numbers::Version;
use shapes::Shape;
use std::io::{self, BufRead};
use std::process::ExitCode;
use words::Words;

const MOST_GIVEN: usize = 10_000;
const MOST_TURNS: u32 = 1_000_000;
const MOST_LEVELS: u32 = 6;
const MOST_DOMAIN: u32 = 12;
const MOST_SIZE: u32 = 60_000_000;

/// The limits of a header.
pub struct Limits {
    pub turns: u32,
    pub levels: usize,
    pub domain: usize,
    pub size: u64,
}

/// What a catalogue is of: all shapes of a size, or given ones.
#[derive(Clone, Copy)]
enum Asked {
    Size(usize),
    Given,
}

struct Header {
    version: Version,
    grid: &'static Grid,
    asked: Asked,
    limits: Limits,
}

/// The most cells that a catalogue of a version goes up to.
fn most_cells(version: Version, grid: &str) -> Option<u32> {
    match (grid, version) {
        ("square", Version::Pairs) => Some(12),
        ("square", Version::Owners) => Some(14),
        ("hex", Version::Pairs) => Some(10),
        ("hex", Version::Owners) => Some(12),
        ("iamond", Version::Pairs) => Some(15),
        ("iamond", Version::Owners) => Some(18),
        ("kite", Version::Owners) => Some(10),
        _ => None,
    }
}

/// The number behind a word, from 1 to this.
fn limit(words: &mut Words, word: &str, most: u32) -> Option<u32> {
    words.expect(word)?;
    words.natural().filter(|limit| (1..=most).contains(limit))
}

fn read_header(line: &str) -> Option<Header> {
    let mut words = Words::of(line);
    words.expect("heesch")?;
    let version = match words.next()? {
        "1" => Version::Pairs,
        "2" => Version::Owners,
        _ => return None,
    };
    let name = words.next()?;
    let most = most_cells(version, name)?;
    let asked = match words.next()? {
        "given" => Asked::Given,
        size => {
            Asked::Size(words::natural(size).filter(|size| (1..=most).contains(size))? as usize)
        }
    };
    let limits = Limits {
        turns: limit(&mut words, "turns", MOST_TURNS)?,
        levels: limit(&mut words, "levels", MOST_LEVELS)? as usize,
        domain: limit(&mut words, "domain", MOST_DOMAIN)? as usize,
        size: u64::from(limit(&mut words, "size", MOST_SIZE)?),
    };
    words.end()?;
    Some(Header { version, grid: Grid::named(name)?, asked, limits })
}

/// What is said of a catalogue.
enum Answer {
    Valid { count: usize },
    InvalidHeader,
    InvalidEntry { number: usize },
    InvalidEnd,
}

/// The lines of the input, the next of which is at hand: with its newline, or empty at the end.
struct Input<R> {
    reader: R,
    line: Vec<u8>,
}

impl<R: BufRead> Input<R> {
    fn new(reader: R) -> io::Result<Input<R>> {
        let mut input = Input { reader, line: Vec::new() };
        input.go_on()?;
        Ok(input)
    }

    fn go_on(&mut self) -> io::Result<()> {
        self.line.clear();
        self.reader.read_until(b'\n', &mut self.line)?;
        Ok(())
    }

    fn begins_entry(&self) -> bool {
        self.line.starts_with(b"shape ")
    }

    /// The lines from the one at hand up to the next that begins an entry or the end.
    fn block(&mut self, block: &mut Vec<u8>) -> io::Result<()> {
        block.clear();
        loop {
            block.extend_from_slice(&self.line);
            self.go_on()?;
            if self.line.is_empty() || self.begins_entry() || self.line.starts_with(b"end ") {
                return Ok(());
            }
        }
    }

    /// The line at hand without its newline, or None where that or a text is lacking.
    fn text(&self) -> Option<&str> {
        std::str::from_utf8(&self.line).ok()?.strip_suffix('\n')
    }
}

/// What a catalogue may have shapes from: the free list of its size, or all.
enum Shapes {
    Free(Vec<Shape>),
    Given,
}

impl Shapes {
    fn of(header: &Header) -> Shapes {
        match header.asked {
            Asked::Size(size) => Shapes::Free(shapes::free_shapes(header.grid, size)),
            Asked::Given => Shapes::Given,
        }
    }

    /// The shape of these cells behind so many others, where that is its place.
    fn in_place(&self, grid: &Grid, before: usize, cells: &[Cell]) -> Option<Shape> {
        match self {
            Shapes::Free(list) => list.get(before).filter(|shape| shape.cells() == cells).copied(),
            Shapes::Given if before < MOST_GIVEN => polyform(grid, cells),
            Shapes::Given => None,
        }
    }

    fn may_be(&self, count: usize) -> bool {
        match self {
            Shapes::Free(list) => list.len() == count,
            Shapes::Given => true,
        }
    }
}

fn check(reader: impl BufRead) -> io::Result<Answer> {
    let mut input = Input::new(reader)?;
    let Some(header) = input.text().and_then(read_header) else {
        return Ok(Answer::InvalidHeader);
    };
    input.go_on()?;
    let shapes = Shapes::of(&header);
    let judge = Judge::new(header.grid, header.version, header.limits);
    let (mut count, mut block) = (0, Vec::new());
    while input.begins_entry() {
        input.block(&mut block)?;
        let in_place = |cells: &[Cell]| shapes.in_place(header.grid, count, cells);
        if !std::str::from_utf8(&block).is_ok_and(|text| judge.is_true(text, in_place)) {
            return Ok(Answer::InvalidEntry { number: count + 1 });
        }
        count += 1;
    }
    let is_end = shapes.may_be(count) && input.text() == Some(&format!("end {count}"));
    input.go_on()?;
    Ok(if is_end && input.line.is_empty() { Answer::Valid { count } } else { Answer::InvalidEnd })
}

fn main() -> io::Result<ExitCode> {
    let answer = check(io::stdin().lock())?;
    match answer {
        Answer::Valid { count } => println!("valid {count}"),
        Answer::InvalidHeader => println!("invalid header"),
        Answer::InvalidEntry { number } => println!("invalid entry {number}"),
        Answer::InvalidEnd => println!("invalid end"),
    }
    Ok(if matches!(answer, Answer::Valid { .. }) { ExitCode::SUCCESS } else { ExitCode::FAILURE })
}
