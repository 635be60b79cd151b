//! The lines of a catalogue and their words, read as strictly as they are written.

use crate::literals::Lit;
use crate::grids::{Cell, Isometry};
use crate::lattices::Triple;

const FURTHEST: u32 = 100_000;
const MOST_TURNS: u32 = 12;
const MOST_UNITS: u64 = 4_096;

/// A decimal number below 2^32, without a leading zero.
pub fn natural(word: &str) -> Option<u32> {
    let digits = word.as_bytes();
    if !(1..=10).contains(&digits.len()) || digits.len() > 1 && digits[0] == b'0' {
        return None;
    }
    let with = |value: u64, digit: &u8| {
        digit.is_ascii_digit().then(|| 10 * value + u64::from(digit - b'0'))
    };
    u32::try_from(digits.iter().try_fold(0, with)?).ok()
}

/// An integer within 100,000 of 0, and no `-0`.
pub fn integer(word: &str) -> Option<i32> {
    let negative = word.strip_prefix('-');
    let size = natural(negative.unwrap_or(word)).filter(|size| *size <= FURTHEST)? as i32;
    match negative {
        Some(_) => (size > 0).then_some(-size),
        None => Some(size),
    }
}

/// A literal of a variable below 2^30, which those of all formulas are.
pub fn literal(word: &str) -> Option<Lit> {
    let negative = word.strip_prefix('-');
    let var = natural(negative.unwrap_or(word)).filter(|var| (1..1 << 30).contains(var))?;
    Some(if negative.is_some() { Lit::negative(var) } else { Lit::positive(var) })
}

/// `A,B`.
pub fn cell(word: &str) -> Option<Cell> {
    let (a, b) = word.split_once(',')?;
    Some(Cell { a: integer(a)?, b: integer(b)? })
}

fn isometry(turn: &str, da: &str, db: &str) -> Option<Isometry> {
    let turn = natural(turn).filter(|turn| *turn < MOST_TURNS)?;
    Some(Isometry { turn, da: integer(da)?, db: integer(db)? })
}

/// `TURN,DA,DB`.
pub fn place(word: &str) -> Option<Isometry> {
    let mut parts = word.split(',');
    let by = isometry(parts.next()?, parts.next()?, parts.next()?)?;
    parts.next().is_none().then_some(by)
}

/// The words of a line, with single spaces between them; None behind the last one.
pub struct Words<'a>(Option<&'a str>);

impl<'a> Iterator for Words<'a> {
    type Item = &'a str;

    fn next(&mut self) -> Option<&'a str> {
        let rest = self.0?;
        let space = rest.bytes().position(|byte| byte == b' ');
        self.0 = space.map(|at| &rest[at + 1..]);
        Some(&rest[..space.unwrap_or(rest.len())])
    }
}

impl<'a> Words<'a> {
    pub fn of(line: &'a str) -> Words<'a> {
        Words(Some(line))
    }

    pub fn expect(&mut self, word: &str) -> Option<()> {
        (self.next()? == word).then_some(())
    }

    pub fn natural(&mut self) -> Option<u32> {
        natural(self.next()?)
    }

    pub fn isometry(&mut self) -> Option<Isometry> {
        isometry(self.next()?, self.next()?, self.next()?)
    }

    /// `P Q S`.
    pub fn triple(&mut self) -> Option<Triple> {
        let (p, q, s) = (self.natural()?, self.natural()?, self.natural()?);
        let units = u64::from(p) * u64::from(q);
        let fits = (1..=MOST_UNITS).contains(&units) && s < p;
        fits.then_some(Triple { p: p as i32, q: q as i32, s: s as i32 })
    }

    /// All words that are left, each read so.
    pub fn rest<T>(&mut self, read: fn(&str) -> Option<T>) -> Option<Vec<T>> {
        self.map(read).collect()
    }

    /// The words before a colon, each read so, one after the other into an empty list.
    pub fn before_colon<T>(
        &mut self,
        read: fn(&str) -> Option<T>,
        into: &mut Vec<T>,
    ) -> Option<()> {
        into.clear();
        loop {
            match self.next()? {
                ":" => return Some(()),
                word => into.push(read(word)?),
            }
        }
    }

    pub fn end(&mut self) -> Option<()> {
        self.next().is_none().then_some(())
    }
}

/// The lines of an entry that are left.
pub struct Lines<'a>(pub &'a str);

impl<'a> Lines<'a> {
    /// The words of the next line.
    pub fn words(&mut self) -> Option<Words<'a>> {
        let (line, rest) = self.0.split_once('\n')?;
        self.0 = rest;
        Some(Words::of(line))
    }

    /// The words behind the first one, which has to be this.
    pub fn behind(&mut self, word: &str) -> Option<Words<'a>> {
        let mut words = self.words()?;
        words.expect(word)?;
        Some(words)
    }

    /// Whether these words are next, with others behind them.
    pub fn is_next(&self, words: &str) -> bool {
        self.0.strip_prefix(words).is_some_and(|rest| rest.starts_with(' '))
    }

    pub fn is_done(&self) -> bool {
        self.0.is_empty()
    }
}
