//! The clauses of corona formulas by their numbers: a family by its range, a clause of it by the
//! sums before it, and its literals from the lists of the cells of the universe. Nothing of a
//! formula is made.

use crate::literals::Lit;
use crate::logs::Source;
use crate::placed::Placements;
use crate::words::{cell, natural, Words};

/// The two corona formulas, which differ in how they forbid that placements meet.
#[derive(Clone, Copy, PartialEq, Eq)]
pub enum Version {
    Pairs,
    Owners,
}

/// The fourth family.
enum Apart {
    /// By variable, how many clauses come before its own; and the later ones that meet it, where
    /// they were asked for.
    Pairs { before: Vec<u32>, later: Vec<Vec<u32>> },
    /// The cells with two holders or more, in order.
    Owners { cells: Vec<Owned> },
}

/// A cell that has owner variables: how many clauses come before its own, and how many variables.
#[derive(Clone, Copy)]
struct Owned {
    cell: u32,
    clauses: u32,
    vars: u32,
    digits: u32,
}

impl Owned {
    /// The literal of a digit of a holder's rank.
    fn literal(&self, rank: u32, digit: u32) -> Lit {
        let var = self.vars + digit + 1;
        if rank >> digit & 1 == 1 {
            Lit::positive(var)
        } else {
            Lit::negative(var)
        }
    }
}

/// What a clause says.
enum Clause {
    /// This cell around the shape is covered by a variable of level 1.
    First { cell: u32 },
    /// Where this variable stands, this cell around it is covered.
    Covering { var: u32, cell: u32 },
    /// Where this variable stands, one of the level below touches it.
    Support { var: u32 },
    /// Not both.
    Apart { var: u32, other: Lit },
}

/// The corona formula of the placements, of the level up to which they go.
pub struct CoronaClauses<'a> {
    placements: &'a Placements,
    /// By variable below the last level, from 0: where its clauses of the second family end.
    covering: Vec<u32>,
    /// How many clauses the first three families have.
    common: u32,
    apart: Apart,
    count: u32,
    vars: u32,
}

fn digits(holders: usize) -> u32 {
    usize::BITS - (holders - 1).leading_zeros()
}

impl<'a> CoronaClauses<'a> {
    /// The formula, or None where it has more than so many literals.
    pub fn new(
        placements: &'a Placements,
        version: Version,
        size: u64,
    ) -> Option<CoronaClauses<'a>> {
        let low = placements.ends[placements.level() - 1];
        let mut covering = vec![placements.ring.len() as u32];
        for var in 1..=low {
            covering.push(covering[var as usize - 1] + placements.ring_of(var).count() as u32);
        }
        let common = covering[low as usize] + placements.count() - placements.ends[1];
        let (apart, vars) = (Apart::Owners { cells: Vec::new() }, placements.count());
        let mut clauses =
            CoronaClauses { placements, covering, common, apart, count: common, vars };
        match version {
            Version::Pairs => clauses.number_pairs(size)?,
            Version::Owners => clauses.number_owners(size)?,
        }
        let room = size - 2 * u64::from(clauses.count - common);
        clauses.fits_common(room).then_some(clauses)
    }

    /// Whether the first three families have at most so many literals. A count of no fewer is
    /// tried first.
    fn fits_common(&self, size: u64) -> bool {
        let placements = self.placements;
        let all_holders = |c, _| placements.holders(c).len();
        let holders = |c, last| placements.holders(c).partition_point(|var| *var <= last);
        self.size_by(all_holders, |var| placements.supporters_at_most(var)) <= size
            || self.size_by(holders, |var| placements.supporters(var).count()) <= size
    }

    fn size_by(
        &self,
        holders: impl Fn(u32, u32) -> usize,
        supporters: impl Fn(u32) -> usize,
    ) -> u64 {
        let Placements { ends, ring, .. } = self.placements;
        let first: usize = ring.iter().map(|c| holders(*c, ends[1])).sum();
        let low = ends[self.placements.level() - 1];
        let covering = |var| {
            let last = self.last_beside(var);
            self.placements.ring_of(var).map(|c| 1 + holders(c, last)).sum::<usize>()
        };
        let second: usize = (1..=low).map(covering).sum();
        let third: usize =
            (ends[1] + 1..=self.placements.count()).map(|var| 1 + supporters(var)).sum();
        (first + second + third) as u64
    }

    fn number_pairs(&mut self, size: u64) -> Option<()> {
        let vars = self.placements.count();
        let most = self.common + u32::try_from(size / 2).ok()?;
        let mut before = vec![0, self.common];
        for var in 1..=vars {
            let next = before[var as usize] + self.placements.later(var).count() as u32;
            before.push(next);
            if next > most {
                return None;
            }
        }
        self.count = before[vars as usize + 1];
        self.apart = Apart::Pairs { before, later: vec![Vec::new(); vars as usize + 1] };
        Some(())
    }

    fn number_owners(&mut self, size: u64) -> Option<()> {
        let mut cells = Vec::new();
        for cell in 0..self.placements.cell_count() as u32 {
            let holders = self.placements.holders(cell).len();
            if holders < 2 {
                continue;
            }
            let owned =
                Owned { cell, clauses: self.count, vars: self.vars, digits: digits(holders) };
            self.count += holders as u32 * owned.digits;
            self.vars += owned.digits;
            cells.push(owned);
            if 2 * u64::from(self.count - self.common) > size {
                return None;
            }
        }
        self.apart = Apart::Owners { cells };
        Some(())
    }

    /// The last variable that may cover a cell around this one.
    fn last_beside(&self, var: u32) -> u32 {
        self.placements.ends[self.placements.level_of(var) + 1]
    }

    fn clause(&mut self, number: u32) -> Clause {
        let placements = self.placements;
        if number <= self.covering[0] {
            return Clause::First { cell: placements.ring[number as usize - 1] };
        }
        if number <= self.covering[self.covering.len() - 1] {
            let var = self.covering.partition_point(|before| *before < number);
            let place = (number - self.covering[var - 1]) as usize - 1;
            let cell =
                placements.ring_of(var as u32).nth(place).expect("a cell around the placement");
            return Clause::Covering { var: var as u32, cell };
        }
        if number <= self.common {
            return Clause::Support { var: placements.count() + number - self.common };
        }
        match &mut self.apart {
            Apart::Pairs { before, later } => {
                let var = before.partition_point(|before| *before < number) - 1;
                let list = &mut later[var];
                if list.is_empty() {
                    list.extend(placements.later(var as u32));
                    list.sort_unstable();
                }
                let other = list[(number - before[var]) as usize - 1];
                Clause::Apart { var: var as u32, other: Lit::negative(other) }
            }
            Apart::Owners { cells } => {
                let owned = cells[cells.partition_point(|owned| owned.clauses < number) - 1];
                let place = number - owned.clauses - 1;
                let (rank, digit) = (place / owned.digits, place % owned.digits);
                let var = placements.holders(owned.cell)[rank as usize];
                Clause::Apart { var, other: owned.literal(rank, digit) }
            }
        }
    }

    /// Whether a clause of the first three families lies within one with these negations.
    fn has_common(&self, negated: &[u32], has: &impl Fn(Lit) -> bool) -> bool {
        let placements = self.placements;
        let holds = |var| has(Lit::positive(var));
        let covered = |c: u32, last| placements.holders_to(c, last).all(holds);
        placements.ring.iter().any(|c| covered(*c, placements.ends[1]))
            || negated.iter().any(|var| {
                let level = placements.level_of(*var);
                level < placements.level()
                    && placements.ring_of(*var).any(|c| covered(c, self.last_beside(*var)))
                    || level > 1 && placements.supporters(*var).all(holds)
            })
    }

    /// Whether two of these meet.
    fn has_pair(&self, negated: &[u32]) -> bool {
        let mut cells: Vec<u32> =
            negated.iter().flat_map(|var| self.placements.cells(*var)).collect();
        cells.sort_unstable();
        cells.windows(2).any(|two| two[0] == two[1])
    }

    /// Whether one of these stands with a literal of an owner that it asks for.
    fn has_owner(&self, cells: &[Owned], negated: &[u32], has: &impl Fn(Lit) -> bool) -> bool {
        let asks = |var: u32, cell| {
            let Ok(at) = cells.binary_search_by_key(&cell, |owned| owned.cell) else {
                return false;
            };
            let rank = self.placements.holders(cell).partition_point(|other| *other < var) as u32;
            (0..cells[at].digits).any(|digit| has(cells[at].literal(rank, digit)))
        };
        negated.iter().any(|var| self.placements.cells(*var).any(|cell| asks(*var, cell)))
    }
}

impl Source for CoronaClauses<'_> {
    fn vars(&self) -> u32 {
        self.vars
    }

    fn count(&self) -> u32 {
        self.count
    }

    fn walk(&mut self, number: u32, mut each: impl FnMut(Lit) -> bool) {
        let clause = self.clause(number);
        let placements = self.placements;
        let _ = match clause {
            Clause::First { cell } => {
                placements.holders_to(cell, placements.ends[1]).all(|var| each(Lit::positive(var)))
            }
            Clause::Covering { var, cell } => {
                let last = self.last_beside(var);
                each(Lit::negative(var))
                    && placements.holders_to(cell, last).all(|var| each(Lit::positive(var)))
            }
            Clause::Support { var } => {
                each(Lit::negative(var))
                    && placements.supporters(var).all(|other| each(Lit::positive(other)))
            }
            Clause::Apart { var, other } => each(Lit::negative(var)) && each(other),
        };
    }

    fn within(&self, clause: &[Lit], has: impl Fn(Lit) -> bool) -> bool {
        let is_placement = |lit: &&Lit| lit.var() <= self.placements.count();
        let negations = clause.iter().filter(|lit| !lit.is_positive()).filter(is_placement);
        let negated: Vec<u32> = negations.map(|lit| lit.var()).collect();
        self.has_common(&negated, &has)
            || match &self.apart {
                Apart::Pairs { .. } => self.has_pair(&negated),
                Apart::Owners { cells } => {
                    let has_some = clause.iter().any(|lit| lit.var() > self.placements.count());
                    has_some && self.has_owner(cells, &negated, &has)
                }
            }
    }

    fn cut(&mut self, words: &mut Words) -> Option<Vec<Lit>> {
        let level = words.natural()? as usize;
        words.expect(":")?;
        let mut hole = Vec::new();
        words.before_colon(cell, &mut hole)?;
        let border = words.rest(natural)?;
        let rises = !hole.is_empty()
            && hole.is_sorted_by(|c, d| c < d)
            && border.is_sorted_by(|u, v| u < v);
        if !rises || !(1..=self.placements.level()).contains(&level) {
            return None;
        }
        let hole: Vec<u32> =
            hole.into_iter().map(|c| self.placements.number(c)).collect::<Option<_>>()?;
        self.cut_clause(level, &hole, &border)
    }
}

impl CoronaClauses<'_> {
    /// The clause of a cut with this hole and border, both rising, or None where the border
    /// doesn't enclose the hole.
    fn cut_clause(&self, level: usize, hole: &[u32], border: &[u32]) -> Option<Vec<Lit>> {
        let placements = self.placements;
        let last = placements.ends[level];
        if border.iter().any(|var| !(1..=last).contains(var)) {
            return None;
        }
        let in_hole = |c: &u32| hole.binary_search(c).is_ok();
        let mut walls: Vec<u32> = border.iter().flat_map(|var| placements.cells(*var)).collect();
        walls.sort_unstable();
        let is_shut = |c| in_hole(&c) || placements.is_own(c) || walls.binary_search(&c).is_ok();
        let is_free = |c: &u32| !placements.is_own(*c) && walls.binary_search(c).is_err();
        if !hole.iter().all(|c| is_free(c) && placements.adjacent(*c).all(is_shut)) {
            return None;
        }
        let fillers = hole.iter().flat_map(|c| placements.holders_to(*c, last)).map(Lit::positive);
        let mut clause: Vec<Lit> =
            border.iter().map(|var| Lit::negative(*var)).chain(fillers).collect();
        clause.sort_unstable();
        clause.dedup();
        Some(clause)
    }
}
