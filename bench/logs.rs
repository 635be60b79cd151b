//! Logs of learnt clauses and cuts, checked over clauses that are had by their numbers alone.

use crate::literals::Lit;
use crate::words::{literal, natural, Lines, Words};

/// The clauses of a formula, each had by its number, from 1.
pub trait Source {
    /// How many variables there are.
    fn vars(&self) -> u32;

    /// How many clauses there are.
    fn count(&self) -> u32;

    /// Takes the literals of a clause, some of them more than once, until `each` says no.
    fn walk(&mut self, number: u32, each: impl FnMut(Lit) -> bool);

    /// Whether a clause of these lies within this one, whose literals `has` knows.
    fn within(&self, clause: &[Lit], has: impl Fn(Lit) -> bool) -> bool;

    /// The clause of a cut, by the words behind `cut`, or None where it isn't lawful.
    fn cut(&mut self, words: &mut Words) -> Option<Vec<Lit>>;
}

/// How a proof says that it ends: by the empty clause, or at so many lines.
#[derive(Clone, Copy)]
pub enum Ending {
    Refuted,
    Spent { turns: u32 },
}

impl Ending {
    /// The word for it in the line that heads a proof.
    pub fn word(self) -> &'static str {
        match self {
            Ending::Refuted => "refuted",
            Ending::Spent { .. } => "spent",
        }
    }
}

/// What the literals of a clause leave open, as long as none is true.
enum Left {
    Nothing,
    One(Lit),
    More,
}

struct Log<'a, S> {
    source: &'a mut S,
    literals: Vec<Lit>,
    ends: Vec<usize>,
    /// By variable.
    values: Vec<Option<bool>>,
    set: Vec<u32>,
}

impl<S: Source> Log<'_, S> {
    fn over(source: &mut S) -> Log<'_, S> {
        let values = vec![None; source.vars() as usize + 1];
        Log { source, literals: Vec::new(), ends: vec![0], values, set: Vec::new() }
    }

    fn len(&self) -> usize {
        self.ends.len() - 1
    }

    fn line(&self, i: usize) -> &[Lit] {
        &self.literals[self.ends[i]..self.ends[i + 1]]
    }

    fn push(&mut self, clause: &[Lit]) {
        self.literals.extend_from_slice(clause);
        self.ends.push(self.literals.len());
    }

    fn set(&mut self, lit: Lit) {
        self.values[lit.var() as usize] = Some(lit.is_positive());
        self.set.push(lit.var());
    }

    /// What is left of a clause of the formula or of a line.
    fn left(&mut self, number: u32) -> Left {
        let mut left = Left::Nothing;
        let values = &self.values;
        let mut each = |lit: Lit| match (values[lit.var() as usize], &left) {
            (Some(value), _) if value != lit.is_positive() => true,
            (None, Left::Nothing) => {
                left = Left::One(lit);
                true
            }
            (None, Left::One(other)) if *other == lit => true,
            _ => {
                left = Left::More;
                false
            }
        };
        let count = self.source.count();
        if number <= count {
            self.source.walk(number, each);
        } else {
            let line = (number - count) as usize - 1;
            let _ =
                self.literals[self.ends[line]..self.ends[line + 1]].iter().all(|lit| each(*lit));
        }
        left
    }

    /// Whether the hints, in order, lead from the negation of the clause to a conflict.
    fn conflicts(&mut self, hints: &[u32]) -> bool {
        let Some((last, before)) = hints.split_last() else { return false };
        for hint in before {
            match self.left(*hint) {
                Left::One(lit) => self.set(lit),
                _ => return false,
            }
        }
        matches!(self.left(*last), Left::Nothing)
    }

    fn holds(&mut self, clause: &[Lit], hints: &[u32]) -> bool {
        let own = self.source.count() as usize + self.len() + 1;
        if hints.iter().any(|hint| *hint == 0 || *hint as usize >= own) {
            return false;
        }
        clause.iter().for_each(|lit| self.set(!*lit));
        let holds = self.conflicts(hints);
        while let Some(var) = self.set.pop() {
            self.values[var as usize] = None;
        }
        holds
    }

    fn is_clause(&self, clause: &[Lit]) -> bool {
        let last = clause.last().map(|lit| lit.var());
        last.is_some_and(|var| var <= self.source.vars())
            && clause.windows(2).all(|two| two[0].var() < two[1].var())
    }

    /// Whether each line contains no clause of the formula, and none of an earlier line.
    fn is_new(&self) -> bool {
        let mut earlier = Earlier::over(self.source.vars());
        (0..self.len()).all(|i| {
            let line = self.line(i);
            earlier.mark(line, i);
            let is_new = !self.source.within(line, |lit| earlier.has(lit, i))
                && !earlier.within(line, i, |earlier| self.line(earlier));
            earlier.push(line, i);
            is_new
        })
    }
}

/// The lines so far, each in the list of one of its literals, and marks of those of the line at
/// hand.
struct Earlier {
    lists: Vec<Vec<usize>>,
    marks: Vec<usize>,
    has_empty: bool,
}

fn index(lit: Lit) -> usize {
    2 * lit.var() as usize + usize::from(lit.is_positive())
}

impl Earlier {
    fn over(vars: u32) -> Earlier {
        let literals = 2 * (vars as usize + 1);
        Earlier {
            lists: vec![Vec::new(); literals],
            marks: vec![usize::MAX; literals],
            has_empty: false,
        }
    }

    fn mark(&mut self, line: &[Lit], i: usize) {
        line.iter().for_each(|lit| self.marks[index(*lit)] = i);
    }

    fn has(&self, lit: Lit, i: usize) -> bool {
        self.marks[index(lit)] == i
    }

    fn within<'a>(&self, line: &[Lit], i: usize, clause: impl Fn(usize) -> &'a [Lit]) -> bool {
        let mut listed = line.iter().flat_map(|lit| &self.lists[index(*lit)]);
        self.has_empty
            || listed.any(|earlier| clause(*earlier).iter().all(|lit| self.has(*lit, i)))
    }

    fn push(&mut self, line: &[Lit], i: usize) {
        match line.iter().map(|lit| index(*lit)).min_by_key(|at| self.lists[*at].len()) {
            Some(at) => self.lists[at].push(i),
            None => self.has_empty = true,
        }
    }
}

/// Reads a proof that ends so, and how many cuts it has, or None where it isn't one.
pub fn check_proof<S: Source>(lines: &mut Lines, source: &mut S, ending: Ending) -> Option<usize> {
    let mut log = Log::over(source);
    let (mut clause, mut hints) = (Vec::new(), Vec::new());
    let mut cuts = 0;
    loop {
        let mut words = lines.words()?;
        match (words.next()?, ending) {
            ("learn", _) => {
                words.before_colon(literal, &mut clause)?;
                read_hints(&mut words, &mut hints)?;
                if !log.is_clause(&clause) || !log.holds(&clause, &hints) {
                    return None;
                }
                log.push(&clause);
            }
            ("cut", _) => {
                let clause = log.source.cut(&mut words)?;
                log.push(&clause);
                cuts += 1;
            }
            ("empty", Ending::Refuted) => {
                read_hints(&mut words, &mut hints)?;
                return log.holds(&[], &hints).then_some(cuts);
            }
            ("spent", Ending::Spent { turns }) => {
                words.end()?;
                return (log.len() == turns as usize && log.is_new()).then_some(cuts);
            }
            _ => return None,
        }
    }
}

fn read_hints(words: &mut Words, hints: &mut Vec<u32>) -> Option<()> {
    hints.clear();
    for word in words {
        hints.push(natural(word)?);
    }
    Some(())
}
