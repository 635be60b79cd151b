//! Logs of searches as the text of proofs. Of one that refutes, the lines stay that its last line rests on.

use crate::holes::Cut;
use crate::literals::Lit;
use crate::store::{Origin, Store};
use crate::texts::{push_cells, push_clause, push_numbers};
use crate::trail::Reason;
use std::io::Write;

/// What a search learnt and was given, and what the empty clause follows from, where it was reached.
pub struct Log {
    pub store: Store,
    pub last: Option<Vec<Reason>>,
    /// The given ones, in their order.
    pub cuts: Vec<Cut>,
}

/// The clauses of a formula as numbers.
pub trait Numbering {
    /// How many clauses there are.
    fn count(&self) -> u32;

    /// The name of a variable in the proof.
    fn name(&self, var: u32) -> u32;

    /// Appends the numbers of clauses by which a line follows. `line` gives the number of a line of the log.
    fn hints(&mut self, reasons: &[Reason], line: impl Fn(u32) -> u32, hints: &mut Vec<u32>);
}

impl Log {
    pub fn is_refuted(&self) -> bool {
        self.last.is_some()
    }

    /// How its proof ends.
    pub fn ending(&self) -> &'static str {
        if self.is_refuted() {
            "refuted"
        } else {
            "spent"
        }
    }

    /// Whether its proof has a cut.
    pub fn has_cut(&self) -> bool {
        (0..).zip(self.staying()).any(|(index, stays)| stays && self.store.origin(index) == Origin::Given)
    }

    /// By clause of the log, whether it stays as a line.
    fn staying(&self) -> Vec<bool> {
        let store = &self.store;
        let mut stays = vec![!self.is_refuted(); store.count()];
        let need = |reasons: &[Reason], stays: &mut [bool]| {
            for reason in reasons {
                if let Reason::Line { index } = reason {
                    stays[*index as usize] = true;
                }
            }
        };
        need(self.last.as_deref().unwrap_or_default(), &mut stays);
        for index in (0..stays.len()).rev() {
            if stays[index] {
                need(store.reasons(index as u32), &mut stays);
            }
            stays[index] &= !matches!(store.origin(index as u32), Origin::Copy(_));
        }
        stays
    }

    /// Appends the lines of the proof, from the one that says how it ends.
    pub fn write(&self, numbering: &mut impl Numbering, text: &mut Vec<u8>) {
        let stays = self.staying();
        let mut number = numbering.count();
        let mut numbers = vec![0; stays.len()];
        for (index, _) in stays.iter().enumerate().filter(|(_, stays)| **stays) {
            number += 1;
            numbers[index] = number;
        }
        let line = |index: u32| numbers[index as usize];
        let mut cuts = self.cuts.iter();
        let (mut clause, mut hints) = (Vec::new(), Vec::new());
        for (index, stays) in (0..).zip(stays) {
            let cut = if self.store.origin(index) == Origin::Given { cuts.next() } else { None };
            match cut {
                _ if !stays => {}
                Some(cut) => write_cut(cut, text),
                None => {
                    clause.clear();
                    let lits = self.store.clause(index).iter();
                    clause.extend(lits.map(|lit| named(*lit, numbering.name(lit.var()))));
                    clause.sort_unstable();
                    hints.clear();
                    numbering.hints(self.store.reasons(index), line, &mut hints);
                    write_learnt(&clause, &hints, text);
                }
            }
        }
        match &self.last {
            None => text.extend_from_slice(b"spent"),
            Some(reasons) => {
                hints.clear();
                numbering.hints(reasons, line, &mut hints);
                text.extend_from_slice(b"empty");
                push_numbers(text, &hints);
            }
        }
        text.push(b'\n');
    }
}

fn named(lit: Lit, var: u32) -> Lit {
    if lit.is_positive() {
        Lit::positive(var)
    } else {
        Lit::negative(var)
    }
}

fn write_learnt(clause: &[Lit], hints: &[u32], text: &mut Vec<u8>) {
    text.extend_from_slice(b"learn");
    push_clause(text, clause);
    text.extend_from_slice(b" :");
    push_numbers(text, hints);
    text.push(b'\n');
}

fn write_cut(cut: &Cut, text: &mut Vec<u8>) {
    write!(text, "cut {} :", cut.level).unwrap();
    push_cells(text, &cut.hole);
    text.extend_from_slice(b" :");
    push_numbers(text, &cut.border);
    text.push(b'\n');
}
