//! Parts of a catalogue's text.

use crate::grids::{Cell, Isometry};
use crate::literals::Lit;
use std::io::Write;

fn push_digits(text: &mut Vec<u8>, mut number: u32) {
    let mut digits = [0; 10];
    let mut at = digits.len();
    loop {
        at -= 1;
        digits[at] = b'0' + (number % 10) as u8;
        number /= 10;
        if number == 0 {
            break;
        }
    }
    text.extend_from_slice(&digits[at..]);
}

pub fn push_numbers(text: &mut Vec<u8>, numbers: &[u32]) {
    for number in numbers {
        text.push(b' ');
        push_digits(text, *number);
    }
}

pub fn push_clause(text: &mut Vec<u8>, clause: &[Lit]) {
    for lit in clause {
        text.extend_from_slice(if lit.is_positive() { b" " } else { b" -" });
        push_digits(text, lit.var());
    }
}

pub fn push_cells(text: &mut Vec<u8>, cells: &[Cell]) {
    cells.iter().for_each(|c| write!(text, " {},{}", c.a, c.b).unwrap());
}

pub fn push_layer(text: &mut Vec<u8>, layer: &[Isometry]) {
    text.extend_from_slice(b"layer");
    layer.iter().for_each(|by| write!(text, " {},{},{}", by.turn, by.da, by.db).unwrap());
    text.push(b'\n');
}
