//! What the questions are made of.

use crate::chance::Chance;
use crate::damage;
use crate::known::{self, Known};
use crate::limits;
use crate::orders;
use crate::record::Claim;
use crate::text;
use crate::write::{self, Wish};

/// Derivations of random questions stay about this long.
pub const MOST: usize = 6_000;

pub fn any_known(chance: &mut Chance) -> Known {
    match chance.below(100) {
        0..=2 => known::planted(chance),
        3..=74 => known::knotty(chance),
        _ => known::small(chance),
    }
}

pub fn any_text(chance: &mut Chance) -> Vec<u8> {
    match chance.below(60) {
        0..=1 => limits::random(chance),
        2..=31 => damage::text(chance),
        _ => any_known(chance).text,
    }
}

/// n of a text, or any small number where the text is refused.
pub fn variables_of(chance: &mut Chance, text: &[u8]) -> usize {
    match text::read(text) {
        Ok(instance) => instance.variables,
        Err(_) => chance.below(7),
    }
}

/// An assignment, mostly as it should be; else too short, too long or with a byte over 1.
pub fn any_assignment(chance: &mut Chance, variables: usize) -> Vec<u8> {
    let bits = chance.bits(variables);
    match chance.below(100) {
        0..=69 => bits,
        70..=74 => vec![1; variables],
        _ => wrong_assignment(chance, bits),
    }
}

pub fn wrong_assignment(chance: &mut Chance, mut bits: Vec<u8>) -> Vec<u8> {
    if bits.is_empty() || chance.one_in(3) {
        bits.push(chance.pick(&[0, 1, 2]));
    } else if chance.one_in(3) {
        bits.pop();
    } else {
        let place = chance.below(bits.len());
        bits[place] = chance.pick(&[2, 3, 48, 49, 255]);
    }
    bits
}

/// Write's derivation of the true claim, or one in a random order.
pub fn true_derivation(chance: &mut Chance, known: &Known) -> Vec<u8> {
    if chance.one_in(2) {
        if let Some(derivation) = own_derivation(known) {
            return derivation;
        }
    }
    orders::derivation(chance, &known.instance, known.claim(), MOST, None)
}

/// Write's derivation of the true claim, none where it is too long.
fn own_derivation(known: &Known) -> Option<Vec<u8>> {
    let wish = match known.claim() {
        Claim::Minimum(_) => Wish::Minimum,
        Claim::Infeasible => Wish::Infeasible,
    };
    written(wish, &known.text, &known.assignment())
}

/// What Write writes, none where it refuses or the bytes are too many.
pub fn written(wish: Wish, text: &[u8], assignment: &[u8]) -> Option<Vec<u8>> {
    let mut output = vec![0; MOST];
    let mut found = [0; 500];
    let written = write::write(wish, text, assignment, &mut output, &mut found).ok()?;
    output.truncate(written.length);
    Some(output)
}
