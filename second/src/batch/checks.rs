//! Check questions: refused texts, wrong starts, true claims, faults and damage.

use super::draws::{any_known, true_derivation, variables_of, wrong_assignment, MOST};
use crate::chance::Chance;
use crate::damage;
use crate::limits;
use crate::orders::{self, FAULTS};
use crate::questions::Question;
use crate::record::Claim;
use crate::value::value_of;

pub fn question(chance: &mut Chance) -> Question {
    match chance.below(100) {
        0..=14 => any_text(chance),
        15..=29 => wrong_start(chance),
        30..=54 => true_claim(chance),
        55..=85 => fault(chance),
        _ => damaged(chance),
    }
}

/// A text that is mostly refused, with a derivation that closes the root at once.
fn any_text(chance: &mut Chance) -> Question {
    let text = match chance.one_in(20) {
        true => limits::random(chance),
        false => damage::text(chance),
    };
    let variables = variables_of(chance, &text);
    Question::Check {
        text,
        assignment: vec![1; variables],
        derivation: b"M\0\0\0\0\0\0\0\0Q".to_vec(),
    }
}

/// 9, 10, 11, 12 and 13: wrong assignments and wrong or missing claims.
fn wrong_start(chance: &mut Chance) -> Question {
    let known = any_known(chance);
    let mut derivation = true_derivation(chance, &known);
    let mut assignment = known.assignment();
    match chance.below(5) {
        0 => assignment = wrong_assignment(chance, assignment),
        1 => assignment = chance.bits(known.instance.variables),
        2 => derivation.truncate(chance.below(9)),
        3 => derivation[0] = chance.pick(&[0, b'm', b'Q', b'E', b'C', b'N', b'M']),
        _ => {
            assignment = match known.layouts.is_empty() {
                true => chance.bits(known.instance.variables),
                false => chance.pick(&known.layouts).assignment,
            };
            let m = value_of(&known.instance, &assignment).weight;
            let m = m.wrapping_add_signed(chance.pick(&[-1, 0, 0, 1]));
            derivation = Claim::Minimum(m).record().bytes();
        }
    }
    Question::Check {
        text: known.text,
        assignment,
        derivation,
    }
}

fn true_claim(chance: &mut Chance) -> Question {
    let known = any_known(chance);
    Question::Check {
        derivation: true_derivation(chance, &known),
        assignment: known.assignment(),
        text: known.text,
    }
}

/// A claim that may be false, a walk that may go wrong at one record.
fn fault(chance: &mut Chance) -> Question {
    let known = any_known(chance);
    let (claim, assignment) = match known.layouts.is_empty() || chance.one_in(6) {
        true => (Claim::Infeasible, Vec::new()),
        false if chance.one_in(2) => (known.claim(), known.assignment()),
        false => {
            let layout = chance.pick(&known.layouts);
            (Claim::Minimum(layout.weight), layout.assignment)
        }
    };
    let fault = chance.pick(&FAULTS);
    Question::Check {
        derivation: orders::derivation(chance, &known.instance, claim, MOST, Some(fault)),
        assignment,
        text: known.text,
    }
}

fn damaged(chance: &mut Chance) -> Question {
    let known = any_known(chance);
    let whole = true_derivation(chance, &known);
    Question::Check {
        derivation: damage::derivation(chance, &whole),
        assignment: known.assignment(),
        text: known.text,
    }
}
