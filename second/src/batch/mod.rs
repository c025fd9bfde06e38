//! Random questions of every kind.

mod checks;
mod draws;
mod too_long;
mod writes;

use crate::chance::Chance;
use crate::damage;
use crate::questions::Question;
use draws::{any_assignment, any_known, any_text, variables_of};

pub fn questions(seed: u64, count: usize) -> Vec<Question> {
    let mut chance = Chance::new(seed);
    (0..count).map(|_| question(&mut chance)).collect()
}

fn question(chance: &mut Chance) -> Question {
    if chance.one_in(3_000) {
        return too_long::question(chance);
    }
    match chance.below(100) {
        0..=9 => Question::Survey {
            text: any_text(chance),
        },
        10..=21 => value(chance),
        22..=31 => better(chance),
        32..=77 => checks::question(chance),
        _ => writes::question(chance),
    }
}

fn value(chance: &mut Chance) -> Question {
    let text = any_text(chance);
    let variables = variables_of(chance, &text);
    let assignment = any_assignment(chance, variables);
    Question::Value { text, assignment }
}

fn better(chance: &mut Chance) -> Question {
    let text = match chance.percent(15) {
        true => damage::text(chance),
        false => any_known(chance).text,
    };
    let variables = variables_of(chance, &text);
    let first = match chance.percent(90) {
        true => chance.bits(variables),
        false => any_assignment(chance, variables),
    };
    let second = match chance.percent(90) {
        true => chance.bits(variables),
        false => any_assignment(chance, variables),
    };
    Question::Better {
        text,
        first,
        second,
    }
}
