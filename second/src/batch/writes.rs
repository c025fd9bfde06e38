//! Write questions.

use super::draws::{any_assignment, any_known, any_text, variables_of, written};
use crate::chance::Chance;
use crate::questions::Question;
use crate::write::Wish;

pub fn question(chance: &mut Chance) -> Question {
    let wish = match chance.one_in(3) {
        true => Wish::Infeasible,
        false => Wish::Minimum,
    };
    if chance.percent(15) {
        let text = any_text(chance);
        let variables = variables_of(chance, &text);
        let room = chance.pick(&[0, 1, 9, 40]);
        return Question::Write {
            wish,
            text,
            assignment: any_assignment(chance, variables),
            room,
        };
    }
    let known = any_known(chance);
    let assignment = match known.layouts.is_empty() || chance.percent(15) {
        true => any_assignment(chance, known.instance.variables),
        false if chance.one_in(2) => known.assignment(),
        false => chance.pick(&known.layouts).assignment,
    };
    let length = written(wish, &known.text, &assignment).map_or(60, |output| output.len());
    Question::Write {
        wish,
        text: known.text,
        assignment,
        room: any_room(chance, length),
    }
}

/// Rooms exact, one short, small, and ample.
fn any_room(chance: &mut Chance, length: usize) -> u32 {
    let room = match chance.below(100) {
        0..=29 => length,
        30..=39 => length - 1,
        40..=49 => chance.below(length),
        50..=54 => chance.below(12),
        _ => length + chance.between(1, 100),
    };
    room as u32
}
