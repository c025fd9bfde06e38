//! Questions at the limits of the answering program.

use crate::chance::Chance;
use crate::known;
use crate::questions::Question;
use crate::texts;
use crate::write::Wish;

/// Beyond the limits of the answering program, one step or far, or just within them.
pub fn question(chance: &mut Chance) -> Question {
    let known = known::small(chance);
    let text = known.text;
    let mut assignment = known
        .layouts
        .first()
        .map_or(vec![], |one| one.assignment.clone());
    match chance.below(6) {
        0 => {
            assignment.resize(chance.pick(&[1_024, 1_025]), 0);
            Question::Value { text, assignment }
        }
        1 => Question::Survey {
            text: long_text(chance),
        },
        2 => Question::Check {
            text,
            assignment,
            derivation: vec![0x51; chance.pick(&[262_144, 262_145])],
        },
        _ => Question::Write {
            wish: Wish::Minimum,
            text,
            assignment,
            room: chance.pick(&[65_536, 65_537, u32::MAX]),
        },
    }
}

/// A text of 262,144 bytes or one more, mostly a comment.
fn long_text(chance: &mut Chance) -> Vec<u8> {
    let sketch = texts::small(chance);
    let mut text = texts::spell(chance, &sketch);
    text.extend(b"\nc");
    text.resize(chance.pick(&[262_144, 262_145]), b'-');
    text
}
