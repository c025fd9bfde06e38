//! 01, "What is built": Survey is the instance itself; here stand Value and Better of two.

use crate::instance::{Instance, Strength};
use crate::refusal::{refuse, Refusal};
use crate::text;

#[derive(Clone, Copy, Debug, PartialEq, Eq)]
pub struct Value {
    /// "The number of the first broken hard clause (0 if none)."
    pub first_broken: usize,
    /// The soft weight falsified, "given also where a hard clause is broken".
    pub weight: u64,
}

impl Value {
    pub fn meets_hard_clauses(self) -> bool {
        self.first_broken == 0
    }
}

/// Refusal 9, "assignment length is not n", then 10, "assignment byte over 1".
pub fn confirm_assignment(instance: &Instance, assignment: &[u8]) -> Result<(), Refusal> {
    if assignment.len() != instance.variables {
        return refuse(9, 0);
    }
    match assignment.iter().position(|byte| *byte > 1) {
        Some(index) => refuse(10, index),
        None => Ok(()),
    }
}

/// The value of an assignment already confirmed.
pub fn value_of(instance: &Instance, assignment: &[u8]) -> Value {
    let mut value = Value {
        first_broken: 0,
        weight: 0,
    };
    for (index, clause) in instance.clauses.iter().enumerate() {
        if clause.is_falsified(assignment) {
            match clause.strength {
                Strength::Soft(weight) => value.weight += weight,
                Strength::Hard if value.first_broken == 0 => value.first_broken = index + 1,
                Strength::Hard => {}
            }
        }
    }
    value
}

/// The question Value: the text, then 9, 10.
pub fn value(text: &[u8], assignment: &[u8]) -> Result<Value, Refusal> {
    let instance = text::read(text)?;
    confirm_assignment(&instance, assignment)?;
    Ok(value_of(&instance, assignment))
}

/// The question Better of two: "One that meets the hard clauses comes before one that
/// doesn't; then less weight; equal, or both breaking a hard clause: the first." On a refusal
/// for either "the empty part at the start of the first".
pub fn better<'a>(text: &[u8], first: &'a [u8], second: &'a [u8]) -> &'a [u8] {
    match (value(text, first), value(text, second)) {
        (Ok(one), Ok(other)) if comes_before(other, one) => second,
        (Ok(_), Ok(_)) => first,
        _ => &first[..0],
    }
}

fn comes_before(one: Value, other: Value) -> bool {
    one.meets_hard_clauses() && (!other.meets_hard_clauses() || one.weight < other.weight)
}

#[cfg(test)]
mod tests {
    use super::*;

    const PAIR: &[u8] = b"h 1 2 0\n3 -1 0\n2 -2 0\n4 -1 -2 0\n";

    #[test]
    fn value_gives_the_weight_also_where_a_hard_clause_is_broken() {
        let broken = value(b"2 1 0\nh 1 0\nh 2 0", &[0, 0]);
        let expected = Value {
            first_broken: 2,
            weight: 2,
        };
        assert_eq!(broken, Ok(expected));
        assert_eq!(value(PAIR, &[1]), refuse(9, 0));
        assert_eq!(value(PAIR, &[1, 2]), refuse(10, 1));
    }

    #[test]
    fn better_prefers_hard_then_light_then_first() {
        assert_eq!(better(PAIR, &[1, 0], &[0, 1]), &[0, 1]);
        assert_eq!(better(PAIR, &[0, 1], &[1, 0]), &[0, 1]);
        assert_eq!(better(PAIR, &[0, 0], &[1, 1]), &[1, 1]);
        assert_eq!(better(PAIR, &[1, 1], &[0, 0]), &[1, 1]);
        assert_eq!(better(b"h 1 0\nh 2 0", &[0, 0], &[1, 0]), &[0, 0]);
        assert_eq!(better(b"1 1 2 0", &[0, 1], &[1, 0]), &[0, 1]);
        assert!(better(PAIR, &[1, 0], &[0, 2]).is_empty());
        assert!(better(PAIR, &[1], &[0, 1]).is_empty());
    }
}
