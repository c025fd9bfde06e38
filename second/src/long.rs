//! One Check question with a long accepted derivation, for benchmarks.

use crate::answers::MOST_DERIVATION;
use crate::branch::Branch;
use crate::brute;
use crate::check::step;
use crate::instance::Instance;
use crate::questions::Question;
use crate::record::{Claim, Record};
use crate::text;
use crate::value::value_of;
use crate::write::next_record;

/// The question, or why there is none.
pub fn question(records: usize, wide: bool) -> Result<Question, String> {
    let text = match wide {
        true => wide_text(),
        false => small_text(),
    };
    let instance = text::read(text.as_bytes()).map_err(|refusal| refusal.to_string())?;
    let assignment = match wide {
        true => vec![1; instance.variables],
        false => match brute::cheapest(&brute::feasible(&instance)) {
            Some(best) => best.assignment.clone(),
            None => return Err("the instance is infeasible".to_string()),
        },
    };
    let claim = Claim::Minimum(value_of(&instance, &assignment).weight);
    // In the wide instance the last pair is left for the end of each branch.
    let kept_back = if wide { WIDE_PAIRS } else { 0 };
    let derivation = stretched(&instance, claim, records, kept_back)?;
    Ok(Question::Check {
        text: text.into_bytes(),
        assignment,
        derivation,
    })
}

/// n 10, K 22: each variable true costs, nine hard clauses want some of them true, and three
/// soft clauses of three literals besides.
fn small_text() -> String {
    let mut text = String::new();
    for variable in 1..=10 {
        text += &format!("{} -{variable} 0\n", variable % 3 + 1);
    }
    for first in 1..=9 {
        let (second, third) = (first % 10 + 1, (first * 3 + 4) % 10 + 1);
        text += &format!("h {first} {second} {third} 0\n");
    }
    text + "2 1 -4 7 0\n1 -2 5 -9 0\n2 3 -6 10 0\n"
}

/// Variables with a soft unit of either sign in the wide instance.
const WIDE_PAIRS: usize = 250;

/// n 500, K 1,000, 4,000 literals: 250 pairs of soft units, and 500 clauses of seven positive
/// literals, every other one hard, over the other variables.
fn wide_text() -> String {
    let mut text = String::new();
    for variable in 1..=WIDE_PAIRS {
        text += &format!("2 {variable} 0\n1 -{variable} 0\n");
    }
    for row in 0..500 {
        text += if row % 2 == 0 { "h" } else { "3" };
        for step in 0..7 {
            text += &format!(" {}", 251 + (row * 11 + step * 31) % 250);
        }
        text += " 0\n";
    }
    text
}

/// Contradicts and extends as long as it can until about `records` are written, then goes on
/// like Write.
fn stretched(
    instance: &Instance,
    claim: Claim,
    records: usize,
    kept_back: usize,
) -> Result<Vec<u8>, String> {
    let mut bytes = claim.record().bytes();
    let mut count = 0;
    let mut open = vec![Branch::root(instance)];
    while let Some(branch) = open.pop() {
        let slow = match count < records {
            true => slow_record(instance, claim, &branch, kept_back),
            false => None,
        };
        let Some((record, next)) = slow.or_else(|| next_record(instance, claim, &branch)) else {
            return Err("the claim is false".to_string());
        };
        bytes.extend(record.bytes());
        if bytes.len() > MOST_DERIVATION {
            return Err(format!(
                "too many: {MOST_DERIVATION} bytes are full after {count} records"
            ));
        }
        count += 1;
        open.extend(next.into_iter().rev());
    }
    match count >= records {
        true => Ok(bytes),
        false => Err(format!("the full tableau has only {count} records")),
    }
}

/// C before E, and no Q as long as there is either; the variable kept back is not taken.
fn slow_record(
    instance: &Instance,
    claim: Claim,
    branch: &Branch,
    kept_back: usize,
) -> Option<(Record, Vec<Branch>)> {
    let variables = (1..=instance.variables).filter(|variable| *variable != kept_back);
    let contradictions = variables.map(|variable| Record::Contradict(variable as u16));
    let extensions = (1..=instance.clauses.len()).map(|number| Record::Extend(number as u16));
    contradictions
        .chain(extensions)
        .find_map(|record| Some((record, step(instance, claim, branch, record).ok()?)))
}

#[cfg(test)]
mod tests {
    use super::*;
    use crate::answers::answer;

    #[test]
    fn long_derivations_are_accepted() {
        for (records, wide) in [(20_000, false), (5_000, true)] {
            let question = question(records, wide).expect("a question");
            let line = answer(&question);
            let steps = line.rsplit(' ').next().and_then(|steps| steps.parse().ok());
            assert!(line.starts_with("accepted minimum"), "{line}");
            assert!(steps.is_some_and(|steps: usize| steps >= records), "{line}");
        }
    }

    #[test]
    fn the_wide_instance_is_at_the_limits() {
        let instance = text::read(wide_text().as_bytes()).expect("a good text");
        let sizes = (
            instance.variables,
            instance.clauses.len(),
            instance.literals,
        );
        assert_eq!(sizes, (500, 1_000, 4_000));
    }
}
