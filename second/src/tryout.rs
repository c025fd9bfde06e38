//! This program's own soundness trial: Write and Check against brute force.

use crate::answers::answer;
use crate::chance::Chance;
use crate::check;
use crate::damage;
use crate::known::{self, Known};
use crate::orders::{self, FAULTS};
use crate::questions::{hex, Question};
use crate::record::Claim;
use crate::value::value_of;
use crate::write::{self, Wish, Written};

/// Random and damaged derivations tried on each instance.
const DERIVATIONS: usize = 12;
/// Instances whose full tableau has more branches are passed over.
const MOST_BRANCHES: usize = 4_000;

/// The question that was answered wrong, and what is wrong.
pub struct Wrong {
    what: &'static str,
    question: Question,
}

impl Wrong {
    pub fn report(&self) -> String {
        format!(
            "wrong: {}\nquestion {}\nanswer {}",
            self.what,
            hex(&self.question.bytes()),
            answer(&self.question)
        )
    }
}

/// The number of derivations accepted over all instances.
pub fn tryout(seed: u64, count: usize) -> Result<usize, Wrong> {
    let mut chance = Chance::new(seed);
    let mut accepted = 0;
    for _ in 0..count {
        let known = drawn(&mut chance);
        accepted += try_true_claim(&known)?;
        try_false_claims(&known)?;
        for _ in 0..DERIVATIONS {
            accepted += try_any_derivation(&mut chance, &known)?;
        }
    }
    Ok(accepted)
}

fn drawn(chance: &mut Chance) -> Known {
    loop {
        let known = known::small(chance);
        if branches(&known) <= MOST_BRANCHES {
            return known;
        }
    }
}

/// P, the branches of the full tableau: each extendable clause multiplies them by its length.
fn branches(known: &Known) -> usize {
    let clauses = known.instance.clauses.iter();
    let extendable = clauses.filter(|clause| clause.kept.len() >= 2 && !clause.tautology);
    extendable.map(|clause| clause.kept.len()).product()
}

/// What a Write with this room leaves behind.
struct Attempt {
    answer: Result<Written, u32>,
    output: Vec<u8>,
    found: Vec<u8>,
    question: Question,
}

fn attempt(known: &Known, wish: Wish, assignment: &[u8], room: usize) -> Attempt {
    let mut output = vec![0xAA; room];
    let mut found = vec![0xBB; 503];
    let answer = write::write(wish, &known.text, assignment, &mut output, &mut found);
    Attempt {
        answer: answer.map_err(|refusal| refusal.number),
        output,
        found,
        question: Question::Write {
            wish,
            text: known.text.clone(),
            assignment: assignment.to_vec(),
            room: room as u32,
        },
    }
}

impl Attempt {
    fn wrong<T>(self, what: &'static str) -> Result<T, Wrong> {
        Err(Wrong {
            what,
            question: self.question,
        })
    }
}

/// Write for a cheapest layout, or for a true N: within P(K+2)-1 records and P(3K+4)+6 bytes,
/// the same in exact room, none in one byte less, and accepted by Check with that count.
fn try_true_claim(known: &Known) -> Result<usize, Wrong> {
    let wish = match known.claim() {
        Claim::Minimum(_) => Wish::Minimum,
        Claim::Infeasible => Wish::Infeasible,
    };
    let assignment = known.assignment();
    let (p, k) = (branches(known), known.instance.clauses.len());
    let ample = attempt(known, wish, &assignment, p * (3 * k + 4) + 6);
    let Ok(written) = ample.answer else {
        return ample.wrong("Write does not prove the true claim within P(3K+4)+6 bytes");
    };
    if written.count > p * (k + 2) - 1 {
        return ample.wrong("more than P(K+2)-1 records");
    }
    let exact = attempt(known, wish, &assignment, written.length);
    if exact.answer != Ok(written) || exact.output != ample.output[..written.length] {
        return exact.wrong("exact room changes what is written");
    }
    let short = attempt(known, wish, &assignment, written.length - 1);
    if short.answer != Err(21) || short.output.iter().any(|byte| *byte != 0) {
        return short.wrong("one byte short is not 21 with a zero output");
    }
    let accepted = check::check(&known.text, &assignment, &exact.output);
    let expected = check::Accepted {
        claim: known.claim(),
        steps: written.count,
    };
    if accepted != Ok(expected) {
        return exact.wrong("Check does not accept what Write wrote");
    }
    Ok(1)
}

/// Write for every layout that is not cheapest, and N where there is a layout: 22, with a
/// layout that meets the hard clauses and is cheaper.
fn try_false_claims(known: &Known) -> Result<(), Wrong> {
    let Some(best) = &known.best else {
        return Ok(());
    };
    try_refuted(known, Wish::Infeasible, &[], u64::MAX)?;
    for layout in &known.layouts {
        if layout.weight > best.weight {
            try_refuted(known, Wish::Minimum, &layout.assignment, layout.weight)?;
        }
    }
    Ok(())
}

fn try_refuted(known: &Known, wish: Wish, assignment: &[u8], weight: u64) -> Result<(), Wrong> {
    let (p, k) = (branches(known), known.instance.clauses.len());
    let refuted = attempt(known, wish, assignment, p * (3 * k + 4) + 6);
    if refuted.answer != Err(22) {
        return refuted.wrong("a false claim is not refuted");
    }
    let (layout, rest) = refuted.found.split_at(known.instance.variables);
    if layout.iter().any(|byte| *byte > 1) {
        return refuted.wrong("found is no assignment");
    }
    let value = value_of(&known.instance, layout);
    if !value.meets_hard_clauses() || value.weight >= weight {
        return refuted.wrong("found does not refute the claim");
    }
    let (zero, kept) = rest.split_at(500 - layout.len());
    if zero.iter().any(|byte| *byte != 0) || kept != [0xBB; 3] {
        return refuted.wrong("found is not zero to 500 and as before beyond");
    }
    Ok(())
}

/// A random or damaged derivation under any claim: where it is accepted, the claim is true.
fn try_any_derivation(chance: &mut Chance, known: &Known) -> Result<usize, Wrong> {
    let (claim, assignment) = match known.layouts.is_empty() || chance.one_in(4) {
        true => (Claim::Infeasible, Vec::new()),
        false => {
            let layout = chance.pick(&known.layouts);
            (Claim::Minimum(layout.weight), layout.assignment)
        }
    };
    let fault = match chance.one_in(3) {
        true => Some(chance.pick(&FAULTS)),
        false => None,
    };
    let mut derivation = orders::derivation(chance, &known.instance, claim, 2_000, fault);
    if chance.one_in(3) {
        derivation = damage::derivation(chance, &derivation);
    } else if fault.is_none() && chance.one_in(2) {
        // Closes what the walk left open, allowed or not.
        derivation.extend(vec![0x51; chance.below(4)]);
    }
    judge(known, assignment, derivation)
}

fn judge(known: &Known, assignment: Vec<u8>, derivation: Vec<u8>) -> Result<usize, Wrong> {
    match check::check(&known.text, &assignment, &derivation) {
        Ok(accepted) if accepted.claim != known.claim() => Err(Wrong {
            what: "a false claim is accepted",
            question: Question::Check {
                text: known.text.clone(),
                assignment,
                derivation,
            },
        }),
        Ok(_) => Ok(1),
        Err(_) => Ok(0),
    }
}

#[cfg(test)]
mod tests {
    #[test]
    fn a_short_trial_is_clean() {
        let accepted = super::tryout(5, 150);
        assert!(accepted.is_ok_and(|accepted| accepted > 300));
    }
}
