//! 01, the question Check: "1, text, then in Check the claim (11), then under M 9, 10, 12, 13,
//! then records in turn".

use std::fmt;

use crate::branch::Branch;
use crate::instance::Instance;
use crate::record::{Claim, Record};
use crate::refusal::{refuse, Refusal};
use crate::text;
use crate::value::{confirm_assignment, value_of};

/// "An accepted check returns the claim, m (0 under N) and the number of records after the
/// claim."
#[derive(Clone, Copy, Debug, PartialEq, Eq)]
pub struct Accepted {
    pub claim: Claim,
    pub steps: usize,
}

impl fmt::Display for Accepted {
    fn fmt(&self, out: &mut fmt::Formatter<'_>) -> fmt::Result {
        match self.claim {
            Claim::Minimum(m) => write!(out, "accepted minimum {m} steps {}", self.steps),
            Claim::Infeasible => write!(out, "accepted infeasible steps {}", self.steps),
        }
    }
}

pub fn check(text: &[u8], assignment: &[u8], derivation: &[u8]) -> Result<Accepted, Refusal> {
    let instance = text::read(text)?;
    let claim = claim_of(derivation)?;
    // "Under N the assignment is not read."
    if let Claim::Minimum(m) = claim {
        confirm_minimum(&instance, assignment, m)?;
    }
    judge_records(&instance, claim, derivation)
}

/// "The first record is the claim"; 11: "no whole claim first".
fn claim_of(derivation: &[u8]) -> Result<Claim, Refusal> {
    match Record::first_of(derivation) {
        Some(Record::Minimum(m)) => Ok(Claim::Minimum(m)),
        Some(Record::Infeasible) => Ok(Claim::Infeasible),
        _ => refuse(11, 0),
    }
}

/// 9, 10, then 12, "assignment breaks a hard clause", then 13, "its falsified weight is not m".
fn confirm_minimum(instance: &Instance, assignment: &[u8], m: u64) -> Result<(), Refusal> {
    confirm_assignment(instance, assignment)?;
    let value = value_of(instance, assignment);
    if !value.meets_hard_clauses() {
        return refuse(12, value.first_broken);
    }
    if value.weight != m {
        return refuse(13, 0);
    }
    Ok(())
}

/// "Records in turn: 14, 17, then 15, 16 or 18; with no record left, 19. After the last Q, 20
/// decides."
fn judge_records(
    instance: &Instance,
    claim: Claim,
    derivation: &[u8],
) -> Result<Accepted, Refusal> {
    let mut place = claim.record().bytes().len();
    let mut steps = 0;
    // "Branches are visited depth first": the last of the open branches is the one visited.
    let mut open = vec![Branch::root(instance)];
    while let Some(branch) = open.pop() {
        if place == derivation.len() {
            return refuse(19, place);
        }
        let Some(record) = Record::first_of(&derivation[place..]) else {
            return refuse(14, place);
        };
        let next = match step(instance, claim, &branch, record) {
            Ok(next) => next,
            Err(number) => return refuse(number, place),
        };
        open.extend(next.into_iter().rev());
        place += record.bytes().len();
        steps += 1;
    }
    if place < derivation.len() {
        return refuse(20, place);
    }
    Ok(Accepted { claim, steps })
}

/// The branches that take this one's place after the record, the first to visit first; or the
/// number of the refusal.
pub fn step(
    instance: &Instance,
    claim: Claim,
    branch: &Branch,
    record: Record,
) -> Result<Vec<Branch>, u32> {
    match record {
        // 14: "second claim"
        Record::Minimum(_) | Record::Infeasible => Err(14),
        // 17: "E or C on a dead branch"
        Record::Extend(_) | Record::Contradict(_) if branch.is_dead() => Err(17),
        // 15: "clause can't be extended here, or no such clause"
        Record::Extend(number) => branch.extend(instance, usize::from(number)).ok_or(15),
        // 16: "nothing to contradict, or no such variable"
        Record::Contradict(variable) => match branch.contradict(usize::from(variable)) {
            Some(next) => Ok(vec![next]),
            None => Err(16),
        },
        Record::Close if branch.may_close(claim) => Ok(Vec::new()),
        // 18: "Q not allowed"
        Record::Close => Err(18),
    }
}

#[cfg(test)]
mod tests {
    use super::*;
    use crate::record::derivation;
    use crate::record::Record::{Close, Contradict, Extend, Infeasible, Minimum};

    const PAIR: &[u8] = b"h 1 2 0\n3 -1 0\n2 -2 0\n4 -1 -2 0\n";

    #[test]
    fn the_claim_comes_after_the_text_and_before_the_assignment() {
        assert_eq!(check(b"1 x 0", &[7], &[]), refuse(2, 2));
        assert_eq!(check(PAIR, &[7], &[]), refuse(11, 0));
        assert_eq!(check(PAIR, &[7], &[0x4D, 0, 0]), refuse(11, 0));
        assert_eq!(check(PAIR, &[7], &derivation(&[Close])), refuse(11, 0));
        assert_eq!(check(PAIR, &[7], &derivation(&[Minimum(2)])), refuse(9, 0));
        assert_eq!(
            check(PAIR, &[0, 7], &derivation(&[Minimum(2)])),
            refuse(10, 1)
        );
        assert_eq!(
            check(PAIR, &[0, 0], &derivation(&[Minimum(0)])),
            refuse(12, 1)
        );
        assert_eq!(
            check(PAIR, &[0, 1], &derivation(&[Minimum(3)])),
            refuse(13, 0)
        );
        assert_eq!(check(PAIR, &[7], &derivation(&[Infeasible])), refuse(19, 1));
    }

    #[test]
    fn a_second_claim_or_a_cut_record_is_refused_before_a_dead_branch() {
        let dead = |more: &[u8]| check(b"h 0", &[], &[&[0x4E], more].concat());
        assert_eq!(dead(&[0x4D]), refuse(14, 1));
        assert_eq!(dead(&[0x4E]), refuse(14, 1));
        assert_eq!(dead(&[0x45, 0]), refuse(14, 1));
        assert_eq!(dead(&[0x45, 0, 9]), refuse(17, 1));
        assert_eq!(dead(&[0x43, 0, 9]), refuse(17, 1));
        assert_eq!(dead(&[0x51, 0x00]), refuse(20, 2));
    }

    #[test]
    fn no_such_clause_and_no_such_variable() {
        let pair = |record| check(PAIR, &[0, 1], &derivation(&[Minimum(2), record]));
        for number in [0, 2, 5, 65_535] {
            assert_eq!(pair(Extend(number)), refuse(15, 9));
        }
        for variable in [0, 1, 3, 65_535] {
            assert_eq!(pair(Contradict(variable)), refuse(16, 9));
        }
        assert_eq!(pair(Close), refuse(18, 9));
    }
}
