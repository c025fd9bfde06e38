//! A fast checker with an undo list, for benchmarks only. It gives the same answers as the
//! plain `check`; what it shares with it are the types of its answer.

mod reader;
mod state;

use crate::check::Accepted;
use crate::record::Claim;
use crate::refusal::{refuse, Refusal};
use reader::Flat;
use state::State;

/// A hard mark, in clauses and units alike; weights stay far below it.
const HARD: u64 = 1 << 63;

/// The answer, and how many records were judged before it (the refused one included).
pub struct Judged {
    pub answer: Result<Accepted, Refusal>,
    pub records: usize,
}

pub fn check(text: &[u8], assignment: &[u8], derivation: &[u8]) -> Judged {
    let mut records = 0;
    let answer = judge(text, assignment, derivation, &mut records);
    Judged { answer, records }
}

fn judge(
    text: &[u8],
    assignment: &[u8],
    derivation: &[u8],
    records: &mut usize,
) -> Result<Accepted, Refusal> {
    let flat = reader::read(text)?;
    let (claim, start) = match derivation {
        [b'M', a, b, c, d, e, f, g, h, ..] => {
            let m = u64::from_be_bytes([*a, *b, *c, *d, *e, *f, *g, *h]);
            confirm(&flat, assignment, m)?;
            (Claim::Minimum(m), 9)
        }
        [b'N', ..] => (Claim::Infeasible, 1),
        _ => return refuse(11, 0),
    };
    // Under N only a dead branch may be closed: no booked cost reaches this.
    let enough = match claim {
        Claim::Minimum(m) => m,
        Claim::Infeasible => u64::MAX,
    };
    let steps = walk(&flat, enough, derivation, start, records)?;
    Ok(Accepted { claim, steps })
}

/// 9, 10, 12, 13.
fn confirm(flat: &Flat, assignment: &[u8], m: u64) -> Result<(), Refusal> {
    if assignment.len() != flat.variables {
        return refuse(9, 0);
    }
    if let Some(index) = assignment.iter().position(|byte| *byte > 1) {
        return refuse(10, index);
    }
    let mut weight = 0;
    for clause in 0..flat.strengths.len() {
        let met = |code: &u32| u32::from(assignment[*code as usize / 2]) == code % 2;
        if !flat.tautologies[clause] && !flat.kept(clause).iter().any(met) {
            if flat.strengths[clause] == HARD {
                return refuse(12, clause + 1);
            }
            weight += flat.strengths[clause];
        }
    }
    match weight == m {
        true => Ok(()),
        false => refuse(13, 0),
    }
}

/// 14 to 20; the number of records where every branch closes.
fn walk(
    flat: &Flat,
    enough: u64,
    derivation: &[u8],
    start: usize,
    records: &mut usize,
) -> Result<usize, Refusal> {
    let mut state = State::root(flat);
    let mut place = start;
    let mut open = true;
    while open {
        let rest = &derivation[place..];
        if rest.is_empty() {
            return refuse(19, place);
        }
        *records += 1;
        let length;
        (length, open) = match obey(&mut state, flat, enough, rest) {
            Ok(done) => done,
            Err(number) => return refuse(number, place),
        };
        place += length;
    }
    match place == derivation.len() {
        true => Ok(*records),
        false => refuse(20, place),
    }
}

/// The length of the record and whether a branch is open after it, or the refusal's number.
fn obey(state: &mut State, flat: &Flat, enough: u64, rest: &[u8]) -> Result<(usize, bool), u32> {
    let number = |high, low| usize::from(u16::from_be_bytes([high, low]));
    match *rest {
        [b'Q', ..] if state.is_dead() || state.booked() >= enough => Ok((1, state.close(flat))),
        [b'Q', ..] => Err(18),
        [b'E' | b'C', _, _, ..] if state.is_dead() => Err(17),
        [b'E', high, low, ..] => stays_open(state.extend(flat, number(high, low)), 15),
        [b'C', high, low, ..] => stays_open(state.contradict(flat, number(high, low)), 16),
        _ => Err(14),
    }
}

fn stays_open(done: bool, refusal: u32) -> Result<(usize, bool), u32> {
    match done {
        true => Ok((3, true)),
        false => Err(refusal),
    }
}

#[cfg(test)]
mod tests {
    use super::*;
    use crate::batch;
    use crate::questions::Question;

    #[test]
    fn the_same_answers_as_the_plain_checker() {
        let mut accepted = 0;
        for question in batch::questions(11, 12_000) {
            if let Question::Check {
                text,
                assignment,
                derivation,
            } = question
            {
                let plain = crate::check::check(&text, &assignment, &derivation);
                let fast = check(&text, &assignment, &derivation).answer;
                assert_eq!(plain, fast, "{text:?} {assignment:?} {derivation:?}");
                accepted += usize::from(plain.is_ok());
            }
        }
        assert!(accepted > 500);
    }
}
