//! 01, the question Write.

use crate::branch::Branch;
use crate::check::step;
use crate::instance::Instance;
use crate::record::{Claim, Record};
use crate::refusal::{refuse, Refusal};
use crate::text;
use crate::value::{confirm_assignment, value_of};

/// The found buffer's constant: "the first 500 found bytes".
const FOUND: usize = 500;

/// "Write takes M with an assignment (m is its weight) or N."
#[derive(Clone, Copy, Debug, PartialEq, Eq)]
pub enum Wish {
    Minimum,
    Infeasible,
}

/// Success "returns length and record count", the records after the claim.
#[derive(Clone, Copy, Debug, PartialEq, Eq)]
pub struct Written {
    pub length: usize,
    pub count: usize,
}

/// How a walk ends without a whole derivation.
enum Stop {
    Refused(Refusal),
    /// 22: the layout that refutes the claim.
    Found(Vec<u8>),
}

impl From<Refusal> for Stop {
    fn from(refusal: Refusal) -> Stop {
        Stop::Refused(refusal)
    }
}

/// Writes into the lent output and found, of at least 500 bytes.
pub fn write(
    wish: Wish,
    text: &[u8],
    assignment: &[u8],
    output: &mut [u8],
    found: &mut [u8],
) -> Result<Written, Refusal> {
    // "Otherwise the first 500 found bytes are zero; on 22 those from n to 499 are zero. The
    // rest of found is unchanged."
    found[..FOUND].fill(0);
    let stop = match derive(wish, text, assignment, output.len()) {
        Ok(draft) => {
            // "Success leaves output after the derivation unchanged."
            output[..draft.bytes.len()].copy_from_slice(&draft.bytes);
            return Ok(Written {
                length: draft.bytes.len(),
                count: draft.count,
            });
        }
        Err(stop) => stop,
    };
    // "Any refusal but 1 leaves the output all zero."
    output.fill(0);
    match stop {
        Stop::Refused(refusal) => Err(refusal),
        Stop::Found(layout) => {
            found[..layout.len()].copy_from_slice(&layout);
            refuse(22, 0)
        }
    }
}

/// The derivation so far.
struct Draft {
    bytes: Vec<u8>,
    count: usize,
    room: usize,
}

impl Draft {
    /// 21: "next record has no room", at the "bytes written so far".
    fn put(&mut self, record: Record) -> Result<(), Refusal> {
        let bytes = record.bytes();
        if self.bytes.len() + bytes.len() > self.room {
            return refuse(21, self.bytes.len());
        }
        self.bytes.extend(bytes);
        Ok(())
    }
}

/// "It writes the claim, then on each branch" the next record, until none is open.
fn derive(wish: Wish, text: &[u8], assignment: &[u8], room: usize) -> Result<Draft, Stop> {
    let instance = text::read(text)?;
    let claim = claim_for(wish, &instance, assignment)?;
    let mut draft = Draft {
        bytes: Vec::new(),
        count: 0,
        room,
    };
    draft.put(claim.record())?;
    let mut open = vec![Branch::root(&instance)];
    while let Some(branch) = open.pop() {
        let Some((record, next)) = next_record(&instance, claim, &branch) else {
            return Err(Stop::Found(branch.layout()));
        };
        draft.put(record)?;
        draft.count += 1;
        open.extend(next.into_iter().rev());
    }
    Ok(draft)
}

/// "M with an assignment (m is its weight; 9, 10, 12 as above, no 13) or N."
fn claim_for(wish: Wish, instance: &Instance, assignment: &[u8]) -> Result<Claim, Refusal> {
    if wish == Wish::Infeasible {
        return Ok(Claim::Infeasible);
    }
    confirm_assignment(instance, assignment)?;
    let value = value_of(instance, assignment);
    if !value.meets_hard_clauses() {
        return refuse(12, value.first_broken);
    }
    Ok(Claim::Minimum(value.weight))
}

/// "If Q is allowed, Q; else C at the lowest variable that has one; else E of the lowest
/// extendable clause; else 22": the record and the branches that follow, or none.
pub fn next_record(
    instance: &Instance,
    claim: Claim,
    branch: &Branch,
) -> Option<(Record, Vec<Branch>)> {
    let variables = (1..=instance.variables).map(|variable| Record::Contradict(variable as u16));
    let clauses = (1..=instance.clauses.len()).map(|number| Record::Extend(number as u16));
    std::iter::once(Record::Close)
        .chain(variables)
        .chain(clauses)
        .find_map(|record| Some((record, step(instance, claim, branch, record).ok()?)))
}
