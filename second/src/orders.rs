//! Derivations in other orders than Write's: random legal records until every branch is
//! closed, on wish with one wrong record where the walk allows it.

use crate::branch::Branch;
use crate::chance::Chance;
use crate::check::step;
use crate::instance::Instance;
use crate::record::{Claim, Record};

/// The one thing to do wrong, by the refusal it should meet.
#[derive(Clone, Copy)]
pub enum Fault {
    /// 14: "unknown kind, second claim, record cut short".
    Kind,
    /// 15: a clause that can't be extended here.
    Extend,
    /// 16: a variable with nothing to contradict.
    Contradict,
    /// 17: E or C on a dead branch.
    Dead,
    /// 18: Q not allowed.
    Close,
    /// 19: the derivation ends here.
    End,
    /// 20: bytes after the last branch closed.
    After,
}

/// The faults to pick from, those that few branches allow more often.
pub const FAULTS: [Fault; 12] = [
    Fault::Kind,
    Fault::Extend,
    Fault::Extend,
    Fault::Contradict,
    Fault::Dead,
    Fault::Dead,
    Fault::Dead,
    Fault::Close,
    Fault::Close,
    Fault::End,
    Fault::After,
    Fault::After,
];

/// A random derivation of about `most` bytes at most. Where the claim can't be proved, or the
/// bytes are used up, it stops with a branch open.
pub fn derivation(
    chance: &mut Chance,
    instance: &Instance,
    claim: Claim,
    most: usize,
    fault: Option<Fault>,
) -> Vec<u8> {
    let mut bytes = claim.record().bytes();
    let mut open = vec![Branch::root(instance)];
    while let Some(branch) = open.pop() {
        if let Some(wrong) = wrong_bytes(chance, instance, claim, &branch, fault) {
            bytes.extend(wrong);
            return bytes;
        }
        match legal_record(chance, instance, claim, &branch) {
            Some((record, next)) if bytes.len() < most => {
                bytes.extend(record.bytes());
                open.extend(next.into_iter().rev());
            }
            _ => return bytes,
        }
    }
    if matches!(fault, Some(Fault::After)) {
        bytes.extend(chance.pick(&[&[0x51][..], &[0x43, 0, 1], &[0], &[0x4E, 0x51], &[0x4D]]));
    }
    bytes
}

type Move = (Record, Vec<Branch>);

/// Any record that is legal here: mostly Q where it is allowed, mostly C before E.
fn legal_record(
    chance: &mut Chance,
    instance: &Instance,
    claim: Claim,
    branch: &Branch,
) -> Option<Move> {
    let legal = |record| Some((record, step(instance, claim, branch, record).ok()?));
    let close = legal(Record::Close);
    if close.is_some() && (branch.is_dead() || chance.percent(85)) {
        return close;
    }
    let contradict = from_any(chance, instance.variables, |variable| {
        legal(Record::Contradict(variable))
    });
    if contradict.is_some() && chance.percent(65) {
        return contradict;
    }
    let extend = from_any(chance, instance.clauses.len(), |number| {
        legal(Record::Extend(number))
    });
    extend.or(contradict).or(close)
}

/// The first that goes among 1 to `count`, starting anywhere and going round.
fn from_any(chance: &mut Chance, count: usize, goes: impl Fn(u16) -> Option<Move>) -> Option<Move> {
    let start = chance.below(count);
    (0..count).find_map(|step| goes(((start + step) % count + 1) as u16))
}

/// The wrong bytes, where this branch allows the fault and chance wants it here.
fn wrong_bytes(
    chance: &mut Chance,
    instance: &Instance,
    claim: Claim,
    branch: &Branch,
    fault: Option<Fault>,
) -> Option<Vec<u8>> {
    let number = chance.between(0, instance.clauses.len() + 1) as u16;
    let variable = chance.between(0, instance.variables + 1) as u16;
    let (refusal, record) = match fault? {
        Fault::Kind if chance.one_in(3) => return Some(wrong_kind(chance)),
        Fault::End if chance.one_in(3) => return Some(Vec::new()),
        Fault::Extend => (15, Record::Extend(number)),
        Fault::Contradict => (16, Record::Contradict(variable)),
        Fault::Dead if chance.one_in(2) => (17, Record::Extend(number)),
        Fault::Dead => (17, Record::Contradict(variable)),
        Fault::Close => (18, Record::Close),
        Fault::Kind | Fault::End | Fault::After => return None,
    };
    let refused = step(instance, claim, branch, record).err() == Some(refusal);
    (refused && (refusal == 17 || chance.one_in(2))).then(|| record.bytes())
}

fn wrong_kind(chance: &mut Chance) -> Vec<u8> {
    const WRONG: [&[u8]; 10] = [
        &[0x00],
        &[0xFF, 0, 1],
        b"q",
        b"e\x00\x01",
        b"N",
        b"M\x00\x00\x00\x00\x00\x00\x00\x02Q",
        b"M\x00",
        b"E\x00",
        b"E",
        b"C",
    ];
    chance.pick(&WRONG).to_vec()
}
