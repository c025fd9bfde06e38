//! Check: the claim, the assignment, each refusal of a record, and whole derivations that show
//! whether a branch starts from the state before its extension.

use super::{Cases, PAIR};
use crate::answers::{MOST_ASSIGNMENT, MOST_DERIVATION};
use crate::record::Record::{Close, Contradict, Extend, Infeasible, Minimum};

pub fn add(cases: &mut Cases) {
    claims(cases);
    assignments(cases);
    kinds(cases);
    extensions(cases);
    contradictions(cases);
    unequal_weights(cases);
    dead_branches(cases);
    closings(cases);
    endings(cases);
    taken_back(cases);
    kept_order(cases);
    branches_in_branches(cases);
    lengths(cases);
}

fn claims(cases: &mut Cases) {
    // 11: nothing, a cut M, no claim first; also where the assignment is wrong
    cases.check_bytes(PAIR, &[0, 1], b"");
    cases.check_bytes(PAIR, &[0, 1], b"M");
    cases.check_bytes(PAIR, &[0, 1], b"M\0\0\0\0\0\0\0");
    cases.check_bytes(PAIR, &[0, 1], b"Q");
    cases.check_bytes(PAIR, &[0, 1], b"E\0\x01");
    cases.check_bytes(PAIR, &[7], b"\0");
    cases.check_bytes(PAIR, &[7], b"m\0\0\0\0\0\0\0\x02");
    // a refused text comes before 11
    cases.check_bytes("h 1", &[7], b"");
    // all eight bytes of m count
    cases.check_bytes(PAIR, &[0, 1], b"M\x01\0\0\0\0\0\0\x02Q");
    cases.check(PAIR, &[0, 1], &[Minimum(u64::MAX), Close]);
    cases.check(PAIR, &[0, 1], &[Minimum(2 + (1 << 32)), Close]);
}

fn assignments(cases: &mut Cases) {
    // 9 before 10, 10 before 12, 12 before 13
    cases.check(PAIR, &[2], &[Minimum(2), Close]);
    cases.check(PAIR, &[0, 1, 0], &[Minimum(2), Close]);
    cases.check(PAIR, &[0, 2], &[Minimum(2), Close]);
    cases.check(PAIR, &[0, 0], &[Minimum(7), Close]);
    // 12 gives the first broken clause, 13 is off by one either way
    cases.check("1 1 0\nh 1 0\nh 2 0", &[1, 0], &[Minimum(0), Close]);
    cases.check(PAIR, &[0, 1], &[Minimum(1), Close]);
    cases.check(PAIR, &[0, 1], &[Minimum(3), Close]);
    // under M an infeasible text is 12 for every assignment
    cases.check("h 0", &[], &[Minimum(0), Close]);
    // under N the assignment is not read
    cases.check("h 0\nh 3 0", &[9; 40], &[Infeasible, Close]);
    // 13 before a bad record
    cases.check_bytes(PAIR, &[1, 0], b"M\0\0\0\0\0\0\0\x02\xFF");
}

fn kinds(cases: &mut Cases) {
    // 14: unknown kinds
    for kind in [0x00, 0xFF, b'm', b'n', b'e', b'c', b'q', b'1'] {
        cases.check_bytes("h 0", &[], &[b'N', kind, 0, 1]);
    }
    // 14: a second claim, whole or cut short
    cases.check_bytes("h 0", &[], b"NN");
    cases.check_bytes("h 0", &[], b"NM\0\0\0\0\0\0\0\0Q");
    cases.check_bytes("h 0", &[], b"NM\0");
    cases.check(PAIR, &[0, 1], &[Minimum(2), Extend(1), Minimum(2)]);
    // 14: a record cut short, also on a dead branch
    for cut in [&b"NE"[..], b"NE\0", b"NC", b"NC\0"] {
        cases.check_bytes("h 0", &[], cut);
        cases.check_bytes("h 1 2 0", &[], cut);
    }
}

fn extensions(cases: &mut Cases) {
    let text = "3 0\nh 1 0\n2 2 2 0\n1 1 -1 2 0\n4 1 2 0\n";
    let assignment = [1, 1];
    let extend = |number| [Minimum(3), Extend(number)];
    // 15: empty clause, hard unit, repeated unit, tautology
    for number in [1, 2, 3, 4] {
        cases.check(text, &assignment, &extend(number));
    }
    // 15: clause 0, K + 1, 261 (whose low byte is 5), 65,535
    for number in [0, 6, 261, 65_535] {
        cases.check(text, &assignment, &extend(number));
    }
    // the one that can be, and 15 for it a second time on the same branch
    let again = [Minimum(3), Extend(5), Extend(5)];
    cases.check(text, &assignment, &again);
    // extended though it may be closed; in the next branch it is extended still
    let closed = [Minimum(3), Extend(5), Close, Extend(5)];
    cases.check(text, &assignment, &closed);
    let whole = [Minimum(3), Extend(5), Close, Close];
    cases.check(text, &assignment, &whole);
}

fn contradictions(cases: &mut Cases) {
    let side = "h 1 0\n3 1 0\n5 -1 0\n2 3 0\n";
    // 16: variable 0, n + 1, one side only, none, 257 (whose low byte is 1)
    for variable in [0, 4, 3, 2, 257, 65_535] {
        cases.check(side, &[1, 0, 1], &[Minimum(5), Contradict(variable)]);
    }
    // the hard mark stays, the weight against it is spent
    let twice = [Minimum(5), Contradict(1), Contradict(1)];
    cases.check(side, &[1, 0, 1], &twice);
    // weights of several units add up before they meet
    let units = "2 1 0\n3 1 0\n1 -1 0\n3 -1 0";
    cases.check(units, &[1], &[Minimum(4), Contradict(1), Close]);
    // what is left of a weight meets what a branch adds to the other side
    let left = "5 1 0\n2 -1 0\nh -1 2 0\nh -1 -2 0";
    let records = [
        Minimum(5),
        Contradict(1),
        Extend(3),
        Contradict(1),
        Close,
        Extend(4),
        Contradict(1),
        Close,
        Contradict(2),
        Close,
    ];
    cases.check(left, &[0, 0], &records);
}

fn unequal_weights(cases: &mut Cases) {
    let close = |m| [Minimum(m), Contradict(1), Close];
    for text in ["7 1 0\n4 -1 0", "4 -1 0\n7 1 0", "7 -1 0\n4 1 0"] {
        // the smaller is booked, whichever side it is on and whichever comes first
        let cheaper = u8::from(text.contains("7 1"));
        cases.check(text, &[cheaper], &close(4));
        // it is taken from both sides
        let spent = [Minimum(4), Contradict(1), Contradict(1)];
        cases.check(text, &[cheaper], &spent);
        // booked once, and not the larger: a cost of 5 is not reached
        let dearer = format!("{text}\n1 2 0\n1 -2 0");
        cases.check(&dearer, &[cheaper, 0], &close(5));
    }
}

fn dead_branches(cases: &mut Cases) {
    // 17 at a dead root, before 15 and 16
    for record in [Extend(2), Extend(9), Contradict(1), Contradict(0)] {
        cases.check("h 0\nh 1 2 0", &[], &[Infeasible, record]);
    }
    // a branch is dead by its contradiction only, not by its marks
    let both = "h 1 0\nh -1 0\n2 1 2 0";
    cases.check(both, &[], &[Infeasible, Close]);
    cases.check(both, &[], &[Infeasible, Extend(3), Contradict(1)]);
    cases.check(both, &[], &[Infeasible, Contradict(1), Extend(3)]);
    // the next branch is not dead
    let text = "h 1 2 0\nh -1 0\nh -2 0";
    let start = [Infeasible, Extend(1), Contradict(1), Close];
    cases.check(text, &[], &[&start[..], &[Close]].concat());
    cases.check(text, &[], &[&start[..], &[Contradict(2), Close]].concat());
    // under M a dead branch closes below m
    let cheap = "h 1 2 0\nh -1 0\n6 -2 0";
    let below = [
        Minimum(6),
        Extend(1),
        Contradict(1),
        Close,
        Contradict(2),
        Close,
    ];
    cases.check(cheap, &[0, 1], &below);
}

fn closings(cases: &mut Cases) {
    // 18: below m, at m - 1; a Q at m and above m is good
    let text = "4 0\n1 1 0\n1 -1 0\n";
    cases.check(text, &[0], &[Minimum(5), Close]);
    cases.check(text, &[0], &[Minimum(5), Contradict(1), Close]);
    let above = "h 1 2 0\n9 -1 0\n2 -2 0";
    let records = [
        Minimum(2),
        Extend(1),
        Contradict(1),
        Close,
        Contradict(2),
        Close,
    ];
    cases.check(above, &[0, 1], &records);
    // 18: under N booked cost closes nothing
    cases.check("4 0\n", &[], &[Infeasible, Close]);
    cases.check(text, &[], &[Infeasible, Contradict(1), Close]);
    // m = 0 closes at once, whatever else the text says
    cases.check("h 1 2 0\n3 1 0", &[1, 0], &[Minimum(0), Close]);
}

fn endings(cases: &mut Cases) {
    // 19: after the claim, inside a branch, with the last branch open
    cases.check(PAIR, &[0, 1], &[Infeasible]);
    cases.check(PAIR, &[0, 1], &[Minimum(2), Extend(1)]);
    let one_open = [Minimum(2), Extend(1), Contradict(1), Close];
    cases.check(PAIR, &[0, 1], &one_open);
    // 20: any byte after the last branch closed, before it is decoded
    for byte in [b'Q', b'M', b'E', 0x00, 0xFF] {
        cases.check_bytes("h 0", &[], &[b'N', b'Q', byte]);
    }
}

/// Marks, weights, booked cost and extensions are as before in the next branch.
fn taken_back(cases: &mut Cases) {
    let text = "h 1 2 0\n3 -1 0\n3 -2 0\n2 -1 -2 0\n4 3 -1 0\n4 -3 0\n";
    let first = [Minimum(3), Extend(1), Contradict(1), Close];
    let next = |records: &[_]| [&first[..], records].concat();
    // the booked cost of the first branch is gone
    cases.check(text, &[0, 1, 0], &next(&[Close]));
    // so is its hard mark: nothing is contradicted at 1
    cases.check(text, &[0, 1, 0], &next(&[Contradict(1)]));
    cases.check(text, &[0, 1, 0], &next(&[Contradict(2), Close]));
    // the clause of the outer extension stays extended, that of the inner does not
    let inner = [Minimum(3), Extend(1), Extend(5), Contradict(1), Close];
    let after = |records: &[_]| [&inner[..], records].concat();
    cases.check(text, &[0, 1, 0], &after(&[Extend(5)]));
    cases.check(text, &[0, 1, 0], &after(&[Contradict(1), Close, Extend(1)]));
    let outer = [
        Contradict(1),
        Close,
        Extend(5),
        Contradict(2),
        Close,
        Contradict(2),
        Close,
    ];
    cases.check(text, &[0, 1, 0], &after(&outer));
    // soft weights gained in the first branch are gone in the second
    let soft = "4 1 2 0\n4 -1 0\n4 -2 0";
    let records = [
        Minimum(4),
        Extend(1),
        Contradict(1),
        Close,
        Contradict(2),
        Close,
    ];
    cases.check(soft, &[0, 0], &records);
    cases.check(soft, &[0, 0], &[&records[..4], &[Contradict(1)]].concat());
}

fn kept_order(cases: &mut Cases) {
    // branches in kept order: the first literal written, not the lowest variable
    let turned = "h 2 1 2 0\n3 -1 0\n2 -2 0\n";
    let by_two = [Minimum(2), Extend(1), Contradict(2), Close];
    let by_one = [Minimum(2), Extend(1), Contradict(1), Close];
    let records = [&by_two[..], &[Contradict(1), Close]].concat();
    cases.check(turned, &[0, 1], &records);
    cases.check(turned, &[0, 1], &by_one);
}

fn branches_in_branches(cases: &mut Cases) {
    // three branches, the last two extended again
    let three = "h 1 2 3 0\nh -1 0\nh -2 3 0\nh -3 0\n";
    let records = [
        Infeasible,
        Extend(1),
        Contradict(1),
        Close,
        Extend(3),
        Contradict(2),
        Close,
        Contradict(3),
        Close,
        Contradict(3),
        Close,
    ];
    cases.check(three, &[], &records);
    // the same, with records that are legal but not needed
    let slow = [
        Infeasible,
        Extend(3),
        Extend(1),
        Contradict(1),
        Close,
        Contradict(2),
        Close,
        Contradict(3),
        Close,
        Contradict(3),
        Close,
    ];
    cases.check(three, &[], &slow);
}

fn lengths(cases: &mut Cases) {
    // one byte more than is answered: the derivation, then the assignment
    cases.check_bytes(PAIR, &[0, 1], &vec![b'Q'; MOST_DERIVATION + 1]);
    cases.check("h 0", &[0; MOST_ASSIGNMENT + 1], &[Infeasible, Close]);
    // the longest assignment under N
    cases.check("h 0", &[0; MOST_ASSIGNMENT], &[Infeasible, Close]);
}
