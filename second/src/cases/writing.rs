//! Write, and what it leaves in the output and in found.

use super::{Cases, PAIR};
use crate::answers::{MOST_ASSIGNMENT, MOST_ROOM};
use crate::write::Wish::{Infeasible, Minimum};

pub fn add(cases: &mut Cases) {
    refused_assignments(cases);
    small_texts(cases);
    rooms(cases);
    refuted(cases);
    strategy(cases);
    lengths(cases);
}

fn refused_assignments(cases: &mut Cases) {
    // 9, 10, 12 under M, in this order; before any room is asked for
    cases.write(Minimum, PAIR, &[1], 32);
    cases.write(Minimum, PAIR, &[2, 0, 0], 0);
    cases.write(Minimum, PAIR, &[0, 2], 3);
    cases.write(Minimum, PAIR, &[0, 0], 0);
    cases.write(Minimum, "h 1 0\nh 2 0", &[1, 0], 32);
    cases.write(Minimum, "h 0", &[], 32);
    // under N the assignment is not looked at
    cases.write(Infeasible, "h 1 0\nh -1 0", &[255; 7], 8);
    cases.write(Infeasible, PAIR, &[255; 7], 32);
}

fn small_texts(cases: &mut Cases) {
    // the empty text: nothing to pay, and N refuted by the empty layout
    cases.write(Minimum, "", &[], 12);
    cases.write(Infeasible, "", &[], 12);
    // an empty hard clause: a dead root
    cases.write(Infeasible, "h 0", &[], 4);
    // a dead root is closed, though its units contradict
    cases.write(Infeasible, "h 0\nh 1 0\nh -1 0", &[], 4);
    // an empty soft clause
    cases.write(Minimum, "5 0", &[], 10);
    // a tautology is left alone
    cases.write(Minimum, "4 1 -1 0", &[0], 16);
    cases.write(Infeasible, "h 1 -1 0", &[0], 16);
}

fn rooms(cases: &mut Cases) {
    // every room of an N derivation of five bytes
    for room in 0..=6 {
        cases.write(Infeasible, "h 1 0\nh -1 0", &[], room);
    }
    // more rooms for the sheet pair's twenty bytes
    for room in [1, 10, 11, 12, 13, 14, 15, 16, 17, 18, 21] {
        cases.write(Minimum, PAIR, &[0, 1], room);
    }
    // 22 needs no room beyond the claim where the root has nothing to do
    cases.write(Infeasible, "3 1 0", &[], 0);
    cases.write(Infeasible, "3 1 0", &[], 1);
    cases.write(Minimum, "3 1 0", &[0], 8);
    cases.write(Minimum, "3 1 0", &[0], 9);
}

fn refuted(cases: &mut Cases) {
    // N on feasible texts: found by hard marks, by weight left, by both
    cases.write(Infeasible, "h 1 0\nh -2 0\n3 3 0\n3 -4 0", &[], 32);
    cases.write(Infeasible, "h 1 2 0\nh -1 0\n9 1 0", &[], 64);
    // a positive literal that keeps more weight than its opposite had
    cases.write(Minimum, "5 1 0\n3 -1 0", &[0], 32);
    // equal weights leave both at 0: found 0
    cases.write(Minimum, "5 1 0\n5 -1 0\n1 2 0", &[0, 0], 32);
    // both cheapest, so neither is refuted
    cases.write(Minimum, "5 1 0\n5 -1 0", &[0], 32);
    cases.write(Minimum, "5 1 0\n5 -1 0", &[1], 32);
    // n = 500: found is full, the bytes beyond stay
    cases.write(Infeasible, "h 500 0\nh 1 0\n1 499 0", &[], 32);
    cases.write(Minimum, "2 500 0\n1 -500 0", &[0; 500], 32);
}

fn strategy(cases: &mut Cases) {
    // the lowest variable first, then the lowest clause
    let text = "h 3 4 0\nh 1 2 0\n1 -4 0\n1 -3 0\n1 -2 0\n1 -1 0\n2 5 0\n1 -5 0\n";
    cases.write(Minimum, text, &[0, 1, 0, 1, 1], 256);
    cases.write(Minimum, text, &[1, 1, 0, 1, 1], 256);
    cases.write(Infeasible, text, &[], 256);
    // Q as soon as it is allowed, though a clause could be extended
    cases.write(Minimum, "1 0\n1 2 0\n1 -2 0\nh 1 -2 0", &[0, 0], 64);
    // branches in kept order
    cases.write(Minimum, "h 2 1 2 0\n3 -1 0\n2 -2 0", &[0, 1], 64);
    // under M a branch may be closed because it is dead
    cases.write(Minimum, "h 1 2 0\nh -1 0\n6 -2 0", &[0, 1], 64);
    // three pigeons in two holes
    let holes = "h 1 2 0\nh 3 4 0\nh 5 6 0\nh -1 -3 0\nh -1 -5 0\nh -3 -5 0\n\
                 h -2 -4 0\nh -2 -6 0\nh -4 -6 0\n";
    cases.write(Infeasible, holes, &[], 4_096);
}

fn lengths(cases: &mut Cases) {
    // the largest room that is answered, and one byte more
    cases.write(Minimum, PAIR, &[0, 1], MOST_ROOM);
    cases.write(Minimum, PAIR, &[0, 1], MOST_ROOM + 1);
    cases.write(Infeasible, PAIR, &[0, 1], u32::MAX);
    // an assignment longer than is answered, also under N
    cases.write(Minimum, PAIR, &[0; MOST_ASSIGNMENT + 1], 32);
    cases.write(Infeasible, PAIR, &[0; MOST_ASSIGNMENT + 1], 32);
}
