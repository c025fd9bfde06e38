//! Value and Better of two.

use super::{Cases, PAIR};
use crate::answers::MOST_ASSIGNMENT;

pub fn add(cases: &mut Cases) {
    values(cases);
    wrong_assignments(cases);
    better(cases);
    better_refused(cases);
}

fn values(cases: &mut Cases) {
    let two_hard = "2 1 0\nh 2 0\nh 1 0\n5 0\n";
    // a hard clause broken: its number, and the weight still given
    cases.value(two_hard, &[0, 0]);
    // the first of two that are broken, in text order
    cases.value("h 1 0\nh -1 0\n3 -1 0", &[1]);
    cases.value("h 1 0\nh -1 0\n3 1 0", &[0]);
    // an empty hard clause is broken by every assignment
    cases.value("1 1 0\nh 0\nh 1 0", &[0]);
    // a tautology is never falsified
    cases.value("7 1 2 -1 0\nh -2 2 0", &[0, 0]);
    // n = 0
    cases.value("", &[]);
    cases.value("4 0\n", &[]);
    // every literal counts, the last as well
    cases.value("8 1 2 -3 0\n1 -1 -2 3 0", &[0, 0, 1]);
}

fn wrong_assignments(cases: &mut Cases) {
    // 9: too short, too long, for n = 0, and before 10
    cases.value(PAIR, &[1]);
    cases.value(PAIR, &[1, 0, 0]);
    cases.value("", &[0]);
    cases.value(PAIR, &[2, 2, 2]);
    // 10: the first byte over 1
    cases.value(PAIR, &[0, 2]);
    cases.value(PAIR, &[49, 48]);
    cases.value("h 5 0", &[1, 0, 255, 2, 1]);
    // the longest assignment that is answered, and one byte more
    cases.value(PAIR, &[0; MOST_ASSIGNMENT]);
    cases.value(PAIR, &[0; MOST_ASSIGNMENT + 1]);
}

fn better(cases: &mut Cases) {
    let tie = "1 1 0\n1 2 0";
    let hard = "h 1 0\nh 2 0\n5 -1 0\n9 3 0";
    // ties: the first
    cases.better(tie, &[0, 1], &[1, 0]);
    cases.better(tie, &[1, 0], &[0, 1]);
    cases.better(tie, &[1, 1], &[1, 1]);
    // less weight, on either side
    cases.better(tie, &[0, 1], &[1, 1]);
    cases.better(tie, &[1, 1], &[0, 1]);
    // either breaks a hard clause: the other, though it weighs more
    cases.better(hard, &[1, 1, 0], &[0, 1, 1]);
    cases.better(hard, &[0, 1, 1], &[1, 1, 0]);
    // both break one: the first, though it weighs more or breaks more
    cases.better(hard, &[0, 0, 0], &[1, 0, 1]);
    cases.better(hard, &[0, 1, 1], &[0, 0, 0]);
    // n = 0: the good result is empty too
    cases.better("", &[], &[]);
    cases.better("5 0\nh 0", &[], &[]);
}

fn better_refused(cases: &mut Cases) {
    let text = "1 1 0\n1 2 0";
    // 9 for the first, for the second, for both
    cases.better(text, &[1], &[1, 1]);
    cases.better(text, &[1, 1], &[1, 1, 1]);
    cases.better(text, &[], &[]);
    // 10 for the first, for the second
    cases.better(text, &[1, 2], &[1, 1]);
    cases.better(text, &[0, 0], &[255, 1]);
    // n = 0 and an assignment that is not empty
    cases.better("", &[1], &[]);
    cases.better("", &[], &[0]);
    // either longer than is answered
    cases.better(text, &[0; MOST_ASSIGNMENT + 1], &[1, 1]);
    cases.better(text, &[1, 1], &[0; MOST_ASSIGNMENT + 1]);
}
