//! 01, "Examples to prove", the sheet pair in every question, and "Run only".

use super::{Cases, PAIR};
use crate::limits;
use crate::record::Record::{Close, Contradict, Extend, Infeasible, Minimum};
use crate::write::Wish;

pub fn add(cases: &mut Cases) {
    first_seven(cases);
    last_seven(cases);
    sheet_pair(cases);
    write_examples(cases);
    run_only(cases);
}

fn first_seven(cases: &mut Cases) {
    let two = "2 1 0\n2 -1 0";
    // example 1: the empty text costs nothing
    cases.check("", &[], &[Minimum(0), Close]);
    // example 2: the root left open
    cases.check("", &[], &[Minimum(0)]);
    // example 3: a Q too many
    cases.check("", &[], &[Minimum(0), Close, Close]);
    // example 4: an empty hard clause
    cases.check("h 0", &[], &[Infeasible, Close]);
    // example 5: an empty soft clause
    cases.check("5 0", &[], &[Minimum(5), Close]);
    // example 6: equal weights
    cases.check(two, &[0], &[Minimum(2), Contradict(1), Close]);
    // example 7: equal weights are spent
    cases.check(two, &[0], &[Minimum(2), Contradict(1), Contradict(1)]);
}

fn last_seven(cases: &mut Cases) {
    let both = "h 1 0\nh -1 0";
    let side = "h 1 0\n3 1 0\n5 -1 0";
    let pair = [
        Minimum(2),
        Extend(1),
        Contradict(1),
        Close,
        Contradict(2),
        Close,
    ];
    let mut dear = pair;
    dear[0] = Minimum(3);
    // example 8: both literals hard
    cases.check(both, &[], &[Infeasible, Contradict(1), Close]);
    // example 9: nothing but Q on a dead branch
    cases.check(both, &[], &[Infeasible, Contradict(1), Contradict(1)]);
    // example 10: one literal hard
    cases.check(side, &[1], &[Minimum(5), Contradict(1), Close]);
    // example 11: a tautology can't be extended
    cases.check("4 1 -1 0", &[0], &[Minimum(0), Extend(1)]);
    // example 12: a repeated literal makes a unit
    let repeated = "4 1 1 0\n2 -1 0";
    cases.check(repeated, &[1], &[Minimum(2), Contradict(1), Close]);
    // example 13: the sheet pair
    cases.check(PAIR, &[0, 1], &pair);
    // example 14: the sheet pair with a layout that is not cheapest
    cases.check(PAIR, &[1, 0], &dear);
}

fn sheet_pair(cases: &mut Cases) {
    // the sheet pair surveyed
    cases.survey(PAIR);
    for assignment in [[0, 0], [0, 1], [1, 0], [1, 1]] {
        // its four assignments valued; 00 00 breaks the hard clause
        cases.value(PAIR, &assignment);
        for other in [[0, 0], [0, 1], [1, 0], [1, 1]] {
            // and each held against each
            cases.better(PAIR, &assignment, &other);
        }
    }
}

fn write_examples(cases: &mut Cases) {
    // the 20 bytes in ample room, the rest untouched
    cases.write(Wish::Minimum, PAIR, &[0, 1], 32);
    // 22 with found 00 01
    cases.write(Wish::Minimum, PAIR, &[1, 0], 64);
    // output room exact, one byte short, and 0, 8 and 9
    for room in [20, 19, 0, 8, 9] {
        cases.write(Wish::Minimum, PAIR, &[0, 1], room);
    }
    // room for every record up to the 22, and one byte less: 21 comes first
    cases.write(Wish::Minimum, PAIR, &[1, 0], 22);
    cases.write(Wish::Minimum, PAIR, &[1, 0], 21);
    // N on a feasible text: refuted with a feasible layout
    cases.write(Wish::Infeasible, PAIR, &[], 64);
}

fn run_only(cases: &mut Cases) {
    let ones = [1; 500];
    // variable 500 and 501
    cases.everywhere(limits::variable(500), &ones);
    cases.everywhere(limits::variable(501), &ones);
    // clause 1,000 and 1,001
    cases.everywhere(limits::clauses(""), &[1]);
    cases.everywhere(limits::clauses("1 0"), &[1]);
    // literal 4,000 and 4,001
    cases.everywhere(limits::literals(""), &[1; 100]);
    cases.everywhere(limits::literals("7"), &[1; 100]);
    // weight 1000000000000 alone and followed by a weight 1
    cases.everywhere(limits::weights(false), &[1]);
    cases.everywhere(limits::weights(true), &[1]);
    // the whole weight falsified, in a claim and in what Write claims
    let heavy = "1000000000000 1 0\nh -1 0";
    let m = 1_000_000_000_000;
    cases.value(heavy, &[0]);
    cases.check(heavy, &[0], &[Minimum(m), Contradict(1), Close]);
    cases.write(Wish::Minimum, heavy, &[0], 13);
}

#[cfg(test)]
mod tests {
    use super::*;
    use crate::answers::answer;

    const EXAMPLES: [&str; 14] = [
        "accepted minimum 0 steps 1",
        "refused 19 at 9",
        "refused 20 at 10",
        "accepted infeasible steps 1",
        "accepted minimum 5 steps 1",
        "accepted minimum 2 steps 2",
        "refused 16 at 12",
        "accepted infeasible steps 2",
        "refused 17 at 4",
        "accepted minimum 5 steps 2",
        "refused 15 at 9",
        "accepted minimum 2 steps 2",
        "accepted minimum 2 steps 5",
        "refused 18 at 19",
    ];

    fn lines(add: fn(&mut Cases)) -> Vec<String> {
        let mut cases = Cases::default();
        add(&mut cases);
        cases.questions.iter().map(answer).collect()
    }

    #[test]
    fn the_fourteen_examples() {
        assert_eq!(lines(first_seven), EXAMPLES[..7]);
        assert_eq!(lines(last_seven), EXAMPLES[7..]);
    }

    #[test]
    fn the_sheet_pair_written() {
        let derivation = "4d0000000000000002450001430001514300025";
        let nothing = "00".repeat(500) + "bbbbbb";
        let found = "0001".to_string() + &"00".repeat(498) + "bbbbbb";
        let zero = |room| "00".repeat(room);
        let rest = "aa".repeat(12);
        let expected = [
            format!("written 20 5 out {derivation}1{rest} found {nothing}"),
            format!("refused 22 at 0 out {} found {found}", zero(64)),
            format!("written 20 5 out {derivation}1 found {nothing}"),
            format!("refused 21 at 19 out {} found {nothing}", zero(19)),
            format!("refused 21 at 0 out - found {nothing}"),
            format!("refused 21 at 0 out {} found {nothing}", zero(8)),
            format!("refused 21 at 9 out {} found {nothing}", zero(9)),
            format!("refused 22 at 0 out {} found {found}", zero(22)),
            format!("refused 21 at 19 out {} found {nothing}", zero(21)),
        ];
        assert_eq!(lines(write_examples)[..9], expected);
    }

    #[test]
    fn the_run_only_cases() {
        let lines = lines(run_only);
        let surveys: Vec<&String> = lines.iter().step_by(6).take(8).collect();
        let literal_4001 = limits::literals("").len() + "1 ".len();
        let expected = [
            "survey 500 2 4 2",
            "refused 7 at 4",
            "survey 1 1000 1000 1000",
            "refused 4 at 6000",
            "survey 100 500 4000 0",
            &format!("refused 8 at {literal_4001}"),
            "survey 1 1 1 1000000000000",
            "refused 6 at 18",
        ];
        assert_eq!(surveys, expected);
    }
}
