//! The fixed batch: each case is named by the comment before it.

mod derivations;
mod examples;
mod texts;
mod values;
mod writing;

use crate::questions::Question;
use crate::record::{derivation, Record};
use crate::write::Wish;

/// The sheet pair of 01.
const PAIR: &str = "h 1 2 0\n3 -1 0\n2 -2 0\n4 -1 -2 0\n";

pub fn cases() -> Vec<Question> {
    let mut cases = Cases::default();
    examples::add(&mut cases);
    texts::add(&mut cases);
    values::add(&mut cases);
    derivations::add(&mut cases);
    writing::add(&mut cases);
    cases.questions
}

#[derive(Default)]
struct Cases {
    questions: Vec<Question>,
}

impl Cases {
    fn survey(&mut self, text: impl AsRef<[u8]>) {
        let text = text.as_ref().to_vec();
        self.questions.push(Question::Survey { text });
    }

    fn value(&mut self, text: impl AsRef<[u8]>, assignment: &[u8]) {
        self.questions.push(Question::Value {
            text: text.as_ref().to_vec(),
            assignment: assignment.to_vec(),
        });
    }

    fn better(&mut self, text: impl AsRef<[u8]>, first: &[u8], second: &[u8]) {
        self.questions.push(Question::Better {
            text: text.as_ref().to_vec(),
            first: first.to_vec(),
            second: second.to_vec(),
        });
    }

    fn check(&mut self, text: impl AsRef<[u8]>, assignment: &[u8], records: &[Record]) {
        self.check_bytes(text, assignment, &derivation(records));
    }

    fn check_bytes(&mut self, text: impl AsRef<[u8]>, assignment: &[u8], derivation: &[u8]) {
        self.questions.push(Question::Check {
            text: text.as_ref().to_vec(),
            assignment: assignment.to_vec(),
            derivation: derivation.to_vec(),
        });
    }

    fn write(&mut self, wish: Wish, text: impl AsRef<[u8]>, assignment: &[u8], room: u32) {
        self.questions.push(Question::Write {
            wish,
            text: text.as_ref().to_vec(),
            assignment: assignment.to_vec(),
            room,
        });
    }

    /// The same text in every question, Write under both claims.
    fn everywhere(&mut self, text: impl AsRef<[u8]>, assignment: &[u8]) {
        let text = text.as_ref();
        self.survey(text);
        self.value(text, assignment);
        self.better(text, assignment, assignment);
        self.check(text, assignment, &[Record::Minimum(0), Record::Close]);
        self.write(Wish::Minimum, text, assignment, 24);
        self.write(Wish::Infeasible, text, assignment, 24);
    }
}

#[cfg(test)]
mod tests {
    use super::*;
    use crate::answers::answer;
    use std::collections::BTreeSet;

    /// Every letter with every refusal number that it can give.
    const WANTED: [(char, &[u32]); 4] = [
        ('S', &[2, 3, 4, 5, 6, 7, 8]),
        ('V', &[2, 3, 4, 5, 6, 7, 8, 9, 10]),
        (
            'C',
            &[
                2, 3, 4, 5, 6, 7, 8, 9, 10, 11, 12, 13, 14, 15, 16, 17, 18, 19, 20,
            ],
        ),
        ('W', &[2, 3, 4, 5, 6, 7, 8, 9, 10, 12, 21, 22]),
    ];

    #[test]
    fn every_refusal_is_met_in_every_question_that_can_give_it() {
        let mut met = BTreeSet::new();
        for question in cases() {
            let line = answer(&question);
            let mut words = line.split(' ');
            if words.next() == Some("refused") {
                let number: u32 = words
                    .next()
                    .and_then(|word| word.parse().ok())
                    .expect("number");
                met.insert((question.letter(), number));
            }
        }
        let wanted: BTreeSet<(char, u32)> = WANTED
            .iter()
            .flat_map(|(letter, numbers)| numbers.iter().map(|number| (*letter, *number)))
            .collect();
        assert_eq!(met, wanted);
    }

    #[test]
    fn the_batch_stays_small() {
        let size: usize = cases().iter().map(|question| question.bytes().len()).sum();
        assert!(size < 1_500_000, "{size}");
    }
}
