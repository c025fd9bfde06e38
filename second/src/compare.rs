//! Another program's lines held against this one's.

use std::collections::BTreeMap;

use crate::answers::answer;
use crate::questions::{hex, read_questions};

const SHOWN: usize = 10;

/// The report, and how many lines differ.
pub struct Comparison {
    pub report: String,
    pub differences: usize,
}

/// A kind of answer in its order of printing, with the count for each letter.
type Counts = BTreeMap<(String, u32), BTreeMap<char, usize>>;

pub fn compare(questions: &[u8], lines: &[u8]) -> Comparison {
    let input = read_questions(questions);
    let mut theirs = lines_of(lines).into_iter();
    let mut counts = Counts::new();
    let mut report = String::new();
    let mut differences = 0;
    let mut hold = |asked: Option<String>, own: Option<&str>, their: Option<&str>| {
        if own != their {
            differences += 1;
            if differences <= SHOWN {
                report += &difference(asked, own, their);
            }
        }
    };
    for question in &input.questions {
        let own = answer(question);
        let kind = counts.entry(kind_of(&own)).or_default();
        *kind.entry(question.letter()).or_default() += 1;
        let their = theirs.next();
        hold(Some(hex(&question.bytes())), Some(&own), their.as_deref());
    }
    if input.bad {
        hold(None, Some("bad input"), theirs.next().as_deref());
    }
    for surplus in theirs {
        hold(None, None, Some(&surplus));
    }
    report += &counted(&counts);
    let asked = input.questions.len();
    report += &format!("{asked} questions, {differences} differences\n");
    Comparison {
        report,
        differences,
    }
}

/// The lines, each ended by an LF; bytes that are no text are shown as such and so differ.
fn lines_of(bytes: &[u8]) -> Vec<String> {
    let mut lines: Vec<String> = bytes
        .split(|byte| *byte == b'\n')
        .map(|line| String::from_utf8_lossy(line).into_owned())
        .collect();
    if lines.last().is_some_and(String::is_empty) {
        lines.pop();
    }
    lines
}

fn difference(asked: Option<String>, own: Option<&str>, their: Option<&str>) -> String {
    format!(
        "question {}\n  second {}\n  theirs {}\n",
        asked.as_deref().unwrap_or("none"),
        own.unwrap_or("no line"),
        their.unwrap_or("no line")
    )
}

/// `accepted minimum`, `refused` with its number, or the first word.
fn kind_of(line: &str) -> (String, u32) {
    let words: Vec<&str> = line.split(' ').collect();
    match words[..] {
        ["accepted", claim, ..] => (format!("accepted {claim}"), 0),
        ["refused", number, ..] => ("refused".to_string(), number.parse().unwrap_or(0)),
        ["too", "long"] => ("too long".to_string(), 0),
        _ => (words[0].to_string(), 0),
    }
}

fn counted(counts: &Counts) -> String {
    let mut report = String::new();
    for ((kind, number), letters) in counts {
        let name = match number {
            0 => kind.clone(),
            number => format!("{kind} {number}"),
        };
        let total: usize = letters.values().sum();
        let shares: Vec<String> = letters.iter().map(|(l, n)| format!("{l} {n}")).collect();
        report += &format!("{name}: {total} ({})\n", shares.join(", "));
    }
    report
}

#[cfg(test)]
mod tests {
    use super::*;
    use crate::questions::Question;

    #[test]
    fn differences_missing_and_surplus_lines_are_counted() {
        let question = Question::Survey {
            text: b"3 1 0".to_vec(),
        };
        let twice = question.bytes().repeat(2);
        let same = compare(&twice, b"survey 1 1 1 3\nsurvey 1 1 1 3\n");
        assert_eq!(same.differences, 0);
        assert_eq!(same.report, "survey: 2 (S 2)\n2 questions, 0 differences\n");
        assert_eq!(compare(&twice, b"survey 1 1 1 3\n").differences, 1);
        assert_eq!(compare(&twice, b"survey 1 1 1 4\n\nx\n").differences, 3);
    }
}
