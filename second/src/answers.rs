//! The line that answers a question.

use crate::check;
use crate::questions::{hex, Question};
use crate::refusal::Refusal;
use crate::text;
use crate::value;
use crate::write::{self, Wish};

/// Limits of this program, not of 01: "Texts, derivations and output may be of any length."
pub const MOST_TEXT: usize = 262_144;
pub const MOST_DERIVATION: usize = 262_144;
pub const MOST_ASSIGNMENT: usize = 1_024;
pub const MOST_ROOM: u32 = 65_536;

/// The found buffer lent to Write: its 500 bytes and three more that must stay.
const FOUND: usize = 503;
const OUTPUT_BEFORE: u8 = 0xAA;
const FOUND_BEFORE: u8 = 0xBB;

pub fn answer(question: &Question) -> String {
    if is_too_long(question) {
        return "too long".to_string();
    }
    match question {
        Question::Survey { text } => line(survey(text)),
        Question::Value { text, assignment } => line(value(text, assignment)),
        Question::Better {
            text,
            first,
            second,
        } => format!("better {}", hex(value::better(text, first, second))),
        Question::Check {
            text,
            assignment,
            derivation,
        } => line(check::check(text, assignment, derivation).map(|accepted| accepted.to_string())),
        Question::Write {
            wish,
            text,
            assignment,
            room,
        } => write(*wish, text, assignment, *room as usize),
    }
}

fn is_too_long(question: &Question) -> bool {
    match question {
        Question::Survey { text } => text.len() > MOST_TEXT,
        Question::Value { text, assignment } => {
            text.len() > MOST_TEXT || assignment.len() > MOST_ASSIGNMENT
        }
        Question::Better {
            text,
            first,
            second,
        } => {
            text.len() > MOST_TEXT
                || first.len() > MOST_ASSIGNMENT
                || second.len() > MOST_ASSIGNMENT
        }
        Question::Check {
            text,
            assignment,
            derivation,
        } => {
            text.len() > MOST_TEXT
                || assignment.len() > MOST_ASSIGNMENT
                || derivation.len() > MOST_DERIVATION
        }
        Question::Write {
            text,
            assignment,
            room,
            ..
        } => text.len() > MOST_TEXT || assignment.len() > MOST_ASSIGNMENT || *room > MOST_ROOM,
    }
}

fn line(answer: Result<String, Refusal>) -> String {
    answer.unwrap_or_else(|refusal| refusal.to_string())
}

/// "n, K, literals written, total soft weight."
fn survey(text: &[u8]) -> Result<String, Refusal> {
    let instance = text::read(text)?;
    Ok(format!(
        "survey {} {} {} {}",
        instance.variables,
        instance.clauses.len(),
        instance.literals,
        instance.total
    ))
}

fn value(text: &[u8], assignment: &[u8]) -> Result<String, Refusal> {
    let value = value::value(text, assignment)?;
    Ok(format!("value {} {}", value.first_broken, value.weight))
}

fn write(wish: Wish, text: &[u8], assignment: &[u8], room: usize) -> String {
    let mut output = vec![OUTPUT_BEFORE; room];
    let mut found = vec![FOUND_BEFORE; FOUND];
    let written = write::write(wish, text, assignment, &mut output, &mut found);
    let outcome =
        line(written.map(|written| format!("written {} {}", written.length, written.count)));
    format!("{outcome} out {} found {}", hex(&output), hex(&found))
}
