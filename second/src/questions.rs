//! The question format: a letter and its arguments, an argument being a 4-byte big-endian
//! length and that many bytes.

use crate::write::Wish;

#[derive(Clone, Debug, PartialEq, Eq)]
pub enum Question {
    Survey {
        text: Vec<u8>,
    },
    Value {
        text: Vec<u8>,
        assignment: Vec<u8>,
    },
    Better {
        text: Vec<u8>,
        first: Vec<u8>,
        second: Vec<u8>,
    },
    Check {
        text: Vec<u8>,
        assignment: Vec<u8>,
        derivation: Vec<u8>,
    },
    Write {
        wish: Wish,
        text: Vec<u8>,
        assignment: Vec<u8>,
        room: u32,
    },
}

impl Question {
    pub fn letter(&self) -> char {
        match self {
            Question::Survey { .. } => 'S',
            Question::Value { .. } => 'V',
            Question::Better { .. } => 'B',
            Question::Check { .. } => 'C',
            Question::Write { .. } => 'W',
        }
    }

    pub fn bytes(&self) -> Vec<u8> {
        let mut bytes = vec![self.letter() as u8];
        match self {
            Question::Survey { text } => put(&mut bytes, &[text]),
            Question::Value { text, assignment } => put(&mut bytes, &[text, assignment]),
            Question::Better {
                text,
                first,
                second,
            } => put(&mut bytes, &[text, first, second]),
            Question::Check {
                text,
                assignment,
                derivation,
            } => put(&mut bytes, &[text, assignment, derivation]),
            Question::Write {
                wish,
                text,
                assignment,
                room,
            } => {
                bytes.push(claim_byte(*wish));
                put(&mut bytes, &[text, assignment]);
                bytes.extend(room.to_be_bytes());
            }
        }
        bytes
    }
}

fn claim_byte(wish: Wish) -> u8 {
    match wish {
        Wish::Minimum => 0x4D,
        Wish::Infeasible => 0x4E,
    }
}

fn put(bytes: &mut Vec<u8>, arguments: &[&[u8]]) {
    for argument in arguments {
        bytes.extend((argument.len() as u32).to_be_bytes());
        bytes.extend(*argument);
    }
}

/// The questions of an input, and whether a bad one ended it.
pub struct Input {
    pub questions: Vec<Question>,
    pub bad: bool,
}

pub fn read_questions(input: &[u8]) -> Input {
    let mut questions = Vec::new();
    let mut rest = input;
    while !rest.is_empty() {
        match question(&mut rest) {
            Some(question) => questions.push(question),
            None => {
                return Input {
                    questions,
                    bad: true,
                }
            }
        }
    }
    Input {
        questions,
        bad: false,
    }
}

/// The next question; none for an unknown letter or claim byte, or where the input ends inside.
fn question(rest: &mut &[u8]) -> Option<Question> {
    match take(rest, 1)?[0] {
        b'S' => Some(Question::Survey {
            text: argument(rest)?,
        }),
        b'V' => Some(Question::Value {
            text: argument(rest)?,
            assignment: argument(rest)?,
        }),
        b'B' => Some(Question::Better {
            text: argument(rest)?,
            first: argument(rest)?,
            second: argument(rest)?,
        }),
        b'C' => Some(Question::Check {
            text: argument(rest)?,
            assignment: argument(rest)?,
            derivation: argument(rest)?,
        }),
        b'W' => Some(Question::Write {
            wish: wish(rest)?,
            text: argument(rest)?,
            assignment: argument(rest)?,
            room: number(rest)?,
        }),
        _ => None,
    }
}

fn wish(rest: &mut &[u8]) -> Option<Wish> {
    match take(rest, 1)?[0] {
        0x4D => Some(Wish::Minimum),
        0x4E => Some(Wish::Infeasible),
        _ => None,
    }
}

fn argument(rest: &mut &[u8]) -> Option<Vec<u8>> {
    let length = number(rest)? as usize;
    Some(take(rest, length)?.to_vec())
}

fn number(rest: &mut &[u8]) -> Option<u32> {
    let bytes = take(rest, 4)?;
    Some(bytes.iter().fold(0, |n, byte| n * 256 + u32::from(*byte)))
}

fn take<'a>(rest: &mut &'a [u8], length: usize) -> Option<&'a [u8]> {
    if rest.len() < length {
        return None;
    }
    let (taken, left) = rest.split_at(length);
    *rest = left;
    Some(taken)
}

/// Lowercase, two digits a byte, no spaces; `-` where there is no byte.
pub fn hex(bytes: &[u8]) -> String {
    if bytes.is_empty() {
        return "-".to_string();
    }
    bytes.iter().map(|byte| format!("{byte:02x}")).collect()
}

#[cfg(test)]
mod tests {
    use super::*;
    use crate::batch;

    #[test]
    fn what_is_put_is_read_again() {
        let questions = batch::questions(3, 300);
        let bytes: Vec<u8> = questions.iter().flat_map(Question::bytes).collect();
        let input = read_questions(&bytes);
        assert!(!input.bad);
        assert_eq!(input.questions, questions);
    }

    #[test]
    fn bad_input_stops_the_reading() {
        let good = Question::Survey { text: vec![] }.bytes();
        for bad in [
            &b"X"[..],
            b"S",
            b"S\0\0\0\x01",
            b"WX",
            b"WM\0\0\0\0\0\0\0\0\0\0\0",
        ] {
            let input = read_questions(&[&good, bad].concat());
            assert!(input.bad);
            assert_eq!(input.questions.len(), 1);
        }
    }
}
