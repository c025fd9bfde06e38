//! The text in one pass, into flat arrays.

use super::HARD;
use crate::instance::Instance;
use crate::refusal::{refuse, Refusal};

/// A literal is a code: twice (variable - 1), and one more if positive.
pub struct Flat {
    pub variables: usize,
    /// For each clause its weight, or HARD.
    pub strengths: Vec<u64>,
    pub tautologies: Vec<bool>,
    /// Where each clause's kept literals start, and at last where they end.
    starts: Vec<u32>,
    literals: Vec<u32>,
}

impl Flat {
    pub fn kept(&self, clause: usize) -> &[u32] {
        &self.literals[self.starts[clause] as usize..self.starts[clause + 1] as usize]
    }
}

struct Reader<'a> {
    text: &'a [u8],
    place: usize,
    flat: Flat,
    written: usize,
    total: u64,
    /// For each literal code the last clause that kept it, counted from 1.
    seen: [u32; 2 * Instance::MOST_VARIABLES as usize],
}

pub fn read(text: &[u8]) -> Result<Flat, Refusal> {
    let mut reader = Reader {
        text,
        place: 0,
        flat: Flat {
            variables: 0,
            strengths: Vec::new(),
            tautologies: Vec::new(),
            starts: vec![0],
            literals: Vec::new(),
        },
        written: 0,
        total: 0,
        seen: [0; 2 * Instance::MOST_VARIABLES as usize],
    };
    loop {
        reader.skip_blanks();
        match reader.text.get(reader.place) {
            None => return Ok(reader.flat),
            Some(b'\n') => reader.place += 1,
            Some(b'c') => reader.skip_line(),
            Some(_) => reader.clause()?,
        }
    }
}

impl<'a> Reader<'a> {
    fn skip_blanks(&mut self) {
        while let Some(b' ' | b'\t') = self.text.get(self.place) {
            self.place += 1;
        }
    }

    fn skip_line(&mut self) {
        let rest = &self.text[self.place..];
        let length = rest.iter().position(|byte| *byte == b'\n');
        self.place += length.unwrap_or(rest.len());
    }

    /// The next token on this line and its first byte; empty at the line's end.
    fn token(&mut self) -> (&'a [u8], usize) {
        self.skip_blanks();
        let start = self.place;
        while let Some(byte) = self.text.get(self.place) {
            if matches!(byte, b' ' | b'\t' | b'\n') {
                break;
            }
            self.place += 1;
        }
        (&self.text[start..self.place], start)
    }

    fn clause(&mut self) -> Result<(), Refusal> {
        let strength = self.strength()?;
        let number = self.flat.strengths.len() as u32 + 1;
        let mut tautology = false;
        loop {
            match self.token() {
                (b"", end) => return refuse(3, end),
                (b"0", _) => break,
                (token, start) => {
                    let code = self.literal(token, start)?;
                    if self.seen[code as usize] != number {
                        self.seen[code as usize] = number;
                        self.flat.literals.push(code);
                        tautology |= self.seen[(code ^ 1) as usize] == number;
                    }
                }
            }
        }
        let (extra, start) = self.token();
        if !extra.is_empty() {
            return refuse(2, start);
        }
        self.flat.strengths.push(strength);
        self.flat.tautologies.push(tautology);
        self.flat.starts.push(self.flat.literals.len() as u32);
        Ok(())
    }

    fn strength(&mut self) -> Result<u64, Refusal> {
        let (token, start) = self.token();
        if token != b"h" && token != b"0" && !is_number(token) {
            return refuse(2, start);
        }
        if self.flat.strengths.len() == Instance::MOST_CLAUSES {
            return refuse(4, start);
        }
        if token == b"h" {
            return Ok(HARD);
        }
        let weight = saturating(token);
        if weight == 0 || weight > Instance::MOST_WEIGHT {
            return refuse(5, start);
        }
        self.total += weight;
        match self.total > Instance::MOST_WEIGHT {
            true => refuse(6, start),
            false => Ok(weight),
        }
    }

    fn literal(&mut self, token: &[u8], start: usize) -> Result<u32, Refusal> {
        let digits = token.strip_prefix(b"-").unwrap_or(token);
        if !is_number(digits) {
            return refuse(2, start);
        }
        let variable = saturating(digits);
        if variable > Instance::MOST_VARIABLES {
            return refuse(7, start);
        }
        if self.written == Instance::MOST_LITERALS {
            return refuse(8, start);
        }
        self.written += 1;
        self.flat.variables = self.flat.variables.max(variable as usize);
        Ok(2 * (variable as u32 - 1) + u32::from(digits.len() == token.len()))
    }
}

fn is_number(token: &[u8]) -> bool {
    matches!(token.first(), Some(b'1'..=b'9')) && token.iter().all(u8::is_ascii_digit)
}

fn saturating(digits: &[u8]) -> u64 {
    digits.iter().fold(0u64, |number, digit| {
        number
            .saturating_mul(10)
            .saturating_add(u64::from(digit - b'0'))
    })
}
