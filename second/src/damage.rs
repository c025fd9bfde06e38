//! Damage: good texts and good derivations made bad, or at least doubtful.

use crate::chance::Chance;
use crate::record::Record;
use crate::texts::{self, clause, token, Sketch, Token};

/// Tokens that are wrongly spelled or misplaced in most places.
const MISSPELLED: [&[u8]; 18] = [
    b"-0", b"007", b"+3", b"0\r", b"1\r", b"\r", b"00", b"-", b"--1", b"-01", b"h", b"H", b"hh",
    b"1.5", b"1e3", b"\x00", b"\xFF", b"1c",
];

const WEIGHTS_OVER: [&str; 5] = [
    "1000000000001",
    "9999999999999",
    "18446744073709551616",
    "18446744073709551621",
    "123456789012345678901234567890",
];

const VARIABLES_OVER: [&str; 8] = [
    "501",
    "-501",
    "502",
    "999",
    "65537",
    "-4294967297",
    "18446744073709551617",
    "123456789012345678901234567890",
];

/// A small text with one thing wrong in it.
pub fn text(chance: &mut Chance) -> Vec<u8> {
    let mut sketch = texts::small(chance);
    if sketch.clauses.is_empty() {
        sketch.clauses.push(clause(token("h"), [token(1)]));
    }
    let index = chance.below(sketch.clauses.len());
    let tokens = &mut sketch.clauses[index];
    match chance.below(12) {
        0..=2 => misspell(chance, tokens),
        3..=4 => drop_end(chance, tokens),
        5..=6 => tokens[0] = wrong_weight(chance),
        7..=8 => pass_total(chance, &mut sketch),
        9..=10 => over_variable(chance, tokens),
        _ => {
            let mut text = texts::spell(chance, &sketch);
            bytes(chance, &mut text);
            return text;
        }
    }
    texts::spell(chance, &sketch)
}

fn misspell(chance: &mut Chance, tokens: &mut Vec<Token>) {
    let place = chance.below(tokens.len() + 1);
    let wrong = chance.pick(&MISSPELLED).to_vec();
    if place == tokens.len() {
        // "a token after the end"
        tokens.push(chance.pick(&[wrong, token("0"), token("1")]));
    } else {
        tokens[place] = wrong;
    }
}

/// Without its `0`; sometimes nothing but the first token stays.
fn drop_end(chance: &mut Chance, tokens: &mut Vec<Token>) {
    tokens.pop();
    if chance.one_in(4) {
        tokens.truncate(1);
    }
}

fn wrong_weight(chance: &mut Chance) -> Token {
    match chance.one_in(2) {
        true => token("0"),
        false => token(chance.pick(&WEIGHTS_OVER)),
    }
}

/// Two soft clauses that pass the total, or just reach it.
fn pass_total(chance: &mut Chance, sketch: &mut Sketch) {
    let heavy = 1_000_000_000_000 - chance.below(3);
    for weight in [heavy, chance.between(1, 4)] {
        let place = chance.below(sketch.clauses.len() + 1);
        let literal = token(chance.between(1, 3));
        sketch
            .clauses
            .insert(place, clause(token(weight), [literal]));
    }
}

fn over_variable(chance: &mut Chance, tokens: &mut Vec<Token>) {
    let place = chance.between(1, tokens.len() - 1);
    tokens.insert(place, token(chance.pick(&VARIABLES_OVER)));
}

/// A byte changed, put in, or taken out; or the end cut off.
fn bytes(chance: &mut Chance, text: &mut Vec<u8>) {
    const ODD: [u8; 10] = [0, 0xFF, b'\r', b'\n', b' ', b'-', b'0', b'c', b'h', b'9'];
    let place = chance.below(text.len());
    match chance.below(5) {
        0 => text[place] ^= 1 << chance.below(8),
        1 => text[place] = chance.byte(),
        2 => text.insert(place, chance.pick(&ODD)),
        3 => drop(text.remove(place)),
        _ => text.truncate(place),
    }
}

/// A derivation that starts from a whole one, with one or two things changed.
pub fn derivation(chance: &mut Chance, whole: &[u8]) -> Vec<u8> {
    let mut records = split(whole);
    match chance.below(8) {
        0..=1 => flip(chance, &mut records),
        2 => records.truncate(chance.below(records.len())),
        3 => double(chance, &mut records),
        4 => drop(records.remove(chance.below(records.len()))),
        5 => move_one(chance, &mut records),
        6 => change_number(chance, &mut records),
        _ => put_in(chance, &mut records),
    }
    let mut bytes = records.concat();
    if chance.one_in(6) {
        bytes.truncate(chance.below(bytes.len() + 1));
    }
    if chance.one_in(8) {
        bytes.push(chance.pick(&[0x51, 0x00, 0x43, 0x4E]));
    }
    bytes
}

/// The records of a whole derivation, the claim first.
fn split(mut whole: &[u8]) -> Vec<Vec<u8>> {
    let mut records = Vec::new();
    while let Some(record) = Record::first_of(whole) {
        records.push(record.bytes());
        whole = &whole[record.bytes().len()..];
    }
    records
}

fn flip(chance: &mut Chance, records: &mut [Vec<u8>]) {
    let index = chance.below(records.len());
    let place = chance.below(records[index].len());
    records[index][place] ^= 1 << chance.below(8);
}

fn double(chance: &mut Chance, records: &mut Vec<Vec<u8>>) {
    let index = chance.below(records.len());
    let record = records[index].clone();
    records.insert(index, record);
}

fn move_one(chance: &mut Chance, records: &mut Vec<Vec<u8>>) {
    let record = records.remove(chance.below(records.len()));
    records.insert(chance.below(records.len() + 1), record);
}

/// The claim, clause or variable off by one.
fn change_number(chance: &mut Chance, records: &mut [Vec<u8>]) {
    let index = match chance.one_in(2) {
        true => 0,
        false => chance.below(records.len()),
    };
    if let Some(last) = records[index][1..].last_mut() {
        let step = chance.pick(&[1, 255]);
        *last = last.wrapping_add(step);
    }
}

/// A second claim, or one more record.
fn put_in(chance: &mut Chance, records: &mut Vec<Vec<u8>>) {
    let extra = match chance.below(4) {
        0 => records[0].clone(),
        1 => Record::Infeasible.bytes(),
        2 => Record::Close.bytes(),
        _ => Record::Contradict(chance.between(0, 4) as u16).bytes(),
    };
    let place = chance.below(records.len()) + 1;
    records.insert(place, extra);
}
