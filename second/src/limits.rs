//! Texts at the limits of 01 and one step over them.

use crate::chance::Chance;

/// A text at a limit or just over it; where it is good, all variables true meets it.
pub fn random(chance: &mut Chance) -> Vec<u8> {
    match chance.below(10) {
        0..=2 => variable(chance.pick(&[500, 501])),
        3..=5 => weights(chance.one_in(2)),
        6..=7 => {
            let spellings = [
                "",
                "",
                "1 0",
                "h 0",
                "0 0",
                "01 0",
                "x 0",
                "1000000000000 0",
            ];
            clauses(chance.pick(&spellings))
        }
        _ => {
            let spellings = ["", "", "7", "-7", "500", "501", "-0", "x"];
            literals(chance.pick(&spellings))
        }
    }
}

/// "variable 500 and 501".
pub fn variable(variable: usize) -> Vec<u8> {
    format!("h 1 {variable} 0\n2 -{variable} 1 0\n").into_bytes()
}

/// "weight 1000000000000 alone and followed by a weight 1".
pub fn weights(followed: bool) -> Vec<u8> {
    match followed {
        false => b"1000000000000 1 0\n".to_vec(),
        true => b"1000000000000 1 0\n1 1 0\n".to_vec(),
    }
}

/// "clause 1,000 and 1,001": a thousand clauses and then this line, if any.
pub fn clauses(line_1001: &str) -> Vec<u8> {
    let thousand = "1 1 0\n".repeat(1_000);
    format!("{thousand}{line_1001}").into_bytes()
}

/// "literal 4,000 and 4,001": four thousand literals and then a clause of this one, if any.
pub fn literals(literal_4001: &str) -> Vec<u8> {
    let mut text = String::new();
    for row in 0..500 {
        text += "h";
        for step in 0..8 {
            let variable = (row * 7 + step * 13) % 100 + 1;
            text += &format!(" {variable}");
        }
        text += " 0\n";
    }
    if !literal_4001.is_empty() {
        text += &format!("1 {literal_4001} 0\n");
    }
    text.into_bytes()
}
