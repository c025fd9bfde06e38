//! 01, "Instance text": from bytes to the instance, or refusal 2 to 8.

use crate::instance::{Clause, Instance, Literal, Strength};
use crate::refusal::{refuse, Refusal};

/// The bytes from `start` up to, not including, `end`.
#[derive(Clone, Copy)]
struct Span {
    start: usize,
    end: usize,
}

impl Span {
    fn bytes(self, text: &[u8]) -> &[u8] {
        &text[self.start..self.end]
    }
}

/// "Reading stops at the first token at fault."
pub fn read(text: &[u8]) -> Result<Instance, Refusal> {
    let mut instance = Instance::default();
    for line in lines(text) {
        let tokens = tokens(text, line);
        // "A line without tokens is skipped. A line whose first non-blank byte is `c` is
        // skipped with all its bytes. Any other line is one clause."
        if let Some((first, others)) = tokens.split_first() {
            if text[first.start] != b'c' {
                read_clause(text, line, *first, others, &mut instance)?;
            }
        }
    }
    Ok(instance)
}

/// "A line ends at LF or at the end of the text." The LF is no part of the span.
fn lines(text: &[u8]) -> Vec<Span> {
    let mut lines = Vec::new();
    let mut start = 0;
    for (place, byte) in text.iter().enumerate() {
        if *byte == b'\n' {
            lines.push(Span { start, end: place });
            start = place + 1;
        }
    }
    let end = text.len();
    lines.push(Span { start, end });
    lines
}

/// "Blanks are space and tab. A token is a longest run of bytes other than blanks and LF."
fn tokens(text: &[u8], line: Span) -> Vec<Span> {
    let is_blank = |place: usize| text[place] == b' ' || text[place] == b'\t';
    let mut tokens = Vec::new();
    let mut place = line.start;
    loop {
        while place < line.end && is_blank(place) {
            place += 1;
        }
        if place == line.end {
            return tokens;
        }
        let start = place;
        while place < line.end && !is_blank(place) {
            place += 1;
        }
        tokens.push(Span { start, end: place });
    }
}

/// "`h` (hard) or a weight, then literals, then `0`."
fn read_clause(
    text: &[u8],
    line: Span,
    first: Span,
    others: &[Span],
    instance: &mut Instance,
) -> Result<(), Refusal> {
    let strength = read_strength(text, first, instance)?;
    let mut written = Vec::new();
    let mut ended = false;
    for token in others {
        if ended {
            return refuse(2, token.start); // "a token after the end"
        }
        if token.bytes(text) == b"0" {
            ended = true;
        } else {
            written.push(read_literal(text, *token, instance)?);
        }
    }
    if !ended {
        return refuse(3, line.end); // "A line that finishes without `0` is 3."
    }
    instance.clauses.push(Clause::of(strength, &written));
    Ok(())
}

/// "At a first token: spelling (2), clause count (4), weight (5), total (6)."
fn read_strength(text: &[u8], token: Span, instance: &mut Instance) -> Result<Strength, Refusal> {
    let spelling = token.bytes(text);
    // "The single digit `0` is a weight token (refused as 5) or the end."
    if spelling != b"h" && spelling != b"0" && !is_number(spelling) {
        return refuse(2, token.start);
    }
    if instance.clauses.len() == Instance::MOST_CLAUSES {
        return refuse(4, token.start);
    }
    if spelling == b"h" {
        return Ok(Strength::Hard);
    }
    let weight = match number_up_to(spelling, Instance::MOST_WEIGHT) {
        Some(weight) if weight > 0 => weight,
        _ => return refuse(5, token.start),
    };
    if instance.total + weight > Instance::MOST_WEIGHT {
        return refuse(6, token.start);
    }
    instance.total += weight;
    Ok(Strength::Soft(weight))
}

/// "At a literal: spelling (2), variable (7), literal count (8)."
fn read_literal(text: &[u8], token: Span, instance: &mut Instance) -> Result<Literal, Refusal> {
    // "A literal is a variable or `-` and a variable."
    let (positive, digits) = match token.bytes(text) {
        [b'-', digits @ ..] => (false, digits),
        digits => (true, digits),
    };
    if !is_number(digits) {
        return refuse(2, token.start);
    }
    let variable = match number_up_to(digits, Instance::MOST_VARIABLES) {
        Some(variable) => variable as usize,
        None => return refuse(7, token.start),
    };
    if instance.literals == Instance::MOST_LITERALS {
        return refuse(8, token.start);
    }
    instance.literals += 1;
    instance.variables = instance.variables.max(variable);
    Ok(Literal { variable, positive })
}

/// "A weight or variable is decimal digits without a leading zero."
fn is_number(token: &[u8]) -> bool {
    !token.is_empty() && token[0] != b'0' && token.iter().all(u8::is_ascii_digit)
}

/// The number these digits write, none where it is over the limit, however many digits.
fn number_up_to(digits: &[u8], limit: u64) -> Option<u64> {
    let mut number = 0;
    for digit in digits {
        number = number * 10 + u64::from(digit - b'0');
        if number > limit {
            return None;
        }
    }
    Some(number)
}

#[cfg(test)]
mod tests {
    use super::*;

    fn refused(text: &str, number: u32, place: usize) {
        assert_eq!(read(text.as_bytes()), refuse(number, place), "{text:?}");
    }

    #[test]
    fn spelling_is_refused_at_the_first_byte_of_the_token() {
        refused("1 -0 0\n", 2, 2);
        refused("1 007 0\n", 2, 2);
        refused("1 +3 0\n", 2, 2);
        refused("1 2 0\r\n", 2, 4);
        refused("1 2 0 0\n", 2, 6);
        refused(" 01 0", 2, 1);
        refused("-1 2 0", 2, 0);
        refused("h h 0", 2, 2);
        refused("h - 0", 2, 2);
        refused("h \0 0", 2, 2);
    }

    #[test]
    fn a_clause_without_end_is_refused_at_the_end_of_its_line() {
        refused("h", 3, 1);
        refused("h 1 2 \n1 0", 3, 6);
        refused("c\nh 1", 3, 5);
    }

    #[test]
    fn weights_totals_and_variables() {
        refused("0 0", 5, 0);
        refused("1000000000001 0", 5, 0);
        refused("999999999999999999999999999999 1 0", 5, 0);
        refused("1000000000000 0\n1 0", 6, 16);
        refused("1 500 -501 0", 7, 6);
        refused("1 18446744073709551617 0", 7, 2);
    }

    #[test]
    fn the_order_of_refusals_at_a_token() {
        let thousand = "1 0\n".repeat(1_000);
        refused(&format!("{thousand}01 0"), 2, 4_000);
        refused(&format!("{thousand}0 0"), 4, 4_000);
        refused(&format!("{thousand}7 0"), 4, 4_000);
        refused(&format!("{thousand}h 0"), 4, 4_000);
        let full = format!("1{} 0\n", " 5".repeat(4_000));
        refused(&format!("{full}h 501 0"), 7, 8_006);
        refused(&format!("{full}h 500 0"), 8, 8_006);
        refused(&format!("{full}h -x 0"), 2, 8_006);
    }

    #[test]
    fn comments_blanks_and_kept_literals() {
        let text = "cat 1 0\n\t \n  c\n7\t2  -3 2 0 \nh 1 -1 0";
        let instance = read(text.as_bytes()).expect("a good text");
        assert_eq!(instance.variables, 3);
        assert_eq!(instance.literals, 5);
        assert_eq!(instance.total, 7);
        assert_eq!(instance.clauses.len(), 2);
        assert_eq!(instance.clauses[0].kept.len(), 2);
        assert!(instance.clauses[1].tautology);
    }
}
