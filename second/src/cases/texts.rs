//! Texts: each refusal 2 to 8 in every question, spelling, skipped lines, order of refusals.

use super::Cases;
use crate::answers::MOST_TEXT;
use crate::limits;

pub fn add(cases: &mut Cases) {
    short_refusals(cases);
    misspelled_tokens(cases);
    numbers(cases);
    good_texts(cases);
    skipped_lines(cases);
    order(cases);
    lengths(cases);
}

/// 4, 6, 7 and 8 stand in every question under "Run only"; here the others and a second 7.
fn short_refusals(cases: &mut Cases) {
    // 2: a token wrongly spelled
    cases.everywhere("1 -0 0\n", &[]);
    // 3: a clause without `0`, before LF and at the end of the text
    cases.everywhere("h 1 2\n3 1 0\n", &[1, 1]);
    cases.everywhere("h 1 2", &[1, 1]);
    // 5: weight 0 and a weight over the limit
    cases.everywhere("0 1 0\n", &[1]);
    cases.everywhere("1000000000001 1 0\n", &[1]);
    // 7: a variable over 500 after a good clause
    cases.everywhere("h 1 0\nh 2 -501 0\n", &[1, 1]);
}

fn misspelled_tokens(cases: &mut Cases) {
    // as a literal
    for token in [
        "-0", "007", "+3", "-", "--1", "-01", "00", "h", "c", "1.0", "0x1", "1-", "1h", "\r", "x",
    ] {
        cases.survey(format!("1 2 {token} 0\n"));
    }
    // as a first token
    for token in [
        "-1", "007", "+3", "-", "-0", "00", "H", "hh", "h1", "1h", "1.0", "\r", "x", "-h",
    ] {
        cases.survey(format!("h 1 0\n{token} 2 0\n"));
    }
    // as the end
    for token in ["0\r", "00", "-0", "+0", "0x", "0c"] {
        cases.survey(format!("h 1 {token}\n"));
    }
    // a token after the end, well spelled or not
    for token in ["0", "1", "h", "c", "x", "-501", "c comment"] {
        cases.survey(format!("h 1 0 {token}\n"));
    }
    // NUL and FF bytes, in a token and as one
    for odd in [0x00, 0xFF, 0x0B, 0x0C, 0xA0] {
        cases.survey([b"h 1 ", &[odd][..], b" 0\n"].concat());
        cases.survey([b"h 1", &[odd][..], b" 0\n"].concat());
        cases.survey([&[odd][..], b"h 1 0\n"].concat());
        cases.survey([b"h 1 0", &[odd][..]].concat());
    }
}

fn numbers(cases: &mut Cases) {
    // a weight of 30 digits, and weights about 2^64
    for weight in [
        "123456789012345678901234567890",
        "100000000000000000000000000000",
        "18446744073709551615",
        "18446744073709551616",
        "18446744073709551617",
        "999999999999",
        "1000000000000",
        "1000000000001",
    ] {
        cases.survey(format!("{weight} 1 0\n"));
    }
    // variables about 500, 2^16, 2^32 and 2^64, and of 30 digits
    for variable in [
        "499",
        "-500",
        "-501",
        "1000",
        "65537",
        "4294967297",
        "-18446744073709551617",
        "123456789012345678901234567890",
    ] {
        cases.survey(format!("1 {variable} 0\n"));
    }
    // the total passes the limit by one, or just reaches it
    for last in [1, 2] {
        cases.survey(format!("999999999998 1 0\nh 1 0\n1 0\n{last} 1 -1 0\n"));
    }
    // tautologies count in the total
    cases.survey("1000000000000 1 -1 0\n1 1 0\n");
    // "00" followed by a good weight: the first token at fault decides
    cases.survey("1 1 0\n00 501 0\n0 1 0\n");
}

fn good_texts(cases: &mut Cases) {
    // an empty text
    cases.everywhere("", &[]);
    // no final LF
    cases.everywhere("h 1 0\n3 -1 0", &[1]);
    // tabs and many blanks, before, between and after
    cases.everywhere("\t h\t\t1  \t -2 0 \t\n \t3 -1\t0\t", &[1, 0]);
    // repeated literals: counted as written, kept once
    cases.everywhere("2 1 1 1 0\nh -2 1 -2 0\n", &[0, 0]);
    // a tautology of several literals
    cases.everywhere("2 1 2 -1 0\nh 3 -3 0\n", &[0, 0, 0]);
    // empty clauses, hard and soft
    cases.everywhere("5 0\n7 0\n", &[]);
    cases.everywhere("5 0\nh 0\n", &[]);
    // n is the largest variable written, not the number of variables
    cases.everywhere("h 9 0\n", &[0, 0, 0, 0, 0, 0, 0, 0, 1]);
}

fn skipped_lines(cases: &mut Cases) {
    // only comments
    cases.everywhere("c one\nc\n  c two\n\tcat\nc no LF", &[]);
    // a comment `cat 1 0`
    cases.survey("cat 1 0\n");
    // a comment that would be refused as a clause, with NUL, FF and CR in it
    cases.survey(b"c h 501 \x00\xFF\r 007\nh 1 0\n");
    // only blank lines
    cases.survey(" \t \n\n\n \t");
    // blank lines and comments between clauses
    cases.survey("\n\nc a\n1 1 0\n \n\t c b\n2 -1 0\n\n");
    // a line of a CR alone is a clause
    cases.survey("1 1 0\n\r\n");
}

fn order(cases: &mut Cases) {
    // clause 1,001: a misspelled first token is 2, `h`, `0` and weights good or bad are 4
    for line in [
        "01 0",
        "x",
        "h 1 0",
        "0 0",
        "5 0",
        "1000000000001 0",
        "1000000000000 0",
        "c 5 0",
    ] {
        cases.survey(limits::clauses(line));
    }
    // literal 4,001: misspelled is 2, variable 501 is 7, a good one is 8
    for literal in ["-0", "501", "-500"] {
        cases.survey(limits::literals(literal));
    }
    // after literal 4,000 the end of a clause is no literal
    cases.survey([&limits::literals("")[..], b"1 0\n"].concat());
    // a weight over the limit that would pass the total too is 5
    cases.survey("1000000000000 1 0\n1000000000001 1 0\n");
    // the first token at fault decides, not the lowest number
    cases.survey("0 x\n");
    cases.survey("1 501 x 0\n");
    cases.survey("h 1\nx 1 0\n");
    // a line without `0` whose last token is at fault
    cases.survey("h 1 -0\n");
}

fn lengths(cases: &mut Cases) {
    // one text of 200,000 bytes of comments
    cases.survey("c a long way to nothing.\n".repeat(200_000 / 25));
    // the longest text that is answered, and one byte more
    let mut longest = b"h 1 0\nc".to_vec();
    longest.resize(MOST_TEXT, b' ');
    cases.survey(&longest);
    longest.push(b' ');
    cases.survey(&longest);
}
