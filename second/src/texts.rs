//! Random instance texts: first the tokens of each clause, then their spelling as bytes.

use crate::chance::Chance;

pub type Token = Vec<u8>;

/// The tokens of each clause, its end `0` included.
#[derive(Clone, Debug)]
pub struct Sketch {
    pub clauses: Vec<Vec<Token>>,
}

/// How the clauses of one text are weighed.
struct Habit {
    hard_percent: usize,
    /// Soft weights run from least to most.
    least: usize,
    most: usize,
}

impl Habit {
    fn random(chance: &mut Chance) -> Habit {
        let equal = chance.between(1, 9);
        let (least, most) = match chance.below(10) {
            0..=3 => (equal, equal),
            4..=7 => (1, 5),
            8 => (1, 1_000),
            _ => (1, 80_000_000_000),
        };
        Habit {
            hard_percent: chance.pick(&[0, 20, 40, 60, 90, 100]),
            least,
            most,
        }
    }

    fn first_token(&self, chance: &mut Chance) -> Token {
        if chance.percent(self.hard_percent) {
            token("h")
        } else {
            token(chance.between(self.least, self.most))
        }
    }
}

pub fn token(spelling: impl ToString) -> Token {
    spelling.to_string().into_bytes()
}

pub fn literal(variable: usize, positive: bool) -> Token {
    match positive {
        true => token(variable),
        false => token(format!("-{variable}")),
    }
}

/// A clause of these literals.
pub fn clause(first: Token, literals: impl IntoIterator<Item = Token>) -> Vec<Token> {
    let mut tokens = vec![first];
    tokens.extend(literals);
    tokens.push(token("0"));
    tokens
}

/// A text small enough for brute force: n to 6, up to a dozen clauses; units, empty clauses,
/// repeated literals and tautologies come by themselves with so few variables.
pub fn small(chance: &mut Chance) -> Sketch {
    let mut habit = Habit::random(chance);
    match chance.below(10) {
        0..=2 => mixed(chance, &habit),
        3..=4 => crowded(chance, &habit),
        5..=6 => {
            habit.hard_percent = 95;
            crowded(chance, &habit)
        }
        _ => costly(chance, &habit),
    }
}

/// Few clauses of all widths.
fn mixed(chance: &mut Chance, habit: &Habit) -> Sketch {
    let variables = chance.pick(&[1, 1, 2, 2, 3, 3, 3, 4, 4, 5, 6]);
    let count = chance.below(9);
    let widths: &[usize] = match chance.below(3) {
        0 => &[1, 1, 1, 1, 2],
        1 => &[0, 1, 1, 1, 2, 2, 2, 2, 3, 3],
        _ => &[1, 1, 2, 2, 2, 3, 3, 4, 5],
    };
    let clauses = (0..count).map(|_| random_clause(chance, habit, variables, widths));
    Sketch {
        clauses: clauses.collect(),
    }
}

/// More clauses than so few variables bear: branches within branches, and many dead ones.
fn crowded(chance: &mut Chance, habit: &Habit) -> Sketch {
    let variables = chance.pick(&[2, 2, 3, 3, 3, 4]);
    let count = chance.between(5, 12);
    let widths = [1, 2, 2, 2, 2, 2, 2, 3, 3];
    let clauses = (0..count).map(|_| random_clause(chance, habit, variables, &widths));
    Sketch {
        clauses: clauses.collect(),
    }
}

/// Hard clauses that want variables true, each of which costs: every branch books something.
fn costly(chance: &mut Chance, habit: &Habit) -> Sketch {
    let variables = chance.between(3, 6);
    let mut clauses = Vec::new();
    for variable in 1..=variables {
        let cost = token(chance.between(habit.least, habit.most));
        clauses.push(clause(cost, [literal(variable, false)]));
    }
    for _ in 0..chance.between(2, 5) {
        let width = chance.between(2, 3);
        let wanted = (0..width).map(|_| literal(chance.between(1, variables), true));
        clauses.push(clause(token("h"), wanted.collect::<Vec<_>>()));
    }
    chance.shuffle(&mut clauses);
    Sketch { clauses }
}

fn random_clause(
    chance: &mut Chance,
    habit: &Habit,
    variables: usize,
    widths: &[usize],
) -> Vec<Token> {
    let first = habit.first_token(chance);
    let width = chance.pick(widths);
    let literals = (0..width).map(|_| random_literal(chance, variables));
    clause(first, literals.collect::<Vec<_>>())
}

fn random_literal(chance: &mut Chance, variables: usize) -> Token {
    let variable = chance.between(1, variables);
    literal(variable, chance.one_in(2))
}

/// The bytes of a sketch, plain or with every freedom that 01 gives: tabs, blanks, comments,
/// blank lines, no final LF.
pub fn spell(chance: &mut Chance, sketch: &Sketch) -> Vec<u8> {
    let free = chance.percent(35);
    let mut text = Vec::new();
    for tokens in &sketch.clauses {
        if free {
            skipped_lines(chance, &mut text);
        }
        clause_line(chance, free, tokens, &mut text);
        text.push(b'\n');
    }
    if free && chance.one_in(2) {
        text.pop();
    } else if free {
        skipped_lines(chance, &mut text);
    }
    text
}

fn skipped_lines(chance: &mut Chance, text: &mut Vec<u8>) {
    const SKIPPED: [&[u8]; 8] = [
        b"",
        b"\n",
        b" \t \n",
        b"c\n",
        b"c plan of the hall\n",
        b"\tcat 1 0\n",
        b"c h 501 \x00\xFF\r\n",
        b"c-1 007 +3\n",
    ];
    text.extend(chance.pick(&SKIPPED));
}

fn clause_line(chance: &mut Chance, free: bool, tokens: &[Token], text: &mut Vec<u8>) {
    const BLANKS: [&[u8]; 4] = [b" ", b"\t", b"  ", b" \t "];
    if free && chance.one_in(4) {
        text.extend(chance.pick(&BLANKS));
    }
    for (index, token) in tokens.iter().enumerate() {
        if index > 0 && free {
            text.extend(chance.pick(&BLANKS));
        } else if index > 0 {
            text.push(b' ');
        }
        text.extend(token);
    }
    if free && chance.one_in(4) {
        text.extend(chance.pick(&BLANKS));
    }
}
