//! Instances whose truth is known: by brute force, or because it was planted.

use crate::branch::Branch;
use crate::brute::{self, Layout};
use crate::chance::Chance;
use crate::instance::Instance;
use crate::record::Claim;
use crate::text;
use crate::texts::{self, clause, literal, token, Sketch, Token};

pub struct Known {
    pub text: Vec<u8>,
    pub instance: Instance,
    /// Layouts that meet the hard clauses: all of them, or the planted one.
    pub layouts: Vec<Layout>,
    /// A cheapest layout, none where no assignment meets the hard clauses.
    pub best: Option<Layout>,
}

impl Known {
    /// The true claim.
    pub fn claim(&self) -> Claim {
        match &self.best {
            Some(best) => Claim::Minimum(best.weight),
            None => Claim::Infeasible,
        }
    }

    /// The assignment that goes with the true claim; under N it is not read.
    pub fn assignment(&self) -> Vec<u8> {
        match &self.best {
            Some(best) => best.assignment.clone(),
            None => Vec::new(),
        }
    }
}

/// A small instance and its truth by brute force.
pub fn small(chance: &mut Chance) -> Known {
    let sketch = texts::small(chance);
    let text = texts::spell(chance, &sketch);
    let instance = read_own(&text);
    let layouts = brute::feasible(&instance);
    let best = brute::cheapest(&layouts).cloned();
    Known {
        text,
        instance,
        layouts,
        best,
    }
}

/// A small instance whose root can't be closed at once; after ten draws any.
pub fn knotty(chance: &mut Chance) -> Known {
    let mut known = small(chance);
    for _ in 1..10 {
        if !Branch::root(&known.instance).may_close(known.claim()) {
            break;
        }
        known = small(chance);
    }
    known
}

/// A text that this program spelled itself must be a good one.
fn read_own(text: &[u8]) -> Instance {
    text::read(text).unwrap_or_else(|refusal| panic!("own text {refusal}"))
}

/// A wide instance with a planted cheapest layout. Longer clauses hold a literal that the
/// layout meets, so only units cost: of each pair on a variable the layout gives up the lighter,
/// which no other layout avoids.
pub fn planted(chance: &mut Chance) -> Known {
    let (most, longer) = match chance.one_in(8) {
        true => (500, 400),
        false => (60, 40),
    };
    let variables = chance.between(7, most);
    let layout = chance.bits(variables);
    let mut clauses = Vec::new();
    for variable in 1..=variables {
        if chance.one_in(4) {
            clauses.extend(unit_pair(chance, variable, layout[variable - 1] == 1));
        }
    }
    for _ in 0..chance.below(longer) {
        clauses.push(met_clause(chance, &layout));
    }
    chance.shuffle(&mut clauses);
    // The last variable is always written, so that n is the layout's length.
    clauses.push(clause(
        token(1),
        [literal(variables, layout[variables - 1] == 1)],
    ));
    let text = texts::spell(chance, &Sketch { clauses });
    let instance = read_own(&text);
    let best = Layout {
        weight: crate::value::value_of(&instance, &layout).weight,
        assignment: layout,
    };
    Known {
        text,
        instance,
        layouts: vec![best.clone()],
        best: Some(best),
    }
}

/// One unit that the layout meets, and a soft one that it breaks and that is no heavier.
fn unit_pair(chance: &mut Chance, variable: usize, side: bool) -> Vec<Vec<Token>> {
    let met = chance.between(1, 1_000_000);
    let broken = match chance.below(3) {
        0 => met,
        _ => chance.between(1, met),
    };
    let first = match chance.below(3) {
        0 => token("h"),
        _ => token(met),
    };
    vec![
        clause(first, [literal(variable, side)]),
        clause(token(broken), [literal(variable, !side)]),
    ]
}

/// A hard or soft clause with at least one literal that the layout meets.
fn met_clause(chance: &mut Chance, layout: &[u8]) -> Vec<Token> {
    let first = match chance.below(2) {
        0 => token("h"),
        _ => token(chance.between(1, 1_000)),
    };
    let width = chance.between(1, 4);
    let met = chance.below(width);
    let literals = (0..width).map(|index| {
        let variable = chance.between(1, layout.len());
        let side = layout[variable - 1] == 1;
        literal(variable, side == (index == met || chance.one_in(2)))
    });
    clause(first, literals.collect::<Vec<_>>())
}
