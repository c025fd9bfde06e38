//! 01, "The branch". A branch is a value: a rule takes one and gives new ones, so nothing is
//! ever taken back.

use crate::instance::{Clause, Instance, Literal, Strength};
use crate::record::Claim;

/// What a branch holds for one literal.
#[derive(Clone, Copy, Debug, Default)]
struct Unit {
    soft: u64,
    hard: bool,
}

#[derive(Clone, Debug)]
pub struct Branch {
    /// The units of variable 1 (negative, positive), then of variable 2, and so on.
    units: Vec<[Unit; 2]>,
    /// For each clause, whether it was extended.
    extended: Vec<bool>,
    booked: u64,
    dead: bool,
}

impl Branch {
    /// "At the root each one-literal clause sets its literal's hard mark or adds its weight,
    /// each empty soft clause adds to the booked cost, and an empty hard clause makes the
    /// root dead."
    pub fn root(instance: &Instance) -> Branch {
        let mut root = Branch {
            units: vec![[Unit::default(); 2]; instance.variables],
            extended: vec![false; instance.clauses.len()],
            booked: 0,
            dead: false,
        };
        for clause in &instance.clauses {
            match (clause.kept.as_slice(), clause.strength) {
                ([], Strength::Soft(weight)) => root.booked += weight,
                ([], Strength::Hard) => root.dead = true,
                ([literal], strength) => root.gain(*literal, strength),
                _ => {}
            }
        }
        root
    }

    pub fn is_dead(&self) -> bool {
        self.dead
    }

    /// "Q needs a dead branch or, under M, booked cost at least m."
    pub fn may_close(&self, claim: Claim) -> bool {
        match claim {
            Claim::Minimum(m) => self.dead || self.booked >= m,
            Claim::Infeasible => self.dead,
        }
    }

    /// "Extension of a clause with two or more different literals, no tautology, not yet
    /// extended here: one branch for each literal in kept order." None where it can't be.
    pub fn extend(&self, instance: &Instance, number: usize) -> Option<Vec<Branch>> {
        let clause = self.extendable(instance, number)?;
        let branches = clause.kept.iter().map(|literal| {
            // "Every branch starts from the state before the extension."
            let mut branch = self.clone();
            branch.gain(*literal, clause.strength);
            branch.extended[number - 1] = true;
            branch
        });
        Some(branches.collect())
    }

    /// The clause of this number if it can be extended here.
    pub fn extendable<'a>(&self, instance: &'a Instance, number: usize) -> Option<&'a Clause> {
        let clause = instance.clause(number)?;
        let can = clause.kept.len() >= 2 && !clause.tautology && !self.extended[number - 1];
        can.then_some(clause)
    }

    /// "Contradiction at variable x." None where "there is nothing to contradict", or no such
    /// variable.
    pub fn contradict(&self, variable: usize) -> Option<Branch> {
        let [negative, positive] = *self.units.get(variable.checked_sub(1)?)?;
        match (negative.hard, positive.hard) {
            // "both literals hard: the branch is dead"
            (true, true) => Some(self.died()),
            // "one literal hard and the other with soft weight v > 0: v is booked and that
            // weight becomes 0; the hard mark and the soft weight on its own side stay"
            (true, false) if positive.soft > 0 => {
                Some(self.book(variable, 0, positive.soft, positive.soft))
            }
            (false, true) if negative.soft > 0 => {
                Some(self.book(variable, negative.soft, 0, negative.soft))
            }
            // "neither hard, weights a > 0 and b > 0: the smaller is booked once and taken
            // from both"
            (false, false) if negative.soft > 0 && positive.soft > 0 => {
                let smaller = negative.soft.min(positive.soft);
                Some(self.book(variable, smaller, smaller, smaller))
            }
            _ => None,
        }
    }

    /// The layout when nothing is left to do: "1 where the positive literal is hard or
    /// has weight left, else 0".
    pub fn layout(&self) -> Vec<u8> {
        let leans = |[_, positive]: &[Unit; 2]| u8::from(positive.hard || positive.soft > 0);
        self.units.iter().map(leans).collect()
    }

    fn died(&self) -> Branch {
        let mut branch = self.clone();
        branch.dead = true;
        branch
    }

    /// The branch after booking `cost`, with these weights taken from the variable's literals.
    fn book(&self, variable: usize, from_negative: u64, from_positive: u64, cost: u64) -> Branch {
        let mut branch = self.clone();
        let [negative, positive] = &mut branch.units[variable - 1];
        negative.soft -= from_negative;
        positive.soft -= from_positive;
        branch.booked += cost;
        branch
    }

    /// "That literal gains the clause's weight, or the hard mark."
    fn gain(&mut self, literal: Literal, strength: Strength) {
        let unit = &mut self.units[literal.variable - 1][usize::from(literal.positive)];
        match strength {
            Strength::Soft(weight) => unit.soft += weight,
            Strength::Hard => unit.hard = true,
        }
    }
}
