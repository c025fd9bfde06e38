//! What a text says once it is read (01, "What is built" and "Instance text").

#[derive(Clone, Copy, Debug, PartialEq, Eq)]
pub struct Literal {
    /// Counted from 1, as written.
    pub variable: usize,
    pub positive: bool,
}

impl Literal {
    pub fn opposite(self) -> Literal {
        Literal {
            variable: self.variable,
            positive: !self.positive,
        }
    }

    /// "An assignment is n bytes, 0 false or 1 true, variable 1 first."
    pub fn holds(self, assignment: &[u8]) -> bool {
        (assignment[self.variable - 1] == 1) == self.positive
    }
}

#[derive(Clone, Copy, Debug, PartialEq, Eq)]
pub enum Strength {
    Hard,
    Soft(u64),
}

#[derive(Clone, Debug, PartialEq, Eq)]
pub struct Clause {
    pub strength: Strength,
    /// The kept literals: "A repeated literal is kept once, at its first place."
    pub kept: Vec<Literal>,
    /// "A clause with some variable in both signs is a tautology."
    pub tautology: bool,
}

impl Clause {
    pub fn of(strength: Strength, written: &[Literal]) -> Clause {
        let mut kept: Vec<Literal> = Vec::new();
        for literal in written {
            if !kept.contains(literal) {
                kept.push(*literal);
            }
        }
        let tautology = kept.iter().any(|one| kept.contains(&one.opposite()));
        Clause {
            strength,
            kept,
            tautology,
        }
    }

    /// A tautology "is never falsified"; "an empty clause is falsified by every assignment".
    pub fn is_falsified(&self, assignment: &[u8]) -> bool {
        !self.tautology && !self.kept.iter().any(|literal| literal.holds(assignment))
    }
}

/// The instance and the limits that 01 gives it by name.
#[derive(Clone, Debug, Default, PartialEq, Eq)]
pub struct Instance {
    /// n: "largest variable number written, 0 if none".
    pub variables: usize,
    /// The clauses in text order; clause number 1 stands first.
    pub clauses: Vec<Clause>,
    /// Literals as written, repeated ones counted each time.
    pub literals: usize,
    /// Total soft weight, "all soft clauses, tautologies included".
    pub total: u64,
}

impl Instance {
    pub const MOST_VARIABLES: u64 = 500;
    pub const MOST_CLAUSES: usize = 1_000;
    pub const MOST_LITERALS: usize = 4_000;
    pub const MOST_WEIGHT: u64 = 1_000_000_000_000;

    /// The clause of this number, none where there is no such clause.
    pub fn clause(&self, number: usize) -> Option<&Clause> {
        self.clauses.get(number.checked_sub(1)?)
    }
}
