//! One branch that is changed in place, a list of what to take back, and a frame for each
//! extension on the path.

use super::reader::Flat;
use super::HARD;

/// An extension whose branches are not all closed.
struct Frame {
    clause: usize,
    /// The literal whose branch comes next.
    next: usize,
    /// How long the undo list and how high the booked cost were before the extension.
    undo: usize,
    booked: u64,
}

pub struct State {
    /// For each literal code its soft weight, with the hard mark as the top bit.
    units: Vec<u64>,
    extended: Vec<bool>,
    booked: u64,
    dead: bool,
    /// The literal codes changed and what they held before.
    undo: Vec<(u32, u64)>,
    frames: Vec<Frame>,
}

impl State {
    pub fn root(flat: &Flat) -> State {
        let mut state = State {
            units: vec![0; 2 * flat.variables],
            extended: vec![false; flat.strengths.len()],
            booked: 0,
            dead: false,
            undo: Vec::new(),
            frames: Vec::new(),
        };
        for (clause, strength) in flat.strengths.iter().enumerate() {
            match (flat.kept(clause), *strength) {
                ([], HARD) => state.dead = true,
                ([], weight) => state.booked += weight,
                ([code], strength) => gain(&mut state.units[*code as usize], strength),
                _ => {}
            }
        }
        state
    }

    pub fn is_dead(&self) -> bool {
        self.dead
    }

    pub fn booked(&self) -> u64 {
        self.booked
    }

    fn set(&mut self, code: usize, unit: u64) {
        self.undo.push((code as u32, self.units[code]));
        self.units[code] = unit;
    }

    /// False where the clause can't be extended here.
    pub fn extend(&mut self, flat: &Flat, number: usize) -> bool {
        if number == 0 || number > flat.strengths.len() {
            return false;
        }
        let clause = number - 1;
        if self.extended[clause] || flat.tautologies[clause] || flat.kept(clause).len() < 2 {
            return false;
        }
        self.extended[clause] = true;
        self.frames.push(Frame {
            clause,
            next: 0,
            undo: self.undo.len(),
            booked: self.booked,
        });
        self.next_branch(flat)
    }

    /// False where there is nothing to contradict.
    pub fn contradict(&mut self, flat: &Flat, variable: usize) -> bool {
        if variable == 0 || variable > flat.variables {
            return false;
        }
        let negative = 2 * (variable - 1);
        let (a, b) = (self.units[negative], self.units[negative + 1]);
        let smaller = match (a & HARD != 0, b & HARD != 0) {
            (true, true) => {
                self.dead = true;
                return true;
            }
            (true, false) => b,
            (false, true) => a,
            (false, false) => a.min(b),
        };
        if smaller == 0 {
            return false;
        }
        if a & HARD == 0 {
            self.set(negative, a - smaller);
        }
        if b & HARD == 0 {
            self.set(negative + 1, b - smaller);
        }
        self.booked += smaller;
        true
    }

    /// Closes the branch; false where it was the last.
    pub fn close(&mut self, flat: &Flat) -> bool {
        while !self.frames.is_empty() {
            if self.next_branch(flat) {
                return true;
            }
            if let Some(frame) = self.frames.pop() {
                self.extended[frame.clause] = false;
            }
        }
        false
    }

    /// Goes back to the last extension and into its next branch; false where none is left.
    fn next_branch(&mut self, flat: &Flat) -> bool {
        let Some(frame) = self.frames.last_mut() else {
            return false;
        };
        for (code, unit) in self.undo.drain(frame.undo..).rev() {
            self.units[code as usize] = unit;
        }
        self.booked = frame.booked;
        self.dead = false;
        let Some(code) = flat.kept(frame.clause).get(frame.next) else {
            return false;
        };
        frame.next += 1;
        let code = *code as usize;
        let strength = flat.strengths[frame.clause];
        let mut unit = self.units[code];
        gain(&mut unit, strength);
        self.set(code, unit);
        true
    }
}

fn gain(unit: &mut u64, strength: u64) {
    match strength {
        HARD => *unit |= HARD,
        weight => *unit += weight,
    }
}
