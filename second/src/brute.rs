//! Brute force over all assignments, for small n: the truth that derivations claim.

use crate::instance::Instance;
use crate::value::value_of;

#[derive(Clone, Debug)]
pub struct Layout {
    pub assignment: Vec<u8>,
    pub weight: u64,
}

/// Every assignment to n variables.
pub fn assignments(variables: usize) -> impl Iterator<Item = Vec<u8>> {
    let bits = move |code: u64| (0..variables).map(move |bit| (code >> bit & 1) as u8);
    (0..1u64 << variables).map(move |code| bits(code).collect())
}

/// Every assignment that meets the hard clauses, with its falsified weight.
pub fn feasible(instance: &Instance) -> Vec<Layout> {
    let mut layouts = Vec::new();
    for assignment in assignments(instance.variables) {
        let value = value_of(instance, &assignment);
        if value.meets_hard_clauses() {
            let weight = value.weight;
            layouts.push(Layout { assignment, weight });
        }
    }
    layouts
}

/// A cheapest layout, none where no assignment meets the hard clauses.
pub fn cheapest(layouts: &[Layout]) -> Option<&Layout> {
    layouts.iter().min_by_key(|layout| layout.weight)
}
