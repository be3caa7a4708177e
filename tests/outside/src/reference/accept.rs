//! "Acceptance": which states a word joins, with and without acceptance, and the lasso's q, i and k.

use super::records::{has, members, Automaton, Set, STATES_OF_A};

/// What a word does in an automaton, row by row: the states that q reaches by it, and those that it reaches through acceptance.
#[derive(Clone, Copy, Debug, PartialEq, Eq)]
pub struct Context {
    pub reach: [Set; STATES_OF_A],
    pub through: [Set; STATES_OF_A],
}

impl Context {
    /// The empty word leads from q to q only; it goes through acceptance where q is accepting.
    pub fn empty(automaton: &Automaton) -> Context {
        let mut context = Context { reach: [0; STATES_OF_A], through: [0; STATES_OF_A] };
        for q in 0..STATES_OF_A {
            context.reach[q] = 1 << q;
            context.through[q] = context.reach[q] & automaton.accepting;
        }
        context
    }

    /// The context of the word longer by one letter.
    pub fn longer(&self, automaton: &Automaton, letter: usize) -> Context {
        let mut next = *self;
        for q in 0..STATES_OF_A {
            next.reach[q] = automaton.moved(self.reach[q], letter);
            next.through[q] = automaton.moved(self.through[q], letter) | next.reach[q] & automaton.accepting;
        }
        next
    }

    /// The context of this word followed by another.
    fn followed_by(&self, other: &Context) -> Context {
        let mut both = Context { reach: [0; STATES_OF_A], through: [0; STATES_OF_A] };
        for q in 0..STATES_OF_A {
            for middle in members(self.reach[q]) {
                both.reach[q] |= other.reach[middle];
                both.through[q] |= other.through[middle];
            }
            for middle in members(self.through[q]) {
                both.through[q] |= other.reach[middle];
            }
        }
        both
    }

    /// The set that a set reaches by the word.
    fn moved(&self, set: Set) -> Set {
        members(set).fold(0, |all, q| all | self.reach[q])
    }
}

/// Is the lasso accepted whose stem leads from the initial state to `target` and whose period has this context?
///
/// Looks for q, i >= 0 and k >= 1 by counting. Among n states i below n and k up to n are enough: of the paths
/// from period to period that lead to the round through acceptance, and back to it, the shortest repeat no state.
pub fn accepted(states: usize, target: Set, period: &Context) -> bool {
    let mut reached = 0;
    let mut after_i = target;
    for _ in 0..states {
        reached |= after_i;
        after_i = period.moved(after_i);
    }
    let mut k_copies = *period;
    for _ in 0..states {
        if members(reached).any(|q| has(k_copies.through[q], q)) {
            return true;
        }
        k_copies = k_copies.followed_by(period);
    }
    false
}
