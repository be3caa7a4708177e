//! Period tables. Only the minimal contexts at each state of the model are looked at, those that cover often first, and before
//! them the one that decided the last candidate of the same kind.

use crate::contexts::{rows, Context};
use crate::rule::{Rule, Target};
use outside::reference::records::Automaton;

/// A one-letter period has this parent.
pub const NO_PARENT: usize = 65_535;

/// The lent tables that a period table is grown in.
pub struct Room<'a> {
    pub links: &'a mut [u32],
    pub contexts: &'a mut [u64],
    pub room: usize,
}

/// A context that covered a candidate, or was appended for it, and at which state of which table.
#[derive(Clone, Copy)]
struct Guess {
    stamp: u64,
    context: Context,
}

/// Candidates are of as many kinds, by context and state.
const KINDS: usize = 4_096;

/// By state of the model, the contexts of the table on the rows that count, less those that a later one is inside of.
pub struct Minimal {
    at: [Vec<Context>; 16],
    guesses: Vec<Guess>,
    /// Above the stamps of all guesses for earlier tables.
    stamp: u64,
}

impl Default for Minimal {
    fn default() -> Minimal {
        let none = Guess { stamp: 0, context: Context { reach: 0, through: 0 } };
        Minimal { at: Default::default(), guesses: vec![none; KINDS], stamp: 16 }
    }
}

impl Minimal {
    fn clear(&mut self) {
        self.at.iter_mut().for_each(Vec::clear);
        self.stamp += 16;
    }

    #[inline]
    fn covers(&mut self, state: usize, candidate: Context, rows: u64) -> bool {
        let (reach, through) = (rows & !candidate.reach, rows & !candidate.through);
        let inside = |entry: &Context| entry.reach & reach == 0 && entry.through & through == 0;
        let guess = &mut self.guesses[kind(candidate, state, rows)];
        let stamp = self.stamp + state as u64;
        if guess.stamp == stamp && inside(&guess.context) {
            return true;
        }
        let chain = &mut self.at[state];
        let Some(found) = chain.iter().position(inside) else {
            *guess = Guess { stamp, context: candidate };
            return false;
        };
        *guess = Guess { stamp, context: chain[found] };
        // Nearer to the front each time, so that the ones that cover often are met early.
        chain.swap(found, found / 2);
        true
    }

    fn add(&mut self, state: usize, entry: Context, rows: u64) {
        let entry = Context { reach: entry.reach & rows, through: entry.through & rows };
        let chain = &mut self.at[state];
        let inside = |old: &Context| entry.reach & !old.reach == 0 && entry.through & !old.through == 0;
        if chain.iter().any(inside) {
            chain.retain(|old| !inside(old));
        }
        chain.push(entry);
    }
}

#[inline]
fn kind(candidate: Context, state: usize, rows: u64) -> usize {
    let mixed = (candidate.reach & rows) ^ (candidate.through & rows).rotate_left(1);
    ((mixed.wrapping_mul(0x9E37_79B9_7F4A_7C15) >> 48) as usize ^ state << 4) % KINDS
}

/// Grows the period table of (s, w) into the lent tables. Its length and whether one entry too many was needed.
pub fn grow(
    model: &Automaton,
    rule: &Rule,
    s: usize,
    target: Target,
    minimal: &mut Minimal,
    lent: &mut Room,
    candidates: &mut u64,
) -> (usize, bool) {
    minimal.clear();
    let rows = rows(target);
    let mut length = 0;
    let mut taken = NO_PARENT;
    loop {
        let (from, context) = if taken == NO_PARENT {
            (s, Context::empty(rule))
        } else {
            (
                (lent.links[taken] & 15) as usize,
                Context { reach: lent.contexts[2 * taken], through: lent.contexts[2 * taken + 1] },
            )
        };
        for letter in 0..16 {
            let mut successors = model.steps[letter][from];
            if successors == 0 {
                continue;
            }
            let context = context.longer(rule.moved(letter), rule.accepting);
            while successors != 0 {
                let state = successors.trailing_zeros() as usize;
                successors &= successors - 1;
                *candidates += 1;
                if minimal.covers(state, context, rows) {
                    continue;
                }
                if length == lent.room {
                    return (length, true);
                }
                minimal.add(state, context, rows);
                lent.links[length] = (state | letter << 4 | taken << 16) as u32;
                lent.contexts[2 * length] = context.reach;
                lent.contexts[2 * length + 1] = context.through;
                length += 1;
            }
        }
        taken = if taken == NO_PARENT { 0 } else { taken + 1 };
        if taken == length {
            return (length, false);
        }
    }
}
