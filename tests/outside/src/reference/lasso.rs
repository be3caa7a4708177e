//! The lasso test for a single automaton, as the C host gets it: 0 rejected, 1 accepted, or 100 plus the refusal.

use super::accept::{accepted, Context};
use super::records::{read, LETTERS, STATES_OF_A};

pub fn lasso(records: &[u8], stem: &[u8], period: &[u8]) -> u32 {
    let automaton = match read(records, STATES_OF_A) {
        Ok(automaton) => automaton,
        Err(refusal) => return 100 + refusal.number,
    };
    if period.is_empty() {
        return 110;
    }
    if stem.iter().chain(period).any(|&letter| letter as usize >= LETTERS) {
        return 111;
    }
    let target = stem.iter().fold(1 << automaton.initial, |set, &x| automaton.moved(set, x as usize));
    let context = period.iter().fold(Context::empty(&automaton), |context, &x| context.longer(&automaton, x as usize));
    u32::from(accepted(automaton.states, target, &context))
}
