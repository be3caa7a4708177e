//! Stem tables, where a look at one bit says whether a candidate is covered.

use crate::rule::{Rule, Target};
use outside::reference::records::Automaton;

/// One bit for each target.
type Targets = [u64; 4];

/// For each target those that contain it, or those that it contains.
pub struct Closures {
    above: Box<[Targets; 256]>,
    below: Box<[Targets; 256]>,
}

impl Default for Closures {
    fn default() -> Closures {
        let related = |test: fn(usize, usize) -> bool| {
            let mut table = Box::new([[0; 4]; 256]);
            for (entry, set) in table.iter_mut().enumerate() {
                for target in (0..256).filter(|&target| test(entry, target)) {
                    set[target / 64] |= 1 << (target % 64);
                }
            }
            table
        };
        Closures { above: related(|entry, target| entry & !target == 0), below: related(|entry, target| target & !entry == 0) }
    }
}

#[derive(Clone, Copy)]
pub enum Kept {
    /// U: an entry covers what contains its target.
    Smallest,
    /// W: an entry covers what its target contains.
    Largest,
}

/// Grows a table into the lent one. Its length and whether one entry too many was needed.
pub fn grow(
    model: &Automaton,
    rule: &Rule,
    closures: &Closures,
    kept: Kept,
    room: usize,
    table: &mut [u32],
    candidates: &mut u64,
) -> (usize, bool) {
    let closure = match kept {
        Kept::Smallest => &closures.above,
        Kept::Largest => &closures.below,
    };
    let mut covered: [Targets; 16] = [[0; 4]; 16];
    let root: Target = 1 << rule.initial;
    cover(&mut covered[model.initial], &closure[root as usize]);
    table[0] = u32::from(root) | (model.initial as u32) << 8;
    let mut length = 1;
    let mut taken = 0;
    while taken < length {
        let entry = table[taken];
        let (from, target) = ((entry >> 8 & 15) as usize, (entry & 255) as usize);
        for letter in 0..16 {
            let mut successors = model.steps[letter][from];
            if successors == 0 {
                continue;
            }
            let target = rule.moved(letter)[target] as usize;
            while successors != 0 {
                let state = successors.trailing_zeros() as usize;
                successors &= successors - 1;
                *candidates += 1;
                if covered[state][target / 64] >> (target % 64) & 1 == 1 {
                    continue;
                }
                if length == room {
                    return (length, true);
                }
                cover(&mut covered[state], &closure[target]);
                table[length] = (target | state << 8 | letter << 12 | taken << 16) as u32;
                length += 1;
            }
        }
        taken += 1;
    }
    (length, false)
}

fn cover(covered: &mut Targets, more: &Targets) {
    for (word, bits) in covered.iter_mut().zip(more) {
        *word |= bits;
    }
}
