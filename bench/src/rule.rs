//! A rule made ready: for each letter, what every set of its states moves to.

use outside::reference::records::Automaton;

/// A set of the rule's states.
pub type Target = u8;

pub struct Rule {
    pub initial: usize,
    pub accepting: Target,
    /// By letter and then by set; a letter that the model never takes is not filled.
    moved: Box<[[Target; 256]; 16]>,
}

impl Default for Rule {
    fn default() -> Rule {
        Rule { initial: 0, accepting: 0, moved: Box::new([[0; 256]; 16]) }
    }
}

impl Rule {
    pub fn prepare(&mut self, rule: &Automaton, letters: u16) {
        self.initial = rule.initial;
        self.accepting = rule.accepting as Target;
        for x in (0..16).filter(|x| letters >> x & 1 == 1) {
            // A set is its lowest state and a smaller set.
            for set in 1..256usize {
                let lowest = set.trailing_zeros() as usize;
                self.moved[x][set] = self.moved[x][set & (set - 1)] | rule.steps[x][lowest] as Target;
            }
        }
    }

    #[inline]
    pub fn moved(&self, letter: usize) -> &[Target; 256] {
        &self.moved[letter]
    }
}
