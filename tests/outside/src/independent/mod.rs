//! Decisions that share nothing with the walk: no targets, no contexts, no entry that covers another.
//!
//! - `product`: is a lasso accepted? By the explicit graph of states and places in the lasso.
//! - `classes`: is the model included? By all classes of words, with nothing left out.
//! - `ranks`: is the model included? By complementing the rule with rankings and looking for a common run.

pub mod classes;
pub mod graph;
pub mod product;
pub mod ranks;

/// An automaton as a list of arrows. Its records are known to be good.
pub struct Arrows {
    pub initial: usize,
    pub states: usize,
    pub accepting: Vec<bool>,
    /// From, letter, to.
    pub arrows: Vec<(usize, u8, usize)>,
}

impl Arrows {
    pub fn of(records: &[u8]) -> Arrows {
        let mut found = Arrows { initial: 0, states: 16, accepting: vec![false; 16], arrows: vec![] };
        for record in records.chunks(4) {
            match record[0] {
                b'I' => found.initial = record[1] as usize,
                b'F' => found.accepting[record[1] as usize] = true,
                _ => found.arrows.push((record[1] as usize, record[2], record[3] as usize)),
            }
        }
        found.compact()
    }

    /// The same automaton on its reachable states, numbered from 0 in the order in which they are met.
    fn compact(self) -> Arrows {
        let mut met = vec![self.initial];
        let mut next = 0;
        while next < met.len() {
            for &(p, _, q) in &self.arrows {
                if p == met[next] && !met.contains(&q) {
                    met.push(q);
                }
            }
            next += 1;
        }
        let number = |q: usize| met.iter().position(|&m| m == q);
        let arrows = self.arrows.iter().filter_map(|&(p, x, q)| Some((number(p)?, x, number(q)?))).collect();
        let accepting = met.iter().map(|&q| self.accepting[q]).collect();
        Arrows { initial: 0, states: met.len(), accepting, arrows }
    }

    /// The letters that have an arrow, rising.
    pub fn letters(&self) -> Vec<u8> {
        let mut letters: Vec<u8> = self.arrows.iter().map(|&(_, x, _)| x).collect();
        letters.sort_unstable();
        letters.dedup();
        letters
    }

    pub fn successors(&self, p: usize, letter: u8) -> impl Iterator<Item = usize> + '_ {
        self.arrows.iter().filter(move |&&(from, x, _)| from == p && x == letter).map(|&(_, _, q)| q)
    }
}
