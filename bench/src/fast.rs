//! `decide` for speed: the same answers and the same lent elements as document 01 fixes them, by other means.

use crate::contexts::Context;
use crate::periods::{self, Minimal, Room, NO_PARENT};
use crate::reader::read;
use crate::rule::{Rule, Target};
use crate::stems::{self, Closures, Kept};
use outside::lent::Lent;
use outside::reference::decide::{Answer, LARGEST_P, LARGEST_S};
use outside::reference::records::{Automaton, STATES_OF_A, STATES_OF_B};

/// What is kept beside the lent tables, reused from call to call.
#[derive(Default)]
pub struct Fast {
    rule: Rule,
    closures: Closures,
    minimal: Minimal,
    /// The periods at s with the states from which each is accepted.
    tested: Vec<(usize, Target)>,
    /// The stems at s: index and target.
    at_s: Vec<(usize, Target)>,
    /// Candidates of the last call.
    pub candidates: u64,
}

/// How the search ended.
enum End {
    Included,
    Shown { u: usize, v: usize },
    Full,
}

impl Fast {
    /// The answer; the row is written like every other lent table.
    pub fn decide(&mut self, model: &[u8], rule: &[u8], stem_room: u64, period_room: u64, lent: &mut Lent) -> Answer {
        let answer = self.judge(model, rule, stem_room, period_room, lent);
        if lent.row.len() >= 9 {
            lent.row.part()[..9].copy_from_slice(&answer.row());
        }
        answer
    }

    fn judge(&mut self, model: &[u8], rule: &[u8], stem_room: u64, period_room: u64, lent: &mut Lent) -> Answer {
        self.candidates = 0;
        let file =
            |which, number: u32, place: usize| Answer { number: number.into(), which, place: place as u64, ..Answer::default() };
        let model = match read(model, STATES_OF_A) {
            Ok(model) => model,
            Err(refusal) => return file(0, refusal.number, refusal.place),
        };
        let rule = match read(rule, STATES_OF_B) {
            Ok(rule) => rule,
            Err(refusal) => return file(1, refusal.number, refusal.place),
        };
        if !enough(stem_room, period_room, lent) {
            return file(0, 7, 0);
        }
        self.rule.prepare(&rule, letters(&model));
        let answer = self.walk(&model, stem_room as usize, period_room as usize, lent);
        lent.links.part()[..period_room as usize].fill(0);
        lent.contexts.part()[..2 * period_room as usize].fill(0);
        answer
    }

    fn walk(&mut self, model: &Automaton, stem_room: usize, period_room: usize, lent: &mut Lent) -> Answer {
        let mut answer = Answer::default();
        let Fast { rule, closures, candidates, .. } = self;
        let (u, full) = stems::grow(model, rule, closures, Kept::Smallest, stem_room, lent.smallest.part(), candidates);
        answer.u = u as u64;
        if full {
            return Answer { number: 8, which: 0, place: stem_room as u64, ..answer };
        }
        let (w, full) = stems::grow(model, rule, closures, Kept::Largest, stem_room, lent.largest.part(), candidates);
        answer.w = w as u64;
        if full {
            return Answer { number: 8, which: 1, place: stem_room as u64, ..answer };
        }
        match self.search(model, period_room, lent, &mut answer) {
            End::Included => {}
            End::Full => (answer.number, answer.place) = (9, period_room as u64),
            End::Shown { u, v } => {
                let (smallest, links) = (lent.smallest.part(), lent.links.part());
                answer.stem_length = spell(u, 0, |at| (smallest[at] >> 12 & 15, smallest[at] >> 16), lent.stem.part());
                answer.period_length = spell(v, NO_PARENT, |at| (links[at] >> 4 & 15, links[at] >> 16), lent.period.part());
            }
        }
        answer
    }

    fn search(&mut self, model: &Automaton, period_room: usize, lent: &mut Lent, answer: &mut Answer) -> End {
        for s in (0..16).filter(|s| model.accepting >> s & 1 == 1) {
            self.at_s.clear();
            let stems = lent.smallest.part()[..answer.u as usize].iter().enumerate();
            self.at_s.extend(stems.filter(|(_, &entry)| (entry >> 8 & 15) as usize == s).map(|(u, &entry)| (u, entry as Target)));
            for w in 0..answer.w as usize {
                let entry = lent.largest.part()[w];
                if (entry >> 8 & 15) as usize != s {
                    continue;
                }
                let mut room = Room { links: lent.links.part(), contexts: lent.contexts.part(), room: period_room };
                let (length, full) =
                    periods::grow(model, &self.rule, s, entry as Target, &mut self.minimal, &mut room, &mut self.candidates);
                answer.p = answer.p.max(length as u64);
                if full {
                    return End::Full;
                }
                if let Some((u, v)) = self.rejected(s, entry as Target, length, &room, &mut answer.t) {
                    return End::Shown { u, v };
                }
            }
        }
        End::Included
    }

    /// The first rejected pair for one w: each period at s is judged once, and then a test is one AND.
    fn rejected(&mut self, s: usize, target: Target, length: usize, room: &Room, tests: &mut u64) -> Option<(usize, usize)> {
        self.tested.clear();
        let inside = |&&(_, stem): &&(usize, Target)| stem & !target == 0;
        let mut stems = self.at_s.iter().filter(inside);
        // The first stem judges the periods as it comes to them, so that a pair that is rejected early costs little.
        let &(first, stem) = stems.next()?;
        for v in (0..length).filter(|&v| (room.links[v] & 15) as usize == s) {
            let context = Context { reach: room.contexts[2 * v], through: room.contexts[2 * v + 1] };
            let accepted = context.accepted_from();
            *tests += 1;
            if stem & accepted == 0 {
                return Some((first, v));
            }
            self.tested.push((v, accepted));
        }
        for &(u, stem) in stems {
            match self.tested.iter().position(|&(_, accepted)| stem & accepted == 0) {
                None => *tests += self.tested.len() as u64,
                Some(at) => {
                    *tests += at as u64 + 1;
                    return Some((u, self.tested[at].0));
                }
            }
        }
        None
    }
}

/// The letters that the model takes anywhere.
fn letters(model: &Automaton) -> u16 {
    (0..16).filter(|&x| model.steps[x] != [0; 16]).fold(0, |set, x| set | 1 << x)
}

fn enough(stem_room: u64, period_room: u64, lent: &Lent) -> bool {
    if !(1..=LARGEST_S).contains(&stem_room) || !(1..=LARGEST_P).contains(&period_room) {
        return false;
    }
    let (s, p) = (stem_room as usize, period_room as usize);
    let least = [
        (lent.smallest.len(), s),
        (lent.largest.len(), s),
        (lent.stem.len(), s),
        (lent.links.len(), p),
        (lent.contexts.len(), 2 * p),
        (lent.period.len(), p),
        (lent.row.len(), 9),
    ];
    least.iter().all(|(length, least)| length >= least)
}

/// Writes the word that ends at an entry, back to front, and gives its length. `entry` is a letter and a parent.
fn spell(at: usize, root: usize, entry: impl Fn(usize) -> (u32, u32), out: &mut [u8]) -> u64 {
    let parents = |&at: &usize| (at != root).then(|| entry(at).1 as usize);
    let length = std::iter::successors(Some(at), parents).count() - 1;
    for (free, at) in (0..length).rev().zip(std::iter::successors(Some(at), parents)) {
        out[free] = entry(at).0 as u8;
    }
    length as u64
}
