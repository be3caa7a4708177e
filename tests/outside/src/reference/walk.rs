//! "The walk": the stem tables U and W, the period tables, the tests, the counts and the words.

use super::accept::{accepted, Context};
use super::records::{members, Automaton, Set, LETTERS};

#[derive(Clone, Copy, Debug)]
pub struct Stem {
    pub target: Set,
    pub state: usize,
    pub letter: usize,
    pub parent: usize,
}

impl Stem {
    /// "A stem entry is target + 256 state + 4,096 letter + 65,536 parent."
    pub fn packed(&self) -> u32 {
        (self.target as usize + 256 * self.state + 4_096 * self.letter + 65_536 * self.parent) as u32
    }
}

struct Period {
    context: Context,
    state: usize,
    letter: usize,
    /// None for a one-letter period.
    parent: Option<usize>,
}

/// A table's entries in the order of appending, and whether one more had to be appended where there was no room.
pub struct Table<Entry> {
    pub entries: Vec<Entry>,
    pub full: bool,
}

/// How the walk ended.
pub enum End {
    Included,
    /// The lasso that A accepts and B rejects: its stem and its period.
    Shown(Vec<u8>, Vec<u8>),
    /// 8: which of U (0) and W (1) is full.
    StemsFull(u64),
    /// 9.
    PeriodsFull,
}

/// The walk's end, the stem tables as far as they were built, and the counts of the answer.
pub struct Walked {
    pub end: End,
    pub smallest: Vec<Stem>,
    pub largest: Vec<Stem>,
    pub p: u64,
    pub t: u64,
    /// Candidates offered to any table: no count of the answer, but what the work is measured by.
    pub candidates: u64,
}

pub fn walk(a: &Automaton, b: &Automaton, stem_room: usize, period_room: usize) -> Walked {
    let mut walked = Walked { end: End::Included, smallest: vec![], largest: vec![], p: 0, t: 0, candidates: 0 };
    // U: covered by a target that is a subset of the candidate's.
    let u = stems(a, b, stem_room, |entry, candidate| entry & !candidate == 0, &mut walked.candidates);
    walked.smallest = u.entries;
    if u.full {
        walked.end = End::StemsFull(0);
        return walked;
    }
    // W: covered by a target that is a superset of the candidate's.
    let w = stems(a, b, stem_room, |entry, candidate| candidate & !entry == 0, &mut walked.candidates);
    walked.largest = w.entries;
    if w.full {
        walked.end = End::StemsFull(1);
        return walked;
    }
    walked.end = search(a, b, period_room, &mut walked);
    walked
}

/// Steps 1 and 2. `covers` compares an entry's target with the candidate's; both are at the same A state.
fn stems(a: &Automaton, b: &Automaton, room: usize, covers: fn(Set, Set) -> bool, candidates: &mut u64) -> Table<Stem> {
    let root = Stem { target: 1 << b.initial, state: a.initial, letter: 0, parent: 0 };
    let mut entries = vec![root];
    let mut taken = 0;
    while taken < entries.len() {
        for letter in 0..LETTERS {
            for state in members(a.steps[letter][entries[taken].state]) {
                *candidates += 1;
                let target = b.moved(entries[taken].target, letter);
                if entries.iter().any(|entry| entry.state == state && covers(entry.target, target)) {
                    continue;
                }
                if entries.len() == room {
                    return Table { entries, full: true };
                }
                entries.push(Stem { target, state, letter, parent: taken });
            }
        }
        taken += 1;
    }
    Table { entries, full: false }
}

/// Steps 3 and 4.
fn search(a: &Automaton, b: &Automaton, room: usize, walked: &mut Walked) -> End {
    let Walked { smallest, largest, p, t, candidates, .. } = walked;
    for s in members(a.accepting) {
        for w in largest.iter().filter(|w| w.state == s) {
            let periods = periods(a, b, s, w.target, room, candidates);
            *p = (*p).max(periods.entries.len() as u64);
            if periods.full {
                return End::PeriodsFull;
            }
            for (i, u) in smallest.iter().enumerate().filter(|(_, u)| u.state == s && u.target & !w.target == 0) {
                for (j, v) in periods.entries.iter().enumerate().filter(|(_, v)| v.state == s) {
                    *t += 1;
                    if !accepted(b.states, u.target, &v.context) {
                        return End::Shown(stem_word(smallest, i), period_word(&periods.entries, j));
                    }
                }
            }
        }
    }
    End::Included
}

/// The period table of (s, w), w by its target, whose rows alone are compared.
fn periods(a: &Automaton, b: &Automaton, s: usize, rows: Set, room: usize, candidates: &mut u64) -> Table<Period> {
    let covers = |entry: &Context, candidate: &Context| {
        members(rows).all(|q| entry.reach[q] & !candidate.reach[q] == 0 && entry.through[q] & !candidate.through[q] == 0)
    };
    let mut entries: Vec<Period> = vec![];
    // The word that is extended: none, which stands for the empty word at s, and then each entry in order.
    let mut taken = None;
    loop {
        let (from, context) = taken.map_or((s, Context::empty(b)), |i: usize| (entries[i].state, entries[i].context));
        for letter in 0..LETTERS {
            for state in members(a.steps[letter][from]) {
                *candidates += 1;
                let context = context.longer(b, letter);
                if entries.iter().any(|entry| entry.state == state && covers(&entry.context, &context)) {
                    continue;
                }
                if entries.len() == room {
                    return Table { entries, full: true };
                }
                entries.push(Period { context, state, letter, parent: taken });
            }
        }
        let next = taken.map_or(0, |i| i + 1);
        if next == entries.len() {
            return Table { entries, full: false };
        }
        taken = Some(next);
    }
}

/// The word of a stem entry, along the parents from its last letter to the first. The root has none.
fn stem_word(entries: &[Stem], mut at: usize) -> Vec<u8> {
    let mut word = vec![];
    while at != 0 {
        word.insert(0, entries[at].letter as u8);
        at = entries[at].parent;
    }
    word
}

/// The word of a period entry.
fn period_word(entries: &[Period], at: usize) -> Vec<u8> {
    let mut word = vec![];
    let mut next = Some(at);
    while let Some(at) = next {
        word.insert(0, entries[at].letter as u8);
        next = entries[at].parent;
    }
    word
}
