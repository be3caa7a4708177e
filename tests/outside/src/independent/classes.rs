//! Inclusion by all classes of words, with nothing pruned.
//!
//! Two words are in one class if they join the same states in both automata, with and without acceptance. Whether a
//! lasso is accepted depends on the classes of its stem and its period alone, so it is enough to try each class of
//! periods with each pair of sets that a stem can lead to.

use super::Arrows;
use std::collections::HashSet;

/// For each two states: 0 not joined, 1 joined, 2 joined through acceptance.
type Joined = Vec<Vec<u8>>;

/// More classes than this are too many to look at.
const MOST: usize = 3_000;

/// Is every lasso of the model accepted by the rule? None where there are too many classes.
pub fn included(model: &Arrows, rule: &Arrows) -> Option<bool> {
    let letters = model.letters();
    let periods = classes(model, rule, &letters)?;
    let stems = stems(model, rule, &letters);
    let sound = periods.iter().all(|(in_model, in_rule)| {
        let (by_model, by_rule) = (repeated(in_model), repeated(in_rule));
        stems.iter().all(|(a, b)| !meets(a, &by_model) || meets(b, &by_rule))
    });
    Some(sound)
}

fn meets(set: &[bool], other: &[bool]) -> bool {
    set.iter().zip(other).any(|(&x, &y)| x && y)
}

/// The classes of all words of at least one letter.
fn classes(model: &Arrows, rule: &Arrows, letters: &[u8]) -> Option<Vec<(Joined, Joined)>> {
    let ones: Vec<(Joined, Joined)> = letters.iter().map(|&x| (joined(model, x), joined(rule, x))).collect();
    let mut met: HashSet<(Joined, Joined)> = HashSet::new();
    let mut list = vec![];
    for class in &ones {
        if met.insert(class.clone()) {
            list.push(class.clone());
        }
    }
    let mut next = 0;
    while next < list.len() {
        for one in &ones {
            let class = (then(&list[next].0, &one.0), then(&list[next].1, &one.1));
            if met.insert(class.clone()) {
                list.push(class);
            }
        }
        if list.len() > MOST {
            return None;
        }
        next += 1;
    }
    Some(list)
}

fn joined(automaton: &Arrows, letter: u8) -> Joined {
    let mut table = vec![vec![0; automaton.states]; automaton.states];
    for &(p, x, q) in &automaton.arrows {
        if x == letter {
            table[p][q] = if automaton.accepting[p] || automaton.accepting[q] { 2 } else { 1 };
        }
    }
    table
}

/// One word, then another.
fn then(first: &Joined, second: &Joined) -> Joined {
    let n = first.len();
    let mut table = vec![vec![0; n]; n];
    for p in 0..n {
        for m in (0..n).filter(|&m| first[p][m] > 0) {
            for q in (0..n).filter(|&q| second[m][q] > 0) {
                table[p][q] = table[p][q].max(first[p][m]).max(second[m][q]);
            }
        }
    }
    table
}

/// The states from which the word, again and again for ever, is accepted.
fn repeated(word: &Joined) -> Vec<bool> {
    let n = word.len();
    // Joined by one or more copies: doubled until nothing is added.
    let mut some = word.clone();
    loop {
        let mut more = then(&some, &some);
        for p in 0..n {
            for q in 0..n {
                more[p][q] = more[p][q].max(some[p][q]);
            }
        }
        if more == some {
            break;
        }
        some = more;
    }
    (0..n).map(|p| (0..n).any(|q| (p == q || some[p][q] > 0) && some[q][q] == 2)).collect()
}

/// The pairs of sets that a stem leads to in the two automata, the empty stem first.
fn stems(model: &Arrows, rule: &Arrows, letters: &[u8]) -> Vec<(Vec<bool>, Vec<bool>)> {
    let alone = |automaton: &Arrows| (0..automaton.states).map(|q| q == automaton.initial).collect::<Vec<bool>>();
    let mut list = vec![(alone(model), alone(rule))];
    let mut next = 0;
    while next < list.len() {
        for &x in letters {
            let pair = (led(model, &list[next].0, x), led(rule, &list[next].1, x));
            if !list.contains(&pair) {
                list.push(pair);
            }
        }
        next += 1;
    }
    list
}

fn led(automaton: &Arrows, set: &[bool], letter: u8) -> Vec<bool> {
    let mut to = vec![false; automaton.states];
    for &(p, x, q) in &automaton.arrows {
        if x == letter && set[p] {
            to[q] = true;
        }
    }
    to
}
