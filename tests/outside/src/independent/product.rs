//! Acceptance of a lasso by the graph whose nodes are a state and a place in the lasso: it is accepted exactly if a
//! cycle with an accepting state can be reached from the initial state at the first place.

use super::graph::components;
use super::Arrows;

pub fn accepts(automaton: &Arrows, stem: &[u8], period: &[u8]) -> bool {
    let lasso: Vec<u8> = stem.iter().chain(period).copied().collect();
    let after = |place: usize| if place + 1 < lasso.len() { place + 1 } else { stem.len() };
    let node = |state: usize, place: usize| place * automaton.states + state;
    let mut edges = vec![vec![]; automaton.states * lasso.len()];
    for (place, &letter) in lasso.iter().enumerate() {
        for &(p, x, q) in &automaton.arrows {
            if x == letter {
                edges[node(p, place)].push(node(q, after(place)));
            }
        }
    }
    let reached = reachable(&edges, node(automaton.initial, 0));
    let found = components(&edges);
    reached.into_iter().any(|n| automaton.accepting[n % automaton.states] && found.cyclic[found.of[n]])
}

fn reachable(edges: &[Vec<usize>], start: usize) -> Vec<usize> {
    let mut met = vec![false; edges.len()];
    met[start] = true;
    let mut list = vec![start];
    let mut next = 0;
    while next < list.len() {
        for &to in &edges[list[next]] {
            if !met[to] {
                met[to] = true;
                list.push(to);
            }
        }
        next += 1;
    }
    list
}
