//! Inclusion by complementing the rule with rankings (Kupferman and Vardi) and looking for a run of the model that the
//! complement shares: the model is included exactly if there is none.
//!
//! A ranking gives each state that the rule can be in a number that never rises along a step and is even at accepting
//! states. A word is rejected by the rule exactly if some sequence of rankings gets every path stuck at an odd number.
//! `owing` are the states that still have to get there since the last time that none was.

use super::graph::components;
use super::Arrows;
use std::collections::HashMap;

#[derive(Clone, PartialEq, Eq, Hash)]
struct Node {
    model: usize,
    /// None where the rule can't be.
    ranks: Vec<Option<usize>>,
    owing: Vec<bool>,
}

/// More nodes than this are too many to look at.
const MOST: usize = 20_000;

/// Is every lasso of the model accepted by the rule? None where the search is too large.
pub fn included(model: &Arrows, rule: &Arrows) -> Option<bool> {
    let letters = model.letters();
    let highest = 2 * rule.accepting.iter().filter(|&&accepting| !accepting).count();
    let mut ranks = vec![None; rule.states];
    ranks[rule.initial] = Some(highest);
    let start = Node { model: model.initial, ranks, owing: vec![false; rule.states] };
    let mut numbers = HashMap::from([(start.clone(), 0)]);
    let mut nodes = vec![start];
    let mut edges: Vec<Vec<usize>> = vec![];
    while edges.len() < nodes.len() {
        let node = nodes[edges.len()].clone();
        let mut out = vec![];
        for &x in &letters {
            let to: Vec<usize> = model.successors(node.model, x).collect();
            if to.is_empty() {
                continue;
            }
            for (ranks, owing) in steps(rule, &node, x) {
                for &model in &to {
                    let next = Node { model, ranks: ranks.clone(), owing: owing.clone() };
                    let number = *numbers.entry(next.clone()).or_insert(nodes.len());
                    if number == nodes.len() {
                        nodes.push(next);
                    }
                    out.push(number);
                }
            }
        }
        edges.push(out);
        if nodes.len() > MOST {
            return None;
        }
    }
    Some(!common_run(model, &nodes, &edges))
}

/// Is there a cycle on which the model accepts and again and again nothing is owing?
fn common_run(model: &Arrows, nodes: &[Node], edges: &[Vec<usize>]) -> bool {
    let found = components(edges);
    let mut model_accepts = vec![false; found.cyclic.len()];
    let mut rule_rejects = vec![false; found.cyclic.len()];
    for (node, &component) in nodes.iter().zip(&found.of) {
        model_accepts[component] |= model.accepting[node.model];
        rule_rejects[component] |= !node.owing.contains(&true);
    }
    (0..found.cyclic.len()).any(|c| found.cyclic[c] && model_accepts[c] && rule_rejects[c])
}

/// Every ranking that may follow by a letter, with what is owing then.
fn steps(rule: &Arrows, node: &Node, letter: u8) -> Vec<(Vec<Option<usize>>, Vec<bool>)> {
    let mut most: Vec<Option<usize>> = vec![None; rule.states];
    let mut from_owing = vec![false; rule.states];
    for &(p, x, q) in &rule.arrows {
        if x == letter {
            if let Some(rank) = node.ranks[p] {
                most[q] = Some(most[q].map_or(rank, |m| m.min(rank)));
                from_owing[q] |= node.owing[p];
            }
        }
    }
    let nothing_owing = !node.owing.contains(&true);
    let mut all = vec![vec![]];
    for (q, most) in most.into_iter().enumerate() {
        let choices: Vec<Option<usize>> = match most {
            None => vec![None],
            Some(m) => (0..=m).filter(|r| r % 2 == 0 || !rule.accepting[q]).map(Some).collect(),
        };
        all = all
            .into_iter()
            .flat_map(|ranks: Vec<Option<usize>>| choices.iter().map(move |&r| [&ranks[..], &[r]].concat()).collect::<Vec<_>>())
            .collect();
    }
    all.into_iter()
        .map(|ranks| {
            let owing =
                (0..rule.states).map(|q| ranks[q].is_some_and(|r| r % 2 == 0) && (nothing_owing || from_owing[q])).collect();
            (ranks, owing)
        })
        .collect()
}
