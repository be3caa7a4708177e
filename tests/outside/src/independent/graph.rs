//! Strongly connected components of a graph that is given by its edges.

/// For each node the number of its component, and for each component whether it holds a cycle.
pub struct Components {
    pub of: Vec<usize>,
    pub cyclic: Vec<bool>,
}

const UNSEEN: usize = usize::MAX;

/// Tarjan's algorithm with its own stack, since a lasso of a million letters has as deep a graph.
pub fn components(edges: &[Vec<usize>]) -> Components {
    let n = edges.len();
    let mut seen_as = vec![UNSEEN; n];
    let mut lowest = vec![0; n];
    let mut of = vec![UNSEEN; n];
    let mut cyclic = vec![];
    let mut open = vec![];
    let mut seen = 0;
    for start in 0..n {
        if seen_as[start] != UNSEEN {
            continue;
        }
        // A node and how many of its edges have been followed.
        let mut path = vec![(start, 0)];
        while let Some(&mut (node, ref mut followed)) = path.last_mut() {
            if *followed == 0 && seen_as[node] == UNSEEN {
                seen_as[node] = seen;
                lowest[node] = seen;
                seen += 1;
                open.push(node);
            }
            if let Some(&next) = edges[node].get(*followed) {
                *followed += 1;
                if seen_as[next] == UNSEEN {
                    path.push((next, 0));
                } else if of[next] == UNSEEN {
                    lowest[node] = lowest[node].min(seen_as[next]);
                }
                continue;
            }
            path.pop();
            if let Some(&(parent, _)) = path.last() {
                lowest[parent] = lowest[parent].min(lowest[node]);
            }
            if lowest[node] == seen_as[node] {
                let alone = open.last() == Some(&node);
                while of[node] == UNSEEN {
                    let member = open.pop().expect("an open node");
                    of[member] = cyclic.len();
                }
                cyclic.push(!alone || edges[node].contains(&node));
            }
        }
    }
    Components { of, cyclic }
}
