//! Request 7, "The shortest press list": walks in a graph list, and whether a path can be beaten.
//!
//! "no walk in the graph from node 0 to any node with a finding has fewer steps than the path in the verdict.
//! The premise is a verdict that isn't safe." A walk is a list of the program's actions, each along an EDGE
//! word that names a successor; the list of none stays at node 0. Nothing but the EDGE words is looked at: no
//! ORIGIN word, no distance, and nothing is made of the order in which nodes are numbered.
//!
//! The functions take any list of words, with its counts of nodes and actions. A word that is not there or of
//! another kind, and an EDGE word to a node that is not there, name no successor and are passed over.

use crate::words::*;

/// A list of actions.
pub type Walk = Vec<usize>;

/// Whether a list of actions leads to a node with a finding; None where it leaves the graph.
type Test<'a> = dyn Fn(&[usize]) -> Option<bool> + 'a;

/// An EDGE word that names a successor: node, action, successor.
type Edge = (usize, usize, usize);

/// "The view and the findings list read the new record": SETS, ORIGIN, the distance, then "one EDGE per
/// action"; "all 28 bits ones for none".
fn next(graph: &[u32], nodes: usize, actions: usize, node: usize, action: usize) -> Option<usize> {
    if node >= nodes || action >= actions {
        return None;
    }
    let word = *graph.get(node * (HEADER + actions) + HEADER + action)?;
    let named = kind(word) == EDGE && payload(word) != PAYLOAD && (payload(word) as usize) < nodes;
    named.then_some(payload(word) as usize)
}

/// All "EDGE words that name a successor".
fn edges(graph: &[u32], nodes: usize, actions: usize) -> Vec<Edge> {
    let named = |node, action| next(graph, nodes, actions, node, action).map(|to| (node, action, to));
    (0..nodes).flat_map(|node| (0..actions).filter_map(move |action| named(node, action))).collect()
}

/// Node 0 is no step away. Every edge is gone along, over and over, until no number falls: the node that it
/// leads to is at most one step farther than the one that it comes from.
fn relaxed(edges: &[Edge], nodes: usize) -> Vec<Option<usize>> {
    let mut least = vec![None; nodes];
    least.iter_mut().take(1).for_each(|zero| *zero = Some(0));
    let mut fell = true;
    while fell {
        fell = false;
        for (from, _, to) in edges {
            let Some(steps) = least[*from].map(|steps: usize| steps + 1) else { continue };
            if least[*to].map_or(true, |known| steps < known) {
                least[*to] = Some(steps);
                fell = true;
            }
        }
    }
    least
}

/// The least number of steps of a walk from node 0 to each node; None where there is no walk.
pub fn fewest(graph: &[u32], nodes: usize, actions: usize) -> Vec<Option<usize>> {
    relaxed(&edges(graph, nodes, actions), nodes)
}

/// Some walk to the node with the least number of steps, as a list of actions; None where there is none. It
/// is put together from its end: each time by an edge from a node that is one step nearer.
pub fn walk_to(graph: &[u32], nodes: usize, actions: usize, node: usize) -> Option<Walk> {
    let edges = edges(graph, nodes, actions);
    let least = relaxed(&edges, nodes);
    let (mut walk, mut at) = (Vec::new(), node);
    for left in (0..(*least.get(node)?)?).rev() {
        let (from, action, _) = edges.iter().find(|(from, _, to)| *to == at && least[*from] == Some(left))?;
        walk.push(*action);
        at = *from;
    }
    walk.reverse();
    Some(walk)
}

/// The node where a list of actions leads from node 0: None where an action is not the program's or an EDGE
/// word names no successor. The empty list leads to node 0, if there is a node.
pub fn end_of(graph: &[u32], nodes: usize, actions: usize, walk: &[usize]) -> Option<usize> {
    let start = (nodes > 0).then_some(0)?;
    walk.iter().try_fold(start, |at, action| next(graph, nodes, actions, at, *action))
}

/// The actions of "the STEP words from node 0 to the node, at the front of the path list".
pub fn path_actions(path: &[u32]) -> Walk {
    path.iter().take_while(|word| kind(**word) == STEP).map(|word| payload(*word) as usize).collect()
}

/// The nodes with a finding, rising, each once: "A finding is one word of kind 14: node in bits 27..19". Of
/// the first `count` words those of another kind ("Unused words of the lent list are zeroed") say nothing.
pub fn finding_nodes(list: &[u32], count: usize) -> Vec<usize> {
    let words = list.iter().take(count).filter(|word| kind(**word) == FINDING);
    let mut nodes: Vec<usize> = words.map(|word| field(*word, 27, 19) as usize).collect();
    nodes.sort_unstable();
    nodes.dedup();
    nodes
}

/// The fewest steps to one of these nodes, and the node.
fn nearest(graph: &[u32], nodes: usize, actions: usize, findings: &[usize]) -> Option<(usize, usize)> {
    let fewest = fewest(graph, nodes, actions);
    findings.iter().filter_map(|node| Some(((*fewest.get(*node)?)?, *node))).min()
}

/// The fewest steps from node 0 "to any node with a finding", these being given; None where there is no walk
/// to any of them.
pub fn least(graph: &[u32], nodes: usize, actions: usize, findings: &[usize]) -> Option<usize> {
    nearest(graph, nodes, actions, findings).map(|(steps, _)| steps)
}

/// "show the users that a printed path can't be beaten": a walk to a node with a finding that has fewer steps
/// than the path list has STEP words at its front, a shortest one. None where there isn't one; where the path
/// leads, and whether it is a walk at all, is not asked.
pub fn beaten(graph: &[u32], nodes: usize, actions: usize, findings: &[usize], path: &[u32]) -> Option<Walk> {
    let (steps, node) = nearest(graph, nodes, actions, findings)?;
    if steps < path_actions(path).len() {
        walk_to(graph, nodes, actions, node)
    } else {
        None
    }
}

/// The same with no thought: every list of actions that is shorter than `limit`, the shorter ones first and
/// those of one length in order. Only a list that leaves the graph is not gone on with. For small graphs.
pub fn any_shorter(graph: &[u32], nodes: usize, actions: usize, findings: &[usize], limit: usize) -> Option<Walk> {
    let found = |list: &[usize]| end_of(graph, nodes, actions, list).map(|node| findings.contains(&node));
    (0..limit).find_map(|length| first_list(&found, actions, &[], length))
}

/// The first list that begins so, has this many actions more, and of which `found` says yes.
fn first_list(found: &Test, actions: usize, front: &[usize], more: usize) -> Option<Walk> {
    let here = found(front)?;
    if more == 0 {
        return here.then(|| front.to_vec());
    }
    (0..actions).find_map(|action| first_list(found, actions, &[front, &[action]].concat(), more - 1))
}
