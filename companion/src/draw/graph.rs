//! The graph that is drawn, as it stands in the graph list that Judge has filled.
use crate::verdict::{mismatch, path, Judged};
use bulanevior::*;
use std::collections::{BTreeMap, BTreeSet};

/// A predicate that holds at a node, or that fails there.
#[derive(Clone, Copy, Debug, PartialEq, Eq)]
pub struct Literal {
    pub predicate: usize,
    pub holds: bool,
}

#[derive(Debug, PartialEq, Eq)]
pub struct Node {
    /// Its distance from node 0.
    pub ring: usize,
    /// What is known there, by rising predicate.
    pub literals: Vec<Literal>,
}

/// All actions that lead from one node to another, by rising number.
#[derive(Debug, PartialEq, Eq)]
pub struct Edge {
    pub from: usize,
    pub to: usize,
    pub actions: Vec<usize>,
}

#[derive(Debug)]
pub struct Graph {
    pub nodes: Vec<Node>,
    pub edges: Vec<Edge>,
    /// The verdict's node, if it is a finding.
    pub finding: Option<usize>,
    /// The pairs of nodes on the path to it.
    pub path: BTreeSet<(usize, usize)>,
}

impl Graph {
    /// The graph of a show that was judged, or the trouble.
    pub fn read(show: &Judged) -> Result<Graph, String> {
        let finding = show.judgement.verdict.finding().map(Finding::node);
        let path = match finding {
            Some(node) => path(&show.graph, show.actions, node)?,
            None => Vec::new(),
        };
        let nodes = (0..show.judgement.nodes)
            .map(|node| known_node(show, node).ok_or_else(|| mismatch(format!("no node {node}"))))
            .collect::<Result<_, _>>()?;
        Ok(Graph {
            nodes,
            edges: edges(show)?,
            finding,
            path: path.iter().map(|step| (step.from, step.to)).collect(),
        })
    }

    /// Does the path go through a node?
    pub fn on_path(&self, node: usize) -> bool {
        self.finding == Some(node)
            || self
                .path
                .iter()
                .any(|&(from, to)| from == node || to == node)
    }

    /// How many rings there are, with the middle.
    pub fn rings(&self) -> usize {
        let outermost = self.nodes.iter().map(|node| node.ring).max();
        outermost.map_or(0, |ring| ring + 1)
    }
}

/// What the graph list has of a node. Node 0 is in the middle, and any other one ring further out than the node it was found from.
fn known_node(show: &Judged, node: usize) -> Option<Node> {
    let (holds, fails) = known(&show.graph, show.actions, node)?;
    let ring = distance(&show.graph, show.actions, node)?;
    let literal = |predicate| match (holds >> predicate & 1, fails >> predicate & 1) {
        (0, 0) => None,
        (holds, _) => Some(Literal {
            predicate,
            holds: holds == 1,
        }),
    };
    let there = match origin(&show.graph, show.actions, node) {
        None => (node, ring) == (0, 0),
        Some((parent, _)) => ring == 1 + distance(&show.graph, show.actions, parent)?,
    };
    there.then(|| Node {
        ring,
        literals: (0..14).filter_map(literal).collect(),
    })
}

/// The edges, by rising node that they come from and go to.
fn edges(show: &Judged) -> Result<Vec<Edge>, String> {
    let nodes = show.judgement.nodes;
    let view = View::new(&show.graph, nodes, show.actions);
    let mut pairs = BTreeMap::<_, Vec<usize>>::new();
    for from in 0..nodes {
        for action in 0..show.actions {
            match view.successor(from, action).map_err(mismatch)? {
                Some(to) if to < nodes => pairs.entry((from, to)).or_default().push(action),
                Some(to) => return Err(mismatch(format!("an edge to node {to}"))),
                None => {}
            }
        }
    }
    let edge = |((from, to), actions)| Edge { from, to, actions };
    Ok(pairs.into_iter().map(edge).collect())
}

#[cfg(test)]
mod tests {
    use super::*;
    use crate::verdict::{judge, Answer};

    fn graph(bytes: &[u8]) -> Graph {
        match judge(bytes) {
            Ok(Answer::Judged(show)) => Graph::read(&show).unwrap(),
            _ => panic!(),
        }
    }

    /// House, as the table in docs/FORMAT.md has it.
    #[test]
    fn of_house() {
        let house = graph(include_bytes!("../../../shows/house.words"));
        let node = |ring, first, second| Node {
            ring,
            literals: vec![
                Literal {
                    predicate: 0,
                    holds: first,
                },
                Literal {
                    predicate: 1,
                    holds: second,
                },
            ],
        };
        let nodes = [
            node(0, false, false),
            node(1, false, true),
            node(1, true, false),
        ];
        assert_eq!(house.nodes, nodes);
        let edge = |from, to, actions: &[usize]| Edge {
            from,
            to,
            actions: actions.to_vec(),
        };
        let edges = [
            edge(0, 0, &[2, 3]),
            edge(0, 1, &[0]),
            edge(0, 2, &[1]),
            edge(1, 0, &[3]),
            edge(1, 1, &[0, 2]),
            edge(2, 0, &[2]),
            edge(2, 2, &[1, 3]),
        ];
        assert_eq!(house.edges, edges);
        assert_eq!((house.finding, house.rings()), (None, 2));
        assert!(house.path.is_empty() && !house.on_path(0));
    }

    /// Records that no graph has: a ring without nodes, a second node in the middle, a node of which there is no record.
    #[test]
    fn of_another_list() {
        let Ok(Answer::Judged(mut show)) = judge(include_bytes!("../../../shows/house.words"))
        else {
            panic!();
        };
        let third = HEADER_WORDS + show.actions + 2;
        for word in [2, 0, 0xC000_0000] {
            show.graph[third] = word;
            assert!(Graph::read(&show).is_err(), "{word:08X}");
        }
        show.graph[third] = 1;
        assert!(Graph::read(&show).is_ok());
        show.judgement.nodes += 1;
        assert!(Graph::read(&show).is_err());
    }

    /// Bump may run off at node 1, to which action 0 leads.
    #[test]
    fn of_a_finding() {
        let bump = graph(include_bytes!("../../../shows/bump.words"));
        assert_eq!(bump.finding, Some(1));
        assert_eq!(bump.path, BTreeSet::from([(0, 1)]));
        assert!(bump.on_path(0) && bump.on_path(1));
        // Fade without lemmas: at node 0.
        let fade = graph(&include_bytes!("../../../shows/fade.words")[..64]);
        assert_eq!(fade.finding, Some(0));
        assert!(fade.path.is_empty() && fade.on_path(0));
    }
}
