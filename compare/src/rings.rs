//! Request 6 in what Judge left: every distance of the library's graph list held to the shortest walks along its EDGE words, to its ORIGIN
//! words, and that of a finding's node to the path list. And its sweeps.

use crate::calls::{falsehood, Compare, Difference};
use crate::generate::Input;
use crate::sweep::Sweep;
use crate::touch::Graph;
use bulanevior::raw::{BnvJudge, BNV_JUDGE_REFUSED, BNV_SAFE};
use independent::shows::{by_two, chain_beside, counter, grid, long_chain, ringed, Text};
use independent::words::*;

/// What a graph has: how far its furthest node is, and what else of rings.
pub const NAMES: [&str; 14] = [
    "rings, node 0 alone or none", "rings to 1", "rings to 2 or up to 15", "rings to 16 or up to 255", "rings to 256 or up to 510", "rings to 511",
    "rings, three nodes on one", "rings, each node on its own", "rings, a distance below the number",
    "rings, an edge one inward", "rings, an edge further inward", "rings, an edge along", "rings, an edge outward, not the origin's",
    "rings, a finding at 2 or further",
];

/// The room of the records without a distance.
pub const OLD_ROOM: usize = 9_216;

/// The least number of edges from node 0 to each node.
fn shortest(graph: &Graph) -> Vec<usize> {
    let mut far = vec![usize::MAX; graph.nodes];
    let mut reached: Vec<usize> = (0..graph.nodes.min(1)).collect();
    let mut steps = 0;
    while !reached.is_empty() {
        reached.retain(|node| {
            let new = far[*node] == usize::MAX;
            far[*node] = far[*node].min(steps);
            new
        });
        reached = reached.iter().flat_map(|node| (0..graph.actions).filter_map(|action| graph.successor(*node, action))).collect();
        steps += 1;
    }
    far
}

/// The parent in a node's ORIGIN word; none for node 0.
pub fn parent(graph: &Graph, node: usize) -> Option<usize> {
    let word = graph.origin(node);
    (payload(word) != 0x1FFF).then(|| field(word, 12, 4) as usize)
}

/// The distances, each held to the walks and to the parent's.
fn distances(graph: &Graph) -> Result<Vec<usize>, String> {
    let far = shortest(graph);
    for (node, steps) in far.iter().enumerate() {
        let word = graph.distance(node);
        let by_parent = parent(graph, node).map_or(0, |parent| far[parent] + 1);
        if word != *steps as u32 || by_parent != *steps {
            return Err(format!("node {node}: the word is {word:08X}, {steps} edges lead there, and its parent says {by_parent}"));
        }
    }
    Ok(far)
}

/// Of each edge, from one distance to another: one inward, further inward, along, and outward to a node that was found by another.
fn edges(graph: &Graph, far: &[usize]) -> [bool; 4] {
    let mut seen = [false; 4];
    for (node, action) in (0..graph.nodes).flat_map(|node| (0..graph.actions).map(move |action| (node, action))) {
        let Some(next) = graph.successor(node, action) else { continue };
        let way = match (far[next] + 1).checked_sub(far[node]) {
            Some(0) => 0,
            None => 1,
            Some(1) => 2,
            Some(_) => 3,
        };
        let found = graph.origin(next) == make(ORIGIN, (node << 4 | action) as u32);
        seen[way] |= way != 3 || !found;
    }
    seen
}

/// How many STEP words a path list begins with.
fn steps(path: &[u32]) -> usize {
    path.iter().take_while(|word| kind(**word) == STEP).count()
}

/// What is seen in the lists that a verdict left, or what is wrong with them.
fn held(judged: &BnvJudge, list: &[u32], path: &[u32]) -> Result<[bool; 14], String> {
    let actions = list[HEADER..].iter().take_while(|word| kind(**word) == EDGE).count();
    let graph = Graph { words: &list[..judged.nodes * (HEADER + actions)], nodes: judged.nodes, actions };
    let far = distances(&graph)?;
    let finding = if judged.verdict == BNV_SAFE { 0 } else { far[judged.node] };
    if steps(path) != finding {
        return Err(format!("the path has {} steps, and the distance is {finding}", steps(path)));
    }
    let most = far.iter().copied().max().unwrap_or(0);
    let on = |ring: usize| far.iter().filter(|far| **far == ring).count();
    let numbers = far.iter().enumerate().all(|(node, far)| node == *far);
    let [inward, further, along, outward] = edges(&graph, &far);
    Ok([
        most == 0, most == 1, (2..16).contains(&most), (16..256).contains(&most), (256..511).contains(&most), most == 511,
        (1..=most).any(|ring| on(ring) > 2), numbers && most > 1, !numbers,
        inward, further, along, outward,
        finding > 1,
    ])
}

impl Compare {
    /// Looks at the library's lists of the last judge, which were lent with these lengths.
    pub fn rings(&mut self, input: &Input, judged: &BnvJudge, graph: usize) -> Result<(), Difference> {
        if judged.verdict == BNV_JUDGE_REFUSED {
            if judged.refusal == 1 && judged.value == 0 && graph >= OLD_ROOM {
                self.counts.note("judge refusal 1, the old room");
            }
            return Ok(());
        }
        let seen = held(judged, self.library_graph(), self.library_path()).map_err(|fault| falsehood(input, judged, &fault))?;
        self.counts.note_seen(&NAMES, &seen);
        Ok(())
    }
}

impl Sweep<'_> {
    /// A logic whose furthest node is as far as was worked out, and the findings too.
    fn ringed(&mut self, (text, lemmas): (Text, Vec<u32>), nodes: usize, furthest: usize) -> Result<(), Difference> {
        self.inputs += 1;
        let input = Input { program: text.words(), lemmas };
        let judged = self.compare.judge(&input, GRAPH_WORDS + self.inputs as usize % 3, PATH_WORDS, 0)?;
        let last = self.compare.library_graph()[(HEADER + text.actions.len()) * (nodes - 1) + 2] as usize;
        if (judged.nodes, last) != (nodes, furthest) {
            return Err(falsehood(&input, &judged, &format!("not {nodes} nodes, or the last at {last} and not {furthest}")));
        }
        let before = self.compare.before(&judged, 0);
        self.compare.sheet(&input, &before, 2).map(|_| ())
    }

    /// Chains of every number of nodes, each a counter that stops at its last; grids, where node and distance part; steps by one and
    /// by two; and the shapes of the stored records.
    pub fn rings(&mut self) -> Result<(), Difference> {
        for nodes in 1..=MAX_NODES {
            let (text, mut lemmas) = counter(9, &[]);
            let last = nodes as u32 - 1;
            lemmas.extend(text.forced(0, 0, 0, !last & 511, last));
            self.ringed((text, lemmas), nodes, nodes - 1)?;
        }
        for side in 1..8 {
            self.ringed(grid(side as u32), (side + 1) * (side + 1), 2 * side)?;
        }
        for top in 1..15 {
            self.ringed(by_two(top as u32), top + 1, top.div_ceil(2))?;
        }
        self.ringed(long_chain(), MAX_NODES, 511)?;
        self.ringed(chain_beside(), MAX_NODES, 510)?;
        for seed in 0..500 {
            let (text, lemmas) = ringed(seed);
            self.inputs += 1;
            self.compare.judge(&Input { program: text.words(), lemmas }, GRAPH_WORDS, PATH_WORDS, 0)?;
        }
        Ok(())
    }
}
