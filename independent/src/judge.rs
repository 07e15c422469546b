//! The graph, the verdict and the list of findings.

use std::collections::HashMap;

use crate::lemma::{self, Goal, Lemma, Source};
use crate::program::{self, Action, Literals, Program, Row};
use crate::words::*;
use crate::{Judged, Listed, Refusal};

/// An accepted lemma, as the walk needs it.
#[derive(Clone, Copy)]
struct Accepted {
    premises: Literals,
    goal: Goal,
}

/// Accepted lemmas by source. "A lemma not accepted is passed over."
struct Shelf {
    start: Vec<Accepted>,
    actions: Vec<Vec<Accepted>>,
    /// For each action the numbers of the predicates that it leaves untouched.
    untouched: Vec<Vec<usize>>,
}

/// Request 1: "a predicate's row has a zero coefficient on every variable that an action sets".
/// It sets the variables of its SET words, also to their own value.
fn untouched(action: &Action, predicate: &Row) -> bool {
    action.assignments.iter().all(|assignment| predicate.coefficients[assignment.variable] == 0)
}

/// The numbers of all predicates that an action leaves untouched.
fn all_untouched(program: &Program, action: &Action) -> Vec<usize> {
    (0..program.predicates.len()).filter(|p| untouched(action, &program.predicates[*p])).collect()
}

impl Shelf {
    /// Weighs each lemma once, in order; the lowest that leaves 64 bits is refusal 11.
    fn fill(program: &Program, lemmas: &[Lemma]) -> Result<Shelf, Refusal> {
        let mut shelf = Shelf {
            start: Vec::new(),
            actions: vec![Vec::new(); program.actions.len()],
            untouched: program.actions.iter().map(|action| all_untouched(program, action)).collect(),
        };
        for (number, lemma) in lemmas.iter().enumerate() {
            match lemma::weigh(program, lemma) {
                None => return Err(Refusal { number: 11, value: number as u64 }),
                Some(false) => {}
                Some(true) => {
                    let accepted = Accepted { premises: lemma.premises, goal: lemma.goal };
                    match lemma.source {
                        Source::Start => shelf.start.push(accepted),
                        Source::Action(action) => shelf.actions[action].push(accepted),
                    }
                }
            }
        }
        Ok(shelf)
    }
}

/// Request 1: "the successor should keep the node's literal on it, for the whole set of such
/// predicates at once, with no lemma." The literals of the node on the untouched predicates.
fn kept(untouched: &[usize], node: &Literals) -> Literals {
    let mut kept = Literals::default();
    for predicate in untouched {
        kept.known_true |= node.known_true & 1 << predicate;
        kept.known_false |= node.known_false & 1 << predicate;
    }
    kept
}

/// "no successor if a goal 0 lemma applies, or if goals 1 and 2 apply for one predicate. Else the
/// successor holds exactly the literals whose lemma applies", and those that are kept. "A lemma for
/// the opposite literal may still apply; then there is no successor, as before."
fn successor(lemmas: &[Accepted], untouched: &[usize], node: &Literals) -> Option<Literals> {
    let mut next = kept(untouched, node);
    for lemma in lemmas {
        if !lemma.premises.within(node) {
            continue;
        }
        match lemma.goal {
            Goal::Cannot => return None,
            Goal::Holds(predicate) => next.known_true |= 1 << predicate,
            Goal::Fails(predicate) => next.known_false |= 1 << predicate,
            Goal::NotBelow(_) | Goal::NotAbove(_) => {}
        }
    }
    if next.known_true & next.known_false == 0 {
        Some(next)
    } else {
        None
    }
}

struct Node {
    literals: Literals,
    /// Where it was first found: parent and action; None for node 0.
    origin: Option<(usize, usize)>,
    /// Request 6: "that distance: 0 for node 0, and the parent's plus 1 for others."
    distance: usize,
    edges: Vec<Option<usize>>,
}

/// "Nodes are taken in number order, actions in number order; a new set of literals gets the next
/// number, a known one is never stored twice."
fn explore(shelf: &Shelf) -> Result<Vec<Node>, Refusal> {
    let mut nodes: Vec<Node> = Vec::new();
    let mut known: HashMap<Literals, usize> = HashMap::new();
    // "The start makes node 0 by the same rule from the start lemmas; if it has no successor the
    // graph is empty." Start lemmas have no premises, so they apply at the empty set. There is no
    // node before it of which something is kept.
    match successor(&shelf.start, &[], &Literals::default()) {
        None => return Ok(nodes),
        Some(literals) => {
            known.insert(literals, 0);
            nodes.push(Node { literals, origin: None, distance: 0, edges: Vec::new() });
        }
    }
    let mut at = 0;
    while at < nodes.len() {
        let literals = nodes[at].literals;
        let mut edges = Vec::with_capacity(shelf.actions.len());
        for (action, lemmas) in shelf.actions.iter().enumerate() {
            let edge = match successor(lemmas, &shelf.untouched[action], &literals) {
                None => None,
                Some(next) => match known.get(&next) {
                    Some(node) => Some(*node),
                    None => {
                        if nodes.len() == MAX_NODES {
                            return Err(Refusal { number: 7, value: MAX_NODES as u64 });
                        }
                        let node = nodes.len();
                        known.insert(next, node);
                        let (origin, distance) = (Some((at, action)), nodes[at].distance + 1);
                        nodes.push(Node { literals: next, origin, distance, edges: Vec::new() });
                        Some(node)
                    }
                },
            };
            edges.push(edge);
        }
        nodes[at].edges = edges;
        at += 1;
    }
    Ok(nodes)
}

/// "A node's record is SETS, ORIGIN (where it was first found) and one EDGE per action. Records
/// follow each other; the rest of the first [9,728] words is zero." Request 6: "Each record gets a third
/// word after ORIGIN, of kind 0, whose payload is that distance".
fn write_graph(nodes: &[Node], graph: &mut [u32]) {
    let mut at = 0;
    for node in nodes {
        graph[at] = node.literals.word();
        graph[at + 1] = match node.origin {
            None => make(ORIGIN, 0x1FFF), // "bits 12..0 all ones for node 0"
            Some((parent, action)) => make(ORIGIN, (parent << 4 | action) as u32),
        };
        graph[at + 2] = make(DISTANCE, node.distance as u32);
        at += HEADER;
        for edge in &node.edges {
            graph[at] = match edge {
                None => make(EDGE, PAYLOAD), // "all 28 bits ones for none"
                Some(next) => make(EDGE, *next as u32),
            };
            at += 1;
        }
    }
    graph[at..GRAPH_WORDS].fill(0);
}

/// "the path: the STEP words from node 0 to the node, at the front of the path list, the rest of
/// its first 512 words zero."
fn write_path(nodes: &[Node], node: usize, path: &mut [u32]) {
    let mut steps = Vec::new();
    let mut at = node;
    while let Some((parent, action)) = nodes[at].origin {
        steps.push(make(STEP, action as u32));
        at = parent;
    }
    steps.reverse();
    path[..steps.len()].copy_from_slice(&steps);
    path[steps.len()..PATH_WORDS].fill(0);
}

/// A finding, and where it is.
enum Finding {
    Forbid { node: usize, bad: usize },
    RunOff { node: usize, action: usize, variable: usize, high: bool },
}

impl Finding {
    /// "node in bits 27..19, bit 18 set for a run-off, action in 17..14 (0 for a forbidden combination),
    /// combination or variable in 13..11, bit 0 set for a high end."
    fn word(&self) -> u32 {
        let payload = match *self {
            Finding::Forbid { node, bad } => node << 19 | bad << 11,
            Finding::RunOff { node, action, variable, high } => {
                node << 19 | 1 << 18 | action << 14 | variable << 11 | usize::from(high)
            }
        };
        make(FINDING, payload as u32)
    }
}

/// The ends that applying lemmas of an action show at a node, one bit per variable: low, then high.
fn ends_shown(lemmas: &[Accepted], node: &Literals) -> [u32; 2] {
    let (mut low, mut high) = (0, 0);
    for lemma in lemmas.iter().filter(|lemma| lemma.premises.within(node)) {
        match lemma.goal {
            Goal::NotBelow(variable) => low |= 1 << variable,
            Goal::NotAbove(variable) => high |= 1 << variable,
            Goal::Cannot | Goal::Holds(_) | Goal::Fails(_) => {}
        }
    }
    [low, high]
}

/// A show that is not refused: what was read, and the whole graph.
struct Whole {
    program: Program,
    shelf: Shelf,
    nodes: Vec<Node>,
}

impl Whole {
    /// What both calls do when their lists are long enough: "2 to 4, 5 and 6, 11, 7", and the graph list
    /// is filled.
    fn of(words: &[u32], lemma_words: &[u32], graph: &mut [u32]) -> Result<Whole, Refusal> {
        let program = program::read(words)?;
        let lemmas = lemma::read(&program, lemma_words)?;
        let shelf = Shelf::fill(&program, &lemmas)?;
        // "path list [left]; first [9,728] graph words become zero"
        let nodes = explore(&shelf).inspect_err(|_| graph[..GRAPH_WORDS].fill(0))?;
        write_graph(&nodes, graph);
        Ok(Whole { program, shelf, nodes })
    }

    /// All findings. "Nodes in number order". Request 2: "each once, in 01's judging order".
    fn findings(&self) -> impl Iterator<Item = Finding> + '_ {
        (0..self.nodes.len()).flat_map(|node| self.forbids_at(node).chain(self.run_offs_at(node)))
    }

    /// "at each, first the forbidden combinations in order: one that no literal of the node contradicts
    /// gives *may forbid*."
    fn forbids_at(&self, node: usize) -> impl Iterator<Item = Finding> + '_ {
        let literals = &self.nodes[node].literals;
        let open = |bad: &usize| !self.program.forbidden[*bad].contradicts(literals);
        (0..self.program.forbidden.len()).filter(open).map(move |bad| Finding::Forbid { node, bad })
    }

    /// "Then each action that has a successor",
    fn run_offs_at(&self, node: usize) -> impl Iterator<Item = Finding> + '_ {
        let edges = &self.nodes[node].edges;
        let judged = (0..edges.len()).filter(|action| edges[*action].is_some());
        judged.flat_map(move |action| self.run_offs_by(node, action))
    }

    /// "each variable it sets, low end before high: no applying lemma gives *may run off*."
    fn run_offs_by(&self, node: usize, action: usize) -> Vec<Finding> {
        let [low, high] = ends_shown(&self.shelf.actions[action], &self.nodes[node].literals);
        let mut found = Vec::new();
        for variable in self.program.actions[action].assignments.iter().map(|a| a.variable) {
            for (shown, high) in [(low, false), (high, true)] {
                if shown >> variable & 1 == 0 {
                    found.push(Finding::RunOff { node, action, variable, high });
                }
            }
        }
        found
    }

    /// "The first finding is the verdict; none is *safe*. Every verdict carries the counts of nodes and of
    /// EDGE words that name a successor. A finding also carries node and place, and the path".
    fn verdict(&self, path: &mut [u32]) -> Judged {
        let nodes = self.nodes.len();
        let edges = self.nodes.iter().map(|n| n.edges.iter().flatten().count()).sum();
        match self.findings().next() {
            None => {
                path[..PATH_WORDS].fill(0); // "Safe zeroes those 512."
                Judged::Safe { nodes, edges }
            }
            Some(Finding::Forbid { node, bad }) => {
                write_path(&self.nodes, node, path);
                Judged::MayForbid { node, bad, nodes, edges }
            }
            Some(Finding::RunOff { node, action, variable, high }) => {
                write_path(&self.nodes, node, path);
                Judged::MayRunOff { node, action, variable, high, nodes, edges }
            }
        }
    }

    /// "The answer is the number of findings. Unused words of the lent list are zeroed." And "12, returned
    /// with the number of words needed, if the lent list is too short; it [...] leaves that list alone".
    fn sheet(&self, list: &mut [u32]) -> Listed {
        let words: Vec<u32> = self.findings().map(|finding| finding.word()).collect();
        let count = words.len();
        if list.len() < count {
            return Listed::Refused(Refusal { number: 12, value: count as u64 });
        }
        list[..count].copy_from_slice(&words);
        list[count..].fill(0);
        Listed::Listed(count)
    }
}

/// Judge: "1 graph, 1 path, 2 to 4, 5 and 6, 11, 7." Request 6: "refusal 1 uses the new length."
pub fn judge(words: &[u32], lemma_words: &[u32], graph: &mut [u32], path: &mut [u32]) -> Judged {
    if graph.len() < GRAPH_WORDS {
        return Judged::Refused(Refusal { number: 1, value: 0 });
    }
    if path.len() < PATH_WORDS {
        return Judged::Refused(Refusal { number: 1, value: 1 });
    }
    match Whole::of(words, lemma_words, graph) {
        Ok(whole) => whole.verdict(path),
        Err(refusal) => Judged::Refused(refusal),
    }
}

/// Request 2: "The call takes program, lemmas, a graph list and this list, fills the graph list as judge
/// does, and refuses as judge does but for the path; those refusals leave this list." Then 12, which "comes
/// after 7 [...] and keeps the graph". Request 6: "The view and the findings list read the new record."
pub fn findings(words: &[u32], lemma_words: &[u32], graph: &mut [u32], list: &mut [u32]) -> Listed {
    if graph.len() < GRAPH_WORDS {
        return Listed::Refused(Refusal { number: 1, value: 0 });
    }
    match Whole::of(words, lemma_words, graph) {
        Ok(whole) => whole.sheet(list),
        Err(refusal) => Listed::Refused(refusal),
    }
}
