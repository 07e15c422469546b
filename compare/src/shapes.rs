//! Makes shows of exactly so many nodes, which are numbered here too and of which many or few wait to be taken. The first predicates tell the nodes
//! apart; of the others, up to P13, some are known at some nodes only. Findings are at chosen nodes, and at no others.

use crate::generate::Input;
use crate::sheets::{forbid, run_off};
use crate::sweep::bits;
use crate::touch::Graph;
use independent::shows::{at_will, row, Text};
use independent::words::*;
use std::ops::Range;

/// An end of a variable that an action sets: action, variable, and the goal that shows it.
pub type EndOf = (u32, u32, u32);

/// A graph that was thought out.
pub struct Shape {
    pub text: Text,
    /// Those of the graph, without the ends.
    lemmas: Vec<u32>,
    /// How many predicates tell the nodes apart.
    told: u32,
    /// Of each node which of these hold; the others fail.
    pub places: Vec<u32>,
    /// Of each node the actions that have a successor there, a bit each.
    moves: Vec<u32>,
}

/// Sets of variables 4 to 7, which no predicate speaks of. The last two actions, the idle ones, set these: they lead from each node to itself.
const IDLE: [u32; 2] = [0x30, 0xE0];

/// Predicates on these sets of variables, and actions that set these, before the idle ones.
fn text(predicates: &[u32], sets: &[u32]) -> Text {
    let on = |set: &u32| row(0, &bits(*set).map(|v| (v, 1)).collect::<Vec<_>>());
    let sets: Vec<Vec<u32>> = sets.iter().chain(&IDLE).map(|set| bits(*set).collect()).collect();
    Text { pred: predicates.iter().map(on).collect(), ..at_will(0, &sets, &[]) }
}

/// From everywhere each of these predicates holds or fails, as the number has bits.
fn makes(t: &Text, source: u32, predicates: Range<u32>, number: u32) -> Vec<u32> {
    predicates.flat_map(|p| t.forced(source, 2 - (number >> p & 1), p, 0, 0)).collect()
}

/// The action counts up in these predicates, of which the first is the lowest bit.
fn counting(t: &Text, action: u32, predicates: Range<u32>) -> Vec<u32> {
    let first = predicates.start;
    let mut l = Vec::new();
    for p in predicates {
        let (bit, below) = (1 << p, (1 << p) - (1 << first));
        l.extend([t.forced(action, 1, p, bit, below), t.forced(action, 2, p, 0, bit | below)].concat());
        l.extend((first..p).flat_map(|q| [t.forced(action, 1, p, 1 << q, bit), t.forced(action, 2, p, 1 << q | bit, 0)].concat()));
    }
    l
}

/// Sets of bits: the numbers above this one are those that have all bits of one of them.
fn above(number: u32) -> impl Iterator<Item = u32> {
    (0..10).filter(move |j| number >> j & 1 == 0).map(move |j| number >> j << j | 1 << j)
}

/// What an action of a tree does to P10 to P13, by the variables 1 to 3 that it sets, from bit 0 on: some it keeps, loses, turns or shows.
fn on_the_way(t: &Text, action: u32, set: u32) -> Vec<u32> {
    let (ten, eleven) = (1 << 10, 1 << 11);
    let says = [
        (set == 5, 1, 10, eleven, 0),
        (set & 2 > 0, 1, 11, eleven, 0),
        (set & 2 > 0, 2, 11, 0, eleven),
        (set & 3 == 3, 1, 12, 0, 0),
        (set & 3 == 2, 2, 12, 0, eleven),
        (set & 4 > 0, 1, 13, 0, eleven),
        (set & 4 > 0, 2, 13, eleven, ten),
    ];
    says.into_iter().filter(|says| says.0).flat_map(|(_, goal, index, f, holds)| t.forced(action, goal, index, f, holds)).collect()
}

/// The nodes of a tree, by their numbers: 1, and each that there is with a digit of so many bits behind it.
fn branches(nodes: usize, ways: u32, digit: u32) -> Vec<u32> {
    let mut places = vec![1];
    for at in 0..nodes {
        let place = places[at];
        places.extend((0..ways).map(|a| place << digit | a).take(nodes - places.len()));
    }
    places
}

/// A tree with so many ways on, so that most nodes wait at once. P0 to P9 are a number, 1 at the start. Each action puts another digit behind it, so that
/// the numbers rise with the nodes; the last of these does what the one before it does. Where it would lead past the last node it has no successor, by a
/// lemma that it cannot happen or, if the digit is odd, by one that is against another. Each keeps others of P10 to P13. The next leads back to node 0.
pub fn tree(nodes: usize, ways: u32) -> Shape {
    let (digit, start) = (ways.next_power_of_two().trailing_zeros(), 1 | 1 << 10 | 1 << 12);
    let places = branches(nodes, ways, digit);
    let last = places[nodes - 1];
    let set = |a: u32| (a + 1) % 8;
    let puts = |action: u32| action.min(ways - 1);
    let sets: Vec<u32> = (0..=ways).map(|action| 1 | set(puts(action)) << 1).chain([0xF]).collect();
    let t = text(&[&[1; 10][..], &[2, 4, 6, 8]].concat(), &sets);
    let mut l = [makes(&t, START, 0..14, start), makes(&t, ways + 1, 0..14, start)].concat();
    for action in 0..=ways {
        let a = puts(action);
        l.extend(makes(&t, action, 0..digit, a));
        l.extend((digit..10).flat_map(|p| [t.forced(action, 1, p, 0, 1 << (p - digit)), t.forced(action, 2, p, 1 << (p - digit), 0)].concat()));
        l.extend(above(last.saturating_sub(a) >> digit).flat_map(|holds| t.forced(action, a % 2 * 2, 0, 0, holds)));
        l.extend(on_the_way(&t, action, set(a)));
    }
    let goes = |place: u32, action: u32| action > ways || place << digit | puts(action) <= last;
    let moves = |place: &u32| (0..ways + 4).filter(|action| goes(*place, *action)).fold(0, |set, action| set | 1 << action);
    Shape { moves: places.iter().map(moves).collect(), text: t, lemmas: l, told: 10, places }
}

/// A lattice, in which neighbours find the same nodes. P0 to P4 count the steps of action 0, which keeps P5 to P9, and these those of action 1, which
/// keeps P0 to P4; each shows, keeps or loses P10 and P11, by the steps. Where one would lead past the last node it has no successor, by a lemma that is
/// against what it keeps. Action 2 leads back to node 0.
pub fn lattice(nodes: usize) -> Shape {
    let start = 7 << 10;
    let places: Vec<u32> = (0..).flat_map(|ring| (0..=ring).map(move |b| (ring - b) | b << 5)).take(nodes).collect();
    let t = text(&[1, 1, 1, 1, 1, 2, 2, 2, 2, 2, 1, 2, 4, 8], &[1, 2, 7]);
    let mut l = [makes(&t, START, 0..13, start), makes(&t, 2, 0..13, start), counting(&t, 0, 0..5), counting(&t, 1, 5..10)].concat();
    for (action, first) in [(0, 0), (1, 5)] {
        let (one, two) = (2 << first, 4 << first);
        l.extend([t.forced(action, 1, 10 + action, 0, one), t.forced(action, 2, 10 + action, one, two)].concat());
    }
    let mut shape = Shape { moves: vec![0x1F; nodes], text: t, lemmas: l, told: 10, places };
    for node in 0..nodes {
        let ring = (shape.places[node] & 31) + (shape.places[node] >> 5);
        for action in (0..2).filter(|action| node + (ring + 1 + action) as usize >= nodes) {
            let kept = 5 - 5 * action;
            shape.stop(node, action, 1 + (shape.places[node] >> kept & 1), kept);
        }
    }
    shape
}

/// Arms that are walked in turn, so that as many nodes wait; one arm is a chain. P0 to P9 count the steps, P10 to P12 are the number of the arm. Action 0
/// goes on after an even number of steps and keeps P13, action 1 after an odd number and shows or loses it, by the steps. Action 2 + a leads from
/// everywhere to where arm a begins; arm 0 begins at node 0. At the last node of an arm neither of the first two can happen.
pub fn arms(nodes: usize, most: usize) -> Shape {
    let arms = most.min(nodes - 1).max(1);
    let behind = |k: usize| {
        let (round, arm) = (k / arms, k % arms);
        // Arm 0 is a step ahead.
        (round + usize::from(arm == 0) | arm << 10) as u32
    };
    let places: Vec<u32> = [0].into_iter().chain((0..nodes - 1).map(behind)).collect();
    let t = text(&[&[1; 10][..], &[2, 2, 2, 4]].concat(), &[vec![1, 5], vec![7; arms]].concat());
    let mut l = [makes(&t, START, 0..14, 1 << 13), counting(&t, 0, 0..10), counting(&t, 1, 0..10)].concat();
    l.extend((0..arms as u32).flat_map(|arm| makes(&t, 2 + arm, 0..14, arm << 10 | 1 << 13)));
    l.extend([t.forced(0, 0, 0, 0, 1), t.forced(1, 0, 0, 1, 0)].concat());
    l.extend([t.forced(1, 1, 13, 1 << 6, 1 << 2), t.forced(1, 2, 13, 1 << 2, 1 << 1)].concat());
    let always = (1 << t.actions.len()) - 4;
    let moves = places.iter().map(|place| always | 1 << (place & 1)).collect();
    let mut shape = Shape { text: t, lemmas: l, told: 13, places, moves };
    for node in nodes - arms..nodes {
        shape.stop(node, shape.places[node] & 1, 0, 0);
    }
    shape
}

impl Shape {
    /// The literals that this node has and no other: what fails, what holds.
    fn only(&self, node: usize) -> (u32, u32) {
        let place = self.places[node];
        (!place & ((1 << self.told) - 1), place)
    }

    /// The action has no successor there, by a lemma of this goal and index.
    fn stop(&mut self, node: usize, action: u32, goal: u32, index: u32) {
        let (f, holds) = self.only(node);
        self.lemmas.extend(self.text.forced(action, goal, index, f, holds));
        self.moves[node] &= !(1 << action);
    }

    /// The nodes of a graph are these.
    pub fn held(&self, graph: &Graph) -> Result<(), String> {
        if graph.nodes != self.places.len() {
            return Err(format!("not {} nodes", self.places.len()));
        }
        let told = |set: u32| set & ((1 << self.told) - 1);
        let other = |node: &usize| (told(graph.literals(*node).known_false), told(graph.literals(*node).known_true)) != self.only(*node);
        (0..graph.nodes).find(other).map_or(Ok(()), |node| Err(format!("node {node} is another")))
    }

    fn ends(&self) -> impl Iterator<Item = EndOf> + '_ {
        let set = (0..).zip(&self.text.actions).flat_map(|(action, a)| a.sets.iter().map(move |set| (action, set.0)));
        set.flat_map(|(action, variable)| [(action, variable, 3), (action, variable, 4)])
    }

    /// Those of actions that have a successor at every node, or those of the others.
    pub fn ends_of(&self, always: bool) -> Vec<EndOf> {
        let everywhere = self.moves.iter().fold(!0, |all, moves| all & moves);
        self.ends().filter(|(action, _, _)| (everywhere >> action & 1 == 1) == always).collect()
    }

    /// For each of these nodes another of these ends, whose action has a successor there or has none. A node for which there is none is passed over.
    pub fn ends_at(&self, nodes: &[usize], mut ends: Vec<EndOf>, moving: bool) -> Vec<(usize, EndOf)> {
        let mut off = Vec::new();
        for node in nodes {
            if let Some(at) = ends.iter().position(|(action, _, _)| (self.moves[*node] >> action & 1 == 1) == moving) {
                off.push((*node, ends.remove(at)));
            }
        }
        off
    }

    /// The show with these combinations, and with lemmas for each end from these premises.
    fn input(&self, bad: Vec<(u32, u32)>, premises: impl Fn(EndOf) -> Vec<(u32, u32)>) -> Input {
        let shown = |end: EndOf| premises(end).into_iter().flat_map(move |(f, holds)| self.text.forced(end.0, end.2, end.1, f, holds));
        let lemmas = self.lemmas.iter().copied().chain(self.ends().flat_map(shown)).collect();
        Input { program: Text { bad, ..self.text.clone() }.words(), lemmas }
    }

    /// Each combination is open at one node only, and each of these ends is shown at all nodes but one.
    pub fn made(&self, open: &[usize], off: &[(usize, EndOf)]) -> Input {
        let but = |node: usize| {
            let (f, holds) = self.only(node);
            (0..self.told).map(|p| (holds & 1 << p, f & 1 << p)).collect()
        };
        let premises = |end: EndOf| off.iter().find(|(_, other)| *other == end).map_or(vec![(0, 0)], |(node, _)| but(*node));
        self.input(open.iter().map(|node| self.only(*node)).collect(), premises)
    }

    /// The findings of that; an end is one only where its action has a successor.
    pub fn due(&self, open: &[usize], off: &[(usize, EndOf)]) -> Vec<u32> {
        let moves = |(node, (action, _, _)): &&(usize, EndOf)| self.moves[*node] >> action & 1 == 1;
        let word = |(node, (action, variable, goal)): &(usize, EndOf)| run_off(*node, *action as usize, *variable as usize)[*goal as usize - 3];
        let forbids = open.iter().enumerate().map(|(c, node)| forbid(*node, c));
        let mut words: Vec<u32> = forbids.chain(off.iter().filter(moves).map(word)).collect();
        words.sort_unstable();
        words
    }

    /// Findings all over: a literal of P10 to P13 decides on each combination, and on each end of the actions that have a successor at every node.
    pub fn spread(&self) -> Input {
        let literals: Vec<(u32, u32)> = (10..14).flat_map(|p| [(1 << p, 0), (0, 1 << p)]).collect();
        let always = self.ends_of(true);
        let premises = |end: EndOf| vec![always.iter().position(|other| *other == end).map_or((0, 0), |at| literals[at % 8])];
        self.input(literals.clone(), premises)
    }
}
