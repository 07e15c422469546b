//! What an action leaves untouched, and a graph list as nodes and successors.

use independent::program::{Action, Literals, Row};
use independent::words::{payload, HEADER, PAYLOAD};

/// The predicate's row has a zero coefficient on every variable that the action sets.
pub fn untouched(action: &Action, predicate: &Row) -> bool {
    action.assignments.iter().all(|a| predicate.coefficients[a.variable] == 0)
}

/// The records of a graph list.
pub struct Graph<'a> {
    pub words: &'a [u32],
    pub nodes: usize,
    pub actions: usize,
}

impl Graph<'_> {
    fn record(&self, node: usize) -> &[u32] {
        &self.words[node * (HEADER + self.actions)..][..HEADER + self.actions]
    }

    pub fn literals(&self, node: usize) -> Literals {
        Literals::of_word(self.record(node)[0])
    }

    /// The ORIGIN word.
    pub fn origin(&self, node: usize) -> u32 {
        self.record(node)[1]
    }

    /// The word behind it.
    pub fn distance(&self, node: usize) -> u32 {
        self.record(node)[2]
    }

    pub fn successor(&self, node: usize, action: usize) -> Option<usize> {
        let edge = payload(self.record(node)[HEADER + action]);
        (edge != PAYLOAD).then_some(edge as usize)
    }
}
