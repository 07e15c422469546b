//! The facts that a drawing of a show's graph has to have.
//!
//! Request 6: "The screen draws nodes in rings by distance from node 0." The bytes are read as 01's program
//! reads them; the facts are those of the graph list and the path list as Judge fills them.

use crate::bytes::logic_length;
use crate::program::Literals;
use crate::sentences::{refused_line, show_words};
use crate::words::*;
use crate::{check, judge, successor, Judged, Refusal};

/// A graph list that Judge has filled, with the counts that its records are read by.
struct Drawing {
    graph: Vec<u32>,
    nodes: usize,
    actions: usize,
}

impl Drawing {
    /// "Records follow each other". Request 6: "Each record gets a third word after ORIGIN".
    fn record(&self, node: usize) -> &[u32] {
        let length = HEADER + self.actions;
        &self.graph[node * length..(node + 1) * length]
    }

    /// "the successor for a node and an action, which is the payload of that EDGE word, all ones being none"
    fn next(&self, node: usize, action: usize) -> Option<usize> {
        match successor(&self.graph, self.nodes, self.actions, node, action) {
            Ok(PAYLOAD) => None,
            Ok(next) => Some(next as usize),
            Err(refusal) => unreachable!("a node and an action of a graph that Judge filled: {refusal:?}"),
        }
    }

    /// A node, its ring and its literals. Request 6: "The screen draws nodes in rings by distance from node
    /// 0", the "third word after ORIGIN, of kind 0, whose payload is that distance".
    fn node_line(&self, node: usize) -> String {
        let record = self.record(node);
        format!("node {node} ring {}{}", payload(record[2]), literals_text(record[0]))
    }

    /// The "EDGE words that name a successor" of a node, by action.
    fn edge_lines(&self, node: usize) -> Vec<String> {
        let named = |action| self.next(node, action).map(|next| format!("edge {node} {action} {next}"));
        (0..self.actions).filter_map(named).collect()
    }

    /// "the path: the STEP words from node 0 to the node, at the front of the path list, the rest of its
    /// first 512 words zero." Each step goes along the edge of its action.
    fn path_lines(&self, path: &[u32]) -> Vec<String> {
        let mut lines = Vec::new();
        let mut at = 0;
        for step in path.iter().take_while(|word| kind(**word) == STEP) {
            let action = payload(*step) as usize;
            let next = self.next(at, action).expect("a step of the path has a successor");
            lines.push(format!("path {at} {action} {next}"));
            at = next;
        }
        lines
    }

    /// All nodes, then all edges; `empty` where there is no node: "if it has no successor the graph is
    /// empty".
    fn graph_lines(&self) -> Vec<String> {
        if self.nodes == 0 {
            return vec!["empty".to_string()];
        }
        let nodes = (0..self.nodes).map(|node| self.node_line(node));
        nodes.chain((0..self.nodes).flat_map(|node| self.edge_lines(node))).collect()
    }
}

/// The literals of a SETS word by rising predicate, each after a space: `+P` where it holds, `-P` where it
/// fails. "known-false predicates 27..14 (bit 14 is predicate 0), known-true 13..0"
fn literals_text(word: u32) -> String {
    let literals = Literals::of_word(word);
    let mut text = String::new();
    for predicate in 0..MAX_PREDICATES {
        if literals.known_true >> predicate & 1 == 1 {
            text.push_str(&format!(" +{predicate}"));
        }
        if literals.known_false >> predicate & 1 == 1 {
            text.push_str(&format!(" -{predicate}"));
        }
    }
    text
}

/// The count of nodes, and the node of a finding: "Every verdict carries the counts of nodes and of EDGE
/// words that name a successor. A finding also carries node and place".
fn nodes_and_finding(answer: Judged) -> Result<(usize, Option<usize>), Refusal> {
    match answer {
        Judged::Safe { nodes, .. } => Ok((nodes, None)),
        Judged::MayForbid { node, nodes, .. } => Ok((nodes, Some(node))),
        Judged::MayRunOff { node, nodes, .. } => Ok((nodes, Some(node))),
        Judged::Refused(refusal) => Err(refusal),
    }
}

/// The lines of the words of a show file, or its refusal. "the first word of kind 15 ends the logic, the rest
/// are lemmas; without one, all words are logic."
fn show_lines(words: &[u32]) -> Result<Vec<String>, Refusal> {
    let (logic, lemmas) = words.split_at(logic_length(words));
    let (mut graph, mut path) = (vec![0; GRAPH_WORDS], vec![0; PATH_WORDS]);
    let (nodes, finding) = nodes_and_finding(judge(logic, lemmas, &mut graph, &mut path))?;
    let drawing = Drawing { graph, nodes, actions: check(logic)?.actions };
    let mut lines = drawing.graph_lines();
    if let Some(node) = finding {
        lines.extend(drawing.path_lines(&path));
        lines.push(format!("finding {node}"));
    }
    Ok(lines)
}

/// The lines that the program prints for these bytes, each ending in one newline. Bytes that are no show and
/// shows that are refused have the line that the list of findings has for them.
pub fn drawing_lines(bytes: &[u8]) -> String {
    let lines = match show_words(bytes) {
        Ok(words) => show_lines(&words).unwrap_or_else(|refusal| vec![refused_line(refusal)]),
        Err(line) => vec![line],
    };
    lines.iter().map(|line| format!("{line}\n")).collect()
}
