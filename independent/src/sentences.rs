//! All findings of a show file, said in words.
//!
//! Request 2: "We want all findings from one check". The bytes are read as 01's program reads them, and each
//! finding is a line that ends with the actions of the path to its node.

use crate::bytes::{logic_length, put_words, SHOW_BYTES};
use crate::words::*;
use crate::{findings, Listed, Refusal};

/// The most findings: "each node with each combination [...], and each node, action [...], variable it sets
/// and end". A findings list of so many words is long enough for any show: refusal 12 does not come.
pub const MOST_FINDINGS: usize = MAX_NODES * (MAX_FORBIDDEN + MAX_ACTIONS * MAX_VARIABLES * 2);

/// The ORIGIN words of the graph list, by node. "A node's record is SETS, ORIGIN (where it was first found)
/// and one EDGE per action. Records follow each other; the rest of the first [9,728] words is zero." Request
/// 6: "a third word after ORIGIN, of kind 0", which is no ORIGIN and no EDGE.
fn origins(graph: &[u32]) -> Vec<u32> {
    graph.iter().copied().filter(|word| kind(*word) == ORIGIN).collect()
}

/// How many "EDGE words that name a successor" the graph list has; in the others are "all 28 bits ones for
/// none".
fn edges(graph: &[u32]) -> usize {
    graph.iter().filter(|word| kind(**word) == EDGE && payload(**word) != PAYLOAD).count()
}

/// The actions "from node 0 to the node": "The path is the chain of ORIGIN words from the node back to node
/// 0, reversed, and no other walk."
fn path(origins: &[u32], node: usize) -> Vec<u32> {
    let mut actions = Vec::new();
    let mut at = node;
    while at != 0 {
        // "parent node 12..4, action 3..0"
        actions.push(field(origins[at], 3, 0));
        at = field(origins[at], 12, 4) as usize;
    }
    actions.reverse();
    actions
}

/// Each action of the path after a space; ` none` where there are none.
fn actions_text(path: &[u32]) -> String {
    if path.is_empty() {
        return " none".to_string();
    }
    path.iter().map(|action| format!(" {action}")).collect()
}

/// A word of the findings list, said in words. "A finding is one word of kind 14: node in bits 27..19, bit 18
/// set for a run-off, action in 17..14 (0 for a forbidden combination), combination or variable in 13..11,
/// bit 0 set for a high end."
fn sentence(word: u32, origins: &[u32]) -> String {
    let node = field(word, 27, 19);
    let index = field(word, 13, 11);
    let actions = actions_text(&path(origins, node as usize));
    if field(word, 18, 18) == 0 {
        return format!("may meet forbidden combination {index} at node {node}; actions:{actions}");
    }
    let action = field(word, 17, 14);
    let end = if field(word, 0, 0) == 1 { "above its high end" } else { "below its low end" };
    format!("action {action} may take variable {index} {end} at node {node}; actions:{actions}")
}

/// The lines of a show that is not refused, without the last newline. "The list is empty exactly when judge
/// says safe"; safe "carries the counts of nodes and of EDGE words that name a successor".
fn listed_lines(list: &[u32], graph: &[u32]) -> String {
    let origins = origins(graph);
    if list.is_empty() {
        return format!("safe: nodes {}, edges {}", origins.len(), edges(graph));
    }
    let sentences: Vec<String> = list.iter().map(|word| sentence(*word, &origins)).collect();
    sentences.join("\n")
}

/// The line of a show that is refused.
pub(crate) fn refused_line(refusal: Refusal) -> String {
    format!("refused {} AT {}", refusal.number, refusal.value)
}

/// The lines of the words of a show file. "the first word of kind 15 ends the logic, the rest are lemmas;
/// without one, all words are logic."
fn show_lines(words: &[u32]) -> String {
    let (logic, lemmas) = words.split_at(logic_length(words));
    let mut graph = vec![0; GRAPH_WORDS];
    let mut list = vec![0; MOST_FINDINGS];
    match findings(logic, lemmas, &mut graph, &mut list) {
        Listed::Listed(count) => listed_lines(&list[..count], &graph),
        Listed::Refused(refusal) => refused_line(refusal),
    }
}

/// The words of a show file, or the line for bytes that are none: as in 01's program "first of all" whether
/// they are too many, then whether "the length is no multiple of 4".
pub(crate) fn show_words(bytes: &[u8]) -> Result<Vec<u32>, String> {
    if bytes.len() > SHOW_BYTES {
        return Err("too long: more than 65,536 bytes".to_string());
    }
    if bytes.len() % 4 != 0 {
        return Err("odd bytes: the file was cut".to_string());
    }
    let mut words = vec![0; bytes.len() / 4];
    put_words(bytes, &mut words);
    Ok(words)
}

/// The lines that the program prints for these bytes, each ending in one newline.
pub fn findings_lines(bytes: &[u8]) -> String {
    let text = match show_words(bytes) {
        Ok(words) => show_lines(&words),
        Err(line) => line,
    };
    text + "\n"
}
