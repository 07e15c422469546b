//! From the bytes of a show file to Judge's answer, and the lines that the program prints.
//!
//! "A program reads little-endian words from standard input; the first word of kind 15 ends the
//! logic, the rest are lemmas; without one, all words are logic."

use crate::words::*;
use crate::{judge, Judged};

/// "first of all `TOO LONG` past 65,536 bytes"
pub const SHOW_BYTES: usize = 65_536;
/// The words of the longest show file; a lent words list has no fewer.
pub const SHOW_WORDS: usize = 16_384;

/// What `show` answers. The first three leave all lists as they were.
#[derive(Clone, Copy, Debug, PartialEq, Eq)]
pub enum Shown {
    /// The lent words list is under 16,384 words.
    WordsShort,
    /// More than 65,536 bytes.
    TooLong,
    /// The number of bytes is no multiple of 4.
    OddBytes,
    /// How many words the logic and the lemmas have, and what Judge says of them.
    Judged { logic: usize, lemmas: usize, answer: Judged },
}

/// Puts the little-endian words of the bytes at the front of the list; how many there are. Words
/// behind them stay.
pub(crate) fn put_words(bytes: &[u8], words: &mut [u32]) -> usize {
    for (word, four) in words.iter_mut().zip(bytes.chunks_exact(4)) {
        *word = u32::from_le_bytes([four[0], four[1], four[2], four[3]]);
    }
    bytes.len() / 4
}

/// How many words are logic: "the first word of kind 15 ends the logic", and belongs to it, payload
/// or not, in place or not; "without one, all words are logic".
pub(crate) fn logic_length(words: &[u32]) -> usize {
    match words.iter().position(|word| kind(*word) == END) {
        Some(end) => end + 1,
        None => words.len(),
    }
}

/// A show file's bytes, judged. First the words list is tested, then the bytes: too many, then odd.
/// Otherwise the words are put, whatever Judge answers; Judge alone writes the two other lists.
pub fn show(bytes: &[u8], words: &mut [u32], graph: &mut [u32], path: &mut [u32]) -> Shown {
    if words.len() < SHOW_WORDS {
        return Shown::WordsShort;
    }
    if bytes.len() > SHOW_BYTES {
        return Shown::TooLong;
    }
    if bytes.len() % 4 != 0 {
        return Shown::OddBytes;
    }
    let count = put_words(bytes, words);
    let (logic, lemmas) = words[..count].split_at(logic_length(&words[..count]));
    let answer = judge(logic, lemmas, graph, path);
    Shown::Judged { logic: logic.len(), lemmas: lemmas.len(), answer }
}

/// "a line `PATH` with each action after a space": the STEP words at the front of the path list,
/// behind which it is zero.
fn path_line(path: &[u32]) -> String {
    let mut line = "PATH".to_string();
    for step in path.iter().take_while(|word| kind(**word) == STEP) {
        line.push_str(&format!(" {}", payload(*step)));
    }
    line
}

/// The lines of Judge's answer, without the last newline. A finding's counts are not printed.
fn answer_lines(answer: Judged, path: &[u32]) -> String {
    match answer {
        Judged::Safe { nodes, edges } => format!("SAFE nodes {nodes} edges {edges}"),
        Judged::MayForbid { node, bad, .. } => {
            format!("FORBID node {node} bad {bad}\n{}", path_line(path))
        }
        Judged::MayRunOff { node, action, variable, high, .. } => {
            let end = if high { "high" } else { "low" };
            format!("RUNOFF node {node} action {action} variable {variable} {end}\n{}", path_line(path))
        }
        Judged::Refused(refusal) => format!("REFUSED {} AT {}", refusal.number, refusal.value),
    }
}

/// The lines that the program prints for these bytes, each ending in one newline.
pub fn lines(bytes: &[u8]) -> String {
    let mut words = vec![0; SHOW_WORDS];
    let mut graph = vec![0; GRAPH_WORDS];
    let mut path = vec![0; PATH_WORDS];
    let text = match show(bytes, &mut words, &mut graph, &mut path) {
        Shown::WordsShort => unreachable!("the words list is long enough"),
        Shown::TooLong => "TOO LONG".to_string(),
        Shown::OddBytes => "ODD BYTES".to_string(),
        Shown::Judged { answer, .. } => answer_lines(answer, &path),
    };
    text + "\n"
}
