//! What every command begins with: a show judged, the path to a node, and the verdict in words.
use bulanevior::*;

/// A show that was judged.
pub struct Judged {
    pub logic: Vec<u32>,
    pub lemmas: Vec<u32>,
    pub judgement: Judgement,
    /// The graph list that Judge has filled.
    pub graph: Vec<u32>,
    pub actions: usize,
}

pub enum Answer {
    Judged(Judged),
    Refused(Refused),
}

/// Why a show is refused, cut or too long.
pub struct Refused {
    pub sentence: String,
    /// The refusal, with the words of logic and lemmas; None where there are no whole words, or too many.
    pub refusal: Option<(Refusal, Vec<u32>, Vec<u32>)>,
}

/// What the proved calls answer for the bytes of a show file, or the trouble.
pub fn judge(bytes: &[u8]) -> Result<Answer, String> {
    let mut words = vec![0; SHOW_WORDS];
    let mut graph = vec![0; GRAPH_WORDS];
    let mut path = vec![0; PATH_WORDS];
    match show(bytes, &mut words, &mut graph, &mut path) {
        Ok(show) => match show.answer {
            Ok(judgement) => Ok(Answer::Judged(Judged {
                logic: show.logic.to_vec(),
                lemmas: show.lemmas.to_vec(),
                judgement,
                actions: check(show.logic).map_err(mismatch)?.actions,
                graph,
            })),
            Err(why @ Refusal::Mismatch(_)) => Err(why.to_string()),
            Err(why) => Ok(Answer::Refused(Refused {
                sentence: format!("refused: {why}"),
                refusal: Some((why, show.logic.to_vec(), show.lemmas.to_vec())),
            })),
        },
        Err(why @ (NoShow::TooLong | NoShow::OddBytes)) => Ok(Answer::Refused(Refused {
            sentence: why.to_string(),
            refusal: None,
        })),
        Err(why) => Err(why.to_string()),
    }
}

/// What is proved to be impossible: the library is of another version than the wrapper.
pub fn mismatch(what: impl std::fmt::Display) -> String {
    format!("the library and the wrapper do not match: {what}")
}

/// A step of a path in the graph.
#[derive(Clone, Copy, Debug, PartialEq, Eq)]
pub struct Step {
    pub from: usize,
    pub action: usize,
    pub to: usize,
}

/// The steps from node 0 to a node: the ORIGIN words lead back. None if they do not lead to node 0 in `MOST_NODES` steps.
fn steps(graph: &[u32], actions: usize, node: usize) -> Option<Vec<Step>> {
    let mut path = Vec::new();
    let mut to = node;
    while to != 0 {
        if path.len() == MOST_NODES {
            return None;
        }
        let (from, action) = origin(graph, actions, to)?;
        path.push(Step { from, action, to });
        to = from;
    }
    path.reverse();
    Some(path)
}

/// The steps to a node of the graph, or the trouble.
pub fn path(graph: &[u32], actions: usize, node: usize) -> Result<Vec<Step>, String> {
    steps(graph, actions, node).ok_or_else(|| mismatch(format!("no actions lead to node {node}")))
}

/// The actions of a path, each after a space, or that there is none.
pub fn presses(path: &[Step]) -> String {
    if path.is_empty() {
        return " none".to_string();
    }
    path.iter()
        .map(|step| format!(" {}", step.action))
        .collect()
}

pub fn safe(judgement: Judgement) -> String {
    judgement.to_string()
}

/// A finding in words, with the actions that lead to its node.
pub fn sentence(finding: Finding, presses: &str) -> String {
    format!("{finding}; actions:{presses}")
}

#[cfg(test)]
mod tests {
    use super::*;

    const SETS: u32 = 0x8000_0000;
    const FIRST: u32 = 0xB000_1FFF;

    /// The ORIGIN word of a node that was found from a parent by an action.
    fn from(parent: usize, action: usize) -> u32 {
        0xB000_0000 | (parent << 4 | action) as u32
    }

    /// A graph list of nodes with these ORIGIN words, and one EDGE word each.
    fn graph(origins: impl IntoIterator<Item = u32>) -> Vec<u32> {
        let mut graph = vec![0; GRAPH_WORDS];
        for (origin, record) in origins.into_iter().zip(graph.chunks_mut(HEADER_WORDS + 1)) {
            record[..2].copy_from_slice(&[SETS, origin]);
            record[HEADER_WORDS] = 0xCFFF_FFFF;
        }
        graph
    }

    /// The actions of the path to a node.
    fn pressed(graph: &[u32], node: usize) -> Option<Vec<usize>> {
        let path = steps(graph, 1, node)?;
        assert!(path.windows(2).all(|two| two[0].to == two[1].from));
        assert_eq!(path.last().map_or(node, |last| last.to), node);
        assert_eq!(path.first().map_or(0, |first| first.from), 0);
        Some(path.iter().map(|step| step.action).collect())
    }

    #[test]
    fn paths_follow_the_origins_back() {
        let graph = graph([FIRST, from(0, 3), from(0, 15), from(2, 0), from(3, 7)]);
        assert_eq!(pressed(&graph, 0), Some(vec![]));
        assert_eq!(pressed(&graph, 1), Some(vec![3]));
        assert_eq!(pressed(&graph, 2), Some(vec![15]));
        assert_eq!(pressed(&graph, 3), Some(vec![15, 0]));
        assert_eq!(pressed(&graph, 4), Some(vec![15, 0, 7]));
        // Behind the last record, behind the list, and where no number is large enough.
        for node in [5, MOST_NODES, GRAPH_WORDS, usize::MAX] {
            assert_eq!(pressed(&graph, node), None, "{node}");
        }
    }

    #[test]
    fn the_longest_path_has_an_action_for_every_node_but_the_first() {
        let last = MOST_NODES - 1;
        let graph =
            graph((0..MOST_NODES).map(|n| n.checked_sub(1).map_or(FIRST, |p| from(p, p % 16))));
        assert_eq!(
            pressed(&graph, last),
            Some((0..last).map(|p| p % 16).collect())
        );
    }

    #[test]
    fn a_chain_that_does_not_end_at_node_0_is_no_path() {
        let graph = graph([
            FIRST,
            from(1, 0),
            from(3, 0),
            from(2, 0),
            FIRST,
            from(4, 0),
            SETS,
            from(6, 0),
        ]);
        for node in 1..8 {
            assert_eq!(steps(&graph, 1, node), None, "{node}");
        }
        assert_eq!(path(&graph, 1, 0), Ok(vec![]));
        let trouble = "the library and the wrapper do not match: no actions lead to node 2";
        assert_eq!(path(&graph, 1, 2), Err(trouble.to_string()));
    }

    #[test]
    fn sentences() {
        let run_off = |end| Finding::MayRunOff {
            node: 511,
            action: 15,
            variable: 7,
            end,
        };
        let steps = |actions: &[usize]| -> Vec<Step> {
            let step = |&action| Step {
                from: 0,
                action,
                to: 0,
            };
            actions.iter().map(step).collect()
        };
        assert_eq!(
            sentence(run_off(End::Low), &presses(&steps(&[15, 0]))),
            "action 15 may take variable 7 below its low end at node 511; actions: 15 0"
        );
        assert_eq!(
            sentence(run_off(End::High), &presses(&steps(&[3]))),
            "action 15 may take variable 7 above its high end at node 511; actions: 3"
        );
        let forbid = Finding::MayForbid {
            node: 0,
            combination: 7,
        };
        assert_eq!(
            sentence(forbid, &presses(&[])),
            "may meet forbidden combination 7 at node 0; actions: none"
        );
    }
}
