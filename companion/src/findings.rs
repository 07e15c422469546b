//! The command `findings`: all findings of a show, one line each, with the actions that lead there.
use crate::input::Input;
use crate::output::{Said, Status};
use crate::verdict::{self, mismatch, path, presses, safe, sentence, Answer, Judged};
use bulanevior::*;
use std::collections::{BTreeMap, BTreeSet};

/// What is said of a show, or the trouble.
pub fn run(input: &Input) -> Result<Said, String> {
    match verdict::judge(&input.bytes)? {
        Answer::Judged(show) => told(show),
        Answer::Refused(why) => Ok(Said::line(why.sentence, Status::Refused)),
    }
}

/// What is said of a show that was judged.
fn told(show: Judged) -> Result<Said, String> {
    let found = all(&show)?;
    if found.is_empty() {
        return Ok(Said::line(safe(show.judgement), Status::Good));
    }
    let presses = leading(&found, &show.graph, show.actions)?;
    let lines = found
        .into_iter()
        .map(move |finding| sentence(finding, &presses[&finding.node()]));
    Ok(Said::lines(lines, Status::Findings))
}

/// All findings, of which the first is Judge's; none where Judge says safe.
pub fn all(show: &Judged) -> Result<Vec<Finding>, String> {
    let (mut graph, mut list) = (vec![0; GRAPH_WORDS], vec![0; MOST_FINDINGS]);
    let count = findings(&show.logic, &show.lemmas, &mut graph, &mut list).map_err(mismatch)?;
    let found: Vec<Finding> = listed(&list).collect();
    let first = found.first().copied();
    if found.len() != count || first != show.judgement.verdict.finding() || graph != show.graph {
        return Err(mismatch("the findings are not those of Judge"));
    }
    Ok(found)
}

/// For each node of a finding the actions that lead there, as they are printed.
fn leading(
    found: &[Finding],
    graph: &[u32],
    actions: usize,
) -> Result<BTreeMap<usize, String>, String> {
    let nodes: BTreeSet<usize> = found.iter().map(|finding| finding.node()).collect();
    let pressed = |node| Ok((node, presses(&path(graph, actions, node)?)));
    nodes.into_iter().map(pressed).collect()
}

#[cfg(test)]
mod tests {
    use super::*;

    /// The lines and the status for the bytes of a show file.
    fn answer(bytes: &[u8]) -> (Vec<String>, Status) {
        let input = crate::input::of(bytes.to_vec()).unwrap();
        let said = run(&input).unwrap();
        (said.lines.collect(), said.status)
    }

    #[test]
    fn shows_with_findings_and_without() {
        let fade = include_bytes!("../../shows/fade.words");
        let safe = "safe: nodes 1, edges 2".to_string();
        assert_eq!(answer(fade), (vec![safe], Status::Good));
        // Without its lemmas each of the two actions may run off at both ends.
        let line = |action, way| {
            format!("action {action} may take variable 0 {way} end at node 0; actions: none")
        };
        let (low, high) = ("below its low", "above its high");
        let lines = vec![line(0, low), line(0, high), line(1, low), line(1, high)];
        assert_eq!(answer(&fade[..64]), (lines, Status::Findings));
    }

    #[test]
    fn what_is_no_show() {
        let refused = |bytes: &[u8]| match answer(bytes) {
            (lines, Status::Refused) => lines.join("\n"),
            other => panic!("{other:?}"),
        };
        let word = "refused: word 0 is missing, of the wrong kind, after the end, or has a stray bit (2 AT 0)";
        assert_eq!(refused(&[]), word);
        assert_eq!(refused(&vec![0; SHOW_BYTES]), word);
        assert_eq!(refused(&[0]), "odd bytes: the file was cut");
        assert_eq!(
            refused(&vec![0; SHOW_BYTES + 1]),
            "too long: more than 65,536 bytes"
        );
    }
}
