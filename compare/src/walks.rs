//! Request 7 in what the calls left: the library's path held to the walks along the EDGE words of its own graph list, and to the nodes of
//! the findings that it listed. And its sweeps.

use crate::calls::{falsehood, Compare, Difference};
use crate::generate::Input;
use crate::sweep::Sweep;
use crate::touch::Graph;
use bulanevior::raw::{BnvJudge, BNV_SAFE};
use bulanevior::Finding;
use independent::shows::{arms, partial, shortcut, spread, two_findings, walk_shows, Text};
use independent::walks::{any_shorter, beaten, end_of, fewest, finding_nodes, least, path_actions};
use independent::words::*;

/// What a verdict that isn't safe has: how long its path is, at how many distances there are findings, and what a longer path could have been.
pub const NAMES: [&str; 13] = [
    "walks, a path of no step", "walks, a path of one step", "walks, a path of 2 to 7 steps", "walks, a path of 8 or more",
    "walks, findings at one distance", "walks, findings at two distances", "walks, findings at three or more",
    "walks, another finding as near", "walks, a longer one to the same node", "walks, a lower combination further on",
    "walks, a run-off nearer than a combination", "walks, a combination nearer than a run-off", "walks, all shorter lists tried",
];

/// So many lists of actions are tried one by one.
const TRIED: usize = 2_000;

/// The combination of a finding; none for an end.
fn combination(finding: Finding) -> Option<usize> {
    match finding {
        Finding::MayForbid { combination, .. } => Some(combination),
        Finding::MayRunOff { .. } => None,
    }
}

/// The path leads to the verdict's node, and nothing shorter to any with a finding. Where there are few lists of as many actions, all shorter
/// ones are tried too, and then those as long up to the first that leads to one; says whether.
fn held(judged: &BnvJudge, graph: &Graph, path: &[u32], nodes: &[usize]) -> Result<bool, String> {
    let (words, count, actions) = (graph.words, graph.nodes, graph.actions);
    let steps = path_actions(path);
    if end_of(words, count, actions, &steps) != Some(judged.node) {
        return Err(format!("the path {steps:?} does not lead to node {}", judged.node));
    }
    if let Some(walk) = beaten(words, count, actions, nodes, path) {
        return Err(format!("{walk:?} leads to a finding, and the path is {steps:?}"));
    }
    if least(words, count, actions, nodes) != Some(steps.len()) {
        return Err(format!("no finding is {} steps away", steps.len()));
    }
    let few = actions.checked_pow(steps.len() as u32).is_some_and(|lists| lists <= TRIED);
    if !few {
        return Ok(false);
    }
    if let Some(walk) = any_shorter(words, count, actions, nodes, steps.len()) {
        return Err(format!("{walk:?} of all lists leads to a finding, and the path is {steps:?}"));
    }
    match any_shorter(words, count, actions, nodes, steps.len() + 1) {
        Some(_) => Ok(true),
        None => Err(format!("no list of {} actions leads to a finding", steps.len())),
    }
}

/// What is seen of a verdict that isn't safe, its findings being given.
fn seen(judged: &BnvJudge, graph: &Graph, findings: &[Finding], tried: bool) -> [bool; 13] {
    let far = fewest(graph.words, graph.nodes, graph.actions);
    let (first, here) = (findings[0], far[judged.node]);
    let mut rings: Vec<_> = findings.iter().map(|finding| far[finding.node()]).collect();
    rings.sort_unstable();
    rings.dedup();
    let on = |test: &dyn Fn(&Finding) -> bool| findings.iter().any(test);
    let is_open = |finding: &Finding| combination(*finding).is_some();
    let further = |finding: &Finding| far[finding.node()] > here;
    let lower = |finding: &Finding| combination(*finding).zip(combination(first)).is_some_and(|(this, verdict)| this < verdict);
    let from = |node: usize| node != judged.node && far[node] >= here && (0..graph.actions).any(|a| graph.successor(node, a) == Some(judged.node));
    let steps = here.unwrap_or(usize::MAX);
    [
        steps == 0, steps == 1, (2..8).contains(&steps), steps > 7,
        rings.len() == 1, rings.len() == 2, rings.len() > 2,
        on(&|f| f.node() != judged.node && far[f.node()] == here),
        (0..graph.nodes).any(from),
        on(&|f| further(f) && lower(f)),
        !is_open(&first) && on(&|f| further(f) && is_open(f)),
        is_open(&first) && on(&|f| further(f) && !is_open(f)),
        tried && steps > 0,
    ]
}

impl Compare {
    /// Looks at what Judge left in the library's lists, beside the findings that were listed.
    pub fn walks(&mut self, input: &Input, judged: &BnvJudge, graph: &Graph, path: &[u32]) -> Result<(), Difference> {
        self.steps = 0;
        if judged.verdict == BNV_SAFE {
            return Ok(());
        }
        self.steps = path_actions(path).len();
        let findings: Vec<Finding> = self.sheet.iter().filter_map(|word| Finding::of(*word)).collect();
        let nodes = finding_nodes(&self.sheet, self.sheet.len());
        let tried = held(judged, graph, path, &nodes).map_err(|fault| falsehood(input, judged, &fault))?;
        self.counts.note_seen(&NAMES, &seen(judged, graph, &findings, tried));
        Ok(())
    }
}

impl Sweep<'_> {
    /// A logic whose verdict's path was worked out.
    fn walked(&mut self, (text, lemmas): (Text, Vec<u32>), path: &[usize]) -> Result<(), Difference> {
        let input = Input { program: text.words(), lemmas };
        let judged = self.compare.judge(&input, GRAPH_WORDS, PATH_WORDS + self.inputs as usize % 2, 0)?;
        let steps = path_actions(self.compare.library_path());
        if steps != path {
            return Err(falsehood(&input, &judged, &format!("the path is {steps:?} and not {path:?}")));
        }
        self.lengths(&input, GRAPH_WORDS, &[0])
    }

    /// The shows by hand; findings at any two of some distances; counters with a shortcut; two arms; drawings by chance.
    pub fn walks(&mut self) -> Result<(), Difference> {
        for show in walk_shows() {
            self.walked((show.text, show.lemmas), &show.path)?;
        }
        for far in [0, 1, 2, 3, 7, 8, 100, 255, 256, 510, 511] {
            for near in [0, 1, 2, 3, 7, 8, 100, 255, 256, 510, 511].into_iter().filter(|near| near <= &far) {
                self.walked(two_findings(near, far), &vec![0; near as usize])?;
            }
        }
        for (from, to) in (0..15).flat_map(|from| (0..16).map(move |to| (from, to))) {
            let leap = [vec![0; from], vec![1], vec![0; 15 - to]].concat();
            let path = if to > from + 1 { leap } else { vec![0; 15] };
            self.walked(shortcut(4, from as u32, to as u32), &path)?;
        }
        for (near, far) in (1..7).flat_map(|near| (near..14 - near).map(move |far| (near, far))) {
            let path = if near < far { [vec![1], vec![0; near as usize - 1]].concat() } else { vec![0; near as usize] };
            self.walked(arms(near, far), &path)?;
        }
        for (text, lemmas) in (0..400).flat_map(|seed| [spread(seed), partial(seed)]) {
            let input = Input { program: text.words(), lemmas };
            self.compare.judge(&input, GRAPH_WORDS, PATH_WORDS, 0)?;
            self.lengths(&input, GRAPH_WORDS, &[0])?;
        }
        Ok(())
    }
}
