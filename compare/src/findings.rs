//! Request 2 in what the calls returned: the library's findings held to its own Judge, its own graph list and a second call.

use crate::calls::{falsehood, Compare, Difference, MARGIN};
use crate::counts::findings_name;
use crate::dice::Dice;
use crate::generate::Input;
use crate::touch::Graph;
use bulanevior::raw::*;
use bulanevior::{End, Finding, MOST_FINDINGS};
use independent::program::Program;
use independent::words::*;

/// Words more than a list needs: somewhat longer, and much longer.
const MORE: usize = 64;
const MUCH_MORE: usize = 4_096;
/// The longest list lent.
pub const LONGEST: usize = MOST_FINDINGS + 4 * MUCH_MORE;

/// What Judge answered with a path list that is long enough, and left in the library's graph list, with its margins, and path list.
pub struct Before {
    answer: BnvJudge,
    left: Vec<u32>,
    path: Vec<u32>,
    offset: usize,
}

/// The word that a finding is.
pub fn word(finding: Finding) -> u32 {
    let payload = match finding {
        Finding::MayForbid { node, combination } => node << 19 | combination << 11,
        Finding::MayRunOff { node, action, variable, end } => {
            node << 19 | 1 << 18 | action << 14 | variable << 11 | usize::from(end == End::High)
        }
    };
    make(FINDING, payload as u32)
}

/// Judge's own.
fn first(j: &BnvJudge) -> Option<Finding> {
    let (node, place, variable) = (j.node, j.place, j.variable);
    let end = if j.high == 1 { End::High } else { End::Low };
    match j.verdict {
        BNV_MAY_FORBID => Some(Finding::MayForbid { node, combination: place }),
        BNV_MAY_RUN_OFF => Some(Finding::MayRunOff { node, action: place, variable, end }),
        _ => None,
    }
}

/// A list that `count` findings were written to, beside Judge's answer.
fn listed(judged: &BnvJudge, list: &[u32], count: usize) -> Result<(), String> {
    let (Some(words), Some(rest)) = (list.get(..count), list.get(count..)) else {
        return Err("more findings than words".into());
    };
    for (fault, what) in [
        (!bulanevior::listed(list).map(word).eq(words.iter().copied()), "a word is not the one of its finding"),
        (rest.iter().any(|w| *w != 0), "a word behind the findings is not zero"),
        ((count == 0) != (judged.verdict == BNV_SAFE), "no findings and safe do not go together"),
        (words.windows(2).any(|w| w[0] >= w[1]), "the words do not rise"),
        (words.first().and_then(|w| Finding::of(*w)) != first(judged), "the first finding is not Judge's"),
    ] {
        if fault {
            return Err(what.into());
        }
    }
    Ok(())
}

/// The number of findings that an answer says: that were listed, or that there is no room for.
pub fn number(found: &BnvFindings) -> Option<usize> {
    match (found.answer, found.refusal) {
        (BNV_LISTED, _) => Some(found.count),
        (_, 12) => Some(found.value),
        _ => None,
    }
}

/// Of rising findings: the combinations are all that no literal of their node contradicts; and of each end the action has a
/// successor at the node and sets the variable.
fn fits(program: &Program, graph: &Graph, findings: &[Finding]) -> Result<(), String> {
    let open = |node: usize, c: usize| {
        node < graph.nodes && program.forbidden.get(c).is_some_and(|c| !c.contradicts(&graph.literals(node)))
    };
    let mut forbids = 0;
    for finding in findings {
        let fit = match *finding {
            Finding::MayForbid { node, combination } => {
                forbids += 1;
                open(node, combination)
            }
            Finding::MayRunOff { node, action, variable, .. } => {
                let sets = program.actions.get(action).is_some_and(|a| a.assigned(variable).is_some());
                sets && node < graph.nodes && graph.successor(node, action).is_some()
            }
        };
        if !fit {
            return Err(format!("{finding:?} does not fit the graph"));
        }
    }
    let due = (0..graph.nodes).map(|n| (0..program.forbidden.len()).filter(|c| open(n, *c)).count()).sum::<usize>();
    if due == forbids { Ok(()) } else { Err(format!("{forbids} combinations are listed, {due} by the graph")) }
}

/// Actions that set a variable with an end that no lemma of theirs is about.
fn unspoken(program: &Program, lemmas: &[u32]) -> Vec<usize> {
    let mut spoken = [[0u32; 2]; MAX_ACTIONS];
    for w in lemmas.iter().filter(|w| kind(**w) == LEMMA && field(**w, 19, 16) >= 3) {
        spoken[field(*w, 27, 20) as usize][field(*w, 19, 16) as usize - 3] |= 1 << field(*w, 7, 0);
    }
    let open = |a: &usize| program.actions[*a].assignments.iter().any(|s| (spoken[*a][0] & spoken[*a][1]) >> s.variable & 1 == 0);
    (0..program.actions.len()).filter(open).collect()
}

/// A node at which an end of some action is listed, and another action has no successor: its ends are passed over.
fn passed_over(program: &Program, lemmas: &[u32], graph: &Graph, findings: &[Finding]) -> bool {
    let actions = unspoken(program, lemmas);
    let mut last = None;
    findings.iter().filter(|f| matches!(f, Finding::MayRunOff { .. })).any(|f| {
        let node = f.node();
        let again = last.replace(node) == Some(node);
        !again && actions.iter().any(|a| graph.successor(node, *a).is_none())
    })
}

/// A length before the number of findings is known.
fn any_length(dice: &Dice) -> usize {
    match dice.below(100) {
        0..=19 => 0,
        20..=44 => dice.below(20),
        45..=74 => dice.below(300),
        75..=97 => 300 + dice.below(3_000),
        98 => MOST_FINDINGS - dice.below(2),
        _ => dice.below(LONGEST + 1),
    }
}

/// A length once it is known that `due` words are needed.
fn next_length(dice: &Dice, due: usize, may_be_short: bool) -> usize {
    match dice.below(100) {
        0..=34 if may_be_short => due.saturating_sub(1),
        35..=44 if may_be_short => dice.below(due + 1),
        0..=79 => due,
        80..=94 => due + 1 + dice.below(MORE),
        _ => due + MUCH_MORE + dice.below(3 * MUCH_MORE + 1),
    }
}

impl Compare {
    /// After a call of Judge whose path list was long enough.
    pub fn before(&mut self, answer: &BnvJudge, offset: usize) -> Before {
        Before { answer: *answer, left: self.take_graph(), path: self.library_path().to_vec(), offset }
    }

    /// The findings call with a graph list lent as to Judge, and a findings list of this length; held to what Judge did.
    pub fn sheet(&mut self, input: &Input, before: &Before, list: usize) -> Result<BnvFindings, Difference> {
        let found = self.findings(input, before.left.len() - 2 * MARGIN, list, before.offset)?;
        let fault = |what| falsehood(input, &before.answer, &format!("{what}, with {found:?} in a list of {list} words"));
        self.hold(before, &found, list).map_err(fault)?;
        self.note_call(&found, list);
        if found.answer == BNV_LISTED {
            let words = self.findings_list()[..found.count].to_vec();
            self.sheet = words;
        }
        Ok(found)
    }

    fn hold(&self, before: &Before, found: &BnvFindings, list: usize) -> Result<(), String> {
        let judged = &before.answer;
        let refused = (judged.verdict == BNV_JUDGE_REFUSED).then_some((judged.refusal, judged.value));
        let as_judge = match (found.answer, refused) {
            (BNV_LISTED, None) => found.refusal == 0 && found.value == 0,
            (BNV_FINDINGS_REFUSED, None) => found.refusal == 12 && found.value > list && found.count == 0,
            (BNV_FINDINGS_REFUSED, Some(why)) => (found.refusal, found.value) == why && found.count == 0,
            _ => false,
        };
        if !as_judge {
            return Err("another answer than Judge's".into());
        }
        if !self.graph_is(&before.left) {
            return Err("another graph list than Judge's".into());
        }
        if found.answer == BNV_LISTED {
            return listed(judged, self.findings_list(), found.count);
        }
        if self.findings_list_left(before.offset) { Ok(()) } else { Err("a refusal changed the findings list".into()) }
    }

    /// Two calls: with a list of this length, and where there are findings to list, with one of another length by their
    /// number, which must be the same. That may be too short where the first was not.
    pub fn sheets(
        &mut self,
        input: &Input,
        before: &Before,
        list: usize,
        again: impl Fn(usize, bool) -> usize,
    ) -> Result<(), Difference> {
        self.sheet.clear();
        let found = self.sheet(input, before, list)?;
        let Some(due) = number(&found) else { return Ok(()) };
        let second = self.sheet(input, before, again(due, found.answer == BNV_LISTED))?;
        if number(&second) == Some(due) && (found.answer == BNV_LISTED || second.answer == BNV_LISTED) {
            return self.fit(input, before);
        }
        Err(falsehood(input, &before.answer, &format!("{found:?}, and then {second:?}")))
    }

    /// The findings of the last call that listed them, and the graph.
    fn fit(&mut self, input: &Input, before: &Before) -> Result<(), Difference> {
        let program = independent::program::read(&input.program).expect("a judged program");
        let (nodes, actions) = (before.answer.nodes, program.actions.len());
        let graph = Graph { words: &before.left[MARGIN..], nodes, actions };
        let findings: Vec<Finding> = self.sheet.iter().filter_map(|w| Finding::of(*w)).collect();
        fits(&program, &graph, &findings).map_err(|fault| falsehood(input, &before.answer, &fault))?;
        self.walks(input, &before.answer, &graph, &before.path)?;
        self.note_sheet(&findings, nodes);
        if passed_over(&program, &input.lemmas, &graph, &findings) {
            self.counts.note("findings, no successor passed over");
        }
        Ok(())
    }

    /// After Judge with these lengths and place: the findings with lists of lengths by chance.
    pub fn find(&mut self, input: &Input, judged: &BnvJudge, lent: (usize, usize), dice: &Dice) -> Result<(), Difference> {
        let (graph, offset) = lent;
        let path_short = (judged.verdict, judged.refusal, judged.value) == (BNV_JUDGE_REFUSED, 1, 1);
        let judged = if path_short { self.judge_uncounted(input, graph, PATH_WORDS, offset)? } else { *judged };
        let before = self.before(&judged, offset);
        self.sheets(input, &before, any_length(dice), |due, may_be_short| next_length(dice, due, may_be_short))
    }

    fn note_call(&mut self, found: &BnvFindings, list: usize) {
        let counts = &mut self.counts;
        if found.answer != BNV_LISTED {
            counts.note(findings_name(found.refusal));
        }
        let Some(due) = number(found) else { return };
        for (holds, name) in [
            (list == 0, "findings list of length 0"),
            (list == due && due > 0, "findings list exactly enough"),
            (list + 1 == due, "findings list one short"),
            (list > due, "findings list longer, rest zeroed"),
            (list >= due + MUCH_MORE, "findings list much longer"),
        ] {
            if holds {
                counts.note(name);
            }
        }
    }

    fn note_sheet(&mut self, findings: &[Finding], nodes: usize) {
        let counts = &mut self.counts;
        counts.note(number_name(findings.len()));
        let is = |test: &dyn Fn(&Finding) -> bool| findings.iter().any(test);
        let forbid = |f: &Finding| matches!(f, Finding::MayForbid { .. });
        let two = |test: &dyn Fn(&Finding, &Finding) -> bool| findings.windows(2).any(|two| test(&two[0], &two[1]));
        for (holds, name) in [
            (is(&forbid), "findings forbid"),
            (is(&|f| matches!(f, Finding::MayRunOff { end: End::Low, .. })), "findings run-off low"),
            (is(&|f| matches!(f, Finding::MayRunOff { end: End::High, .. })), "findings run-off high"),
            (two(&|a, b| forbid(a) && !forbid(b) && a.node() == b.node()), "findings of both kinds at a node"),
            (two(&|a, b| forbid(a) && forbid(b) && a.node() == b.node()), "findings, 2 combinations at a node"),
            (two(&|a, b| word(*a) + 1 == word(*b)), "findings, both ends of a variable"),
            (two(&|a, b| a.node() < b.node()), "findings at 2 nodes or more"),
            (nodes == MAX_NODES && !findings.is_empty(), "findings, 512 nodes"),
            (is(&|f| f.node() > 255), "findings past node 255"),
            (is(&|f| matches!(f, Finding::MayRunOff { action: 15, .. })), "findings of action 15"),
            (is(&|f| matches!(f, Finding::MayRunOff { variable: 7, .. })), "findings of variable 7"),
            (is(&|f| matches!(f, Finding::MayForbid { combination: 7, .. })), "findings of combination 7"),
        ] {
            if holds {
                counts.note(name);
            }
        }
    }
}

fn number_name(findings: usize) -> &'static str {
    match findings {
        0 => "findings none",
        1 => "findings 1",
        2..=15 => "findings 2 to 15",
        16..=255 => "findings 16 to 255",
        256..=1023 => "findings 256 to 1,023",
        _ => "findings 1,024 or more",
    }
}
