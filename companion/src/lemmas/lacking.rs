//! What is lacking where something may go wrong: at which node, for which action, which goal; and a state that makes it false, if one is found.
//! The findings are those of the proved call; the rest is worked out here.
use super::explore::{contradicts, speaks, touches};
use crate::show::model::{Goal, Literals, Logic, Source};
use crate::show::names::Names;
use crate::solve::{refute, state, Found, Refutation};
use crate::text;
use bulanevior::*;
use std::collections::BTreeSet;

/// The most lemmas that are named.
const NAMED: usize = 20;

/// Where no state makes a lemma false: multipliers may show it or not.
const UNFOLLOWED: &str = "it can be shown, but with all that can be shown the graph does not fit";
const BETWEEN: &str =
    "no state makes it false, and no multipliers show it: a further predicate may help";

/// A lemma that is lacking.
#[derive(Clone, Copy, Debug, PartialEq, Eq)]
struct Lack {
    source: Source,
    goal: Goal,
    /// Where, and what is known there; for the start there is no node.
    node: Option<usize>,
    known: Literals,
    /// The forbidden combination that it would keep out.
    against: Option<usize>,
}

/// A graph that the proved call has filled.
pub struct Graph<'a> {
    pub logic: &'a Logic,
    pub list: &'a [u32],
}

impl Graph<'_> {
    fn known(&self, node: usize) -> Literals {
        Literals::at(self.list, self.logic.actions.len(), node).unwrap_or_default()
    }

    /// Where a node was first found: the source, and the node before it.
    fn origin(&self, node: usize) -> (Source, Option<usize>) {
        match origin(self.list, self.logic.actions.len(), node) {
            Some((parent, action)) => (Source::Action(action), Some(parent)),
            None => (Source::Start, None),
        }
    }

    /// The nearest source that touches a predicate, this one or one on the way to its node.
    fn touched(
        &self,
        mut at: (Source, Option<usize>),
        predicate: usize,
    ) -> (Source, Option<usize>) {
        for _ in 0..MOST_NODES {
            match at {
                (source, Some(node)) if !touches(self.logic, source, predicate) => {
                    at = self.origin(node)
                }
                found => return found,
            }
        }
        at
    }

    fn lack(
        &self,
        (source, node): (Source, Option<usize>),
        goal: Goal,
        against: Option<usize>,
    ) -> Lack {
        Lack {
            source,
            goal,
            node,
            known: node.map_or_else(Literals::default, |node| self.known(node)),
            against,
        }
    }

    /// How many nodes there are.
    fn nodes(&self) -> usize {
        let there = |node: &usize| header(self.list, self.logic.actions.len(), *node).is_some();
        (0..MOST_NODES).take_while(there).count()
    }

    /// Where a combination is come to: a source, the node before it, where a literal contradicts the combination, and the one behind it.
    fn entries(&self, combination: usize) -> Vec<(Source, Option<usize>, usize)> {
        let bad = self.logic.forbidden[combination];
        let (nodes, actions) = (self.nodes(), self.logic.actions.len());
        let view = View::new(self.list, nodes, actions);
        let out = |node: usize| contradicts(self.known(node), bad);
        let start = (Source::Start, None, 0);
        let edges = (0..nodes).filter(|&node| out(node)).flat_map(|node| {
            (0..actions).filter_map(move |action| {
                let next = view.successor(node, action).ok()??;
                Some((Source::Action(action), Some(node), next))
            })
        });
        let all = std::iter::once(start).chain(edges);
        all.filter(|&(_, _, next)| !out(next)).collect()
    }

    /// What would keep a combination out where it is come to: that a literal of it of which nothing is known is not so; where all are known,
    /// that it does not happen.
    fn against(&self, combination: usize) -> Vec<Lack> {
        let mut lacks = Vec::new();
        for (source, node, next) in self.entries(combination) {
            let here = self.known(next);
            let bad = self.logic.forbidden[combination].each();
            let open: Vec<_> = bad.filter(|&(p, _)| !speaks(here, p)).collect();
            if open.is_empty() {
                lacks.push(self.lack((source, node), Goal::Never, Some(combination)));
            }
            lacks.extend(open.into_iter().map(|(p, holds)| {
                let goal = Goal::literal(p, !holds);
                self.lack(self.touched((source, node), p), goal, Some(combination))
            }));
        }
        lacks
    }

    /// Can it be shown? Then it is lacking only because it is not followed.
    fn showable(&self, lack: &Lack) -> bool {
        let rows = self.logic.rows(lack.source, lack.goal, lack.known);
        matches!(
            refute(&rows, &self.logic.ranges),
            Refutation::Multipliers(_)
        )
    }

    /// Those that cannot be shown, if there are any.
    fn decisive(&self, lacks: Vec<Lack>) -> Vec<Lack> {
        let cannot = lacks.iter().filter(|lack| !self.showable(lack));
        match cannot.copied().collect::<Vec<Lack>>() {
            none if none.is_empty() => lacks,
            some => some,
        }
    }

    fn of(&self, finding: Finding) -> Vec<Lack> {
        match finding {
            Finding::MayForbid { combination, .. } => self.decisive(self.against(combination)),
            Finding::MayRunOff {
                node,
                action,
                variable,
                end,
            } => {
                let goal = Goal::kept(variable, end);
                vec![self.lack((Source::Action(action), Some(node)), goal, None)]
            }
        }
    }

    /// The findings, of those of one combination only the first.
    fn different(findings: &[Finding]) -> Vec<Finding> {
        let mut seen = BTreeSet::new();
        let first = |finding: &&Finding| match **finding {
            Finding::MayForbid { combination, .. } => seen.insert(combination),
            Finding::MayRunOff { .. } => true,
        };
        findings.iter().filter(first).copied().collect()
    }

    /// The first lack of each source and goal, with the number of nodes at which it is lacking too.
    fn gathered(&self, findings: &[Finding]) -> Vec<(Lack, usize)> {
        let mut gathered: Vec<(Lack, Vec<Option<usize>>)> = Vec::new();
        for lack in Graph::different(findings)
            .into_iter()
            .flat_map(|finding| self.of(finding))
        {
            let same = |first: &Lack| (first.source, first.goal) == (lack.source, lack.goal);
            match gathered.iter_mut().find(|(first, _)| same(first)) {
                Some((_, nodes)) if nodes.contains(&lack.node) => {}
                Some((_, nodes)) => nodes.push(lack.node),
                None => gathered.push((lack, vec![lack.node])),
            }
        }
        let counted = gathered
            .into_iter()
            .map(|(lack, nodes)| (lack, nodes.len() - 1));
        counted.collect()
    }

    /// The lines about what is lacking.
    pub fn lines(&self, findings: &[Finding], names: &Names) -> Vec<String> {
        let lacks = self.gathered(findings);
        let count = findings.len();
        let first = format!(
            "findings: {count}. Lemmas that are lacking, each with a state that makes it false, which may be one that no run comes to; \
             worked out by the companion:"
        );
        let named = lacks
            .iter()
            .take(NAMED)
            .map(|&(lack, more)| self.line(lack, more, names));
        let rest = lacks.len().saturating_sub(NAMED);
        let rest = (rest > 0).then(|| format!("and {rest} more"));
        std::iter::once(first).chain(named).chain(rest).collect()
    }

    fn line(&self, lack: Lack, more: usize, names: &Names) -> String {
        let place = match lack.node {
            Some(node) if lack.known.is_empty() => format!("node {node} (nothing known)"),
            Some(node) => format!("node {node} ({})", text::literals(lack.known, names)),
            None => "the start".to_string(),
        };
        let head = text::lemma_head(lack.source, lack.goal, names);
        let against = match lack.against.map(|k| self.logic.forbidden[k]) {
            Some(combination) => format!(", against {}", text::literals(combination, names)),
            None => String::new(),
        };
        let more = match more {
            0 => String::new(),
            1 => ", and at 1 more node".to_string(),
            n => format!(", and at {n} more nodes"),
        };
        let why = self.falsified(lack, names);
        format!("at {place}{more}: {head}{against}; {why}")
    }

    /// A state that makes a lemma false, or that there is none, or that none was found.
    fn falsified(&self, lack: Lack, names: &Names) -> String {
        let rows = self.logic.rows(lack.source, lack.goal, lack.known);
        match state(&rows, &self.logic.ranges) {
            Found::State(state) => {
                let after = self.after(lack, &state, names);
                format!("false at {}{after}", names.state(&state))
            }
            Found::None if self.showable(&lack) => UNFOLLOWED.to_string(),
            Found::None => BETWEEN.to_string(),
            Found::Unknown => "no state that makes it false was found".to_string(),
        }
    }

    /// For a goal about an end: what the variable becomes.
    fn after(&self, lack: Lack, state: &[i64], names: &Names) -> String {
        let (Goal::Low(v) | Goal::High(v)) = lack.goal else {
            return String::new();
        };
        let (_, sets) = self.logic.source(lack.source);
        let new = sets.iter().find(|set| set.0 == v);
        new.map_or_else(String::new, |(_, row)| {
            format!(
                ", where {} becomes {}",
                names.variables[v],
                row.value(state)
            )
        })
    }
}
