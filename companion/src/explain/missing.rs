//! A lemma that would rule a finding out, where one can be had: that the show cannot start; at the node of a run-off; or on the way to a
//! forbidden combination, at the last press that can say something of one of its predicates.
use super::way::literals;
use super::Told;
use crate::lemmas::{lemma, touches};
use crate::show::model::{Goal, Lemma, Literals, Source};
use crate::text;
use crate::verdict::Step;
use bulanevior::Finding;

/// The presses from the last to the first, and the start, each with what is known before it.
fn sources(told: &Told, path: &[Step]) -> Result<Vec<(Source, Literals)>, String> {
    let presses = path.iter().rev();
    let presses = presses.map(|step| Ok((Source::Action(step.action), literals(told, step.from)?)));
    let start = Ok((Source::Start, Literals::default()));
    presses.chain([start]).collect()
}

/// A lemma that shows a goal about a predicate, at the last source that touches it or behind that.
fn against(told: &Told, goal: Goal, p: usize, path: &[Step]) -> Result<Option<Lemma>, String> {
    let logic = &told.show.logic;
    for (source, known) in sources(told, path)? {
        let found = lemma(logic, source, goal, known)?;
        if found.is_some() || touches(logic, source, p) {
            return Ok(found);
        }
    }
    Ok(None)
}

fn found(told: &Told, finding: Finding, path: &[Step]) -> Result<Option<Lemma>, String> {
    let logic = &told.show.logic;
    let unstarted = lemma(logic, Source::Start, Goal::Never, Literals::default())?;
    if unstarted.is_some() {
        return Ok(unstarted);
    }
    match finding {
        Finding::MayRunOff {
            node,
            action,
            variable,
            end,
        } => {
            let goal = Goal::kept(variable, end);
            lemma(logic, Source::Action(action), goal, literals(told, node)?)
        }
        Finding::MayForbid { combination, .. } => {
            for (p, holds) in logic.forbidden[combination].each() {
                let goal = Goal::literal(p, !holds);
                if let Some(lemma) = against(told, goal, p, path)? {
                    return Ok(Some(lemma));
                }
            }
            Ok(None)
        }
    }
}

pub fn lines(told: &Told, finding: Finding, path: &[Step]) -> Result<Vec<String>, String> {
    Ok(match found(told, finding, path)? {
        None => Vec::new(),
        Some(lemma) => vec![
            String::new(),
            "a lemma against this finding, found by the companion and accepted by the proved Ask:"
                .to_string(),
            format!("  {}", text::lemma(&lemma, told.names)),
        ],
    })
}
