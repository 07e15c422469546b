//! The lemmas that are not accepted, and by how much.
use super::{Told, OWN};
use crate::lemmas;
use crate::show::fault::thousands;
use crate::show::model::Lemma;
use crate::solve::{self, Found};
use crate::text;
use crate::verdict::mismatch;
use bulanevior::{ask, Ask};

/// The most lemmas for which a reason is looked for: a search may take a while, and a list may have 512.
const REASONS: usize = 64;

/// How many lemmas are accepted, and each that is not.
pub fn lines(told: &Told) -> Result<Vec<String>, String> {
    let judged = told.judged;
    let accepted = |k| ask(&judged.logic, &judged.lemmas, k).map_err(mismatch);
    let mut others = Vec::new();
    for (number, lemma) in told.show.lemmas.iter().enumerate() {
        if accepted(number)? == Ask::NotAccepted {
            others.push((number, lemma));
        }
    }
    let all = told.show.lemmas.len();
    let mut lines = vec![format!("lemmas: {} of {all} accepted", all - others.len())];
    if !others.is_empty() {
        lines.push(format!(
            "the others are not; by how much, and why, is {OWN}"
        ));
    }
    for (count, (number, lemma)) in others.into_iter().enumerate() {
        lines.extend(told_of(told, number, lemma)?);
        if count < REASONS {
            lines.push(format!("    {}", mended(told, lemma)?));
        }
    }
    Ok(lines)
}

fn told_of(told: &Told, number: usize, lemma: &Lemma) -> Result<Vec<String>, String> {
    let largest = lemma.largest(&told.show.logic);
    if largest < 0 {
        let what = format!("the sum of lemma {number} stays below 0, at {largest}");
        return Err(mismatch(what));
    }
    let reaches = thousands(largest);
    Ok(vec![
        format!("  number {number}: {}", text::lemma(lemma, told.names)),
        format!("    its sum reaches {reaches}, and has to stay below 0"),
    ])
}

/// A lemma of the same source and goal that is accepted and applies wherever this one would, or a state that makes it false.
fn mended(told: &Told, lemma: &Lemma) -> Result<String, String> {
    let logic = &told.show.logic;
    let (source, goal, premises) = (lemma.source, lemma.goal, lemma.premises);
    if let Some(better) = lemmas::lemma(logic, source, goal, premises)? {
        return Ok(format!("Ask accepts: {}", text::lemma(&better, told.names)));
    }
    let rows = logic.rows(source, goal, premises);
    Ok(match solve::state(&rows, &logic.ranges) {
        Found::State(state) => format!("it is false: at {}", told.names.state(&state)),
        Found::None => "it is true, but no multipliers were found that show it".to_string(),
        Found::Unknown => "no multipliers were found that show it".to_string(),
    })
}
