//! The command `explain`: the verdict or the refusal of a show in words, with what can be said beside it.
//!
//! | Module | Says |
//! |---|---|
//! | `refusal` | the word at fault, and the rule that it breaks |
//! | `way` | the presses that lead to a finding, with guards and assignments |
//! | `missing` | a lemma that would rule a finding out |
//! | `walk` | what a start state has to meet to walk them to the finding |
//! | `hunt` | where no state walks them: other presses that go wrong |
//! | `replay` | presses by the proved Step, from a start state |
//! | `unaccepted` | the lemmas that are not accepted, and by how much |
//!
//! Verdict, finding, graph, path, steps, what is so at a state and whether a lemma is accepted come from the proved calls. What the companion
//! works out itself stands under a line that says so.

mod hunt;
mod missing;
mod refusal;
mod replay;
#[cfg(test)]
mod tests;
mod unaccepted;
mod walk;
mod way;

use crate::findings;
use crate::input::Input;
use crate::lemmas::NO_START;
use crate::output::{Said, Status};
use crate::show::fault::thousands;
use crate::show::model::Show;
use crate::show::names::Names;
use crate::show::reading;
use crate::verdict::{self, mismatch, path, presses, safe, sentence, Answer, Judged, Step};
use bulanevior::{End, Finding};

/// The most presses that are told one by one; of more, the first and the last of them.
const TOLD: usize = 24;

/// Over what the companion works out itself.
const OWN: &str = "worked out by the companion, not proved:";

/// A show that was judged, as plain values too.
struct Told<'a> {
    judged: &'a Judged,
    show: &'a Show,
    names: &'a Names,
    /// Do the names come from a text? Those of words say nothing that the numbers don't.
    named: bool,
}

impl Told<'_> {
    /// "action 2 (macro)", or "action 2" where it has no name.
    fn action(&self, action: usize) -> String {
        match self.named {
            true => format!("action {action} ({})", self.names.actions[action]),
            false => format!("action {action}"),
        }
    }

    /// "level below 0"
    fn past(&self, variable: usize, end: End) -> String {
        let range = self.show.logic.ranges[variable];
        let (way, past) = match end {
            End::Low => ("below", range.low),
            End::High => ("above", range.high),
        };
        format!("{} {way} {past}", self.names.variables[variable])
    }
}

/// What is said of a show, or the trouble.
pub fn run(input: &Input) -> Result<Said, String> {
    match verdict::judge(&input.bytes)? {
        Answer::Judged(judged) => {
            let show = reading::show(&judged.logic, &judged.lemmas).map_err(mismatch)?;
            let numbered = Names::numbered(&show.logic);
            let told = Told {
                judged: &judged,
                show: &show,
                names: input.names.as_ref().unwrap_or(&numbered),
                named: input.names.is_some(),
            };
            judgement(&told)
        }
        Answer::Refused(why) => {
            let lines = refusal::lines(&why, input.bytes.len())?;
            Ok(Said::lines(lines.into_iter(), Status::Refused))
        }
    }
}

/// What is said of a show that was judged.
fn judgement(told: &Told) -> Result<Said, String> {
    let (mut lines, status) = match told.judged.judgement.verdict.finding() {
        None => (safe_lines(told), Status::Good),
        Some(finding) => (finding_lines(told, finding)?, Status::Findings),
    };
    lines.push(String::new());
    lines.extend(unaccepted::lines(told)?);
    Ok(Said::lines(lines.into_iter(), status))
}

fn safe_lines(told: &Told) -> Vec<String> {
    let mut lines = vec![safe(told.judged.judgement)];
    lines.push(match told.judged.judgement.nodes {
        0 => NO_START.to_string(),
        _ => "no list of actions, from any start state, meets a forbidden state or runs a variable off its range".to_string(),
    });
    lines
}

fn finding_lines(told: &Told, finding: Finding) -> Result<Vec<String>, String> {
    let path: Vec<Step> = path(&told.judged.graph, told.judged.actions, finding.node())?;
    let mut lines = vec![sentence(finding, &presses(&path)), count(told)?];
    if !told.named {
        let stands = "v0 stands for variable 0, p0 for predicate 0, a0 for action 0, and so on";
        lines.push(stands.to_string());
    }
    lines.push(String::new());
    lines.extend(way::lines(told, finding, &path)?);
    lines.push(String::new());
    let (replay, real) = replay::lines(told, finding, &path)?;
    lines.extend(replay);
    if !real {
        lines.extend(missing::lines(told, finding, &path)?);
    }
    Ok(lines)
}

/// How many findings there are.
fn count(told: &Told) -> Result<String, String> {
    Ok(match findings::all(told.judged)?.len() {
        1 => "it is the only finding".to_string(),
        n => {
            let n = thousands(n as i64);
            format!("it is the first of {n} findings, which `bulanevior findings` lists")
        }
    })
}

/// Lines with the middle of them left out where there are too many: pieces of lines, each told whole or not at all.
fn shortened(pieces: Vec<Vec<String>>) -> Vec<String> {
    let left_out = pieces.len().saturating_sub(TOLD);
    let s = if left_out == 1 { "" } else { "es" };
    let note = vec![format!("  .. {left_out} press{s} more ..")];
    let (first, rest) = pieces.split_at(pieces.len().min(TOLD / 2));
    match left_out {
        0 => pieces.concat(),
        _ => [&first.concat()[..], &note, &rest[left_out..].concat()].concat(),
    }
}
