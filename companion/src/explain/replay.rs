//! Presses by the proved Step, from a start state that the companion finds: does a finding really happen?
use super::hunt::{self, Wrong};
use super::walk::{Reach, Walk};
use super::{shortened, Told, OWN};
use crate::lemmas::{lemma, NO_START};
use crate::show::model::{Goal, Literals, Logic, Source};
use crate::show::rows::{Range, Row};
use crate::verdict::{mismatch, Step};
use bulanevior::{Finding, Step as Pressed};

/// Behind presses that walk the path to the finding, and behind others.
const HAPPENS: &str = "  it really happens";
const OTHERS: &str = "  these presses really go wrong";

/// What happens to a start state on a path to a finding, and whether something really goes wrong.
pub fn lines(told: &Told, finding: Finding, path: &[Step]) -> Result<(Vec<String>, bool), String> {
    let logic = &told.show.logic;
    let reach = Walk::new(logic, finding, path).map_or(Reach::Unknown, |walk| walk.reach(logic));
    let stage = match reach {
        Reach::Whole(start) => {
            let presses: Vec<usize> = path.iter().map(|step| step.action).collect();
            let wrong = match finding {
                Finding::MayForbid { combination, .. } => Wrong::Forbidden(combination),
                Finding::MayRunOff { action, .. } => Wrong::RunsOff(action),
            };
            let mut lines = replayed(told, &start, &presses, wrong)?;
            lines.push(HAPPENS.to_string());
            return Ok((lines, true));
        }
        Reach::Until(0) => return Ok((vec![OWN.to_string(), format!("  {NO_START}")], false)),
        Reach::Until(stage) => Some(stage),
        Reach::Unknown => None,
    };
    let mut lines = vec![OWN.to_string()];
    lines.push(format!("  {}", unwalked(told, finding, path, stage)));
    let fault = hunt::hunt(logic);
    match &fault {
        Some(fault) => {
            lines.push("  but there are presses that go wrong".to_string());
            lines.push(String::new());
            lines.extend(replayed(told, &fault.start, &fault.presses, fault.wrong)?);
            lines.push(OTHERS.to_string());
        }
        None => {
            let none =
                "no presses were found that really go wrong, which is no proof that there are none";
            lines.push(format!("  {none}"));
        }
    }
    Ok((lines, fault.is_some()))
}

/// Why no start state walks the path to the finding; there are start states.
fn unwalked(told: &Told, finding: Finding, path: &[Step], stage: Option<usize>) -> String {
    let there = match finding {
        Finding::MayForbid { .. } => "meets the combination there".to_string(),
        Finding::MayRunOff { variable, end, .. } => {
            let past = told.past(variable, end);
            format!("takes {past} there")
        }
    };
    match stage {
        None => format!("no start state was found that walks this way and {there}"),
        Some(k) if k <= path.len() => {
            let action = told.action(path[k - 1].action);
            format!("no start state walks this way, it is one in the graph only: none takes press {k}, {action}")
        }
        Some(_) if path.is_empty() => format!("no start state {there}"),
        Some(_) => format!("start states walk this way, but none of them {there}"),
    }
}

/// One press: the line that tells it, and what Step answers.
fn pressed(
    told: &Told,
    number: usize,
    action: usize,
    state: &mut [i32],
) -> Result<(String, Pressed), String> {
    let answer = bulanevior::step(&told.judged.logic, action, state).map_err(mismatch)?;
    let does = match answer {
        Pressed::Moved => format!("moves to {}", told.names.state(state)),
        Pressed::NotEnabled(near) => format!("is not enabled: {near}"),
        Pressed::RunsOff(v) => ran_off(told, action, v, state),
    };
    let line = format!("  press {number}: {} {does}", told.action(action));
    Ok((line, answer))
}

/// An action runs a variable off its range. Step does not say to what.
fn ran_off(told: &Told, action: usize, v: usize, state: &[i32]) -> String {
    let values: Vec<i64> = state.iter().map(|&x| x.into()).collect();
    let new = told.show.logic.actions[action]
        .sets
        .iter()
        .find(|set| set.0 == v);
    let to = new.map_or_else(String::new, |(_, row)| {
        format!(", to {} (worked out by the companion)", row.value(&values))
    });
    format!("runs {} off its range{to}", told.names.variables[v])
}

/// That literals of these predicates are so at a state, or the trouble. The proved Ask says it: over ranges that are that state alone, each is
/// a lemma of the start.
fn so_at(state: &[i32], predicates: &[Row], literals: Literals) -> Result<(), String> {
    let only = |&x: &i32| Range {
        low: x.into(),
        high: x.into(),
    };
    let logic = Logic {
        ranges: state.iter().map(only).collect(),
        predicates: predicates.to_vec(),
        ..Logic::default()
    };
    for (p, holds) in literals.each() {
        let goal = Goal::literal(p, holds);
        let shown = lemma(&logic, Source::Start, goal, Literals::default())?;
        shown.ok_or_else(|| mismatch(format!("the companion's walk: {goal:?} at {state:?}")))?;
    }
    Ok(())
}

/// The presses from a start state, and what goes wrong behind them.
fn replayed(
    told: &Told,
    start: &[i64],
    presses: &[usize],
    wrong: Wrong,
) -> Result<Vec<String>, String> {
    let mut state: Vec<i32> = start.iter().map(|&x| x as i32).collect();
    let rows = &told.show.logic.start;
    let all = (0..rows.len()).fold(Literals::default(), |all, row| all.with(row, true));
    so_at(&state, rows, all)?;
    let mut lines = vec![
        "replayed by the proved Step, from a start state that the companion found:".to_string(),
    ];
    lines.push(format!("  {}", told.names.state(&state)));
    let mut moves = Vec::new();
    for (number, &action) in (1..).zip(presses) {
        let (line, answer) = pressed(told, number, action, &mut state)?;
        if answer != Pressed::Moved {
            return Err(mismatch(format!("the companion's walk:{line}")));
        }
        moves.push(vec![line]);
    }
    lines.extend(shortened(moves));
    lines.push(ended(told, presses.len(), &mut state, wrong)?);
    Ok(lines)
}

/// What goes wrong at the end: an action runs off, or the state is forbidden.
fn ended(told: &Told, presses: usize, state: &mut [i32], wrong: Wrong) -> Result<String, String> {
    let logic = &told.show.logic;
    match wrong {
        Wrong::RunsOff(action) => match pressed(told, presses + 1, action, state)? {
            (line, Pressed::RunsOff(_)) => Ok(line),
            (line, _) => Err(mismatch(format!("the companion's walk:{line}"))),
        },
        Wrong::Forbidden(k) => {
            so_at(state, &logic.predicates, logic.forbidden[k])?;
            Ok(format!("  this state meets forbidden combination {k}"))
        }
    }
}
