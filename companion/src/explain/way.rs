//! The presses that lead to a finding, each with its guard and its assignments: the path in the graph.
use super::{shortened, Told};
use crate::show::model::{Goal, Literals, Source};
use crate::text;
use crate::verdict::{mismatch, Step};
use bulanevior::{End, Finding};

/// What is known at a node, by the graph list.
pub fn literals(told: &Told, node: usize) -> Result<Literals, String> {
    let literals = Literals::at(&told.judged.graph, told.judged.actions, node);
    literals.ok_or_else(|| mismatch(format!("no node {node}")))
}

/// "node 3: front_on and not house_on"
fn node(told: &Told, node: usize) -> Result<String, String> {
    let literals = literals(told, node)?;
    let known = match literals.is_empty() {
        true => "nothing is known".to_string(),
        false => text::literals(literals, told.names),
    };
    Ok(format!("node {node}: {known}"))
}

/// The guard rows and assignments of an action, a line each.
fn rows(told: &Told, action: usize) -> Vec<String> {
    let action = &told.show.logic.actions[action];
    let guards = action.guards.iter();
    let guards = guards.map(|row| format!("      when {}", text::row(row, told.names)));
    let sets = action.sets.iter().map(|(variable, row)| {
        let (name, value) = (
            &told.names.variables[*variable],
            text::expression(row, told.names),
        );
        format!("      {name} := {value}")
    });
    guards.chain(sets).collect()
}

pub fn lines(told: &Told, finding: Finding, path: &[Step]) -> Result<Vec<String>, String> {
    let mut lines = vec!["the way there in the graph:".to_string()];
    lines.push(format!("  at the start {}", node(told, 0)?));
    let presses = (1..)
        .zip(path)
        .map(|(number, step)| press(told, number, step));
    lines.extend(shortened(presses.collect::<Result<_, _>>()?));
    lines.extend(reached(told, finding));
    Ok(lines)
}

fn press(told: &Told, number: usize, step: &Step) -> Result<Vec<String>, String> {
    let mut lines = vec![format!("  press {number}: {}", told.action(step.action))];
    lines.extend(rows(told, step.action));
    lines.push(format!("    then {}", node(told, step.to)?));
    Ok(lines)
}

/// What is found at the end of the way.
fn reached(told: &Told, finding: Finding) -> Vec<String> {
    match finding {
        Finding::MayForbid { combination, .. } => met(told, combination),
        Finding::MayRunOff {
            action,
            variable,
            end,
            ..
        } => ran_off(told, action, variable, end),
    }
}

/// A forbidden combination, with the rows of its predicates.
fn met(told: &Told, combination: usize) -> Vec<String> {
    let all = told.show.logic.forbidden[combination];
    let said = text::literals(all, told.names);
    let head = format!("  there nothing contradicts forbidden combination {combination}: {said}");
    let row = |(p, _)| {
        let row = text::row(&told.show.logic.predicates[p], told.names);
        format!("      {}: {row}", told.names.predicates[p])
    };
    std::iter::once(head).chain(all.each().map(row)).collect()
}

/// An action that may pass an end, with its guard and assignments, and the lemma that would rule it out.
fn ran_off(told: &Told, action: usize, variable: usize, end: End) -> Vec<String> {
    let (press, past) = (told.action(action), told.past(variable, end));
    let mut lines = vec![format!("  there {press} may take {past}:")];
    lines.extend(rows(told, action));
    let goal = Goal::kept(variable, end);
    let wanted = text::lemma_head(Source::Action(action), goal, told.names);
    lines.push(format!(
        "    no accepted lemma that applies there shows: {wanted}"
    ));
    lines
}
