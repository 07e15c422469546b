//! Literals and lemmas in a text.
use super::fault::{alternatives, Fault};
use super::lexer::Cursor;
use super::sums::variable;
use super::writer;
use crate::show::fault::thousands;
use crate::show::model::*;
use crate::show::names::Names;

/// The number of a predicate that is expected.
fn predicate(cursor: &mut Cursor, names: &Names) -> Result<usize, Fault> {
    let known = names.predicates.as_slice();
    cursor.one_of(known, "predicate", || match known {
        [] => "a predicate, and none is declared above".to_string(),
        _ => format!("one of {}", known.join(", ")),
    })
}

/// A predicate and whether it holds.
fn literal(cursor: &mut Cursor, names: &Names) -> Result<(usize, bool), Fault> {
    let holds = !cursor.take("not");
    Ok((predicate(cursor, names)?, holds))
}

/// Literals with `and` between them.
pub fn literals(cursor: &mut Cursor, names: &Names) -> Result<Literals, Fault> {
    let mut found = Literals::default();
    loop {
        let column = cursor.column();
        let (p, holds) = literal(cursor, names)?;
        let name = &names.predicates[p];
        if let Some((_, before)) = found.each().find(|&(other, _)| other == p) {
            let message = match before == holds {
                true => format!("`{name}` is named twice"),
                false => format!("`{name}` cannot hold and fail"),
            };
            return Err(cursor.fault(column, message));
        }
        found = found.with(p, holds);
        if !cursor.take("and") {
            return Ok(found);
        }
    }
}

fn source(cursor: &mut Cursor, names: &Names) -> Result<Source, Fault> {
    if cursor.take("start") {
        return Ok(Source::Start);
    }
    let action = cursor.one_of(&names.actions, "action", || {
        let mut known = vec!["`start`".to_string()];
        known.extend_from_slice(&names.actions);
        alternatives(&known)
    })?;
    Ok(Source::Action(action))
}

fn goal(cursor: &mut Cursor, names: &Names) -> Result<Goal, Fault> {
    if cursor.take("never") {
        return Ok(Goal::Never);
    }
    if cursor.take("makes") {
        let (p, holds) = literal(cursor, names)?;
        return Ok(Goal::literal(p, holds));
    }
    if !cursor.take("keeps") {
        return Err(cursor.expected("`never`, `makes` or `keeps`"));
    }
    let v = variable(cursor, &names.variables)?;
    if cursor.take("low") {
        return Ok(Goal::Low(v));
    }
    match cursor.take("high") {
        true => Ok(Goal::High(v)),
        false => Err(cursor.expected("`low` or `high`")),
    }
}

/// A `keeps` is said of a variable that the source sets.
fn kept(source: Source, goal: Goal, logic: &Logic, names: &Names) -> Result<(), String> {
    let (Goal::Low(v) | Goal::High(v)) = goal else {
        return Ok(());
    };
    let Source::Action(k) = source else {
        return Err("the start sets no variable; `keeps` speaks of an action".to_string());
    };
    let set = &logic.actions[k].sets;
    if set.iter().any(|&(other, _)| other == v) {
        return Ok(());
    }
    let (action, variable) = (&names.actions[k], &names.variables[v]);
    let set: Vec<&str> = set
        .iter()
        .map(|&(v, _)| names.variables[v].as_str())
        .collect();
    let sets = match set.as_slice() {
        [] => "no variable".to_string(),
        all => all.join(", "),
    };
    Err(format!(
        "`{action}` does not set `{variable}`; it sets {sets}"
    ))
}

/// The rows of a lemma and the multipliers that were read for them.
struct Multipliers<'a> {
    names: &'a Names,
    source: Source,
    goal: Goal,
    premises: Literals,
    /// How many rows the source has.
    rows: usize,
    found: Vec<Option<i64>>,
}

impl Multipliers<'_> {
    /// How many rows stand before the premises.
    fn goals(&self) -> usize {
        usize::from(self.goal != Goal::Never)
    }

    fn premises(&self) -> usize {
        self.premises.each().count()
    }

    /// What is expected: this, or one of the rows that there are.
    fn known(&self, before: &[&str]) -> String {
        let mut known: Vec<String> = before.iter().map(|text| text.to_string()).collect();
        known.extend((self.goals() == 1).then(|| "`goal`".to_string()));
        let each = self.premises.each();
        known.extend(each.map(|(p, holds)| format!("`{}`", writer::literal(p, holds, self.names))));
        known.extend(match self.rows {
            0 => None,
            1 => Some("`row 0`".to_string()),
            n => Some(format!("`row 0` to `row {}`", n - 1)),
        });
        alternatives(&known)
    }

    /// The place of the row that is named next; or else one, or this, is expected.
    fn place(&self, cursor: &mut Cursor, or: &[&str]) -> Result<usize, Fault> {
        if self.goals() == 1 && cursor.take("goal") {
            return Ok(0);
        }
        if cursor.take("row") {
            return self.row(cursor);
        }
        let column = cursor.column();
        let holds = !cursor.take("not");
        let name = cursor.name();
        let name = name.ok_or_else(|| cursor.expected(&self.known(or)))?;
        let given = |(p, found): (usize, bool)| found == holds && self.names.predicates[p] == name;
        let place = self.premises.each().position(given);
        place.map(|place| self.goals() + place).ok_or_else(|| {
            let (not, known) = (if holds { "" } else { "not " }, self.known(&[]));
            let message = format!("`{not}{name}` is not given; expected {known}");
            cursor.fault(column, message)
        })
    }

    /// The place of a row of the source, whose number is next.
    fn row(&self, cursor: &mut Cursor) -> Result<usize, Fault> {
        let column = cursor.column();
        let Some(number) = cursor.number() else {
            return Err(cursor.expected("the number of a row"));
        };
        let number = number as usize;
        if number < self.rows {
            return Ok(self.goals() + self.premises() + number);
        }
        let source = match self.source {
            Source::Start => "the start".to_string(),
            Source::Action(k) => format!("`{}`", self.names.actions[k]),
        };
        let rows = match self.rows {
            0 => "no rows".to_string(),
            1 => "1 row, counted from 0".to_string(),
            n => format!("{n} rows, counted from 0"),
        };
        Err(cursor.fault(
            column,
            format!("row {}, and {source} has {rows}", thousands(number as i64)),
        ))
    }

    /// A multiplier, if it is not 1, and a row; or else this is expected.
    fn item(&mut self, cursor: &mut Cursor, or: &[&str]) -> Result<(), Fault> {
        let column = cursor.column();
        let written = cursor.number();
        let times = written.unwrap_or(1);
        if times > MULTIPLIER {
            let (times, most) = (thousands(times), thousands(MULTIPLIER));
            let message = format!("multiplier {times}, allowed are 0 to {most}");
            return Err(cursor.fault(column, message));
        }
        let column = cursor.column();
        let place = self.place(cursor, if written.is_some() { &[] } else { or })?;
        if self.found[place].is_some() {
            return Err(cursor.fault(column, "this row is named twice"));
        }
        self.found[place] = Some(times);
        Ok(())
    }

    /// The items with commas between them, to the end of the line.
    fn items(&mut self, cursor: &mut Cursor) -> Result<(), Fault> {
        if cursor.take("nothing") {
            return cursor.end("");
        }
        if self.found.is_empty() {
            return Err(cursor.expected("`nothing`, for this lemma has no rows"));
        }
        self.item(cursor, &["`nothing`", "a multiplier"])?;
        while cursor.take(",") {
            self.item(cursor, &["a multiplier"])?;
        }
        cursor.end("`,` or ")
    }
}

/// What stands behind `lemma`, to the end of the line.
pub fn lemma(cursor: &mut Cursor, logic: &Logic, names: &Names) -> Result<Lemma, Fault> {
    let source = source(cursor, names)?;
    let column = cursor.column();
    let goal = goal(cursor, names)?;
    kept(source, goal, logic, names).map_err(|message| cursor.fault(column, message))?;
    let column = cursor.column();
    let mut premises = Literals::default();
    if cursor.take("given") {
        if source == Source::Start {
            return Err(cursor.fault(column, "a lemma of the start has no premises"));
        }
        premises = literals(cursor, names)?;
    }
    let multipliers = multipliers(cursor, logic, names, (source, goal, premises))?;
    Ok(Lemma {
        source,
        goal,
        premises,
        multipliers,
    })
}

/// `by` and what stands behind it.
fn multipliers(
    cursor: &mut Cursor,
    logic: &Logic,
    names: &Names,
    (source, goal, premises): (Source, Goal, Literals),
) -> Result<Vec<i64>, Fault> {
    if !cursor.take("by") {
        let due = match (source, premises.is_empty()) {
            (Source::Start, _) => "`by`",
            (_, true) => "`given` or `by`",
            (_, false) => "`and` or `by`",
        };
        return Err(cursor.expected(due));
    }
    let rows = logic.source(source).0.len();
    let mut read = Multipliers {
        names,
        source,
        goal,
        premises,
        rows,
        found: Vec::new(),
    };
    read.found = vec![None; read.goals() + read.premises() + rows];
    read.items(cursor)?;
    Ok(read
        .found
        .into_iter()
        .map(|times| times.unwrap_or(0))
        .collect())
}
