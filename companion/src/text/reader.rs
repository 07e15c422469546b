//! A text, line by line, to a show and its names; or the first place at fault.
use super::fault::{quoted, Fault};
use super::lemmas::{lemma, literals};
use super::lexer::{Cursor, Kind};
use super::sums::{comparison, value, variable, Rows};
use crate::show::fault::thousands;
use crate::show::model::*;
use crate::show::names::Names;
use crate::show::rows::{Range, Row, VARIABLES};
use bulanevior::MOST_ACTIONS;

/// What a line may begin with.
const STATEMENTS: &str =
    "`variable`, `start`, `predicate`, `action`, `when`, an assignment, `forbid` or `lemma`";

/// What was read so far.
#[derive(Default)]
struct Reader {
    show: Show,
    names: Names,
    /// Did the line before this one belong to an action?
    open: bool,
}

/// One more of what there may be at most so many of.
fn room(
    cursor: &Cursor,
    column: usize,
    what: &str,
    found: usize,
    most: usize,
) -> Result<(), Fault> {
    if found < most {
        return Ok(());
    }
    Err(cursor.fault(column, format!("one {what} too many, allowed are {most}")))
}

impl Reader {
    /// A name that is not taken yet.
    fn fresh(&self, cursor: &mut Cursor) -> Result<String, Fault> {
        let column = cursor.column();
        let name = cursor.name();
        let name = name.ok_or_else(|| cursor.expected("a name"))?;
        let sorts = [
            (&self.names.variables, "a variable"),
            (&self.names.predicates, "a predicate"),
            (&self.names.actions, "an action"),
        ];
        let taken = |(names, _): &&(&Vec<String>, &str)| names.iter().any(|other| other == name);
        match sorts.iter().find(taken) {
            None => Ok(name.to_string()),
            Some((_, sort)) => {
                Err(cursor.fault(column, format!("`{name}` is the name of {sort} already")))
            }
        }
    }

    /// An end of a range.
    fn range_end(&self, cursor: &mut Cursor, which: &str) -> Result<i64, Fault> {
        let column = cursor.column();
        let sign = cursor.plus_or_minus();
        let Some(number) = cursor.number() else {
            return Err(cursor.expected(&format!("a number, the {which} end")));
        };
        let number = sign * number;
        if (LOWEST..=HIGHEST).contains(&number) {
            return Ok(number);
        }
        let [number, low, high] = [number, LOWEST, HIGHEST].map(thousands);
        Err(cursor.fault(
            column,
            format!("{which} end {number}, allowed are {low} to {high}"),
        ))
    }

    /// `NAME LOW to HIGH`.
    fn variable(&mut self, cursor: &mut Cursor, column: usize) -> Result<(), Fault> {
        room(
            cursor,
            column,
            "variable",
            self.show.logic.ranges.len(),
            VARIABLES,
        )?;
        let name = self.fresh(cursor)?;
        let column = cursor.column();
        let low = self.range_end(cursor, "low")?;
        cursor.due("to")?;
        let high = self.range_end(cursor, "high")?;
        cursor.end("")?;
        if low > high {
            let (low, high) = (thousands(low), thousands(high));
            let message = format!("the low end {low} is above the high end {high}");
            return Err(cursor.fault(column, message));
        }
        self.names.variables.push(name);
        self.show.logic.ranges.push(Range { low, high });
        Ok(())
    }

    /// Comparisons with `and` between them, behind so many rows of their kind.
    fn rows(&self, cursor: &mut Cursor, what: &str, before: usize) -> Result<Vec<Row>, Fault> {
        let mut rows = Vec::new();
        loop {
            let column = cursor.column();
            rows.extend(comparison(cursor, &self.names.variables, Rows::Several)?);
            room(cursor, column, what, before + rows.len() - 1, ROWS)?;
            if !cursor.take("and") {
                cursor.end("`+`, `-`, `and` or ")?;
                return Ok(rows);
            }
        }
    }

    /// `NAME: ROW`.
    fn predicate(&mut self, cursor: &mut Cursor, column: usize) -> Result<(), Fault> {
        let predicates = self.show.logic.predicates.len();
        room(cursor, column, "predicate", predicates, PREDICATES)?;
        let name = self.fresh(cursor)?;
        cursor.due(":")?;
        let rows = comparison(cursor, &self.names.variables, Rows::One)?;
        cursor.end("`+`, `-` or ")?;
        self.names.predicates.push(name);
        self.show.logic.predicates.extend(rows);
        Ok(())
    }

    fn action(&mut self, cursor: &mut Cursor, column: usize) -> Result<(), Fault> {
        room(
            cursor,
            column,
            "action",
            self.show.logic.actions.len(),
            MOST_ACTIONS,
        )?;
        let name = self.fresh(cursor)?;
        cursor.end("")?;
        self.names.actions.push(name);
        self.show.logic.actions.push(Action::default());
        Ok(())
    }

    /// The action that a line belongs to.
    fn current(
        &mut self,
        cursor: &Cursor,
        what: &str,
        column: usize,
    ) -> Result<&mut Action, Fault> {
        let why = format!("{what} belongs to the action right above it, and there is none");
        match (self.open, self.show.logic.actions.last_mut()) {
            (true, Some(action)) => Ok(action),
            _ => Err(cursor.fault(column, why)),
        }
    }

    fn when(&mut self, cursor: &mut Cursor, column: usize) -> Result<(), Fault> {
        let before = self.current(cursor, "`when`", column)?.guards.len();
        let rows = self.rows(cursor, "guard row", before)?;
        self.current(cursor, "`when`", column)?.guards.extend(rows);
        Ok(())
    }

    /// `VARIABLE := SUM`.
    fn assignment(&mut self, cursor: &mut Cursor, column: usize) -> Result<(), Fault> {
        self.current(cursor, "an assignment", column)?;
        let set = variable(cursor, &self.names.variables)?;
        cursor.due(":=")?;
        let row = value(cursor, &self.names.variables)?;
        cursor.end("`+`, `-` or ")?;
        let sets = &mut self.current(cursor, "an assignment", column)?.sets;
        match sets.binary_search_by_key(&set, |&(other, _)| other) {
            Err(place) => sets.insert(place, (set, row)),
            Ok(_) => {
                let name = &self.names.variables[set];
                return Err(cursor.fault(column, format!("this action assigns `{name}` already")));
            }
        }
        Ok(())
    }

    fn forbid(&mut self, cursor: &mut Cursor, column: usize) -> Result<(), Fault> {
        let forbidden = self.show.logic.forbidden.len();
        room(cursor, column, "forbidden combination", forbidden, ROWS)?;
        let combination = match cursor.take("always") {
            true => Literals::default(),
            false => literals(cursor, &self.names)?,
        };
        cursor.end(if combination.is_empty() {
            ""
        } else {
            "`and` or "
        })?;
        self.show.logic.forbidden.push(combination);
        Ok(())
    }

    fn lemma(&mut self, cursor: &mut Cursor, column: usize) -> Result<(), Fault> {
        room(cursor, column, "lemma", self.show.lemmas.len(), LEMMAS)?;
        let lemma = lemma(cursor, &self.show.logic, &self.names)?;
        self.show.lemmas.push(lemma);
        Ok(())
    }

    /// Does the line begin with a variable, or is it an assignment to what is none?
    fn assigns(&self, cursor: &Cursor) -> bool {
        let variable = |name: &str| self.names.variables.iter().any(|known| known == name);
        let first = cursor.next().filter(|first| first.kind == Kind::Name);
        let second = cursor.second().map(|second| second.text);
        first.is_some_and(|first| second == Some(":=") || variable(first.text))
    }

    /// One line.
    fn line(&mut self, cursor: &mut Cursor) -> Result<(), Fault> {
        let Some(first) = cursor.next() else {
            return Ok(());
        };
        if self.assigns(cursor) {
            return self.assignment(cursor, first.column);
        }
        cursor.skip();
        self.statement(cursor, first.text, first.column)?;
        self.open = matches!(first.text, "action" | "when");
        Ok(())
    }

    /// What stands behind the first token of a line.
    fn statement(&mut self, cursor: &mut Cursor, first: &str, column: usize) -> Result<(), Fault> {
        match first {
            "variable" => self.variable(cursor, column),
            "start" => {
                let rows = self.rows(cursor, "start row", self.show.logic.start.len())?;
                self.show.logic.start.extend(rows);
                Ok(())
            }
            "predicate" => self.predicate(cursor, column),
            "action" => self.action(cursor, column),
            "when" => self.when(cursor, column),
            "forbid" => self.forbid(cursor, column),
            "lemma" => self.lemma(cursor, column),
            other => {
                let message = format!("{} begins no line; expected {STATEMENTS}", quoted(other));
                Err(cursor.fault(column, message))
            }
        }
    }

    /// The show, at the end of the text. Start rows may stand behind a lemma of the start, which does not name them.
    fn end(mut self, text: &str) -> Result<(Show, Names), Fault> {
        if self.show.logic.ranges.is_empty() {
            return Err(Fault::behind(text, "the text ends; expected a variable"));
        }
        let starts = self
            .show
            .lemmas
            .iter_mut()
            .filter(|lemma| lemma.source == Source::Start);
        for lemma in starts {
            let goals = usize::from(lemma.goal != Goal::Never);
            lemma
                .multipliers
                .resize(goals + self.show.logic.start.len(), 0);
        }
        Ok((self.show, self.names))
    }
}

/// A show and its names, or the first place at fault.
pub fn read(text: &str) -> Result<(Show, Names), Fault> {
    let text = text.strip_prefix('\u{FEFF}').unwrap_or(text);
    let mut reader = Reader::default();
    for (k, line) in text.lines().enumerate() {
        reader.line(&mut Cursor::new(k + 1, line)?)?;
    }
    reader.end(text)
}
