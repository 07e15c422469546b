//! Reading lemmas (refusals 5 and 6) and weighing them.

use crate::program::{Literals, Program, Row};
use crate::words::*;
use crate::Refusal;

#[derive(Clone, Copy, Debug, PartialEq, Eq)]
pub enum Source {
    Start,
    Action(usize),
}

#[derive(Clone, Copy, Debug, PartialEq, Eq)]
pub enum Goal {
    /// 0: the source cannot happen
    Cannot,
    /// 1: predicate holds afterwards
    Holds(usize),
    /// 2: it fails afterwards
    Fails(usize),
    /// 3: variable is not below its low end afterwards
    NotBelow(usize),
    /// 4: not above its high end
    NotAbove(usize),
}

#[derive(Clone, Debug)]
pub struct Lemma {
    pub source: Source,
    pub goal: Goal,
    pub premises: Literals,
    /// In the order of the words: negated goal (not for goal 0), premises by rising predicate, the
    /// rows of the source.
    pub multipliers: Vec<u32>,
}

/// The rows of a source: "an action's guard rows, or the start rows".
fn source_rows(program: &Program, source: Source) -> &[Row] {
    match source {
        Source::Start => &program.start,
        Source::Action(action) => &program.actions[action].guards,
    }
}

/// What a LEMMA word says, if it says something that the program allows.
fn source_and_goal(program: &Program, word: u32) -> Option<(Source, Goal)> {
    if kind(word) != LEMMA || field(word, 15, 8) != 0 {
        return None;
    }
    // "A source other than 255 needs an action of that number there."
    let source = match field(word, 27, 20) {
        START => Source::Start,
        action if (action as usize) < program.actions.len() => Source::Action(action as usize),
        _ => return None,
    };
    let index = field(word, 7, 0) as usize;
    // "Goals 3 and 4 need an action that sets that variable."
    let sets_it = match source {
        Source::Start => false,
        Source::Action(action) => program.actions[action].assigned(index).is_some(),
    };
    let goal = match field(word, 19, 16) {
        0 if index == 0 => Goal::Cannot,
        1 if index < program.predicates.len() => Goal::Holds(index),
        2 if index < program.predicates.len() => Goal::Fails(index),
        3 if sets_it => Goal::NotBelow(index),
        4 if sets_it => Goal::NotAbove(index),
        _ => return None,
    };
    Some((source, goal))
}

/// The whole lemma list. "a lemma word missing or against the above" is 5 at that word; "a 513th
/// LEMMA word where a lemma may begin, any payload" is 6.
pub fn read(program: &Program, words: &[u32]) -> Result<Vec<Lemma>, Refusal> {
    let refuse = |number: u32, at: usize| Refusal { number, value: at as u64 };
    let mut lemmas: Vec<Lemma> = Vec::new();
    let mut at = 0;
    while at < words.len() {
        if lemmas.len() == MAX_LEMMAS {
            return Err(refuse(if kind(words[at]) == LEMMA { 6 } else { 5 }, at));
        }
        let (source, goal) = source_and_goal(program, words[at]).ok_or(refuse(5, at))?;
        at += 1;

        // "Its SETS obeys the rules of a forbidden combination"; the start's premises are empty.
        let premises = match words.get(at) {
            Some(word) if kind(*word) == SETS => Literals::of_word(*word),
            _ => return Err(refuse(5, at)),
        };
        if !premises.good(program.predicates.len()) || (source == Source::Start && !premises.is_empty()) {
            return Err(refuse(5, at));
        }
        at += 1;

        let negated_goal = usize::from(goal != Goal::Cannot);
        let literals = (premises.known_false | premises.known_true).count_ones() as usize;
        let due = negated_goal + literals + source_rows(program, source).len();
        let mut multipliers = Vec::with_capacity(due);
        for _ in 0..due {
            match words.get(at) {
                Some(word) if kind(*word) == MULT && payload(*word) <= MAX_MULTIPLIER => {
                    multipliers.push(payload(*word));
                }
                _ => return Err(refuse(5, at)),
            }
            at += 1;
        }
        lemmas.push(Lemma { source, goal, premises, multipliers });
    }
    Ok(lemmas)
}

/// A row over i128, so that no limit of the document can be passed unseen.
#[derive(Clone, Copy, Debug, PartialEq, Eq, Default)]
pub struct Wide {
    pub coefficients: [i128; MAX_VARIABLES],
    pub constant: i128,
}

impl Wide {
    fn of(row: &Row) -> Wide {
        let mut wide = Wide { constant: i128::from(row.constant), ..Wide::default() };
        for (to, from) in wide.coefficients.iter_mut().zip(row.coefficients) {
            *to = i128::from(from);
        }
        wide
    }

    /// "Its negation is minus the row minus 1."
    pub fn negated(&self) -> Wide {
        let mut row = *self;
        for coefficient in row.coefficients.iter_mut() {
            *coefficient = -*coefficient;
        }
        row.constant = -row.constant - 1;
        row
    }

    fn add(&mut self, factor: i128, row: &Wide) {
        for (to, from) in self.coefficients.iter_mut().zip(row.coefficients) {
            *to += factor * from;
        }
        self.constant += factor * row.constant;
    }

    /// "Over the ranges the sum is largest with the high end under each positive coefficient and
    /// the low end under each negative one."
    pub fn largest(&self, program: &Program) -> i128 {
        let mut total = self.constant;
        for (range, coefficient) in program.ranges.iter().zip(self.coefficients) {
            let end = if coefficient > 0 { range.high } else { range.low };
            total += coefficient * i128::from(end);
        }
        total
    }
}

/// "'Afterwards' puts the action's assignments into the row; for the start nothing changes."
/// All at once: every assigned row speaks of the old values.
fn afterwards(program: &Program, source: Source, row: &Wide) -> Wide {
    let action = match source {
        Source::Start => return *row,
        Source::Action(action) => &program.actions[action],
    };
    let mut after = *row;
    for assignment in &action.assignments {
        after.coefficients[assignment.variable] = 0;
    }
    for assignment in &action.assignments {
        after.add(row.coefficients[assignment.variable], &Wide::of(&assignment.row));
    }
    after
}

/// The row of the goal before "afterwards"; None for goal 0.
fn goal_row(program: &Program, goal: Goal) -> Option<Wide> {
    let mut row = Wide::default();
    match goal {
        Goal::Cannot => return None,
        Goal::Holds(predicate) => row = Wide::of(&program.predicates[predicate]),
        Goal::Fails(predicate) => row = Wide::of(&program.predicates[predicate]).negated(),
        // "The row of goal 3 is the variable minus its low end"
        Goal::NotBelow(variable) => {
            row.coefficients[variable] = 1;
            row.constant = -i128::from(program.ranges[variable].low);
        }
        // "that of goal 4 is its high end minus the variable"
        Goal::NotAbove(variable) => {
            row.coefficients[variable] = -1;
            row.constant = i128::from(program.ranges[variable].high);
        }
    }
    Some(row)
}

/// "Each row of a lemma is multiplied by its number and all are added." The sum row, exact.
pub fn sum(program: &Program, lemma: &Lemma) -> Wide {
    let mut rows = Vec::with_capacity(lemma.multipliers.len());
    if let Some(row) = goal_row(program, lemma.goal) {
        rows.push(afterwards(program, lemma.source, &row).negated());
    }
    for (predicate, row) in program.predicates.iter().enumerate() {
        if lemma.premises.known_true >> predicate & 1 == 1 {
            rows.push(Wide::of(row));
        } else if lemma.premises.known_false >> predicate & 1 == 1 {
            rows.push(Wide::of(row).negated());
        }
    }
    rows.extend(source_rows(program, lemma.source).iter().map(Wide::of));
    debug_assert_eq!(rows.len(), lemma.multipliers.len());

    let mut total = Wide::default();
    for (row, multiplier) in rows.iter().zip(&lemma.multipliers) {
        total.add(i128::from(*multiplier), row);
    }
    total
}

/// "The lemma is accepted exactly when this largest value is below 0." None is refusal 11: a
/// coefficient or the constant of the sum row, or its largest value, is no signed 64-bit number.
pub fn weigh(program: &Program, lemma: &Lemma) -> Option<bool> {
    let total = sum(program, lemma);
    let largest = total.largest(program);
    let fits = |value: i128| i64::try_from(value).is_ok();
    if total.coefficients.iter().all(|c| fits(*c)) && fits(total.constant) && fits(largest) {
        Some(largest < 0)
    } else {
        None
    }
}
