//! Logics and lemmas as plain values, the rows that a lemma is about, and their words.
use super::rows::{Range, Row};
use bulanevior::{known, raw, word, End};

/// The most start rows, guard rows or assignments of an action, and forbidden combinations, which are the same.
pub const ROWS: usize = bulanevior::MOST_START_ROWS;
/// The most predicates of a logic.
pub const PREDICATES: usize = bulanevior::MOST_PREDICATES;
/// The most lemmas of a list.
pub const LEMMAS: usize = bulanevior::MOST_LEMMAS;
/// The ends of the widest range, and the limits of a row's constant, of a coefficient and of a multiplier.
pub const LOWEST: i64 = raw::BNV_LOWEST as i64;
pub const HIGHEST: i64 = raw::BNV_HIGHEST as i64;
pub const CONSTANT: i64 = raw::BNV_MOST_CONSTANT as i64;
pub const COEFFICIENT: i64 = raw::BNV_MOST_COEFFICIENT as i64;
pub const MULTIPLIER: i64 = raw::BNV_MOST_MULTIPLIER as i64;

/// Predicates that hold and predicates that fail, predicate p in bit p.
#[derive(Clone, Copy, Debug, Default, PartialEq, Eq, PartialOrd, Ord, Hash)]
pub struct Literals {
    pub holds: u32,
    pub fails: u32,
}

impl Literals {
    /// Those that are known at a node, by a graph list.
    pub fn at(graph: &[u32], actions: usize, node: usize) -> Option<Literals> {
        let (holds, fails) = known(graph, actions, node)?;
        Some(Literals { holds, fails })
    }

    /// Those of a SETS word.
    pub fn of(sets: u32) -> Literals {
        Literals {
            holds: word::sets_hold(sets),
            fails: word::sets_fail(sets),
        }
    }

    pub fn is_empty(self) -> bool {
        self == Literals::default()
    }

    /// Each predicate with whether it holds, by rising predicate.
    pub fn each(self) -> impl Iterator<Item = (usize, bool)> {
        let known = move |p: &usize| (self.holds | self.fails) >> p & 1 == 1;
        let literal = move |p: usize| (p, self.holds >> p & 1 == 1);
        (0..PREDICATES).filter(known).map(literal)
    }

    /// Are all of the others among these?
    pub fn contains(self, others: Literals) -> bool {
        others.holds & !self.holds == 0 && others.fails & !self.fails == 0
    }

    /// These and one more.
    pub fn with(self, predicate: usize, holds: bool) -> Literals {
        let mut all = self;
        match holds {
            true => all.holds |= 1 << predicate,
            false => all.fails |= 1 << predicate,
        }
        all
    }

    /// These without any of a predicate.
    pub fn without(self, predicate: usize) -> Literals {
        Literals {
            holds: self.holds & !(1 << predicate),
            fails: self.fails & !(1 << predicate),
        }
    }

    fn word(self) -> u32 {
        word::sets(self.holds, self.fails)
    }
}

/// Guard rows, and for each variable that it sets, by rising number, the row of its new value.
#[derive(Clone, Debug, Default, PartialEq, Eq)]
pub struct Action {
    pub guards: Vec<Row>,
    pub sets: Vec<(usize, Row)>,
}

#[derive(Clone, Debug, Default, PartialEq, Eq)]
pub struct Logic {
    pub ranges: Vec<Range>,
    pub start: Vec<Row>,
    pub predicates: Vec<Row>,
    pub actions: Vec<Action>,
    pub forbidden: Vec<Literals>,
}

/// What a lemma speaks of.
#[derive(Clone, Copy, Debug, PartialEq, Eq, PartialOrd, Ord, Hash)]
pub enum Source {
    Action(usize),
    Start,
}

/// What a lemma says of it.
#[derive(Clone, Copy, Debug, PartialEq, Eq, PartialOrd, Ord, Hash)]
pub enum Goal {
    /// It cannot happen.
    Never,
    /// The predicate holds afterwards.
    Holds(usize),
    /// The predicate fails afterwards.
    Fails(usize),
    /// The variable is not below its low end afterwards.
    Low(usize),
    /// The variable is not above its high end afterwards.
    High(usize),
}

impl Goal {
    /// That a predicate holds, or fails, afterwards.
    pub fn literal(predicate: usize, holds: bool) -> Goal {
        match holds {
            true => Goal::Holds(predicate),
            false => Goal::Fails(predicate),
        }
    }

    /// That an end of a variable is kept to.
    pub fn kept(variable: usize, end: End) -> Goal {
        match end {
            End::Low => Goal::Low(variable),
            End::High => Goal::High(variable),
        }
    }
}

#[derive(Clone, Debug, PartialEq, Eq)]
pub struct Lemma {
    pub source: Source,
    pub goal: Goal,
    pub premises: Literals,
    /// One for each of its `rows`.
    pub multipliers: Vec<i64>,
}

#[derive(Clone, Debug, Default, PartialEq, Eq)]
pub struct Show {
    pub logic: Logic,
    pub lemmas: Vec<Lemma>,
}

impl Row {
    fn words(&self, words: &mut Vec<u32>) {
        words.push(word::row(self.constant as i32));
        let term = |(variable, coefficient)| word::term(variable, coefficient as i32);
        words.extend(self.terms().map(term));
    }
}

impl Action {
    fn words(&self, words: &mut Vec<u32>) {
        words.push(word::action(self.guards.len(), self.sets.len()));
        self.guards.iter().for_each(|row| row.words(words));
        for (variable, row) in &self.sets {
            words.push(word::set(*variable));
            row.words(words);
        }
    }
}

impl Logic {
    /// Its words, up to END and with it.
    pub fn words(&self) -> Vec<u32> {
        let var = |range: &Range| word::var(range.low as i32, range.high as i32);
        let mut words: Vec<u32> = self.ranges.iter().map(var).collect();
        words.push(word::init(self.start.len()));
        self.start.iter().for_each(|row| row.words(&mut words));
        words.push(word::pred(self.predicates.len()));
        self.predicates.iter().for_each(|row| row.words(&mut words));
        let actions = self.actions.iter();
        actions.for_each(|action| action.words(&mut words));
        words.extend(self.forbidden.iter().map(|literals| literals.word()));
        words.push(word::END);
        words
    }

    /// The rows that hold before a source happens, and its assignments.
    pub fn source(&self, source: Source) -> (&[Row], &[(usize, Row)]) {
        match source {
            Source::Start => (&self.start, &[]),
            Source::Action(k) => (&self.actions[k].guards, &self.actions[k].sets),
        }
    }

    /// The row of a literal: it holds where the literal is so.
    pub fn literal(&self, predicate: usize, holds: bool) -> Row {
        let row = self.predicates[predicate];
        if holds {
            row
        } else {
            row.negated()
        }
    }

    /// The row that holds where a goal does; for `Never` there is none.
    pub fn goal(&self, goal: Goal) -> Option<Row> {
        let range = |variable: usize| self.ranges[variable];
        match goal {
            Goal::Never => None,
            Goal::Holds(p) => Some(self.literal(p, true)),
            Goal::Fails(p) => Some(self.literal(p, false)),
            Goal::Low(v) => Some(Row::constant(-range(v).low).plus(1, &Row::variable(v))),
            Goal::High(v) => Some(Row::constant(range(v).high).plus(-1, &Row::variable(v))),
        }
    }

    /// The rows that a lemma of this source, goal and premises multiplies, in the order of its multipliers.
    pub fn rows(&self, source: Source, goal: Goal, premises: Literals) -> Vec<Row> {
        let (before, sets) = self.source(source);
        let negated = self.goal(goal).map(|row| row.after(sets).negated());
        let premises = premises.each().map(|(p, holds)| self.literal(p, holds));
        let rows = negated.into_iter().chain(premises);
        rows.chain(before.iter().copied()).collect()
    }
}

impl Lemma {
    fn words(&self, words: &mut Vec<u32>) {
        let source = match self.source {
            Source::Start => raw::BNV_START as usize,
            Source::Action(k) => k,
        };
        let (goal, index) = match self.goal {
            Goal::Never => (raw::BNV_GOAL_NEVER, 0),
            Goal::Holds(p) => (raw::BNV_GOAL_HOLDS, p),
            Goal::Fails(p) => (raw::BNV_GOAL_FAILS, p),
            Goal::Low(v) => (raw::BNV_GOAL_LOW, v),
            Goal::High(v) => (raw::BNV_GOAL_HIGH, v),
        };
        words.push(word::lemma(source, goal, index));
        words.push(self.premises.word());
        words.extend(self.multipliers.iter().map(|&m| word::mult(m as u32)));
    }

    /// The largest value of its sum over the ranges. It is accepted exactly where this is below 0: so says the scope document, and
    /// `ask`, which is proved, decides.
    pub fn largest(&self, logic: &Logic) -> i64 {
        let rows = logic.rows(self.source, self.goal, self.premises);
        let parts = self.multipliers.iter().zip(&rows);
        let sum = parts.fold(Row::default(), |sum, (times, row)| sum.plus(*times, row));
        sum.largest(&logic.ranges)
    }
}

/// The words of a list of lemmas.
pub fn lemma_words(lemmas: &[Lemma]) -> Vec<u32> {
    let mut words = Vec::new();
    lemmas.iter().for_each(|lemma| lemma.words(&mut words));
    words
}

impl Show {
    /// The bytes of its file: the words of the logic, then those of the lemmas, little-endian.
    pub fn bytes(&self) -> Vec<u8> {
        let words = self.logic.words().into_iter();
        let words = words.chain(lemma_words(&self.lemmas));
        words.flat_map(u32::to_le_bytes).collect()
    }
}
