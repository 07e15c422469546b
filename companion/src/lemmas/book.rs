//! The lemmas found so far. One is looked for where it is first wanted, with all that is known there, and then freed of the premises that it
//! can do without, so that it applies at as many nodes as possible.
use super::explore::{place, Shown, PLACES};
use crate::show::model::{Goal, Lemma, Literals, Logic, Source};
use crate::show::rows::Row;
use crate::solve::{refute, Refutation};
use std::collections::{BTreeSet, HashMap};

/// What there is of a source and a goal.
struct Page {
    /// The predicates that can bear on the goal.
    bearing: u32,
    /// Its lemmas, by number.
    lemmas: Vec<usize>,
    /// What was found where these literals of such predicates were known.
    found: HashMap<Literals, Option<usize>>,
}

pub struct Book<'a> {
    logic: &'a Logic,
    lemmas: Vec<Lemma>,
    /// By `place`.
    pages: Vec<Option<Page>>,
    /// Can these literals all hold?
    consistent: HashMap<Literals, bool>,
    /// Those that have shown something since the last `begin`.
    used: BTreeSet<usize>,
}

impl Shown for Book<'_> {
    const SEEKS: bool = true;

    fn logic(&self) -> &Logic {
        self.logic
    }

    /// It is looked for if there is none yet.
    fn shows(&mut self, source: Source, goal: Goal, known: Literals) -> bool {
        let whole = goal == Goal::Never && !self.consistent(known);
        let page = self.pages[place(source, goal)].get_or_insert_with(|| Page {
            bearing: bearing(self.logic, source, goal),
            lemmas: Vec::new(),
            found: HashMap::new(),
        });
        let mask = if whole { u32::MAX } else { page.bearing };
        let known = Literals {
            holds: known.holds & mask,
            fails: known.fails & mask,
        };
        let found = match page.found.get(&known) {
            Some(&found) => found,
            None => self.sought(source, goal, known),
        };
        self.used.extend(found);
        found.is_some()
    }
}

impl<'a> Book<'a> {
    pub fn new(logic: &'a Logic) -> Book<'a> {
        Book {
            logic,
            lemmas: Vec::new(),
            pages: std::iter::repeat_with(|| None).take(PLACES).collect(),
            consistent: HashMap::new(),
            used: BTreeSet::new(),
        }
    }

    /// From here on `used` counts.
    pub fn begin(&mut self) {
        self.used.clear();
    }

    /// The lemmas that have shown something since the last `begin`.
    pub fn used(&self) -> Vec<Lemma> {
        self.used.iter().map(|&k| self.lemmas[k].clone()).collect()
    }

    /// A lemma that applies where these literals are known: one that is there, or one that is found now.
    fn sought(&mut self, source: Source, goal: Goal, known: Literals) -> Option<usize> {
        let applies = |&&k: &&usize| known.contains(self.lemmas[k].premises);
        let place = place(source, goal);
        let there = self.pages[place].as_ref();
        let there = there.and_then(|page| page.lemmas.iter().find(applies).copied());
        let new = match there {
            Some(_) => None,
            None => self.found(source, goal, known),
        };
        let number = there.or(new.is_some().then_some(self.lemmas.len()));
        if let Some(page) = &mut self.pages[place] {
            page.found.insert(known, number);
            page.lemmas.extend(new.as_ref().and(number));
        }
        self.lemmas.extend(new);
        number
    }

    /// A lemma none of whose premises it can do without.
    pub fn found(&self, source: Source, goal: Goal, known: Literals) -> Option<Lemma> {
        let none = Literals::default();
        if let Some(lemma) = self.lemma(source, goal, none) {
            return Some(lemma);
        }
        let first = self.lemma(source, goal, known)?;
        let fewer = |lemma: Lemma, (p, _)| match lemma.premises.without(p) {
            premises if premises == lemma.premises => lemma,
            premises => self.lemma(source, goal, premises).unwrap_or(lemma),
        };
        Some(known.each().fold(first, fewer))
    }

    /// The lemma of these premises, less those that its sum does not need.
    fn lemma(&self, source: Source, goal: Goal, premises: Literals) -> Option<Lemma> {
        let rows = self.logic.rows(source, goal, premises);
        let Refutation::Multipliers(mut multipliers) = refute(&rows, &self.logic.ranges) else {
            return None;
        };
        let first = usize::from(goal != Goal::Never);
        let needed = premises.each().zip(&multipliers[first..]);
        let needed = needed.filter(|(_, times)| **times != 0);
        let kept = needed.fold(Literals::default(), |all, ((p, holds), _)| {
            all.with(p, holds)
        });
        let last = first + premises.each().count();
        let mut at = 0..;
        multipliers.retain(|&times| {
            let premise = at.next().is_some_and(|k| (first..last).contains(&k));
            !premise || times != 0
        });
        let lemma = Lemma {
            source,
            goal,
            premises: kept,
            multipliers,
        };
        (lemma.largest(self.logic) < 0).then_some(lemma)
    }

    fn consistent(&mut self, known: Literals) -> bool {
        let logic = self.logic;
        *self.consistent.entry(known).or_insert_with(|| {
            let literal = |(p, holds)| logic.literal(p, holds);
            let rows: Vec<Row> = known.each().map(literal).collect();
            !matches!(refute(&rows, &logic.ranges), Refutation::Multipliers(_))
        })
    }
}

/// The variables of a row, variable v in bit v.
fn variables(row: &Row) -> u32 {
    row.terms().fold(0, |all, (v, _)| all | 1 << v)
}

/// The predicates that can bear on a goal: those that its row, or for `Never` the source's rows, are joined to by common variables. Literals of
/// others bear on it only where they cannot all hold, and then the source cannot happen.
fn bearing(logic: &Logic, source: Source, goal: Goal) -> u32 {
    let (before, sets) = logic.source(source);
    let first = match logic.goal(goal) {
        Some(row) => variables(&row.after(sets)),
        None => before.iter().fold(0, |all, row| all | variables(row)),
    };
    let rows = || before.iter().chain(&logic.predicates).map(variables);
    let joined = (0..logic.ranges.len()).fold(first, |joined, _| {
        let touching = rows().filter(|row| row & joined != 0);
        touching.fold(joined, |all, row| all | row)
    });
    let predicates = logic.predicates.iter().enumerate();
    let bearing = predicates.filter(|(_, row)| variables(row) & joined != 0);
    bearing.fold(0, |all, (p, _)| all | 1 << p)
}
