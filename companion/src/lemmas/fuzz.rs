//! Logics by dice: nothing panics, every lemma found is accepted, and the companion's own exploration comes to what the proved call says.
use super::checker::Checker;
use super::explore::{everything, explore, Listed};
use super::{finder, run};
use crate::input;
use crate::output::Status;
use crate::show::model::*;
use crate::show::rows::{Range, Row};
use crate::solve::dice::Dice;
use bulanevior::{judge, Verdict, GRAPH_WORDS, MOST_NODES, PATH_WORDS};

/// How large logics are, and their numbers.
#[derive(Clone, Copy)]
struct Size {
    variables: i64,
    predicates: i64,
    actions: i64,
    rows: i64,
    range: i64,
    coefficient: i64,
    constant: i64,
}

impl Size {
    /// A row of which as a rule one or two variables have a coefficient.
    fn row(&self, dice: &mut Dice, variables: usize) -> Row {
        let mut row = Row::constant(dice.roll(-self.constant, self.constant));
        for _ in 0..dice.roll(1, 2) {
            let v = dice.roll(0, variables as i64 - 1) as usize;
            row.coefficients[v] = dice.roll(-self.coefficient, self.coefficient);
        }
        row
    }

    fn rows(&self, dice: &mut Dice, variables: usize, most: i64) -> Vec<Row> {
        let count = dice.roll(0, most);
        (0..count).map(|_| self.row(dice, variables)).collect()
    }

    /// What an action sets a variable to: a number, itself and a little more or less, or anything.
    fn set(&self, dice: &mut Dice, variables: usize, v: usize) -> Row {
        match dice.roll(0, 4) {
            0 => Row::constant(dice.roll(0, self.range)),
            1..=3 => Row::constant(dice.roll(-2, 2)).plus(1, &Row::variable(v)),
            _ => self.row(dice, variables),
        }
    }

    fn action(&self, dice: &mut Dice, variables: usize) -> Action {
        let guards = self.rows(dice, variables, self.rows);
        let set: Vec<usize> = (0..variables).filter(|_| dice.roll(0, 2) == 0).collect();
        let sets = set.into_iter().map(|v| (v, self.set(dice, variables, v)));
        Action {
            guards,
            sets: sets.collect(),
        }
    }

    fn logic(&self, dice: &mut Dice) -> Logic {
        let variables = dice.roll(1, self.variables) as usize;
        let range = |_| Range {
            low: 0,
            high: dice.roll(0, self.range),
        };
        let ranges = (0..variables).map(range).collect();
        let start = self.rows(dice, variables, self.rows);
        let predicates = self.rows(dice, variables, self.predicates);
        let actions = dice.roll(0, self.actions);
        let actions = (0..actions).map(|_| self.action(dice, variables)).collect();
        let count = predicates.len();
        let combination = |_| {
            let none = Literals::default();
            (0..count).fold(none, |all, p| match dice.roll(0, 5) {
                0 => all.with(p, true),
                1 => all.with(p, false),
                _ => all,
            })
        };
        Logic {
            ranges,
            start,
            forbidden: (0..2).map(combination).collect(),
            predicates,
            actions,
        }
    }
}

/// The proved call and the companion's exploration, each with its nodes and whether nothing may go wrong.
fn both(logic: &Logic, lemmas: &[Lemma]) -> ((usize, bool), (usize, bool)) {
    let (mut graph, mut path) = (vec![0; GRAPH_WORDS], vec![0; PATH_WORDS]);
    let words = lemma_words(lemmas);
    let proved = judge(&logic.words(), &words, &mut graph, &mut path).unwrap();
    let mut listed = Listed::new(logic, lemmas);
    let own = explore(&mut listed, everything(logic), MOST_NODES);
    (
        (proved.nodes, proved.verdict == Verdict::Safe),
        (own.nodes, own.faults.is_empty()),
    )
}

/// How many of some logics are safe. The command's status is by the same verdict, and where it is none, it says what is lacking.
fn tried(seed: u64, count: usize, logic: impl Fn(&mut Dice) -> Logic) -> usize {
    let mut dice = Dice(seed);
    let mut safe = 0;
    for _ in 0..count {
        let logic = logic(&mut dice);
        let mut checker = Checker::new(&logic);
        let lemmas = finder::find(&logic, &mut checker).unwrap();
        let (proved, own) = both(&logic, &lemmas);
        assert_eq!(proved, own, "{logic:?}");
        safe += usize::from(proved.1);
        let lemmas = Vec::new();
        let input = input::of(crate::show::model::Show { logic, lemmas }.bytes());
        let said = run(&input.unwrap_or_else(|_| panic!("no show"))).unwrap();
        assert_eq!(said.status == Status::Good, proved.1);
        assert_eq!(said.behind.len() > 1, !proved.1);
    }
    safe
}

#[test]
fn small_logics() {
    let size = Size {
        variables: 3,
        predicates: 4,
        actions: 4,
        rows: 2,
        range: 6,
        coefficient: 2,
        constant: 4,
    };
    let safe = tried(1, 2_000, |dice| size.logic(dice));
    assert!(safe > 100 && safe < 1_900, "{safe}");
}

#[test]
fn large_logics() {
    let size = Size {
        variables: 8,
        predicates: 14,
        actions: 16,
        rows: 8,
        range: 8_191,
        coefficient: 1_000,
        constant: 1_000_000,
    };
    tried(2, 200, |dice| size.logic(dice));
}

/// Faders and switches that are all out at the start, actions on one of them each, with predicates in their guards, and pairs that exclude each
/// other: graphs of many nodes.
fn desk(dice: &mut Dice) -> Logic {
    let variables = dice.roll(2, 8) as usize;
    let mut pick = |count: usize| dice.roll(0, count as i64 - 1) as usize;
    let highs: Vec<i64> = (0..variables).map(|_| [1, 1, 10, 1000][pick(4)]).collect();
    let ranges = highs.iter().map(|&high| Range { low: 0, high });
    let out = |v: usize| Row::default().plus(-1, &Row::variable(v));
    let mut logic = Logic {
        ranges: ranges.collect(),
        start: (0..variables).map(out).collect(),
        ..Logic::default()
    };
    for _ in 0..=pick(PREDICATES) {
        let v = pick(variables);
        let level = Row::constant(-1 - pick(highs[v] as usize) as i64);
        logic.predicates.push(level.plus(1, &Row::variable(v)));
    }
    let predicates = logic.predicates.len();
    for _ in 0..2 + pick(15) {
        let v = pick(variables);
        let (step, all) = ([1, -1, 0][pick(3)], Row::variable(v));
        let mut guards: Vec<Row> = (0..pick(3))
            .map(|_| logic.literal(pick(predicates), pick(3) == 0))
            .collect();
        guards.push(match step {
            1 => Row::constant(highs[v] - 1).plus(-1, &all),
            _ => Row::constant(step).plus(1, &all),
        });
        let set = match step {
            0 => Row::constant(pick(highs[v] as usize + 1) as i64),
            _ => Row::constant(step).plus(1, &all),
        };
        let sets = vec![(v, set)];
        logic.actions.push(Action { guards, sets });
    }
    for _ in 0..=pick(ROWS) {
        let one = Literals::default().with(pick(predicates), true);
        let other = pick(predicates);
        let pair = one.without(other).with(other, true);
        logic.forbidden.push(pair);
    }
    logic
}

#[test]
fn desks() {
    let safe = tried(3, 300, desk);
    assert!(safe > 10 && safe < 290, "{safe}");
}
