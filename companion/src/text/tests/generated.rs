//! Shows at random over all that words can say, with every limit met often.
use crate::show::model::*;
use crate::show::names::Names;
use crate::show::rows::{Range, Row, VARIABLES};
use crate::text::lexer::NAME;
use bulanevior::MOST_ACTIONS;

/// Numbers by a seed (xorshift).
pub struct Random(pub u64);

impl Random {
    fn next(&mut self) -> u64 {
        for shift in [13i32, -7, 17] {
            self.0 ^= match shift {
                0.. => self.0 << shift,
                _ => self.0 >> -shift,
            };
        }
        self.0
    }

    /// A number from low to high; every second time one of these, or an end.
    fn between(&mut self, low: i64, high: i64, often: &[i64]) -> i64 {
        let ends = [low, high];
        match self.next() % 4 {
            0 => ends[self.next() as usize % 2],
            1 if !often.is_empty() => often[self.next() as usize % often.len()],
            _ => low + (self.next() % (high - low + 1) as u64) as i64,
        }
    }

    fn count(&mut self, low: usize, high: usize) -> usize {
        self.between(low as i64, high as i64, &[low as i64]) as usize
    }

    /// True once in so many times.
    fn once_in(&mut self, times: u64) -> bool {
        self.next() % times == 0
    }

    fn row(&mut self, variables: usize) -> Row {
        let mut row = Row::constant(self.between(-CONSTANT, CONSTANT, &[0, 1, -1]));
        for coefficient in &mut row.coefficients[..variables] {
            if self.once_in(3) {
                *coefficient = self.between(-COEFFICIENT, COEFFICIENT, &[1, -1]);
            }
        }
        row
    }

    /// Up to 8 rows, of which some turn the one before around.
    fn rows(&mut self, variables: usize) -> Vec<Row> {
        let mut rows = Vec::new();
        for _ in 0..self.count(0, ROWS) {
            let row = match rows.last() {
                Some(last) if self.once_in(3) => Row::default().plus(-1, last),
                _ => self.row(variables),
            };
            rows.push(row);
        }
        rows
    }

    fn literals(&mut self, predicates: usize) -> Literals {
        let mut all = Literals::default();
        for p in 0..predicates {
            if self.once_in(2) {
                all = all.with(p, self.once_in(2));
            }
        }
        all
    }

    fn action(&mut self, variables: usize) -> Action {
        let guards = self.rows(variables);
        let set: Vec<usize> = (0..variables).filter(|_| self.once_in(2)).collect();
        let sets = set.into_iter().map(|v| (v, self.row(variables)));
        Action {
            guards,
            sets: sets.collect(),
        }
    }

    fn logic(&mut self) -> Logic {
        let variables = self.count(1, VARIABLES);
        let range = |random: &mut Random| {
            let [a, b] = [0; 2].map(|_| random.between(LOWEST, HIGHEST, &[0, 1]));
            Range {
                low: a.min(b),
                high: a.max(b),
            }
        };
        let predicates = self.count(0, PREDICATES);
        let (actions, forbidden) = (self.count(0, MOST_ACTIONS), self.count(0, ROWS));
        Logic {
            ranges: (0..variables).map(|_| range(self)).collect(),
            start: self.rows(variables),
            predicates: (0..predicates).map(|_| self.row(variables)).collect(),
            actions: (0..actions).map(|_| self.action(variables)).collect(),
            forbidden: (0..forbidden).map(|_| self.literals(predicates)).collect(),
        }
    }

    fn goal(&mut self, logic: &Logic, source: Source) -> Goal {
        let (_, sets) = logic.source(source);
        let predicates = logic.predicates.len();
        match self.next() % 5 {
            1 if predicates > 0 => Goal::Holds(self.count(0, predicates - 1)),
            2 if predicates > 0 => Goal::Fails(self.count(0, predicates - 1)),
            3 if !sets.is_empty() => Goal::Low(sets[self.count(0, sets.len() - 1)].0),
            4 if !sets.is_empty() => Goal::High(sets[self.count(0, sets.len() - 1)].0),
            _ => Goal::Never,
        }
    }

    fn lemma(&mut self, logic: &Logic) -> Lemma {
        let source = match logic.actions.len() {
            n if n > 0 && !self.once_in(5) => Source::Action(self.count(0, n - 1)),
            _ => Source::Start,
        };
        let goal = self.goal(logic, source);
        let premises = match source {
            Source::Start => Literals::default(),
            Source::Action(_) => self.literals(logic.predicates.len()),
        };
        let rows = logic.rows(source, goal, premises).len();
        let multipliers = (0..rows).map(|_| self.between(0, MULTIPLIER, &[0, 1, 2]));
        Lemma {
            source,
            goal,
            premises,
            multipliers: multipliers.collect(),
        }
    }

    /// A show; one in 40 has as many lemmas as there may be.
    pub fn show(&mut self) -> Show {
        let logic = self.logic();
        let lemmas = match self.once_in(40) {
            true => LEMMAS,
            false => self.count(0, 12),
        };
        let lemmas = (0..lemmas).map(|_| self.lemma(&logic)).collect();
        Show { logic, lemmas }
    }

    /// Names of all lengths.
    pub fn names(&mut self, logic: &Logic) -> Names {
        let mut names = Names::numbered(logic);
        let all = [
            &mut names.variables,
            &mut names.predicates,
            &mut names.actions,
        ];
        for name in all.into_iter().flatten() {
            let most = NAME - name.len();
            let letter = ["_", "Z", "q", "9"][self.count(0, 3)];
            name.push_str(&letter.repeat(self.count(0, most)));
        }
        names
    }
}

/// The show with the longest text, and its names.
pub fn longest() -> (Show, Names) {
    let mut row = Row::constant(-CONSTANT);
    row.coefficients = [-COEFFICIENT; VARIABLES];
    let lowest = Range {
        low: LOWEST,
        high: LOWEST,
    };
    let action = Action {
        guards: vec![row; ROWS],
        sets: (0..VARIABLES).map(|v| (v, row)).collect(),
    };
    let none = Literals {
        holds: 0,
        fails: (1 << PREDICATES) - 1,
    };
    let lemma = Lemma {
        source: Source::Action(0),
        goal: Goal::Fails(0),
        premises: none,
        multipliers: vec![MULTIPLIER; 1 + PREDICATES + ROWS],
    };
    let logic = Logic {
        ranges: vec![lowest; VARIABLES],
        start: vec![row; ROWS],
        predicates: vec![row; PREDICATES],
        actions: vec![action; MOST_ACTIONS],
        forbidden: vec![none; ROWS],
    };
    let mut names = Names::numbered(&logic);
    let all = [
        &mut names.variables,
        &mut names.predicates,
        &mut names.actions,
    ];
    for name in all.into_iter().flatten() {
        name.push_str(&"_".repeat(NAME - name.len()));
    }
    let lemmas = vec![lemma; LEMMAS];
    (Show { logic, lemmas }, names)
}
