//! What a start state has to meet to walk a path to its finding: rows over the start state, for assignments are linear and the
//! path says which actions happen.
use crate::show::model::{Goal, Logic};
use crate::show::rows::Row;
use crate::solve::{self, Found};
use crate::verdict::Step;
use bulanevior::Finding;

/// The rows that each stage adds: the start, each press, and the finding at the end.
pub struct Walk {
    stages: Vec<Vec<Row>>,
}

/// How far start states can walk a path.
pub enum Reach {
    /// This one walks it, and what was found happens there.
    Whole(Vec<i64>),
    /// No state passes this stage, and one passes those before it: 0 is the start, k press k, the last the finding.
    Until(usize),
    /// The search was given up.
    Unknown,
}

/// The row that says how a finding really happens after the path: each literal of the combination, or the action's guard and
/// a new value off its range.
fn ending(logic: &Logic, finding: Finding) -> Vec<Row> {
    match finding {
        Finding::MayForbid { combination, .. } => logic.forbidden[combination]
            .each()
            .map(|(p, holds)| logic.literal(p, holds))
            .collect(),
        Finding::MayRunOff {
            action,
            variable,
            end,
            ..
        } => {
            let goal = Goal::kept(variable, end);
            let action = &logic.actions[action];
            let off = logic
                .goal(goal)
                .map(|row| row.after(&action.sets).negated());
            action.guards.iter().copied().chain(off).collect()
        }
    }
}

/// Rows about a later state, as rows about the first one.
fn over(rows: &[Row], values: &[Row]) -> Option<Vec<Row>> {
    rows.iter().map(|row| row.through(values)).collect()
}

/// The rows of one press, and the values behind it.
fn press(logic: &Logic, action: usize, values: &[Row]) -> Option<(Vec<Row>, Vec<Row>)> {
    let action = &logic.actions[action];
    let mut rows = over(&action.guards, values)?;
    let mut next = values.to_vec();
    for (variable, row) in &action.sets {
        let value = row.through(values)?;
        let range = logic.ranges[*variable];
        rows.push(value.plus_checked(-range.low, &Row::constant(1))?);
        rows.push(Row::constant(range.high).plus_checked(-1, &value)?);
        next[*variable] = value;
    }
    Some((rows, next))
}

impl Walk {
    /// None where a number is too large.
    pub fn new(logic: &Logic, finding: Finding, path: &[Step]) -> Option<Walk> {
        let mut values: Vec<Row> = (0..logic.ranges.len()).map(Row::variable).collect();
        let mut stages = vec![logic.start.clone()];
        for step in path {
            let (rows, next) = press(logic, step.action, &values)?;
            stages.push(rows);
            values = next;
        }
        stages.push(over(&ending(logic, finding), &values)?);
        Some(Walk { stages })
    }

    /// A state that passes the first so many stages.
    fn passing(&self, logic: &Logic, stages: usize) -> Found {
        solve::state(&self.stages[..stages].concat(), &logic.ranges)
    }

    pub fn reach(&self, logic: &Logic) -> Reach {
        match self.passing(logic, self.stages.len()) {
            Found::State(state) => Reach::Whole(state),
            Found::Unknown => Reach::Unknown,
            Found::None => {
                // What no state passes, none passes with more rows: the first such stage, by halving.
                let all: Vec<usize> = (0..self.stages.len()).collect();
                let passes = |stage: &usize| self.passing(logic, stage + 1) != Found::None;
                let stage = all.partition_point(passes);
                // Whether one passes the stages before it may be what the search was given up over.
                match stage > 0 && self.passing(logic, stage) == Found::Unknown {
                    true => Reach::Unknown,
                    false => Reach::Until(stage),
                }
            }
        }
    }
}

#[cfg(test)]
mod tests {
    use super::*;
    use crate::explain::hunt::{forbidden, step};
    use crate::show::model::{Action, Literals};
    use crate::show::rows::Range;
    use crate::solve::dice::Dice;
    use bulanevior::End;

    /// Logics and findings by dice.
    struct Made(Dice);

    impl Made {
        fn roll(&mut self, low: i64, high: i64) -> i64 {
            self.0.roll(low, high)
        }

        fn row(&mut self) -> Row {
            self.0.row(2, 2, 4)
        }

        /// Two variables with few values, two predicates and three actions.
        fn logic(&mut self) -> Logic {
            let action = |dice: &mut Made| Action {
                guards: (0..dice.roll(0, 2)).map(|_| dice.row()).collect(),
                sets: (0..2)
                    .filter(|_| dice.roll(0, 2) > 0)
                    .collect::<Vec<_>>()
                    .into_iter()
                    .map(|v| (v, dice.row()))
                    .collect(),
            };
            Logic {
                ranges: vec![Range { low: -3, high: 4 }, Range { low: 0, high: 5 }],
                start: (0..self.roll(0, 2)).map(|_| self.row()).collect(),
                predicates: vec![self.row(), self.row()],
                actions: (0..3).map(|_| action(self)).collect(),
                forbidden: vec![Literals { holds: 1, fails: 2 }],
            }
        }

        fn finding(&mut self, logic: &Logic) -> Finding {
            let action = self.roll(0, 2) as usize;
            match logic.actions[action].sets.first() {
                Some(&(variable, _)) if self.roll(0, 1) == 0 => Finding::MayRunOff {
                    node: 0,
                    action,
                    variable,
                    end: if self.roll(0, 1) == 0 {
                        End::Low
                    } else {
                        End::High
                    },
                },
                _ => Finding::MayForbid {
                    node: 0,
                    combination: 0,
                },
            }
        }
    }

    /// All states of the two ranges that meet the start rows.
    fn starts(logic: &Logic) -> Vec<Vec<i64>> {
        let all = (-3..=4).flat_map(|x| (0..=5).map(move |y| vec![x, y]));
        all.filter(|state| logic.start.iter().all(|row| row.value(state) >= 0))
            .collect()
    }

    /// How many stages a start state passes, pressing one action after the other.
    fn passed(logic: &Logic, path: &[Step], finding: Finding, start: &[i64]) -> usize {
        let mut state = start.to_vec();
        for (number, press) in path.iter().enumerate() {
            match step(logic, &logic.actions[press.action], &state) {
                Some(Ok(next)) => state = next,
                _ => return 1 + number,
            }
        }
        let there = match finding {
            Finding::MayForbid { .. } => forbidden(logic, &state).is_some(),
            Finding::MayRunOff {
                action,
                variable,
                end,
                ..
            } => {
                let action = &logic.actions[action];
                let value = action
                    .sets
                    .iter()
                    .find(|set| set.0 == variable)
                    .unwrap()
                    .1
                    .value(&state);
                let off = match end {
                    End::Low => value < logic.ranges[variable].low,
                    End::High => value > logic.ranges[variable].high,
                };
                off && action.guards.iter().all(|row| row.value(&state) >= 0)
            }
        };
        1 + path.len() + usize::from(there)
    }

    /// On logics with few states every start state is tried: the walk is found exactly where there is one, and the stage that
    /// none passes is the first one.
    #[test]
    fn all_start_states_walk_no_further() {
        let mut dice = Made(Dice(7));
        let mut seen = [0; 2];
        for _ in 0..3_000 {
            let logic = dice.logic();
            let finding = dice.finding(&logic);
            let press = |action| Step {
                from: 0,
                action,
                to: 0,
            };
            let length = dice.roll(0, 4);
            let path: Vec<Step> = (0..length)
                .map(|_| press(dice.roll(0, 2) as usize))
                .collect();
            let most = starts(&logic)
                .iter()
                .map(|start| passed(&logic, &path, finding, start))
                .max()
                .unwrap_or(0);
            match Walk::new(&logic, finding, &path).unwrap().reach(&logic) {
                Reach::Whole(start) => {
                    assert!(starts(&logic).contains(&start));
                    assert_eq!(passed(&logic, &path, finding, &start), path.len() + 2);
                    seen[0] += 1;
                }
                Reach::Until(stage) => {
                    assert_eq!(stage, most, "{logic:?} {path:?} {finding:?}");
                    seen[1] += 1;
                }
                Reach::Unknown => panic!("{logic:?}"),
            }
        }
        assert!(seen.iter().all(|&count| count > 500), "{seen:?}");
    }

    /// Numbers that grow with every press: after some it is not known, and nothing overflows.
    #[test]
    fn numbers_too_large_are_not_known() {
        let mut times = Row::constant(1);
        times.coefficients[0] = 1000;
        let mut logic = Made(Dice(1)).logic();
        logic.actions[0] = Action {
            guards: Vec::new(),
            sets: vec![(0, times)],
        };
        let press = Step {
            from: 0,
            action: 0,
            to: 0,
        };
        let finding = Finding::MayForbid {
            node: 0,
            combination: 0,
        };
        for length in 0..20 {
            let path = vec![press; length];
            if let Some(walk) = Walk::new(&logic, finding, &path) {
                walk.reach(&logic);
            }
        }
        assert!(Walk::new(&logic, finding, &[press; 8]).is_none());
    }
}
