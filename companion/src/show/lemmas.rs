//! The lemmas of a show as plain values, or the first of their words at fault.
use super::fault::{stray, thousands, Fault, Place};
use super::model::*;
use super::reading::Reader;
use bulanevior::raw::*;
use bulanevior::{payload, word};

/// The source that is the start.
const START: usize = BNV_START as usize;

/// The source that a LEMMA word names.
fn source(number: usize, logic: &Logic) -> Result<Source, String> {
    let actions = logic.actions.len();
    match number {
        START => Ok(Source::Start),
        k if k < actions => Ok(Source::Action(k)),
        k => {
            let known = format!("of which the logic has {actions}, counted from 0");
            Err(format!("source {k} is neither 255 nor an action, {known}"))
        }
    }
}

/// The goal that a LEMMA word names.
fn goal(number: u32, index: usize) -> Result<Goal, String> {
    match number {
        BNV_GOAL_NEVER if index != 0 => {
            Err(format!("goal 0 with index {index}, which has to be 0"))
        }
        BNV_GOAL_NEVER => Ok(Goal::Never),
        BNV_GOAL_HOLDS => Ok(Goal::Holds(index)),
        BNV_GOAL_FAILS => Ok(Goal::Fails(index)),
        BNV_GOAL_LOW => Ok(Goal::Low(index)),
        BNV_GOAL_HIGH => Ok(Goal::High(index)),
        n => Err(format!("goal {n}, allowed are 0 to 4")),
    }
}

/// What a LEMMA word says, or what is wrong with it.
fn heading(lemma: u32, logic: &Logic) -> Result<(Source, Goal), String> {
    if let Some(why) = stray(lemma, 0x0000_FF00) {
        return Err(why);
    }
    let source = source(word::lemma_source(lemma), logic)?;
    let goal = goal(word::lemma_goal(lemma), word::lemma_index(lemma))?;
    let (_, sets) = logic.source(source);
    let known = logic.predicates.len();
    match goal {
        Goal::Holds(p) | Goal::Fails(p) if p >= known => Err(format!(
            "predicate {p}, and the logic has {known}, counted from 0"
        )),
        Goal::Low(_) | Goal::High(_) if source == Source::Start => {
            Err("goals 3 and 4 speak of an action, and the source is the start".into())
        }
        Goal::Low(v) | Goal::High(v) if sets.iter().all(|&(set, _)| set != v) => {
            Err(format!("its source does not set variable {v}"))
        }
        _ => Ok((source, goal)),
    }
}

impl Reader<'_> {
    pub fn lemma(&mut self, number: usize, logic: &Logic) -> Result<Lemma, Fault> {
        let place = Place::Lemma(number);
        let word = self.see(BNV_LEMMA, format!("the LEMMA of {place} or the end"))?;
        if number == LEMMAS {
            let why = format!("one too many, allowed are {LEMMAS}");
            return Err(self.wrong(BNV_REFUSED_LEMMAS, place, why));
        }
        let heading = heading(word, logic);
        let (source, goal) = heading.map_err(|why| self.wrong(BNV_REFUSED_LEMMA, place, why))?;
        self.take();
        self.see(BNV_SETS, format!("the SETS of {place}"))?;
        let premises = self.literals(logic.predicates.len(), BNV_REFUSED_LEMMA, place)?;
        if source == Source::Start && !premises.is_empty() {
            let why = "a lemma of the start has no premises";
            return Err(self.wrong(BNV_REFUSED_LEMMA, place, why));
        }
        self.take();
        let multipliers = multiplied(number, logic, source, goal, premises)
            .into_iter()
            .map(|row| self.multiplier(row))
            .collect::<Result<_, _>>()?;
        Ok(Lemma {
            source,
            goal,
            premises,
            multipliers,
        })
    }

    fn multiplier(&mut self, row: Place) -> Result<i64, Fault> {
        let word = self.see(BNV_MULT, format!("the MULT of {row}"))?;
        let multiplier = i64::from(payload(word));
        if multiplier > MULTIPLIER {
            let (found, most) = (thousands(multiplier), thousands(MULTIPLIER));
            let why = format!("multiplier {found}, allowed are 0 to {most}");
            return Err(self.wrong(BNV_REFUSED_LEMMA, row, why));
        }
        self.take();
        Ok(multiplier)
    }
}

/// The rows that a lemma multiplies, in their order.
fn multiplied(
    lemma: usize,
    logic: &Logic,
    source: Source,
    goal: Goal,
    premises: Literals,
) -> Vec<Place> {
    let negated = (goal != Goal::Never).then_some(Place::NegatedGoal { lemma });
    let premise = |(predicate, _)| Place::Premise { lemma, predicate };
    let rows = (0..logic.source(source).0.len()).map(|row| Place::SourceRow { lemma, row });
    let goal = negated.into_iter().chain(premises.each().map(premise));
    goal.chain(rows).collect()
}
