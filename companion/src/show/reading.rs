//! The words of a show as plain values, or the first word at fault. The refusals are those that Check and Judge are proved to give;
//! what is said beside their number and place is the companion's own.
use super::fault::{stray, thousands, Fault, List, Place, Rule};
use super::model::*;
use super::rows::{Range, Row, VARIABLES};
use bulanevior::raw::*;
use bulanevior::{kind, payload, word, MOST_ACTIONS};

/// A list of words that is read from its front.
pub struct Reader<'a> {
    words: &'a [u32],
    at: usize,
    list: List,
    /// The words of the file before this list.
    before: usize,
    /// The row that may go on with a TERM.
    open: Option<Place>,
}

impl<'a> Reader<'a> {
    fn new(words: &'a [u32], list: List, before: usize) -> Reader<'a> {
        Reader {
            words,
            at: 0,
            list,
            before,
            open: None,
        }
    }

    fn next(&self) -> Option<u32> {
        self.words.get(self.at).copied()
    }

    /// Is the next word of this kind?
    fn is(&self, wanted: u32) -> bool {
        self.next().is_some_and(|word| kind(word) == wanted)
    }

    fn fault(&self, number: u32, rule: Rule) -> Fault {
        Fault {
            number,
            list: self.list,
            at: self.at,
            file_at: self.before + self.at,
            word: self.next(),
            rule,
        }
    }

    /// The next word is of another kind, or there is none.
    fn due(&self, what: impl std::fmt::Display) -> Fault {
        let more = match self.open {
            Some(row) => format!("a TERM of {row} or "),
            None => String::new(),
        };
        let number = match self.list {
            List::Logic => BNV_REFUSED_WORD,
            List::Lemmas => BNV_REFUSED_LEMMA,
        };
        self.fault(number, Rule::Due(format!("{more}{what}")))
    }

    pub fn wrong(&self, number: u32, place: Place, why: impl Into<String>) -> Fault {
        self.fault(number, Rule::Wrong(place, why.into()))
    }

    /// The next word, which has to be of this kind; it is taken only by `take`.
    pub fn see(&self, wanted: u32, what: impl std::fmt::Display) -> Result<u32, Fault> {
        match self.next() {
            Some(word) if kind(word) == wanted => Ok(word),
            _ => Err(self.due(what)),
        }
    }

    pub fn take(&mut self) {
        self.at += 1;
        self.open = None;
    }

    /// Unnamed bits have to be zero.
    fn clean(&self, word: u32, unnamed: u32, number: u32, place: Place) -> Result<(), Fault> {
        match stray(word, unnamed) {
            Some(why) => Err(self.wrong(number, place, why)),
            None => Ok(()),
        }
    }

    /// A number has to be in these limits.
    fn within(&self, what: &str, number: i64, limit: i64, place: Place) -> Result<(), Fault> {
        if (-limit..=limit).contains(&number) {
            return Ok(());
        }
        let (number, limit) = (thousands(number), thousands(limit));
        let why = format!("{what} {number}, allowed are -{limit} to {limit}");
        Err(self.wrong(BNV_REFUSED_VALUE, place, why))
    }

    /// A variable has to be one of the logic and above the one before it.
    fn rising(
        &self,
        variable: usize,
        least: usize,
        variables: usize,
        place: Place,
    ) -> Result<(), Fault> {
        let why = if variable >= variables {
            format!("variable {variable}, and the logic has {variables}, counted from 0")
        } else if variable < least {
            let before = least - 1;
            format!("variable {variable} stands behind variable {before}, and they have to rise")
        } else {
            return Ok(());
        };
        Err(self.wrong(BNV_REFUSED_VALUE, place, why))
    }

    /// A ROW and its TERMs.
    fn row(&mut self, variables: usize, place: Place) -> Result<Row, Fault> {
        let word = self.see(BNV_ROW, format!("the ROW of {place}"))?;
        let constant = i64::from(word::row_constant(word));
        self.within("constant", constant, CONSTANT, place)?;
        let mut row = Row::constant(constant);
        let mut least = 0;
        self.take();
        while self.is(BNV_TERM) {
            let (variable, coefficient) = self.term(least, variables, place)?;
            row.coefficients[variable] = coefficient;
            least = variable + 1;
            self.take();
        }
        self.open = Some(place);
        Ok(row)
    }

    fn term(&self, least: usize, variables: usize, place: Place) -> Result<(usize, i64), Fault> {
        let word = self.words[self.at];
        self.clean(word, 0x00FF_0000, BNV_REFUSED_WORD, place)?;
        let (variable, coefficient) = (
            word::term_variable(word),
            i64::from(word::term_coefficient(word)),
        );
        self.rising(variable, least, variables, place)?;
        self.within("coefficient", coefficient, COEFFICIENT, place)?;
        if coefficient == 0 {
            let why = "coefficient 0: a variable that does not count has no TERM";
            return Err(self.wrong(BNV_REFUSED_VALUE, place, why));
        }
        Ok((variable, coefficient))
    }

    /// A count of rows, and the rows.
    fn rows(
        &mut self,
        (wanted, what): (u32, &str),
        most: usize,
        variables: usize,
        (all, each): (Place, fn(usize) -> Place),
    ) -> Result<Vec<Row>, Fault> {
        let count = payload(self.see(wanted, what)?) as usize;
        if count > most {
            let why = format!(
                "it counts {}, allowed are 0 to {most}",
                thousands(count as i64)
            );
            return Err(self.wrong(BNV_REFUSED_LIMIT, all, why));
        }
        self.take();
        (0..count).map(|k| self.row(variables, each(k))).collect()
    }

    fn ranges(&mut self) -> Result<Vec<Range>, Fault> {
        let mut ranges = Vec::new();
        while ranges.is_empty() || self.is(BNV_VAR) {
            let place = Place::Variable(ranges.len());
            let word = self.see(BNV_VAR, format!("the VAR of {place}"))?;
            if ranges.len() == VARIABLES {
                let why = format!("one too many, allowed are {VARIABLES}");
                return Err(self.wrong(BNV_REFUSED_LIMIT, place, why));
            }
            let [low, high] = [word::var_low(word), word::var_high(word)].map(i64::from);
            if low > high {
                let (low, high) = (thousands(low), thousands(high));
                let why = format!("the low end {low} is above the high end {high}");
                return Err(self.wrong(BNV_REFUSED_VALUE, place, why));
            }
            ranges.push(Range { low, high });
            self.take();
        }
        Ok(ranges)
    }

    /// The counts of guard rows and assignments in an ACTION word.
    fn counts(&self, action: usize) -> Result<(usize, usize), Fault> {
        let place = Place::Action(action);
        let word = self.words[self.at];
        self.clean(word, 0x0FFF_FF00, BNV_REFUSED_WORD, place)?;
        let limit = |why| Err(self.wrong(BNV_REFUSED_LIMIT, place, why));
        if action == MOST_ACTIONS {
            return limit(format!("one too many, allowed are {MOST_ACTIONS}"));
        }
        let (guards, sets) = (
            word::action_guard_rows(word),
            word::action_assignments(word),
        );
        for (count, what) in [(guards, "guard rows"), (sets, "assignments")] {
            if count > ROWS {
                return limit(format!("it counts {count} {what}, allowed are 0 to {ROWS}"));
            }
        }
        Ok((guards, sets))
    }

    fn action(&mut self, action: usize, variables: usize) -> Result<Action, Fault> {
        let (guards, sets) = self.counts(action)?;
        self.take();
        let guard = |row| Place::Guard { action, row };
        let guards = (0..guards).map(|k| self.row(variables, guard(k)));
        let mut found = Action {
            guards: guards.collect::<Result<_, _>>()?,
            sets: Vec::new(),
        };
        for number in 0..sets {
            let place = Place::Assignment { action, number };
            let least = found.sets.last().map_or(0, |&(variable, _)| variable + 1);
            let word = self.see(BNV_SET, format!("the SET of {place}"))?;
            let variable = payload(word) as usize;
            self.rising(variable, least, variables, place)?;
            self.take();
            found.sets.push((variable, self.row(variables, place)?));
        }
        Ok(found)
    }

    /// The literals of a SETS word.
    pub fn literals(
        &self,
        predicates: usize,
        number: u32,
        place: Place,
    ) -> Result<Literals, Fault> {
        let literals = Literals::of(self.words[self.at]);
        let both = literals.holds & literals.fails;
        let why = match literals.each().find(|&(p, _)| p >= predicates) {
            Some((p, _)) => {
                format!("predicate {p}, and the logic has {predicates}, counted from 0")
            }
            None if both != 0 => {
                let p = both.trailing_zeros();
                format!("predicate {p} is on both sides: it cannot hold and fail")
            }
            None => return Ok(literals),
        };
        Err(self.wrong(number, place, why))
    }

    fn forbidden(&mut self, predicates: usize) -> Result<Vec<Literals>, Fault> {
        let mut forbidden = Vec::new();
        while self.is(BNV_SETS) {
            let place = Place::Combination(forbidden.len());
            if forbidden.len() == ROWS {
                let why = format!("one too many, allowed are {ROWS}");
                return Err(self.wrong(BNV_REFUSED_LIMIT, place, why));
            }
            forbidden.push(self.literals(predicates, BNV_REFUSED_VALUE, place)?);
            self.take();
        }
        Ok(forbidden)
    }

    /// END, with nothing in it and nothing behind it.
    fn end(&mut self, due: &str) -> Result<(), Fault> {
        let word = self.see(BNV_END, due)?;
        self.clean(word, 0x0FFF_FFFF, BNV_REFUSED_WORD, Place::Logic)?;
        self.take();
        match self.next() {
            Some(_) => Err(self.due("nothing, behind END,")),
            None => Ok(()),
        }
    }

    fn logic(&mut self) -> Result<Logic, Fault> {
        let ranges = self.ranges()?;
        let variables = ranges.len();
        let init = match variables {
            VARIABLES => "INIT",
            _ => "a further VAR or INIT",
        };
        let starts = (Place::StartRows, Place::StartRow as fn(usize) -> Place);
        let start = self.rows((BNV_INIT, init), ROWS, variables, starts)?;
        let all = (Place::Predicates, Place::Predicate as fn(usize) -> Place);
        let predicates = self.rows((BNV_PRED, "PRED"), PREDICATES, variables, all)?;
        let mut actions = Vec::new();
        while self.is(BNV_ACTION) {
            actions.push(self.action(actions.len(), variables)?);
        }
        let forbidden = self.forbidden(predicates.len())?;
        let due = match forbidden.is_empty() {
            true => "ACTION, SETS or END",
            false => "SETS or END",
        };
        self.end(due)?;
        Ok(Logic {
            ranges,
            start,
            predicates,
            actions,
            forbidden,
        })
    }
}

/// A logic, or the first word at fault.
pub fn logic(words: &[u32]) -> Result<Logic, Fault> {
    Reader::new(words, List::Logic, 0).logic()
}

/// A logic and its lemmas, or the first word at fault.
pub fn show(words: &[u32], lemmas: &[u32]) -> Result<Show, Fault> {
    let mut show = Show {
        logic: logic(words)?,
        lemmas: Vec::new(),
    };
    let mut reader = Reader::new(lemmas, List::Lemmas, words.len());
    while reader.at < lemmas.len() {
        let lemma = reader.lemma(show.lemmas.len(), &show.logic)?;
        show.lemmas.push(lemma);
    }
    Ok(show)
}
