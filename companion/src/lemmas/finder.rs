//! Lemmas for a logic. The more literals are followed, the less may go wrong in the graph; but a graph has 512 nodes at most, and a list as many
//! lemmas.
//!
//! 1. Every predicate is followed. Nothing else leaves less that may go wrong. If it fits, that is it.
//! 2. Where it does not, it begins with the literals that contradict a forbidden combination, or with none, and one predicate more is followed
//!    at a time, of those that fit: the one with which the least may go wrong, and of these the one with the fewest nodes.
//! 3. Where more may go wrong then than has to, a list that does not fit is made shorter, which makes the graph smaller as a rule, and so it
//!    may come to fit: that of 1, or of 2 done with more nodes.
//!
//! Where nothing may go wrong the list is made shorter in any case.
use super::book::Book;
use super::checker::Checker;
use super::explore::{everything, explore, touches, Explored, Fault, Shown};
use super::prune::Pruner;
use crate::show::model::{Goal, Lemma, Literals, Logic, Source, LEMMAS};
use bulanevior::MOST_NODES;
use std::collections::BTreeSet;

/// The most nodes and lemmas of an attempt.
#[derive(Clone, Copy)]
pub struct Limits {
    pub nodes: usize,
    pub lemmas: usize,
}

/// Before a list is made shorter.
pub const WIDE: Limits = Limits {
    nodes: 4_096,
    lemmas: usize::MAX,
};

/// Those of the proved call.
const FITTING: Limits = Limits {
    nodes: MOST_NODES,
    lemmas: LEMMAS,
};

/// A graph of some literals, and the lemmas that it takes.
struct Attempt {
    followed: Literals,
    explored: Explored,
    lemmas: Vec<Lemma>,
}

impl Attempt {
    /// How many forbidden combinations may be met, and ends passed by actions.
    fn wrong(&self) -> usize {
        let faults = self.explored.faults.iter();
        let what = faults.map(|fault| match *fault {
            Fault::Met(combination, _) => Fault::Met(combination, Source::Start),
            passed => passed,
        });
        what.collect::<BTreeSet<Fault>>().len()
    }

    fn within(&self, limits: Limits) -> bool {
        let Explored { nodes, over, .. } = self.explored;
        !over && nodes <= limits.nodes && self.lemmas.len() <= limits.lemmas
    }
}

/// The most nodes that are explored in all, to follow one predicate more, and to make a list shorter that does not fit.
const TRIED: usize = 100_000;
const SHORTER: usize = 200_000;

struct Finder<'a> {
    logic: &'a Logic,
    book: Book<'a>,
    checker: &'a mut Checker,
    /// Nodes explored so far.
    tried: usize,
}

/// Finds lemmas, of which the proved calls are asked; or the trouble.
pub fn find(logic: &Logic, checker: &mut Checker) -> Result<Vec<Lemma>, String> {
    let book = Book::new(logic);
    let mut finder = Finder {
        logic,
        book,
        checker,
        tried: 0,
    };
    let mut lemmas = finder.lemmas()?;
    let place = |lemma: &Lemma| (lemma.source != Source::Start, lemma.source);
    lemmas.sort_by_key(|lemma| (place(lemma), lemma.goal, lemma.premises));
    checker.accepts(&lemmas)?;
    Ok(lemmas)
}

impl Finder<'_> {
    fn lemmas(&mut self) -> Result<Vec<Lemma>, String> {
        let whole = self.attempt(everything(self.logic), WIDE);
        if whole.within(FITTING) {
            return self.closed(whole);
        }
        let least = match whole.within(WIDE) {
            true => whole.explored.faults.clone(),
            false => BTreeSet::new(),
        };
        let first = self.grown(FITTING, &least);
        if first.explored.faults.is_subset(&least) {
            return self.closed(first);
        }
        let wide = match whole.within(WIDE) {
            true => whole,
            false => self.grown(WIDE, &least),
        };
        if wide.wrong() <= first.wrong() {
            let lemmas = self.shorter(wide)?;
            if self.checker.safe(&lemmas)?.is_some() {
                return Ok(lemmas);
            }
        }
        self.closed(first)
    }

    /// What comes of following these literals.
    fn attempt(&mut self, followed: Literals, limits: Limits) -> Attempt {
        self.book.begin();
        let explored = explore(&mut self.book, followed, limits.nodes);
        self.tried += explored.nodes;
        Attempt {
            followed,
            explored,
            lemmas: self.book.used(),
        }
    }

    /// What comes of following one predicate more at a time, until no more may go wrong than has to.
    fn grown(&mut self, limits: Limits, least: &BTreeSet<Fault>) -> Attempt {
        let mut best = self.attempt(contradicting(self.logic), limits);
        if !best.within(limits) {
            best = self.attempt(Literals::default(), limits);
        }
        while !best.explored.faults.is_subset(least) {
            match self.wider(best.followed, limits) {
                Some(next) => best = next,
                None => break,
            }
        }
        best
    }

    /// The best attempt with one predicate more; None where none is within the limits, or enough was tried.
    fn wider(&mut self, followed: Literals, limits: Limits) -> Option<Attempt> {
        if self.tried > TRIED {
            return None;
        }
        let more = |p| followed.with(p, true).with(p, false);
        (0..self.logic.predicates.len())
            .map(more)
            .filter(|&next| next != followed)
            .map(|next| self.attempt(next, limits))
            .filter(|attempt| attempt.within(limits))
            .min_by_key(|attempt| (attempt.wrong(), attempt.explored.nodes))
    }

    /// The list of an attempt that fits, made shorter where nothing may go wrong.
    fn closed(&mut self, attempt: Attempt) -> Result<Vec<Lemma>, String> {
        match attempt.explored.faults.is_empty() {
            true => self.shorter(attempt),
            false => Ok(attempt.lemmas),
        }
    }

    fn shorter(&mut self, attempt: Attempt) -> Result<Vec<Lemma>, String> {
        let mut lemmas = attempt.lemmas;
        lemmas.extend(self.by_guards(attempt.followed));
        let key = |lemma: &Lemma| (lemma.source, lemma.goal, lemma.premises);
        lemmas.sort_by_key(key);
        lemmas.dedup_by_key(|lemma| key(lemma));
        let mut pruner = Pruner {
            logic: self.logic,
            checker: self.checker,
            faults: attempt.explored.faults,
            left: SHORTER,
        };
        pruner.pruned(lemmas)
    }

    /// What guards alone show of predicates that their actions do not touch: with these lemmas others can be left out.
    fn by_guards(&mut self, followed: Literals) -> Vec<Lemma> {
        let (logic, none) = (self.logic, Literals::default());
        self.book.begin();
        for action in (0..logic.actions.len()).map(Source::Action) {
            for p in (0..logic.predicates.len()).filter(|&p| !touches(logic, action, p)) {
                let mut ask =
                    |wanted: u32, goal| wanted >> p & 1 == 1 && self.book.shows(action, goal, none);
                ask(followed.holds, Goal::Holds(p));
                ask(followed.fails, Goal::Fails(p));
            }
        }
        self.book.used()
    }
}

/// The literals that contradict a forbidden combination.
fn contradicting(logic: &Logic) -> Literals {
    let none = Literals::default();
    logic.forbidden.iter().fold(none, |all, bad| Literals {
        holds: all.holds | bad.fails,
        fails: all.fails | bad.holds,
    })
}
