//! A list of lemmas made shorter, as long as no more may go wrong.
use super::checker::Checker;
use super::explore::{everything, explore, Fault, Listed};
use super::finder::WIDE;
use crate::show::model::{Lemma, Logic};
use std::collections::BTreeSet;

pub struct Pruner<'a> {
    pub logic: &'a Logic,
    pub checker: &'a mut Checker,
    /// What may go wrong.
    pub faults: BTreeSet<Fault>,
    /// The most nodes that the companion's own exploration may still come to; behind that nothing more is left out by it.
    pub left: usize,
}

impl Pruner<'_> {
    /// May no more go wrong? Where nothing may, the proved call says so; of a list that it does not take, and else, the companion's own
    /// exploration.
    fn enough(&mut self, lemmas: &[Lemma]) -> Result<bool, String> {
        if self.faults.is_empty() {
            if let Some(safe) = self.checker.safe(lemmas)? {
                return Ok(safe);
            }
        }
        let mut listed = Listed::new(self.logic, lemmas);
        let most = WIDE.nodes.min(self.left);
        let explored = explore(&mut listed, everything(self.logic), most);
        self.left -= explored.nodes.min(self.left);
        Ok(!explored.over && explored.faults.is_subset(&self.faults))
    }

    /// What is left of a list: lemmas with many premises, which apply at few nodes, are the first to go; all at once, then in halves, quarters and
    /// so on, and then one by one. What cannot go from a list cannot go from a shorter one.
    pub fn pruned(&mut self, mut lemmas: Vec<Lemma>) -> Result<Vec<Lemma>, String> {
        lemmas.sort_by_key(|lemma| std::cmp::Reverse(lemma.premises.each().count()));
        let mut size = lemmas.len();
        while size > 0 {
            lemmas = self.without(lemmas, size)?;
            size = if size > 1 { size.div_ceil(2) } else { 0 };
        }
        Ok(lemmas)
    }

    /// Without the pieces of this size that can be left out.
    fn without(&mut self, mut lemmas: Vec<Lemma>, size: usize) -> Result<Vec<Lemma>, String> {
        let mut at = 0;
        while at < lemmas.len() {
            let end = (at + size).min(lemmas.len());
            let fewer = [&lemmas[..at], &lemmas[end..]].concat();
            match self.enough(&fewer)? {
                true => lemmas = fewer,
                false => at = end,
            }
        }
        Ok(lemmas)
    }
}
