//! What the proved calls say of a list of lemmas for a logic.
use crate::show::model::{lemma_words, Lemma, Logic, LEMMAS};
use crate::verdict::mismatch;
use bulanevior::*;

pub struct Checker {
    words: Vec<u32>,
    pub graph: Vec<u32>,
    path: Vec<u32>,
}

impl Checker {
    pub fn new(logic: &Logic) -> Checker {
        Checker {
            words: logic.words(),
            graph: vec![0; GRAPH_WORDS],
            path: vec![0; PATH_WORDS],
        }
    }

    /// Is the verdict safe? None where the list is too long or the graph has too many nodes; or the trouble.
    pub fn safe(&mut self, lemmas: &[Lemma]) -> Result<Option<bool>, String> {
        if lemmas.len() > LEMMAS {
            return Ok(None);
        }
        match judge(
            &self.words,
            &lemma_words(lemmas),
            &mut self.graph,
            &mut self.path,
        ) {
            Ok(judgement) => Ok(Some(judgement.verdict == Verdict::Safe)),
            Err(Refusal::Nodes) => Ok(None),
            Err(why) => Err(mismatch(format!("lemmas that were found: {why}"))),
        }
    }

    /// All findings, with the graph in its list; or the trouble.
    pub fn findings(&mut self, lemmas: &[Lemma]) -> Result<Vec<Finding>, String> {
        let mut list = vec![0; MOST_FINDINGS];
        findings(
            &self.words,
            &lemma_words(lemmas),
            &mut self.graph,
            &mut list,
        )
        .map_err(mismatch)?;
        Ok(listed(&list).collect())
    }

    /// That every lemma is accepted, or the trouble.
    pub fn accepts(&self, lemmas: &[Lemma]) -> Result<(), String> {
        lemmas.iter().try_for_each(|lemma| {
            match ask(&self.words, &lemma_words(std::slice::from_ref(lemma)), 0) {
                Ok(Ask::Accepted) => Ok(()),
                other => Err(mismatch(format!("a lemma that was found: {other:?}"))),
            }
        })
    }
}
