//! The independent code behind the same nine calls. Fields that an answer does not use are 0.

use bulanevior::raw::*;
use independent::bytes::Shown;
use independent::{Asked, Judged, Listed, Racked, Stepped};

/// Records of zeros, which are no answers.
const NO_CHECK: BnvCheck =
    BnvCheck { answer: 0, refusal: 0, value: 0, variables: 0, start_rows: 0, predicates: 0, actions: 0, forbidden: 0 };
const NO_STEP: BnvStep = BnvStep { answer: 0, row: 0, variable: 0, refusal: 0, row_value: 0, value: 0 };
const NO_ASK: BnvAsk = BnvAsk { answer: 0, refusal: 0, value: 0 };
const NO_JUDGE: BnvJudge =
    BnvJudge { verdict: 0, node: 0, place: 0, variable: 0, high: 0, nodes: 0, edges: 0, refusal: 0, value: 0 };
const NO_FINDINGS: BnvFindings = BnvFindings { answer: 0, refusal: 0, value: 0, count: 0 };
const NO_SUCCESSOR: BnvSuccessor = BnvSuccessor { answer: 0, node: 0, refusal: 0, value: 0 };

pub fn check(words: &[u32]) -> BnvCheck {
    match independent::check(words) {
        Ok(c) => BnvCheck {
            answer: BNV_GOOD,
            variables: c.variables,
            start_rows: c.start_rows,
            predicates: c.predicates,
            actions: c.actions,
            forbidden: c.forbidden,
            ..NO_CHECK
        },
        Err(r) => BnvCheck { answer: BNV_CHECK_REFUSED, refusal: r.number, value: r.value as usize, ..NO_CHECK },
    }
}

pub fn action_part(words: &[u32], k: usize) -> BnvPart {
    let part = independent::action_part(words, k);
    BnvPart { start: (part.as_ptr() as usize - words.as_ptr() as usize) / 4, length: part.len() }
}

fn not_enabled(row: usize, value: i64) -> BnvStep {
    let row = row.try_into().expect("a guard row's number in 32 bits");
    let row_value = value.try_into().expect("a guard row's value in 32 bits");
    BnvStep { answer: BNV_NOT_ENABLED, row, row_value, ..NO_STEP }
}

pub fn step(words: &[u32], k: usize, state: &mut [i32]) -> BnvStep {
    match independent::step(words, k, state) {
        Stepped::Moved => BnvStep { answer: BNV_MOVED, ..NO_STEP },
        Stepped::NotEnabled { row, value } => not_enabled(row, value),
        Stepped::RunsOff(variable) => BnvStep { answer: BNV_RUNS_OFF, variable, ..NO_STEP },
        Stepped::Refused(r) => BnvStep { answer: BNV_STEP_REFUSED, refusal: r.number, value: r.value as usize, ..NO_STEP },
    }
}

pub fn rack_step(words: &[u32], k: usize, state: &mut [i32]) -> BnvStep {
    match independent::rack_step(words, k, state) {
        Racked::Moved => BnvStep { answer: BNV_MOVED, ..NO_STEP },
        Racked::NotEnabled { row, value } => not_enabled(row, value),
        Racked::Refused(r) => BnvStep { answer: BNV_STEP_REFUSED, refusal: r.number, value: r.value as usize, ..NO_STEP },
    }
}

pub fn ask(words: &[u32], lemmas: &[u32], k: usize) -> BnvAsk {
    match independent::ask(words, lemmas, k) {
        Asked::Accepted => BnvAsk { answer: BNV_ACCEPTED, ..NO_ASK },
        Asked::NotAccepted => BnvAsk { answer: BNV_NOT_ACCEPTED, ..NO_ASK },
        Asked::Refused(r) => BnvAsk { answer: BNV_ASK_REFUSED, refusal: r.number, value: r.value as usize },
    }
}

pub fn judge(words: &[u32], lemmas: &[u32], graph: &mut [u32], path: &mut [u32]) -> BnvJudge {
    judged(independent::judge(words, lemmas, graph, path))
}

fn judged(answer: Judged) -> BnvJudge {
    match answer {
        Judged::Safe { nodes, edges } => BnvJudge { verdict: BNV_SAFE, nodes, edges, ..NO_JUDGE },
        Judged::MayForbid { node, bad, nodes, edges } => {
            BnvJudge { verdict: BNV_MAY_FORBID, node, place: bad, nodes, edges, ..NO_JUDGE }
        }
        Judged::MayRunOff { node, action, variable, high, nodes, edges } => BnvJudge {
            verdict: BNV_MAY_RUN_OFF,
            node,
            place: action,
            variable,
            high: u32::from(high),
            nodes,
            edges,
            ..NO_JUDGE
        },
        Judged::Refused(r) => {
            BnvJudge { verdict: BNV_JUDGE_REFUSED, refusal: r.number, value: r.value as usize, ..NO_JUDGE }
        }
    }
}

pub fn show(bytes: &[u8], words: &mut [u32], graph: &mut [u32], path: &mut [u32]) -> BnvShow {
    let none = |answer| BnvShow { answer, logic: 0, lemmas: 0, judged: NO_JUDGE };
    match independent::bytes::show(bytes, words, graph, path) {
        Shown::WordsShort => none(BNV_WORDS_SHORT),
        Shown::TooLong => none(BNV_TOO_LONG),
        Shown::OddBytes => none(BNV_ODD_BYTES),
        Shown::Judged { logic, lemmas, answer } => BnvShow { answer: BNV_JUDGED, logic, lemmas, judged: judged(answer) },
    }
}

pub fn findings(words: &[u32], lemmas: &[u32], graph: &mut [u32], list: &mut [u32]) -> BnvFindings {
    match independent::findings(words, lemmas, graph, list) {
        Listed::Listed(count) => BnvFindings { answer: BNV_LISTED, count, ..NO_FINDINGS },
        Listed::Refused(r) => {
            BnvFindings { answer: BNV_FINDINGS_REFUSED, refusal: r.number, value: r.value as usize, ..NO_FINDINGS }
        }
    }
}

pub fn successor(graph: &[u32], nodes: usize, actions: usize, node: usize, action: usize) -> BnvSuccessor {
    match independent::successor(graph, nodes, actions, node, action) {
        Ok(0x0FFF_FFFF) => BnvSuccessor { answer: BNV_NO_NODE, ..NO_SUCCESSOR },
        Ok(next) => BnvSuccessor { answer: BNV_NODE, node: next as usize, ..NO_SUCCESSOR },
        Err(r) => {
            BnvSuccessor { answer: BNV_SUCCESSOR_REFUSED, refusal: r.number, value: r.value as usize, ..NO_SUCCESSOR }
        }
    }
}
