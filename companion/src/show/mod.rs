//! A show as plain values: what its words say, and the words of what is said. Read and written by the companion; whether words are
//! a show, and what is to be said of it, the proved calls answer.
//!
//! | Module | Holds |
//! |---|---|
//! | `rows` | rows and ranges: a row's value, negation and largest value |
//! | `model` | logics and lemmas, the rows that a lemma is about, and their words |
//! | `reading`, `lemmas` | words to plain values, or the first word at fault |
//! | `fault` | a word at fault: what it belongs to, and the rule that it breaks |
//! | `names` | names for variables, predicates and actions |

pub mod fault;
mod lemmas;
pub mod model;
pub mod names;
pub mod reading;
pub mod rows;
#[cfg(test)]
mod tests;
