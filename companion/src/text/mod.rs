//! A show as text, with names: written, and read back. The format is in docs/TEXT.md.
//!
//! | Module | Holds |
//! |---|---|
//! | `writer` | a show as text, and the phrases that it is made of |
//! | `reader` | a text to a show and its names, line by line, or the first place at fault |
//! | `lemmas` | literals and lemmas in a text |
//! | `sums` | sums and rows in a text |
//! | `lexer` | the tokens of a line |
//! | `fault` | a place at fault |

mod fault;
mod lemmas;
mod lexer;
mod reader;
mod sums;
#[cfg(test)]
mod tests;
mod writer;

pub use fault::Fault;
pub use reader::read;
pub use writer::{expression, lemma, lemma_head, literals, row, write};

/// The most bytes of a text.
pub const BYTES: usize = 1 << 20;
