//! The command `lemmas`: finds lemmas for a logic, and prints the show with them as text. What lemmas the show came with does not matter. Nothing of
//! it has to be trusted: each lemma is asked of the proved call, and the status is by its verdict on the list that is printed.
//!
//! | Module | Holds |
//! |---|---|
//! | `book` | lemmas found where they are first wanted |
//! | `explore` | the graph over anything that shows goals |
//! | `finder` | which predicates are followed |
//! | `prune` | a list made shorter |
//! | `checker` | what the proved calls say of a list |
//! | `lacking` | what is lacking where something may go wrong |

mod book;
mod checker;
mod explore;
mod finder;
mod lacking;
mod prune;

use crate::convert::{named, shown, written};
use crate::input::Input;
use crate::output::{Said, Status};
use crate::show::model::{Goal, Lemma, Literals, Logic, Show, Source};
use crate::solve::{state, Found};
use book::Book;
use checker::Checker;
pub use explore::touches;
use lacking::Graph;

/// A lemma that shows a goal where these literals are known, if there is one: Ask has to accept it, or it is trouble.
pub fn lemma(
    logic: &Logic,
    source: Source,
    goal: Goal,
    known: Literals,
) -> Result<Option<Lemma>, String> {
    let found = Book::new(logic).found(source, goal, known);
    Checker::new(logic).accepts(found.as_slice())?;
    Ok(found)
}

/// What is said where start rows contradict each other: such a show is safe.
pub const NO_START: &str = "no state meets the start rows: the show cannot start";

/// That a show cannot start, if it cannot.
fn unstarted(logic: &Logic) -> Vec<String> {
    match state(&logic.start, &logic.ranges) {
        Found::None => vec![format!("{NO_START} (worked out by the companion)")],
        _ => Vec::new(),
    }
}

/// The text of a show with the lemmas that were found, and behind it what is lacking; or the trouble.
pub fn run(input: &Input) -> Result<Said, String> {
    let logic = match shown(input)? {
        Ok(show) => show.logic,
        Err(why) => return Ok(Said::aside(why, Status::Refused)),
    };
    let names = named(input, &logic);
    let mut checker = Checker::new(&logic);
    let lemmas = finder::find(&logic, &mut checker)?;
    let findings = checker.findings(&lemmas)?;
    let show = Show { logic, lemmas };
    let text = written(&show, &names)?;
    let (behind, status) = match findings.is_empty() {
        true => (unstarted(&show.logic), Status::Good),
        false => {
            let graph = Graph {
                logic: &show.logic,
                list: &checker.graph,
            };
            (graph.lines(&findings, &names), Status::Findings)
        }
    };
    Ok(Said {
        behind,
        ..Said::bytes(text, status)
    })
}

#[cfg(test)]
mod fuzz;
#[cfg(test)]
mod tests;
