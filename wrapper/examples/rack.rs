//! Presses actions of a show, exactly and as a rack of sixteen bits does: `rack FILE VALUE.. -- ACTION..`, the values of the
//! variables to begin with.
//!
//!     rack shows/incident.words 5 -- 0
//!
//! The first line says whether the show is safe; then there is a line for each action, up to the first at which the two
//! differ; of one that is not enabled it says how near it was, "guard row 0 lacks 5". The exit status: 0 the rack's values
//! are the exact ones; 1 they are not; 3 the show, an action or the values are refused, or the file is cut or too long; 2
//! trouble.
use bulanevior::*;
use std::fs::File;
use std::io::{Read, Write};
use std::process::ExitCode;

const SAME: u8 = 0;
const DIFFER: u8 = 1;
const TROUBLE: u8 = 2;
const REFUSED: u8 = 3;

/// Why the run ends early: the exit status, and what is said on standard output or, of trouble, on standard error.
type Ended = (u8, String);

fn trouble(what: impl ToString) -> Ended {
    (TROUBLE, what.to_string())
}

fn refused(why: Refusal) -> Ended {
    match why {
        Refusal::Mismatch(_) => trouble(why),
        why => (
            REFUSED,
            format!("refused: {} AT {}\n", why.number(), why.value()),
        ),
    }
}

fn no_show(why: NoShow) -> Ended {
    match why {
        NoShow::TooLong | NoShow::OddBytes => (REFUSED, format!("{why}\n")),
        why => trouble(why),
    }
}

/// Reads the file, or one byte more than a show may have.
fn load(name: &str) -> std::io::Result<Vec<u8>> {
    let mut bytes = Vec::new();
    File::open(name)?
        .take(SHOW_BYTES as u64 + 1)
        .read_to_end(&mut bytes)?;
    Ok(bytes)
}

fn values_text(state: &[i32]) -> String {
    state.iter().map(|x| format!(" {x}")).collect()
}

/// One action, on both states: its line, and whether the two are the same.
fn press(
    logic: &[u32],
    k: usize,
    exact: &mut [i32],
    rack: &mut [i32],
) -> Result<(String, bool), Ended> {
    let e = step(logic, k, exact).map_err(refused)?;
    let r = rack_step(logic, k, rack).map_err(refused)?;
    let same = match (e, r) {
        (Step::Moved, Rack::Moved) => true,
        (Step::NotEnabled(a), Rack::NotEnabled(b)) => a == b,
        _ => false,
    };
    let (exact_values, rack_values) = (values_text(exact), values_text(rack));
    let said = format!("action {k}: exact {e},{exact_values}; rack {r},{rack_values}\n");
    Ok((said, same && exact == rack))
}

/// The lines of the actions, and the exit status.
fn presses(logic: &[u32], values: &[i32], actions: &[u32], said: &mut String) -> Result<u8, Ended> {
    let (mut exact, mut rack) = (values.to_vec(), values.to_vec());
    for k in actions {
        let (line, same) = press(logic, *k as usize, &mut exact, &mut rack)?;
        said.push_str(&line);
        if !same {
            said.push_str("the rack's values are not the exact ones\n");
            return Ok(DIFFER);
        }
    }
    said.push_str("the rack's values are the exact ones\n");
    Ok(SAME)
}

/// The numbers of some arguments.
fn numbers<T: std::str::FromStr>(texts: &[String], what: &str) -> Result<Vec<T>, Ended> {
    texts
        .iter()
        .map(|t| t.parse().map_err(|_| trouble(what)))
        .collect()
}

fn run(arguments: &[String], said: &mut String) -> Result<u8, Ended> {
    let usage = || trouble("usage: rack FILE VALUE.. -- ACTION..");
    let middle = arguments.iter().position(|a| a == "--").ok_or_else(usage)?;
    let (name, values) = arguments[..middle].split_first().ok_or_else(usage)?;
    let values: Vec<i32> = numbers(values, "values of 32 bits")?;
    let actions: Vec<u32> = numbers(&arguments[middle + 1..], "an action is a number from 0 on")?;
    let bytes = load(name).map_err(|e| trouble(format!("{name}: {e}")))?;
    let mut words = vec![0; SHOW_WORDS];
    let (mut graph, mut path) = (vec![0; GRAPH_WORDS], vec![0; PATH_WORDS]);
    let show = show(&bytes, &mut words, &mut graph, &mut path).map_err(no_show)?;
    show.answer.map_err(refused)?;
    said.push_str(if show.is_safe() {
        "safe\n"
    } else {
        "not safe\n"
    });
    presses(show.logic, &values, &actions, said)
}

fn main() -> ExitCode {
    let arguments: Vec<String> = std::env::args().skip(1).collect();
    let mut said = String::new();
    let (mut status, why) = match run(&arguments, &mut said) {
        Ok(status) => (status, String::new()),
        Err(ended) => ended,
    };
    if status == REFUSED {
        said.push_str(&why);
    }
    if let Err(e) = std::io::stdout().write_all(said.as_bytes()) {
        eprintln!("standard output: {e}");
        status = TROUBLE;
    } else if status == TROUBLE {
        eprintln!("{why}");
    }
    ExitCode::from(status)
}
