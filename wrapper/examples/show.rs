//! Judges a show file: `show FILE`. Prints one line, and after a finding a second one with the actions that lead there.
//!
//! The exit status: 0 safe; 1 a finding; 3 the show is refused, cut or too long; 2 trouble: the file cannot be read, or the
//! answer cannot be printed, and there is no verdict. Only 0 lets a desk load the show.
use bulanevior::*;
use std::fs::File;
use std::io::{Read, Write};
use std::os::fd::AsFd;
use std::path::Path;
use std::process::ExitCode;
use std::sync::atomic::{AtomicBool, Ordering};

const SAFE: u8 = 0;
const FINDING: u8 = 1;
const TROUBLE: u8 = 2;
const REFUSED: u8 = 3;

/// Which of standard input and output were closed when the program began? The runtime opens /dev/null in their place before
/// `main`: /dev/stdin would be an empty show and what is printed would be lost, both without an error. So this is looked at
/// before that, and `main` closes them again.
static CLOSED: [AtomicBool; 2] = [AtomicBool::new(false), AtomicBool::new(false)];

extern "C" {
    fn fcntl(file: i32, command: i32, ...) -> i32;
    fn close(file: i32) -> i32;
}

extern "C" fn look() {
    const GET_FLAGS: i32 = 3;
    for (file, closed) in (0..).zip(&CLOSED) {
        closed.store(unsafe { fcntl(file, GET_FLAGS) } < 0, Ordering::Relaxed);
    }
}

fn close_again() {
    for (file, closed) in (0..).zip(&CLOSED) {
        if closed.load(Ordering::Relaxed) {
            unsafe { close(file) };
        }
    }
}

#[used]
#[link_section = ".init_array"]
static LOOK: extern "C" fn() = look;

/// Reads the file, or one byte more than a show may have.
fn load(name: &Path) -> std::io::Result<Vec<u8>> {
    let mut bytes = Vec::new();
    File::open(name)?
        .take(SHOW_BYTES as u64 + 1)
        .read_to_end(&mut bytes)?;
    Ok(bytes)
}

/// The exit status that an answer stands for; None where it is of another version.
fn status(shown: &Result<Show, NoShow>) -> Option<u8> {
    match shown {
        Ok(show) => match show.answer {
            Ok(_) if show.is_safe() => Some(SAFE),
            Ok(_) => Some(FINDING),
            Err(Refusal::Mismatch(_)) => None,
            Err(_) => Some(REFUSED),
        },
        Err(NoShow::TooLong | NoShow::OddBytes) => Some(REFUSED),
        Err(_) => None,
    }
}

/// What is said of a show, and the exit status; or the trouble. After a finding also the actions that lead there: in the graph no
/// list of fewer leads to any.
fn text(shown: Result<Show, NoShow>, path: &[u32]) -> Result<(String, u8), String> {
    let said = match &shown {
        Ok(show) => show.to_string(),
        Err(why) => why.to_string(),
    };
    match status(&shown) {
        Some(FINDING) => Ok((format!("{said}\n{}\n", Presses(path)), FINDING)),
        Some(status) => Ok((format!("{said}\n"), status)),
        None => Err(said),
    }
}

/// Through a file: the runtime's own standard output takes one that is not open for writing for a success.
fn print(said: &str) -> std::io::Result<()> {
    File::from(std::io::stdout().as_fd().try_clone_to_owned()?).write_all(said.as_bytes())
}

/// The exit status, or the trouble.
fn run(name: &Path) -> Result<u8, String> {
    let bytes = load(name).map_err(|e| format!("{}: {e}", name.display()))?;
    let mut words = vec![0; SHOW_WORDS];
    let mut graph = vec![0; GRAPH_WORDS];
    let mut path = vec![0; PATH_WORDS];
    let shown = show(&bytes, &mut words, &mut graph, &mut path);
    let (said, status) = text(shown, &path)?;
    print(&said).map_err(|e| format!("standard output: {e}"))?;
    Ok(status)
}

fn main() -> ExitCode {
    close_again();
    let mut arguments = std::env::args_os().skip(1);
    let done = match (arguments.next(), arguments.next()) {
        (Some(name), None) => run(Path::new(&name)),
        _ => Err("usage: show FILE".to_string()),
    };
    ExitCode::from(done.unwrap_or_else(|trouble| {
        let _ = writeln!(std::io::stderr(), "{trouble}");
        TROUBLE
    }))
}
