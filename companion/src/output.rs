//! What is printed, and trouble with standard output: a verdict that did not go out whole is none.
use std::fs::File;
use std::io::Write;
use std::os::fd::AsFd;
use std::sync::atomic::{AtomicBool, Ordering};

/// The exit status.
#[derive(Clone, Copy, Debug, PartialEq, Eq)]
#[repr(u8)]
pub enum Status {
    /// The show is safe; or its safety was not asked about.
    Good = 0,
    Findings = 1,
    Trouble = 2,
    Refused = 3,
}

/// What is to be printed, and the exit status that goes with it.
pub struct Said {
    /// What goes out first, as it is.
    pub bytes: Vec<u8>,
    /// Without their newlines.
    pub lines: Box<dyn Iterator<Item = String>>,
    /// Is it for standard error, and standard output stays empty?
    pub aside: bool,
    /// Lines on standard error behind it, if they can be said there.
    pub behind: Vec<String>,
    pub status: Status,
}

impl Said {
    pub fn lines(lines: impl Iterator<Item = String> + 'static, status: Status) -> Said {
        let lines = Box::new(lines);
        Said {
            bytes: Vec::new(),
            lines,
            aside: false,
            behind: Vec::new(),
            status,
        }
    }

    /// The bytes of a file.
    pub fn bytes(bytes: Vec<u8>, status: Status) -> Said {
        Said {
            bytes,
            ..Said::lines(std::iter::empty(), status)
        }
    }

    pub fn line(line: String, status: Status) -> Said {
        Said::lines(std::iter::once(line), status)
    }

    /// A line on standard error, if it can be said there.
    pub fn aside(line: String, status: Status) -> Said {
        let aside = true;
        Said {
            aside,
            ..Said::line(line, status)
        }
    }
}

/// How many bytes are gathered before they are written.
const PIECE: usize = 1 << 16;

/// Prints all lines, and gives the status; or the trouble.
pub fn print(said: Said) -> Result<Status, String> {
    if said.aside {
        said.lines.for_each(|line| mention(&line));
        return Ok(said.status);
    }
    write(said.bytes, said.lines).map_err(|e| format!("cannot write to standard output: {e}"))?;
    said.behind.iter().for_each(|line| mention(line));
    Ok(said.status)
}

/// Through a file: the runtime's own standard output takes one that is not open for writing for a success. Behind a write that
/// failed there is no other.
fn write(bytes: Vec<u8>, lines: impl Iterator<Item = String>) -> std::io::Result<()> {
    let mut out = File::from(std::io::stdout().as_fd().try_clone_to_owned()?);
    let mut piece = bytes;
    for line in lines {
        piece.extend_from_slice(line.as_bytes());
        piece.push(b'\n');
        if piece.len() >= PIECE {
            out.write_all(&piece)?;
            piece.clear();
        }
    }
    out.write_all(&piece)
}

/// Says on standard error, if it can be said there, why there is no answer.
pub fn complain(why: &str) -> Status {
    mention(why);
    Status::Trouble
}

fn mention(line: &str) {
    let _ = writeln!(std::io::stderr(), "{line}");
}

/// Which of standard input and output were closed when the program began? The runtime opens /dev/null in their place before
/// `main`: standard input would be an empty show and what is printed would be lost, both without an error. So this is looked at
/// before that, and `close_again` closes them.
static CLOSED: [AtomicBool; 2] = [AtomicBool::new(false), AtomicBool::new(false)];

extern "C" {
    fn fcntl(file: i32, command: i32, ...) -> i32;
    fn close(file: i32) -> i32;
}

extern "C" fn look() {
    const GET_FLAGS: i32 = 3;
    for (file, closed) in (0..).zip(&CLOSED) {
        closed.store(unsafe { fcntl(file, GET_FLAGS) } < 0, Ordering::Relaxed);
    }
}

#[used]
#[link_section = ".init_array"]
static LOOK: extern "C" fn() = look;

pub fn close_again() {
    for (file, closed) in (0..).zip(&CLOSED) {
        if closed.load(Ordering::Relaxed) {
            unsafe { close(file) };
        }
    }
}
