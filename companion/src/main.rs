//! The companion, a program for people: `bulanevior COMMAND [--] [FILE]`. Whatever it says or draws of a show comes from the proved
//! calls, which it puts into words, and into places in a picture; where it works something out itself it says so. A show comes as words or as
//! text.
//!
//! The exit status: 0 safe, or the file that was asked for; 1 findings; 3 the show is refused, cut or too long; 2 trouble, and there
//! is no answer.

mod convert;
mod draw;
mod explain;
mod file;
mod findings;
mod input;
mod lemmas;
mod output;
mod show;
mod solve;
mod text;
mod verdict;

use file::Source;
use input::Input;
use output::{Said, Status};
use std::ffi::OsString;
use std::io::IsTerminal;
use std::process::ExitCode;

/// What the program does with a show. One more is an entry more in `COMMANDS`.
struct Command {
    name: &'static str,
    prints: &'static str,
    /// Does it make a file? Then what it refuses is said on standard error, and standard output stays empty.
    makes: bool,
    /// What is said of a show, or the trouble.
    run: fn(&Input) -> Result<Said, String>,
}

impl Command {
    /// What is said of the bytes of a file, or the trouble.
    fn answer(&self, bytes: Vec<u8>) -> Result<Said, String> {
        match input::of(bytes) {
            Ok(input) => (self.run)(&input),
            Err(fault) if self.makes => Ok(Said::aside(refused(&fault), Status::Refused)),
            Err(fault) => Ok(Said::line(refused(&fault), Status::Refused)),
        }
    }
}

/// In a sentence why a text is no show.
fn refused(fault: &text::Fault) -> String {
    format!("refused: {fault}")
}

const COMMANDS: &[Command] = &[
    Command {
        name: "explain",
        prints: "the verdict or refusal: the word at fault, or the presses to the first finding, replayed",
        makes: false,
        run: explain::run,
    },
    Command {
        name: "findings",
        prints: "all findings, one line each, with the actions that lead there",
        makes: false,
        run: findings::run,
    },
    Command {
        name: "draw",
        prints: "the graph as an SVG, with the path to the first finding",
        makes: true,
        run: draw::run,
    },
    Command {
        name: "text",
        prints: "the show as text, with names, to be read and edited",
        makes: true,
        run: convert::text,
    },
    Command {
        name: "words",
        prints: "the show as words, to be judged and loaded",
        makes: true,
        run: convert::words,
    },
    Command {
        name: "lemmas",
        prints: "the show as text, with lemmas that are found for it; what is lacking goes to standard error",
        makes: true,
        run: lemmas::run,
    },
];

/// What the arguments ask for.
enum Wanted {
    Help,
    Version,
    Answer(&'static Command, Source),
}

/// None where they are not to be understood. `terminal`: is standard input one?
fn wanted(arguments: &[OsString], terminal: bool) -> Option<Wanted> {
    let (first, rest) = arguments.split_first()?;
    match (first.to_str()?, rest) {
        ("help" | "--help", []) => Some(Wanted::Help),
        ("--version", []) => Some(Wanted::Version),
        (name, rest) => {
            let command = COMMANDS.iter().find(|command| command.name == name)?;
            Some(Wanted::Answer(command, file::source(rest, terminal)?))
        }
    }
}

fn usage() -> String {
    let commands: String = COMMANDS
        .iter()
        .map(|command| format!("  {:<11}{}\n", command.name, command.prints))
        .collect();
    format!(
        "Usage: bulanevior COMMAND [--] [FILE]
Says, explains, draws and writes the logic of the show in FILE; on standard input without FILE, or for -.
A show is words or text, to every command.
{commands}  help       this text, as --help, and --version the version: each alone
Status: 0  safe; of text and words, which do not judge, that they are whole
        1  findings
        2  trouble: no answer, and the reason on standard error
        3  the show is refused, cut or too long; of draw, text, words and lemmas nothing is printed then, and the reason is on standard error"
    )
}

/// What is to be printed, or the trouble.
fn said(wanted: Wanted) -> Result<Said, String> {
    match wanted {
        Wanted::Help => Ok(Said::line(usage(), Status::Good)),
        Wanted::Version => {
            let version = concat!("bulanevior ", env!("CARGO_PKG_VERSION"));
            Ok(Said::line(version.to_string(), Status::Good))
        }
        Wanted::Answer(command, source) => {
            let (library, crate_) = (bulanevior::version(), bulanevior::VERSION_NUMBER);
            if library != crate_ {
                let versions = format!("version {library}, and not {crate_}");
                return Err(verdict::mismatch(versions));
            }
            command.answer(file::read(&source)?)
        }
    }
}

fn main() -> ExitCode {
    output::close_again();
    let arguments: Vec<OsString> = std::env::args_os().skip(1).collect();
    let status = match wanted(&arguments, std::io::stdin().is_terminal()) {
        Some(wanted) => said(wanted)
            .and_then(output::print)
            .unwrap_or_else(|trouble| output::complain(&format!("bulanevior: {trouble}"))),
        None => output::complain(&usage()),
    };
    ExitCode::from(status as u8)
}

#[cfg(test)]
mod tests {
    use super::*;

    fn asked(line: &str) -> Option<Wanted> {
        let arguments: Vec<OsString> = line.split_whitespace().map(OsString::from).collect();
        wanted(&arguments, false)
    }

    #[test]
    fn arguments_are_understood_or_not() {
        assert!(matches!(asked("help"), Some(Wanted::Help)));
        assert!(matches!(asked("--help"), Some(Wanted::Help)));
        assert!(matches!(asked("--version"), Some(Wanted::Version)));
        for command in COMMANDS {
            for rest in ["", "-", "--", "a.words", "-- a.words"] {
                let Some(Wanted::Answer(found, _)) = asked(&format!("{} {rest}", command.name))
                else {
                    panic!("{} {rest}", command.name);
                };
                assert_eq!(found.name, command.name);
            }
        }
        for line in [
            "",
            "-",
            "--",
            "a.words",
            "finding",
            "Findings",
            "--findings",
        ] {
            assert!(asked(line).is_none(), "{line}");
        }
        for line in [
            "help findings",
            "--help -",
            "--version -",
            "findings --help",
            "findings a b",
        ] {
            assert!(asked(line).is_none(), "{line}");
        }
    }

    #[test]
    fn the_usage_names_every_command() {
        for command in COMMANDS {
            assert!(usage().contains(&format!("\n  {} ", command.name)));
        }
    }
}
