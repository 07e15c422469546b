//! Reading a show, from a file or from standard input.
use crate::input;
use std::ffi::OsString;
use std::fs::File;
use std::io::Read;
use std::os::fd::AsFd;
use std::path::PathBuf;

/// Where the bytes of a show come from.
#[derive(Debug, PartialEq, Eq)]
pub enum Source {
    Input,
    File(PathBuf),
}

/// The source that the arguments behind a command name: `[--] [FILE]`. None for other arguments, and where nothing is named and
/// standard input is a terminal.
pub fn source(arguments: &[OsString], terminal: bool) -> Option<Source> {
    let (names, any) = match arguments {
        [first, rest @ ..] if first == "--" => (rest, true),
        all => (all, false),
    };
    match names {
        [] if !terminal => Some(Source::Input),
        [name] if name == "-" => Some(Source::Input),
        [name] if name.is_empty() => None,
        [name] if any || !name.as_encoded_bytes().starts_with(b"-") => {
            Some(Source::File(name.into()))
        }
        _ => None,
    }
}

/// The bytes, as far as anybody looks at them; or the trouble.
pub fn read(source: &Source) -> Result<Vec<u8>, String> {
    match source {
        Source::Input => standard_input()
            .and_then(load)
            .map_err(|e| format!("cannot read standard input: {e}")),
        Source::File(name) => File::open(name)
            .and_then(load)
            .map_err(|e| format!("cannot read {name:?}: {e}")),
    }
}

/// As a file: the runtime's own standard input takes a closed one for an empty one.
fn standard_input() -> std::io::Result<File> {
    Ok(File::from(std::io::stdin().as_fd().try_clone_to_owned()?))
}

fn load(file: File) -> std::io::Result<Vec<u8>> {
    let mut bytes = Vec::new();
    file.take(input::BYTES as u64).read_to_end(&mut bytes)?;
    Ok(bytes)
}

#[cfg(test)]
mod tests {
    use super::*;

    #[test]
    fn sources_are_named_or_not() {
        let named = |names: &[&str], terminal| {
            let arguments: Vec<OsString> = names.iter().map(OsString::from).collect();
            source(&arguments, terminal)
        };
        let file = |name: &str| Some(Source::File(name.into()));
        assert_eq!(named(&[], false), Some(Source::Input));
        assert_eq!(named(&["--"], false), Some(Source::Input));
        assert_eq!(named(&[], true), None);
        assert_eq!(named(&["--"], true), None);
        assert_eq!(named(&["-"], true), Some(Source::Input));
        assert_eq!(named(&["--", "-"], true), Some(Source::Input));
        assert_eq!(named(&["a"], true), file("a"));
        assert_eq!(named(&["--", "a"], true), file("a"));
        assert_eq!(named(&["--", "-a"], true), file("-a"));
        assert_eq!(named(&["--", "--"], true), file("--"));
        for names in [
            &["-a"] as &[_],
            &[""],
            &["--", ""],
            &["a", "b"],
            &["a", "--"],
            &["--", "a", "b"],
        ] {
            assert_eq!(named(names, false), None, "{names:?}");
        }
    }
}
