//! Writes the test records to the file given as argument, and their names to that file's name with
//! `.names` after it.

use std::process::ExitCode;

fn main() -> ExitCode {
    let Some(file) = std::env::args().nth(1) else {
        eprintln!("usage: shows FILE");
        return ExitCode::from(1);
    };
    let cases = independent::shows::cases();
    let mut bytes: Vec<u8> = Vec::new();
    let mut names = String::new();
    for case in &cases {
        bytes.extend(case.record.words().iter().flat_map(|w| w.to_le_bytes()));
        names.push_str(&case.name);
        names.push('\n');
    }
    let written = std::fs::write(&file, &bytes).and_then(|()| std::fs::write(format!("{file}.names"), names));
    match written {
        Ok(()) => {
            println!("{} records, {} bytes", cases.len(), bytes.len());
            ExitCode::SUCCESS
        }
        Err(error) => {
            eprintln!("{error}");
            ExitCode::from(1)
        }
    }
}
