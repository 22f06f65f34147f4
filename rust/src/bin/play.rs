//! Plays a script on the proved library and prints its answers: `play SCRIPT`, or `play` for one on standard input.

use goosedawn::library::Library;
use goosedawn::script::play;
use std::ffi::{OsStr, OsString};
use std::io::{stdin, stdout, Error, Read, Result, Write};
use std::path::Path;
use std::process::ExitCode;

const USAGE: &str = "\
usage: play [SCRIPT]

Plays the script in the file SCRIPT, or the one on standard input where no file is named, on the proved library, and
prints its answers. docs/FORMAT.md lists the statements. Beside those of the program `goosedawn` there are

    taken    prints how many numbers the last judge or run took: `taken N`, or `taken none` if it was refused

    shorter S N .. and N ..
             prints the shorter of the documents over S symbols that the two lists begin with, the first on a tie:
             `shorter first COUNT: N ..` or `shorter second COUNT: N ..`, or a refusal

    second-symbols N, second-states N, second-table N .., second-marks N ..
             set a second output type, as the contract's statements set the contract's

    merge T M
             merges the contract's output type and the second one, with T numbers lent for the table and M for the marks:
             `merged STATES`, or a refusal; `show` then prints both buffers, `table N ..` and `marks N ..`

    kinds W ..
             sets the list of kinds, five words each, from 0 to 18446744073709551615

    kinds-of-check
             that list becomes the kinds that the last check listed, none if it was refused

    examine  examines the list: `accepted` if it holds the kinds of all trees and none that breaks the contract, or a
             refusal

The status is 0; or 2 if the script has a fault, which the last line names, if it cannot be read or its answers cannot be
printed, or if there is more than one argument.
";

/// The status where something is wrong.
const WRONG: u8 = 2;

fn read(file: Option<&OsStr>) -> Result<Vec<u8>> {
    match file {
        Some(path) => std::fs::read(path),
        None => {
            let mut script = Vec::new();
            stdin().read_to_end(&mut script)?;
            Ok(script)
        }
    }
}

fn wrong(what: &str, error: &Error) -> ExitCode {
    eprintln!("{what}: {error}");
    ExitCode::from(WRONG)
}

fn print(text: &str, status: ExitCode) -> ExitCode {
    match stdout().write_all(text.as_bytes()) {
        Ok(()) => status,
        Err(error) => wrong("standard output", &error),
    }
}

/// Plays the script of a file, or of standard input, and prints its answers.
fn print_answers(file: Option<&OsStr>) -> ExitCode {
    match read(file) {
        Ok(script) => {
            let played = play(&Library::default(), &script);
            print(&played.said, if played.fault { ExitCode::from(WRONG) } else { ExitCode::SUCCESS })
        }
        Err(error) => {
            let name = file.map_or("standard input".into(), |path| Path::new(path).display().to_string());
            wrong(&name, &error)
        }
    }
}

fn main() -> ExitCode {
    let words: Vec<OsString> = std::env::args_os().skip(1).collect();
    match words.as_slice() {
        [] => print_answers(None),
        [word] if word == "-h" || word == "--help" => print(USAGE, ExitCode::SUCCESS),
        [file] => print_answers(Some(file)),
        _ => {
            eprint!("{USAGE}");
            ExitCode::from(WRONG)
        }
    }
}
