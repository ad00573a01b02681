//! Writes the lists that the programs `replay_..` read, and what these print of
//! them, or compares both.
//!
//!     answers            writes crates/replay_ARCHIVE/stdin and stdout of each
//!     answers --check    ends with 1, after the first record that is another,
//!                        where one of them differs
//!
//! Prints how many answers of each call there are. Ends with 2 where it is
//! called wrongly, or a file cannot be read or written.

use std::env;
use std::fs;
use std::path::{Path, PathBuf};
use std::process::ExitCode;

use differ::answers::{self, Counts};

fn main() -> ExitCode {
    let words: Vec<String> = env::args().skip(1).collect();
    let check = match words.iter().map(String::as_str).collect::<Vec<_>>()[..] {
        [] => false,
        ["--check"] => true,
        _ => {
            eprintln!("answers: {words:?}; expected nothing, or --check");
            return ExitCode::from(2);
        }
    };
    for archive in answers::archives().into_keys() {
        match done(archive, check) {
            Ok(counts) => println!("{archive}\n{counts}"),
            Err((code, complaint)) => {
                eprintln!("answers: {complaint}");
                return ExitCode::from(code);
            }
        }
    }
    ExitCode::SUCCESS
}

/// Writes or compares the two files of an archive's program.
fn done(archive: &str, check: bool) -> Result<Counts, (u8, String)> {
    let list = answers::list(archive);
    let printed = answers::printed(&list);
    let (input, output) = (path(archive, "stdin"), path(archive, "stdout"));
    if check {
        answers::check(&list, &read(&input)?)
            .map_err(|fault| (1, format!("{}: {fault}", input.display())))?;
        if read(&output)? != printed.as_bytes() {
            let place = output.display();
            return Err((
                1,
                format!("{place} is not what is printed of the list; expected {printed}"),
            ));
        }
    } else {
        write(&input, &answers::bytes(&list))?;
        write(&output, printed.as_bytes())?;
    }
    Ok(Counts::of(&list))
}

fn path(archive: &str, name: &str) -> PathBuf {
    let crates = Path::new(env!("CARGO_MANIFEST_DIR")).join("../../crates");
    crates.join(format!("replay_{archive}")).join(name)
}

fn read(path: &Path) -> Result<Vec<u8>, (u8, String)> {
    fs::read(path).map_err(|error| (2, format!("{} cannot be read: {error}", path.display())))
}

fn write(path: &Path, bytes: &[u8]) -> Result<(), (u8, String)> {
    fs::write(path, bytes)
        .map_err(|error| (2, format!("{} cannot be written: {error}", path.display())))
}
