//! Times the program `cadence` beside the program `reader`, each as a whole
//! process, on a reel of 65,535 measured entries: the best of ten rounds. Both
//! read a file; they print into nothing, and then into a pipe. No part of the
//! gate.
//!
//!     host/cargo build --release -p reader
//!     host/cargo run --release -p bench --bin listing
//!
//! Arguments name another program in the place of crates/cadence/out/cadence.

use std::env;
use std::fs::{self, File};
use std::path::Path;
use std::process::{ExitCode, Stdio};
use std::time::{Duration, Instant};

use differ::program::Program;
use reader::reel::{Entry, Reel};

const ROUNDS: usize = 10;

/// As many entries as a file can have, in clean pattern but for a splice every
/// thousand frames.
fn reel() -> Reel {
    let entry = |n: u16| {
        let (leading, trailing) = match (n + n / 1000) % 5 {
            2 => (0, 40),
            4 => (40, 0),
            _ => (40, 40),
        };
        Entry {
            parity: 0,
            present: u16::from(n > 0),
            counts: [leading, 1350, trailing, 1350],
        }
    };
    Reel {
        entries: (0..u16::MAX).map(entry).collect(),
        ..Reel::default()
    }
}

/// The program `reader`, which cargo puts beside this one.
fn reader_program() -> Result<Program, String> {
    let own = env::current_exe().map_err(|error| format!("this program has no path: {error}"))?;
    let file = own.with_file_name("reader");
    if !file.is_file() {
        return Err(format!(
            "{} is missing; expected the program that `host/cargo build --release -p reader` makes",
            file.display()
        ));
    }
    // Where an emulator is needed, host/cargo names it.
    let emulator = env::var("CARGO_TARGET_X86_64_UNKNOWN_LINUX_GNU_RUNNER").ok();
    let words = emulator.into_iter().chain([file.display().to_string()]);
    Ok(Program::named(words.collect()))
}

/// From the start of the process to its end. What it prints into a pipe is read.
fn timed(program: &Program, path: &Path, pipe: bool) -> Result<Duration, String> {
    let fault = |error: std::io::Error| format!("{program:?} cannot be timed: {error}");
    let input = File::open(path).map_err(fault)?;
    let mut command = program.command();
    command.stdin(input).stderr(Stdio::null());
    let start = Instant::now();
    if pipe {
        command.stdout(Stdio::piped()).output().map_err(fault)?;
    } else {
        command.stdout(Stdio::null()).status().map_err(fault)?;
    }
    Ok(start.elapsed())
}

fn contest(cadence: &Program, reader: &Program, path: &Path) -> Result<(), String> {
    println!(
        "{:<30} {:>10} {:>10} {:>8}",
        "65535 entries", "cadence", "reader", "ratio"
    );
    for (name, pipe) in [
        ("printed into nothing", false),
        ("printed into a pipe", true),
    ] {
        let (mut rattle, mut rust) = (Duration::MAX, Duration::MAX);
        // In turn, so that a busy machine slows both.
        for _ in 0..ROUNDS {
            rattle = rattle.min(timed(cadence, path, pipe)?);
            rust = rust.min(timed(reader, path, pipe)?);
        }
        println!(
            "{name:<30} {:>10} {:>10} {:>8.3}",
            format!("{rattle:.1?}"),
            format!("{rust:.1?}"),
            rattle.as_secs_f64() / rust.as_secs_f64()
        );
    }
    Ok(())
}

fn run() -> Result<(), String> {
    let (cadence, reader) = (Program::chosen()?, reader_program()?);
    let file = reel().bytes();
    // Both do the work that is timed.
    let listing = reader::listing(&file);
    for program in [&cadence, &reader] {
        if program.printed(&file)? != listing {
            return Err(format!("{program:?} prints another listing than expected"));
        }
    }
    let path = env::temp_dir().join(format!("listing-{}.reel", std::process::id()));
    fs::write(&path, &file).map_err(|error| format!("{}: {error}", path.display()))?;
    let done = contest(&cadence, &reader, &path);
    // Left behind, it would do no harm.
    let _ = fs::remove_file(&path);
    done
}

fn main() -> ExitCode {
    match run() {
        Ok(()) => ExitCode::SUCCESS,
        Err(complaint) => {
            eprintln!("listing: {complaint}");
            ExitCode::FAILURE
        }
    }
}
