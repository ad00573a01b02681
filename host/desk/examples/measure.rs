//! Measures a tape of any size: reads it as YUV4MPEG2, which FFmpeg writes, and
//! writes a reel of measured entries, which the program `cadence` lists.
//!
//!     ffmpeg -nostdin -v error -i TAPE.mov -map 0:v:0 -pix_fmt yuv422p10le -strict -1 \
//!         -f yuv4mpegpipe - | host/cargo run -q --release -p desk --example measure > tape.reel
//!     ./run cadence < tape.reel
//!
//! Ends with 1 where the input is refused, and with 2 where the call is wrong;
//! nothing is written then.

use std::env;
use std::io::{self, IsTerminal, Write};
use std::process::ExitCode;

use desk::Parity;

#[path = "measure/tape.rs"]
mod tape;

const HELP: &str = "\
measure [top | bottom] < TAPE.y4m > TAPE.reel

Counts, for each frame of a tape, the blocks of 16 columns by 8 rows that changed
since the frame before, in the field that comes first and in the other one. The
program `cadence` finds film in these counts: ./run cadence < TAPE.reel

The input is YUV4MPEG2: 4:2:0 or 4:2:2, 8 or 10 bits, or gray of 8 bits.

    ffmpeg -nostdin -v error -i TAPE.mov -map 0:v:0 -pix_fmt yuv422p10le -strict -1 \\
        -f yuv4mpegpipe - |
        host/cargo run -q --release -p desk --example measure > TAPE.reel

top or bottom is the field that comes first: --example measure -- top. Without
the word the stream says it, by It or Ib in its header or by the I of a frame.
The wrong one hides all film.

Ends with 0 when the reel is written, 1 where the input is refused, 2 where the
call is wrong.
";

/// Statuses to end with.
const REFUSED: u8 = 1;
const WRONG_CALL: u8 = 2;

#[derive(Debug, PartialEq, Eq)]
enum Call {
    Help,
    /// With the field that comes first, if it is said.
    Measure(Option<Parity>),
}

fn call(words: &[String]) -> Result<Call, String> {
    let words: Vec<&str> = words.iter().map(String::as_str).collect();
    match words[..] {
        ["--help" | "-h"] => Ok(Call::Help),
        [] => Ok(Call::Measure(None)),
        ["top"] => Ok(Call::Measure(Some(Parity::Top))),
        ["bottom"] => Ok(Call::Measure(Some(Parity::Bottom))),
        _ => Err(format!(
            "the words are '{}'; expected top, bottom, --help or none",
            words.join(" ")
        )),
    }
}

/// A status to end with, and why.
type Fault = (u8, String);

fn run() -> Result<(), Fault> {
    let words = env::args_os().skip(1);
    let words: Vec<String> = words.map(|word| word.to_string_lossy().into()).collect();
    let first = match call(&words).map_err(|fault| (WRONG_CALL, fault))? {
        Call::Help => return print(HELP.as_bytes()),
        Call::Measure(first) => first,
    };
    let mut input = io::stdin().lock();
    if input.is_terminal() {
        let fault = "the input is a terminal; expected YUV4MPEG2 from a pipe or a file, as \
                     measure --help shows";
        return Err((WRONG_CALL, fault.to_owned()));
    }
    if io::stdout().is_terminal() {
        let fault = "the output is a terminal, and a reel is bytes; expected a file: measure > \
                     TAPE.reel";
        return Err((WRONG_CALL, fault.to_owned()));
    }
    let reel = tape::reel_of(&mut input, first).map_err(|fault| (REFUSED, fault))?;
    print(&reel)
}

fn print(bytes: &[u8]) -> Result<(), Fault> {
    let mut output = io::stdout().lock();
    let written = output.write_all(bytes).and_then(|()| output.flush());
    written.map_err(|error| (REFUSED, format!("the output cannot be written: {error}")))
}

fn main() -> ExitCode {
    match run() {
        Ok(()) => ExitCode::SUCCESS,
        Err((status, fault)) => {
            eprintln!("measure: {fault}");
            ExitCode::from(status)
        }
    }
}

#[cfg(test)]
#[path = "measure/tests.rs"]
mod tests;
