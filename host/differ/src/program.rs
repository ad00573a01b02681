//! A program of this repository, started anew for each file (`cadence` for each
//! reel file), and its listing beside another.

use std::env;
use std::io::Write;
use std::path::Path;
use std::process::{Child, Command, Stdio};
use std::thread;

use crate::case::Difference;

/// What is started for each file: a program and its arguments.
#[derive(Debug)]
pub struct Program(Vec<String>);

/// What a program left behind: on standard output, and on standard error.
#[derive(Debug, Clone, PartialEq, Eq)]
pub struct Ran {
    pub printed: String,
    pub told: String,
}

impl Program {
    /// A program and its arguments; at least the first of them.
    pub fn named(words: Vec<String>) -> Self {
        assert!(!words.is_empty(), "a program has a name");
        Self(words)
    }

    /// What starts it, with whatever input and output the caller says.
    pub fn command(&self) -> Command {
        let mut command = Command::new(&self.0[0]);
        command.args(&self.0[1..]);
        command
    }

    /// The program that the arguments name, or `cadence`.
    pub fn chosen() -> Result<Self, String> {
        Self::among(env::args().skip(1).collect())
    }

    /// The program that these words name, or `cadence` where there are none.
    pub fn among(words: Vec<String>) -> Result<Self, String> {
        if words.is_empty() {
            return Self::built("cadence");
        }
        Ok(Self(words))
    }

    /// The program of this name that the repository has built.
    pub fn built(name: &str) -> Result<Self, String> {
        let root = Path::new(env!("CARGO_MANIFEST_DIR")).join("../..");
        let program = root.join("crates").join(name).join("out").join(name);
        if !program.is_file() {
            return Err(format!(
                "{} is missing; expected the program that `./run {name}` builds, at the root of \
                 the repository",
                program.display()
            ));
        }
        // Where an emulator is needed, host/cargo names it.
        let emulator = env::var("CARGO_TARGET_X86_64_UNKNOWN_LINUX_GNU_RUNNER").ok();
        let words = emulator.into_iter().chain([program.display().to_string()]);
        Ok(Self(words.collect()))
    }

    /// What it prints of a file.
    pub fn printed(&self, file: &[u8]) -> Result<String, String> {
        Ok(self.ran(file)?.printed)
    }

    /// What it prints and what it tells of a file. How it ends says nothing, so
    /// long as it ends by itself.
    pub fn ran(&self, file: &[u8]) -> Result<Ran, String> {
        let mut child = self
            .command()
            .stdin(Stdio::piped())
            .stdout(Stdio::piped())
            .stderr(Stdio::piped())
            .spawn()
            .map_err(|error| format!("{} does not start: {error}", self.0[0]))?;
        let stdin = child.stdin.take();
        let write = move |file: &[u8]| {
            // It may well end before it has read all.
            let _ = stdin.expect("it is piped").write_all(file);
        };
        let output = |child: Child| child.wait_with_output();
        // So much a pipe holds; beyond it, both ends have to be served.
        let output = if file.len() <= 1 << 14 {
            write(file);
            output(child)
        } else {
            thread::scope(|scope| {
                scope.spawn(|| write(file));
                output(child)
            })
        };
        let output = output.map_err(|error| format!("it cannot be waited for: {error}"))?;
        let text = |bytes: &[u8]| String::from_utf8_lossy(bytes).into_owned();
        let ran = Ran {
            printed: text(&output.stdout),
            told: text(&output.stderr),
        };
        match output.status.code() {
            Some(_) => Ok(ran),
            None => Err(format!("it was ended by a signal, after: {}", ran.printed)),
        }
    }

    /// Whether it prints of a file what is wanted; else the first line that
    /// differs.
    pub fn prints(&self, file: &[u8], wanted: &str) -> Result<(), Difference> {
        match self.printed(file) {
            Ok(found) => same_lines(&found, wanted),
            Err(fault) => Err(Difference::new("how it ends", fault, "a listing")),
        }
    }
}

/// Whether two listings are equal; else the first line that differs.
pub fn same_lines(found: &str, wanted: &str) -> Result<(), Difference> {
    if found == wanted {
        return Ok(());
    }
    let ended = |text: &str| text.split_inclusive('\n').map(str::to_owned).collect();
    let (found, wanted): (Vec<String>, Vec<String>) = (ended(found), ended(wanted));
    let at = found
        .iter()
        .zip(&wanted)
        .take_while(|(f, w)| f == w)
        .count();
    let line = |lines: &[String]| {
        lines
            .get(at)
            .map_or("nothing".to_owned(), |l| format!("{l:?}"))
    };
    Err(Difference::new(
        format_args!("line {at} of the listing"),
        line(&found),
        line(&wanted),
    ))
}
