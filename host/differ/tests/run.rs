//! `./run` itself: what it prints, what it says beside that, and how it ends, on
//! good files and where something is wrong. It proves nothing here: its programs
//! have been proved and built before.

use std::fs;
use std::path::{Path, PathBuf};
use std::process::Command;
use std::sync::{Mutex, PoisonError};

use reader::listing;
use reader::reel::Reel;

fn root() -> PathBuf {
    Path::new(env!("CARGO_MANIFEST_DIR")).join("../..")
}

/// What a line of shell left behind.
#[derive(Debug)]
struct Left {
    status: Option<i32>,
    printed: String,
    said: String,
}

impl Left {
    /// It ended so, printed this, and said something with this in it, or nothing.
    fn is(&self, status: i32, printed: &str, said: &str) {
        assert_eq!(self.status, Some(status), "{}", self.said);
        assert_eq!(self.printed, printed);
        assert!(self.said.contains(said), "{}", self.said);
        assert_eq!(self.said.is_empty(), said.is_empty(), "{}", self.said);
    }
}

/// Runs a line of shell at the root of the repository, one at a time: of two that
/// look at one crate, the second would wait.
fn shell(line: &str) -> Left {
    static ONE: Mutex<()> = Mutex::new(());
    let _one = ONE.lock().unwrap_or_else(PoisonError::into_inner);
    for name in ["cadence", "cards", "replay_desk"] {
        let stamp = root().join(format!("crates/{name}/out/{name}.stamp"));
        assert!(
            stamp.is_file(),
            "{} is missing; expected it from `./run {name}`, at the root of the repository",
            stamp.display()
        );
    }
    let mut command = Command::new("sh");
    let output = command.args(["-c", line]).current_dir(root()).output();
    let output = output.expect("sh starts");
    let text = |bytes: &[u8]| String::from_utf8_lossy(bytes).into_owned();
    Left {
        status: output.status.code(),
        printed: text(&output.stdout),
        said: text(&output.stderr),
    }
}

/// A file with these bytes, for a line of shell.
fn file(name: &str, bytes: &[u8]) -> String {
    let path = Path::new(env!("CARGO_TARGET_TMPDIR")).join(name);
    fs::write(&path, bytes).expect("a file in cargo's own folder");
    path.display().to_string()
}

fn shipped(path: &str) -> Vec<u8> {
    fs::read(root().join(path)).expect(path)
}

#[test]
fn without_arguments_the_example_is_listed() {
    let wanted = listing(&shipped("docs/example.reel"));
    shell("./run").is(0, &wanted, "docs/example.reel");
    shell("cd docs && ../run cadence < example.reel").is(0, &wanted, "");
}

#[test]
fn the_example_of_the_rules_is_listed() {
    let bytes = Reel::example().bytes();
    let path = file("rules.reel", &bytes);
    shell(&format!("./run cadence < {path}")).is(0, &listing(&bytes), "");
}

#[test]
fn a_refused_file_is_told_in_words() {
    let reel = Reel {
        shape: vec![2, 2, 8, 2, 0],
        entries: Reel::example().entries,
        pictures: vec![vec![1, 2, 3, 4]],
    };
    let with = |change: &dyn Fn(&mut Reel)| {
        let mut changed = reel.clone();
        change(&mut changed);
        changed.bytes()
    };
    let cut = |bytes: Vec<u8>| bytes[..bytes.len() - 1].to_vec();
    let files = [
        (3, with(&|reel| reel.entries[4].present = 2)),
        (4, with(&|reel| reel.shape[2] = 7)),
        (6, cut(reel.bytes())),
        (6, Vec::new()),
        (7, with(&|reel| reel.shape = vec![128, 129, 8, 128, 0])),
    ];
    for (number, bytes) in files {
        let path = file("refused.reel", &bytes);
        let wanted = listing(&bytes);
        assert!(wanted.ends_with(&format!("refused {number}\n")), "{wanted}");
        let told = format!("cadence: refused with {number}: ");
        let left = shell(&format!("./run cadence < {path}"));
        left.is(1, &wanted, &told);
        assert!(left.said.contains("; expected "), "{}", left.said);
    }
}

#[test]
fn an_input_that_cannot_be_read_is_told() {
    let told = "cadence: standard input cannot be read; expected a reel file";
    shell("./run cadence <&-").is(1, "refused 6\n", told);
    shell("./run cadence < docs").is(1, "refused 6\n", told);
}

#[test]
fn an_output_that_cannot_be_written_is_told() {
    let told = "cadence: standard output cannot be written; expected room for the listing";
    shell("./run > /dev/full").is(1, "", told);
    shell("./run >&-").is(1, "", told);
    shell("./run cards < crates/cards/stdin > /dev/full").is(1, "", "rror");
    // Both pages of a long listing: the first one fails, and no other is tried.
    let left = shell("{ ./run cadence < crates/cadence/stdin; echo \"status $?\" >&2; } | :");
    assert!(left.said.ends_with("status 1\n"), "{}", left.said);
    assert_eq!(left.said.matches(told).count(), 1, "{}", left.said);
    // A reader that is content early is not told anything of it by its own status.
    shell("./run 2>/dev/null | head -n 1").is(0, "0 none 0\n", "");
}

#[test]
fn what_differs_is_in_the_status() {
    let list = String::from_utf8(shipped("crates/cards/stdin")).expect("text");
    let printed = String::from_utf8(shipped("crates/cards/stdout")).expect("text");
    shell("./run cards < crates/cards/stdin").is(0, &printed, "");
    let others = [
        list.replace("busy", "idle"),
        format!("{list}{list}"),
        String::new(),
    ];
    for other in others {
        let path = file("cards", other.as_bytes());
        let left = shell(&format!("./run cards < {path}"));
        assert_eq!(left.status, Some(1), "{}", left.printed);
    }
    let printed = String::from_utf8(shipped("crates/replay_desk/stdout")).expect("text");
    shell("./run replay_desk < crates/replay_desk/stdin").is(0, &printed, "");
    let left = shell("head -c 100000 crates/replay_desk/stdin | ./run replay_desk");
    assert_eq!(left.status, Some(1), "{}", left.printed);
}

#[test]
fn a_wrong_call_ends_with_2() {
    for name in ["nothing", "", "../run", "cadence cards"] {
        let said = format!("there is no program '{name}'; expected one of cadence, ");
        shell(&format!("./run '{name}'")).is(2, "", &said);
    }
    shell("./run cadence cards").is(2, "", "2 arguments were given; expected none, or the name");
    shell("PATH=/nowhere /bin/sh ./run").is(2, "", "rt is not installed; expected");
}

/// `script` gives it a terminal, and ends the input at once.
#[test]
fn at_a_terminal_it_says_what_it_waits_for() {
    let left = shell("script -qec './run cadence' /dev/null < /dev/null");
    let said = "waits for a file on standard input, which is a terminal; expected: ./run cadence <";
    assert!(left.printed.contains(said), "{left:?}");
    assert_eq!(left.status, Some(1), "{left:?}");
}
