//! Holds docs/ANSWER.md to the crates: every mark shows the number of the note
//! that it leads to, every note has a mark, and what a note rests on is in the
//! crates as the kind of thing that the note says it is. That links lead
//! somewhere tests/pages.rs sees.
//!
//! A mark is `[¹](#note-1)`, anywhere before `## Notes`. A note is `### Note 1`
//! and a list: what the promise rests on, a line each, and one line that says
//! what is not covered. What it rests on is one of
//!
//!     - Theorem `NAME`: [PATH](LINK)        stated in specs/, proved in proofs/
//!     - Contract of `NAME`: [PATH](LINK)    of a public function
//!     - Definition `NAME`: [PATH](LINK)     what a theorem's words mean
//!     - No theorem, WHAT: [PATH](LINK)      measured or compared, not proved

use std::collections::{BTreeMap, BTreeSet};
use std::fs;
use std::path::{Path, PathBuf};

#[test]
fn every_note_has_a_mark_and_rests_on_what_is_there() {
    let root = Path::new(env!("CARGO_MANIFEST_DIR")).join("../..");
    let page = fs::read_to_string(root.join("docs/ANSWER.md")).expect("docs/ANSWER.md is there");
    let faults = faults(&page, &root);
    assert!(faults.is_empty(), "docs/ANSWER.md:\n{}", faults.join("\n"));
}

/// All that is wrong with the page, of a repository at `root`.
fn faults(page: &str, root: &Path) -> Vec<String> {
    let Some((text, notes)) = page.split_once("\n## Notes\n") else {
        return vec!["has no section of notes".to_owned()];
    };
    let (marks, mut faults) = marks(text);
    let notes = noted(notes, &mut faults);
    if marks.is_empty() {
        faults.push("has no mark".to_owned());
    }
    for (number, lines) in &notes {
        if !marks.contains(number) {
            faults.push(format!("note {number} has no mark"));
        }
        let found = note_faults(lines, root);
        faults.extend(
            found
                .into_iter()
                .map(|fault| format!("note {number}: {fault}")),
        );
    }
    if !text.contains("![") {
        faults.push("has no picture".to_owned());
    }
    faults
}

/// The numbers of the marks, and what is wrong with how one is shown.
fn marks(text: &str) -> (BTreeSet<u32>, Vec<String>) {
    const RAISED: [char; 10] = ['⁰', '¹', '²', '³', '⁴', '⁵', '⁶', '⁷', '⁸', '⁹'];
    let mut found = BTreeSet::new();
    let mut faults = Vec::new();
    let mut parts = text.split("](#note-");
    let mut before = parts.next().unwrap_or("");
    for part in parts {
        let shown = before.rsplit('[').next().unwrap_or("");
        let named = part.split(')').next().unwrap_or("");
        let raised: String = named
            .chars()
            .filter_map(|digit| Some(RAISED[digit.to_digit(10)? as usize]))
            .collect();
        match named.parse() {
            Ok(number) if shown == raised => {
                found.insert(number);
            }
            _ => faults.push(format!("mark {shown} leads to note-{named}")),
        }
        before = part;
    }
    (found, faults)
}

/// The lines of each note, an indented one joined to that above it.
fn noted(notes: &str, faults: &mut Vec<String>) -> BTreeMap<u32, Vec<String>> {
    let mut found = BTreeMap::new();
    for note in notes.split("\n### Note ").skip(1) {
        let (number, list) = note.split_once('\n').unwrap_or((note, ""));
        let mut lines: Vec<String> = Vec::new();
        for line in list.lines().filter(|line| !line.trim().is_empty()) {
            match (line.strip_prefix("  "), lines.last_mut()) {
                (Some(more), Some(last)) => *last = format!("{last} {more}"),
                _ => lines.push(line.to_owned()),
            }
        }
        match number.parse() {
            Ok(number) if found.insert(number, lines).is_none() => {}
            _ => faults.push(format!("note {number} is no number or stands twice")),
        }
    }
    found
}

fn note_faults(lines: &[String], root: &Path) -> Vec<String> {
    let mut faults = Vec::new();
    let (mut rests, mut limits) = (0, 0);
    for line in lines {
        if let Some(limit) = line.strip_prefix("- Does not cover: ") {
            limits += usize::from(!limit.trim().is_empty());
            continue;
        }
        rests += 1;
        if let Err(fault) = rested_on(line, root) {
            faults.push(fault);
        }
    }
    if rests == 0 {
        faults.push("names nothing that the promise rests on".to_owned());
    }
    if limits != 1 {
        faults.push(format!("says {limits} times what it does not cover"));
    }
    faults
}

/// A line that says what a promise rests on.
fn rested_on(line: &str, root: &Path) -> Result<(), String> {
    let path = between(line, ": [", "](").ok_or_else(|| format!("'{line}' names no file"))?;
    let link = between(line, "](", ")").unwrap_or("");
    let file = root.join("docs").join(link);
    let text = fs::read_to_string(&file).map_err(|_| format!("{link} is missing"))?;
    if !same_file(&file, &root.join(path)) {
        return Err(format!("{path} leads to {link}"));
    }
    if line.starts_with("- No theorem, ") {
        return Ok(());
    }
    let name = between(line, "`", "`").unwrap_or("");
    let stands = if line.starts_with("- Theorem `") {
        stated(&text, name) && proved(&file, name)
    } else if line.starts_with("- Contract of `") {
        text.lines().any(|line| is_function(line, name))
    } else if line.starts_with("- Definition `") {
        code(&text).any(|line| has_word(line, name))
    } else {
        return Err(format!("'{line}' is no line of a note"));
    };
    if stands {
        Ok(())
    } else {
        Err(format!("`{name}` does not stand in {path} as that"))
    }
}

/// The file has the name as a type of its own, which is how theorems are stated.
fn stated(text: &str, name: &str) -> bool {
    code(text).any(|line| line == format!("abbrev pub {name} : Type 0"))
}

/// The file of the same name in `proofs` has a proof of it.
fn proved(stated_in: &Path, name: &str) -> bool {
    let place: PathBuf = stated_in
        .components()
        .map(|part| {
            if part.as_os_str() == "specs" {
                "proofs".as_ref()
            } else {
                part.as_os_str()
            }
        })
        .collect();
    let text = fs::read_to_string(place).unwrap_or_default();
    code(&text).any(|line| line.starts_with("pub ") && line.ends_with(&format!(" : {name}")))
}

fn is_function(line: &str, name: &str) -> bool {
    let after = line
        .trim_start()
        .strip_prefix("pub fn ")
        .and_then(|line| line.strip_prefix(name));
    after.is_some_and(|after| after.starts_with(['(', '<']))
}

/// The lines that are no comment.
fn code(text: &str) -> impl Iterator<Item = &str> {
    text.lines()
        .filter(|line| !line.trim_start().starts_with("--"))
}

fn has_word(line: &str, word: &str) -> bool {
    !word.is_empty()
        && line
            .split(|c: char| !(c.is_alphanumeric() || c == '-' || c == '_'))
            .any(|found| found == word)
}

fn same_file(one: &Path, other: &Path) -> bool {
    match (one.canonicalize(), other.canonicalize()) {
        (Ok(one), Ok(other)) => one == other,
        _ => false,
    }
}

/// What stands between the first `open` and the next `close`.
fn between<'a>(text: &'a str, open: &str, close: &str) -> Option<&'a str> {
    let (_, after) = text.split_once(open)?;
    let (inside, _) = after.split_once(close)?;
    Some(inside)
}

/// A page with one fault each, so that the test above is seen to fail.
#[test]
fn every_fault_is_found() {
    const GOOD: &str = "Woven.[¹](#note-1)\n\n![Woven](pulldown.svg)\n\n## Notes\n\n### Note 1\n\
        - Theorem `WovenAlternates`: [crates/weave/specs/Claims.antt](../crates/weave/specs/Claims.antt)\n\
        - Contract of `weave`: [crates/weave/src/lib.rt](../crates/weave/src/lib.rt)\n\
        - Definition `woven_plane`: [crates/weave/specs/Weave.antt](../crates/weave/specs/Weave.antt)\n\
        - No theorem, runs: [docs/DIFFERENCES.md](DIFFERENCES.md)\n\
        - Does not cover: the deck.\n";
    let root = Path::new(env!("CARGO_MANIFEST_DIR")).join("../..");
    assert_eq!(faults(GOOD, &root), Vec::<String>::new());

    let changes = [
        ("## Notes", "## Note"),
        ("[¹](#note-1)", ""),
        ("[¹](#note-1)", "[²](#note-1)"),
        ("### Note 1", "### Note one"),
        (
            "### Note 1\n",
            "### Note 1\n- Does not cover: x\n\n### Note 1\n",
        ),
        ("Theorem `WovenAlternates`", "Theorem `WovenAlternate`"),
        // A record of the same file, which is no theorem.
        ("Theorem `WovenAlternates`", "Theorem `Alternates`"),
        ("Theorem `WovenAlternates`", "Lemma `WovenAlternates`"),
        (
            "(../crates/weave/specs/Claims",
            "(../crates/weave/specs/Claim",
        ),
        (
            "(../crates/weave/specs/Claims",
            "(../crates/plane/specs/Claims",
        ),
        ("Contract of `weave`", "Contract of `weave_plane`"),
        ("Definition `woven_plane`", "Definition `woven_plan`"),
        ("(DIFFERENCES.md)", "(DIFFERENCE.md)"),
        ("![Woven](pulldown.svg)", ""),
        ("- Does not cover: the deck.\n", ""),
    ];
    for (right, wrong) in changes {
        let page = GOOD.replace(right, wrong);
        assert_ne!(page, GOOD, "{right}");
        assert!(!faults(&page, &root).is_empty(), "{right} as {wrong}");
    }
}
