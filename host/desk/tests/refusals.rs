//! Sees tools/refusals hold a wrong program to the shape of the code: each edit
//! below is given to it, and has to be passed over or told as it says.

use std::fs;
use std::path::Path;
use std::process::Command;

const CODE: &str = "src/lib.rt";
const DEFINITION: &str = "specs/Plane.antt";

/// Names, numbers, operators and their order: the file, old text, new text.
const KEPT: [(&str, &str, &str); 8] = [
    (CODE, "    a <= b", "    a < a"),
    (CODE, "& (row <= stride)", "| (row <= 8)"),
    (CODE, "less_one(s.height),", "less_one(1),"),
    (
        CODE,
        "(9.0 * near - far) / 16.0",
        "9.0 * (near - far) / 16.0",
    ),
    (CODE, "&mut dst[at..at + n]", "&mut dst[from..from + n]"),
    (CODE, "add(out, b\" drop \")", "add(out, b\" none, for \")"),
    (
        DEFINITION,
        "f s = (s.height - 1) * k",
        "f s = (s.height - 0) * s.stride",
    ),
    (
        DEFINITION,
        "cond passes (lowest tests) n",
        "cond passes n (lowest tests)",
    ),
];

/// An operation or an operand more or less.
const BROKEN: [(&str, &str, &str); 18] = [
    (CODE, "    a & b", "    a & b & false"),
    (CODE, "if a == 0 {", "if (a == 0) | true {"),
    (CODE, "if first {", "if !first {"),
    (CODE, "within(x, 0.0)", "within(x, -0.0)"),
    (CODE, "x - y", "x - (-y)"),
    (CODE, "n", "n-1"),
    (CODE, "*busy = counts;", "let _ = counts;"),
    (CODE, "while i < to.len() {", "while i < 0 {"),
    (CODE, "cadences(out, entries)", "cadences(out, &entries)"),
    (CODE, "cadences(out, entries)", "cadences(out, entries[i])"),
    (CODE, "keep(state);", "keep(state); return 6;"),
    (CODE, "keep(state);", "// keep(state);"),
    (CODE, "keep(state);", ""),
    (CODE, "total += x;", "total = x;"),
    (CODE, "f(x as u32)", "f(x)"),
    (
        CODE,
        "Paired::Refused(no) => no,",
        "Paired::Refused(_) => 0,",
    ),
    (DEFINITION, "f s = (s.height - 1) * k", "f s = s.height * k"),
    (DEFINITION, "meets n ≡ m", "meets n ≡ suc m"),
];

#[test]
fn an_edit_that_keeps_the_shape_passes() {
    for (k, (file, old, new)) in KEPT.iter().enumerate() {
        let told = told(&format!("kept{k}"), file, &[(old, new)]);
        assert!(told.is_none(), "`{old}` became `{new}`: {told:?}");
    }
}

#[test]
fn lines_may_change_places() {
    let lines = [
        ("keep(state);", "mark(&x)?;"),
        ("mark(&x)?;", "keep(state);"),
    ];
    assert_eq!(told("exchanged", CODE, &lines), None);
    assert!(told("one_line", CODE, &lines[..1]).is_some());
}

#[test]
fn an_edit_that_breaks_the_shape_is_told() {
    for (k, (file, old, new)) in BROKEN.iter().enumerate() {
        let told = told(&format!("broken{k}"), file, &[(old, new)]).unwrap_or_default();
        assert!(
            told.contains(": some_function: it changes the code's shape: "),
            "`{old}` became `{new}`: {told:?}"
        );
    }
}

/// What tools/refusals says of a wrong program, where it ends with a failure.
fn told(label: &str, file: &str, pairs: &[(&str, &str)]) -> Option<String> {
    let path = Path::new(env!("CARGO_TARGET_TMPDIR")).join(format!("{label}.edit"));
    let mut text = format!("wrong: some_function: what it does\nfile: {file}\n");
    for (old, new) in pairs {
        text += &format!("old: {old}\nnew: {new}\n");
    }
    fs::write(&path, text).expect("a place for an edit");
    let tool = Path::new(env!("CARGO_MANIFEST_DIR")).join("../../tools/refusals");
    let run = Command::new(tool)
        .arg("--text")
        .arg(&path)
        .output()
        .expect("tools/refusals");
    let said = String::from_utf8(run.stderr).expect("text");
    assert_eq!(run.status.success(), said.is_empty(), "{said}");
    (!run.status.success()).then_some(said)
}

/// Public functions with fewer than two wrong programs, and how many they have. Their
/// bodies are `new()` alone, or hand on what others made; there is no other of
/// that shape.
const FEWER: [(&str, usize); 4] = [
    ("listing::Lister::start", 1),
    ("pulldown::Lock::reset", 0),
    ("weaver::Weaver::clear", 0),
    ("weavedesk::desk_woven", 1),
];

/// Every row of docs/UNIQUE.md is a public function, `CRATE::FUNCTION`.
#[test]
fn every_public_contract_has_two_wrong_programs() {
    let root = Path::new(env!("CARGO_MANIFEST_DIR")).join("../..");
    let page = fs::read_to_string(root.join("docs/UNIQUE.md")).expect("docs/UNIQUE.md");
    let named = page.lines().filter_map(|line| line.strip_prefix("| [`"));
    let mut fewer = Vec::new();
    for row in named {
        let (function, _) = row.split_once('`').expect("the end of a name");
        let (folder, name) = function.split_once("::").expect("a crate");
        let edits = root.join("crates").join(folder).join("must-fail");
        let start = format!("wrong: {name}: ");
        // Of a trait's function edits have the toolchain's word, type and trait together:
        // `ShapeFromGrid::from`, `RefusalDisplay::fmt`.
        let of_trait = match name.rsplit_once("::") {
            Some((owner, "from")) => Some((format!("wrong: {owner}From"), "::from: ")),
            Some((owner, "fmt")) => Some((format!("wrong: {owner}Display"), "::fmt: ")),
            _ => None,
        };
        let is_its = |line: &str| {
            line.starts_with(&start)
                || of_trait.as_ref().is_some_and(|(begins, ends)| {
                    line.strip_prefix(begins.as_str())
                        .and_then(|rest| rest.split_once(ends))
                        .is_some_and(|(word, _)| word.chars().all(char::is_alphanumeric))
                })
        };
        let mut wrong = 0;
        for edit in fs::read_dir(edits).expect("edits") {
            let text = fs::read_to_string(edit.expect("an edit").path()).expect("its text");
            wrong += text.lines().filter(|line| is_its(line)).count();
        }
        if wrong < 2 && !FEWER.contains(&(function, wrong)) {
            fewer.push(format!("{function} has {wrong}"));
        }
    }
    assert!(
        fewer.is_empty(),
        "expected two wrong programs: {}",
        fewer.join("; ")
    );
}
