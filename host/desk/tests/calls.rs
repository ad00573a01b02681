//! Sees tools/calls hold to the exports all that is made from them: each change
//! below is made in a copy, and has to be told.

use std::fs;
use std::path::{Path, PathBuf};
use std::process::Command;

/// A file, what stands in it, what is put in its place, and what is to be told.
const CHANGES: [(&str, &str, &str, &str); 14] = [
    (
        "crates/desk/src/combs.rt",
        "    height: u32,\n    depth: u32,",
        "    depth: u32,\n    height: u32,",
        "host/desk/src/calls.rs is not what the exports make of it",
    ),
    (
        "crates/weavedesk/src/lib.rt",
        "    pub luma_pitch: u32,\n    pub second_pitch: u32,",
        "    pub second_pitch: u32,\n    pub luma_pitch: u32,",
        "crates/replay_weavedesk/src/calls.rt is not what the exports make of it",
    ),
    (
        "crates/desk/src/combs.rt",
        "#[unsafe(no_mangle)]\npub extern \"C\" fn desk_comb(",
        "pub extern \"C\" fn desk_comb(",
        "expected `#[unsafe(no_mangle)]` above each",
    ),
    (
        "crates/desk/src/combs.rt",
        " Numbers 4 and 6.\n#[unsafe(no_mangle)]\npub extern \"C\" fn desk_comb(",
        "\n#[unsafe(no_mangle)]\npub extern \"C\" fn desk_comb(",
        "the comment of desk_comb does not end with its refusals",
    ),
    (
        "crates/desk/src/combs.rt",
        " Numbers 4 and 6.\n#[unsafe(no_mangle)]\npub extern \"C\" fn desk_comb(",
        " Numbers 4, 5 and 6.\n#[unsafe(no_mangle)]\npub extern \"C\" fn desk_comb(",
        "host/desk/src/calls.rs is not what the exports make of it",
    ),
    (
        "crates/desk_c/src/lib.rt",
        "desk::combs::desk_comb(plane, width, height,",
        "desk::combs::desk_comb(plane, height, width,",
        "crates/desk_c/src/lib.rt is not what the exports make of it",
    ),
    (
        "crates.txt",
        "desk_c staticlib: laws ",
        "desk_c staticlib: copy ",
        "crate desk exports calls",
    ),
    (
        "host/differ/src/runs.rs",
        "calls: &[\"comb\"],",
        "calls: &[\"brush\"],",
        "no run has comb among its `calls`",
    ),
    (
        "crates/filmdesk/src/lib.rt",
        "    ensures busy_after { busy.new ≡",
        "    ensures busy_after { total.new ≡",
        "the clauses of desk_busy are about result, total, total",
    ),
    (
        "crates/unique/proofs/Plane.antt",
        "use Rattle.plane.proofs.code.Reads as code",
        "use Rattle.plane.proofs.at.Reads as code",
        "plane::code has no lemma",
    ),
    (
        "crates/desk/must-fail/more_shams.edit",
        "sham: does nothing: desk_comb\n",
        "",
        "desk_comb: no wrong program does nothing",
    ),
    (
        "crates/desk/must-fail/more_shams.edit",
        "sham: does nothing: desk_comb\n",
        "sham: does nothing: desk_brush\n",
        "expected, below a `wrong:` line",
    ),
    (
        "docs/UNIQUE.md",
        "| [`plane::code`]",
        "| [`plane::coda`]",
        "docs/UNIQUE.md is not what the exports make of it",
    ),
    (
        "host/desk/src/calls.rs",
        "name: \"comb\", archive: \"desk\"",
        "name: \"comb\", archive: \"comb\"",
        "host/desk/src/calls.rs is not what the exports make of it",
    ),
];

#[test]
fn a_change_on_one_side_is_told() {
    let copy = Path::new(env!("CARGO_TARGET_TMPDIR")).join("calls");
    // A run that failed leaves its copy, with files that may be gone since.
    if copy.exists() {
        fs::remove_dir_all(&copy).expect("the copy is ours");
    }
    for name in ["crates", "docs", "tools", "crates.txt"] {
        copied(&root().join(name), &copy.join(name));
    }
    for name in ["host/desk/src/calls.rs", "host/differ/src/runs.rs"] {
        copied(&root().join(name), &copy.join(name));
    }
    assert_eq!(told(&copy), None, "the repository as it is");
    for (name, old, new, wanted) in CHANGES {
        let path = copy.join(name);
        let text = fs::read_to_string(&path).expect("a text");
        let changed = text.replacen(old, new, 1);
        assert_ne!(text, changed, "`{old}` does not stand in {name}");
        fs::write(&path, changed).expect("the copy is ours");
        let found = told(&copy).unwrap_or_default();
        assert!(found.contains(wanted), "`{old}` became `{new}`: {found}");
        fs::write(&path, text).expect("the copy is ours");
    }
    // `rt check` would take its crates for files that nothing proves.
    fs::remove_dir_all(&copy).expect("the copy is ours");
}

fn root() -> PathBuf {
    Path::new(env!("CARGO_MANIFEST_DIR")).join("../..")
}

/// A file, or a folder with all that is in it but what is built.
fn copied(from: &Path, to: &Path) {
    if from.is_dir() {
        for entry in fs::read_dir(from).expect("a folder") {
            let name = entry.expect("an entry").file_name();
            if name != "out" {
                copied(&from.join(&name), &to.join(&name));
            }
        }
        return;
    }
    fs::create_dir_all(to.parent().expect("a folder above")).expect("a place for copies");
    fs::copy(from, to).expect("a file");
}

/// What tools/calls --check says of a copy, where it ends with a failure.
fn told(copy: &Path) -> Option<String> {
    let run = Command::new(copy.join("tools/calls"))
        .arg("--check")
        .output()
        .expect("tools/calls");
    let said = String::from_utf8(run.stderr).expect("text");
    assert_eq!(run.status.success(), said.is_empty(), "{said}");
    (!run.status.success()).then_some(said)
}
