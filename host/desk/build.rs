//! Finds the archives of the proved crates that export calls; src/calls.rs names
//! and links them. For each of them `tools/archives NAME` writes libNAME.a to
//! target/staticlib at the root of the repository. Where DESK_ARCHIVES names
//! another folder (host/bench/on-arm does), its archives are linked, for
//! whichever machine they are.

use std::env;
use std::path::PathBuf;

/// The archives that src/calls.rs links.
fn archives() -> impl Iterator<Item = &'static str> {
    let links = include_str!("src/calls.rs").split("#[link(name = \"");
    links
        .skip(1)
        .filter_map(|rest| Some(rest.split_once('"')?.0))
}

fn main() {
    let manifest = env::var("CARGO_MANIFEST_DIR").expect("cargo sets CARGO_MANIFEST_DIR");
    let mut folder = PathBuf::from(manifest);
    folder.pop();
    folder.pop();
    folder.push("target/staticlib");
    println!("cargo::rerun-if-changed=build.rs");
    println!("cargo::rerun-if-changed=src/calls.rs");
    println!("cargo::rerun-if-env-changed=DESK_ARCHIVES");
    let named = env::var_os("DESK_ARCHIVES");
    if let Some(other) = &named {
        folder = PathBuf::from(other);
    }

    let target = env::var("TARGET").expect("cargo sets TARGET");
    let right_target = named.is_some() || target == "x86_64-unknown-linux-gnu";
    if !right_target {
        println!(
            "cargo::error=the target is {target}, but the archives hold x86-64 code for Linux; \
             expected x86_64-unknown-linux-gnu, which host/cargo chooses, and for a workspace \
             elsewhere the lines that `host/cargo env` prints"
        );
    }
    println!("cargo::rustc-link-search=native={}", folder.display());
    for name in archives() {
        let archive = folder.join(format!("lib{name}.a"));
        println!("cargo::rerun-if-changed={}", archive.display());
        if !archive.is_file() {
            println!(
                "cargo::error={} is missing; expected the archive that `tools/archives {name}` \
                 writes, at the root of the repository",
                archive.display()
            );
        }
    }
}
