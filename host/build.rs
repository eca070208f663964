//! Proves the core and links it as a static library.
//!
//! `rt lib` in the folder of the crate `lineup_check_c` proves it with all that it relies on, and
//! writes `out/liblineup_check_c.a` there. The library is copied into cargo's own folder under the
//! name that hosts link, `libcheck.a`, so that removing `out/` does not break a host that is
//! already built.

use std::path::{Path, PathBuf};
use std::process::Command;
use std::{env, fs, io};

/// The Rattle crate that exports the core's calls.
const CORE: &str = "lineup_check_c";

/// The name under which a host links the library.
const LINKED: &str = "check";

fn main() {
    if let Err(message) = link_core() {
        for line in message.lines() {
            println!("cargo::error={line}");
        }
    }
}

fn link_core() -> Result<(), String> {
    let root = folder("CARGO_MANIFEST_DIR")?.join("..");
    let out = folder("OUT_DIR")?;
    watch_sources(&root)?;

    let core = root.join("crates").join(CORE);
    rt(&core, &["lib"])?;
    copy(&core.join("out").join(format!("lib{CORE}.a")), &out.join(format!("lib{LINKED}.a")))?;

    println!("cargo::rustc-link-search=native={}", out.display());
    println!("cargo::rustc-link-lib=static={LINKED}");
    Ok(())
}

/// A folder that cargo names in the environment of a build script.
fn folder(variable: &str) -> Result<PathBuf, String> {
    env::var_os(variable)
        .map(PathBuf::from)
        .ok_or_else(|| format!("{variable} is not set: build this package with cargo"))
}

/// Runs `rt` in a folder and gives what it printed.
fn rt(folder: &Path, words: &[&str]) -> Result<String, String> {
    let command = format!("rt {}", words.join(" "));
    let output = Command::new("rt").args(words).current_dir(folder).output();
    let output = output.map_err(|error| match error.kind() {
        io::ErrorKind::NotFound => format!(
            "`{command}` builds the core, but `rt`, the Rattle toolchain's command, is not on the path"
        ),
        _ => format!("`{command}` could not be run: {error}"),
    })?;
    let printed = String::from_utf8_lossy(&output.stdout).into_owned();
    if output.status.success() {
        return Ok(printed);
    }
    let errors = String::from_utf8_lossy(&output.stderr);
    let told: Vec<&str> = printed.lines().chain(errors.lines()).collect();
    let last = &told[told.len().saturating_sub(20)..];
    Err(format!(
        "`{command}` failed ({}); the end of its output:\n{}",
        output.status,
        last.join("\n")
    ))
}

fn copy(from: &Path, to: &Path) -> Result<(), String> {
    fs::copy(from, to).map(|_| ()).map_err(|error| {
        format!("{} could not be copied to {}: {error}", from.display(), to.display())
    })
}

/// Has cargo run this script again when a source of the core changes, and only then.
fn watch_sources(root: &Path) -> Result<(), String> {
    let list = root.join("crates.txt");
    let text = fs::read_to_string(&list).map_err(|error| format!("{}: {error}", list.display()))?;
    watch(&list);
    for name in reached(&text) {
        for part in ["src", "specs", "proofs"] {
            let folder = root.join("crates").join(name).join(part);
            // cargo would run the script each time for a folder that is not there
            if folder.is_dir() {
                watch(&folder);
            }
        }
    }
    watch(Path::new("build.rs"));
    Ok(())
}

fn watch(path: &Path) {
    println!("cargo::rerun-if-changed={}", path.display());
}

/// The core's crate and those it relies on, by `crates.txt`, which has a line `NAME: DEP DEP` or
/// `NAME staticlib: DEP DEP` for each crate.
fn reached(list: &str) -> Vec<&str> {
    let mut names = vec![CORE];
    let mut next = 0;
    while let Some(&name) = names.get(next) {
        next += 1;
        let line = list
            .lines()
            .filter_map(|line| line.split_once(':'))
            .find(|(of, _)| of.split_whitespace().next() == Some(name));
        for dependency in line.map_or("", |(_, words)| words).split_whitespace() {
            if !names.contains(&dependency) {
                names.push(dependency);
            }
        }
    }
    names
}
