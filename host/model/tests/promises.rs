//! docs/PROMISES.md: the files, the names given with their file and the wrong programs that it names are there, and no wrong program
//! is left out.

use std::collections::BTreeSet;
use std::fs;
use std::path::{Path, PathBuf};

fn root() -> PathBuf {
    Path::new(env!("CARGO_MANIFEST_DIR")).join("../..")
}

/// The page's lines with their numbers, from 1.
fn lines() -> Vec<(usize, String)> {
    let page = fs::read_to_string(root().join("docs/PROMISES.md")).expect("docs/PROMISES.md");
    page.lines().enumerate().map(|(k, line)| (k + 1, line.to_owned())).collect()
}

/// The last cell of each row of a table that has the four columns.
fn edits(line: &str) -> Vec<String> {
    let cells: Vec<&str> = line.trim().split('|').map(str::trim).collect();
    if !line.starts_with('|') || cells.len() != 6 {
        return Vec::new();
    }
    let last = cells[4];
    if last.is_empty() || last.starts_with('(') || last.starts_with('-') || last == "Must-fail edit"
    {
        return Vec::new();
    }
    last.split(", ").map(str::to_owned).collect()
}

fn in_name(c: char) -> bool {
    c.is_alphanumeric() || "_'-₀₁₂₃′".contains(c)
}

fn has_word(text: &str, word: &str) -> bool {
    text.match_indices(word).any(|(at, _)| {
        let before = text[..at].chars().next_back();
        let after = text[at + word.len()..].chars().next();
        !before.is_some_and(in_name) && !after.is_some_and(in_name)
    })
}

/// The files named in a piece of text, under crates/.
#[allow(clippy::case_sensitive_file_extension_comparisons, reason = "the kit writes them small")]
fn files(text: &str) -> Vec<&str> {
    text.split(|c: char| " ,;()|".contains(c))
        .filter(|p| p.contains('/') && p.ends_with(".antt"))
        .collect()
}

/// The names in a row right before a place: "`a`, `b`".
fn names_before(text: &str) -> Vec<&str> {
    let mut names = Vec::new();
    let mut rest = text.trim_end();
    while let Some(open) = rest.strip_suffix('`') {
        let Some(at) = open.rfind('`') else { break };
        names.push(&open[at + 1..]);
        rest = open[..at].trim_end();
        for word in [",", " and", " with"] {
            rest = rest.strip_suffix(word).unwrap_or(rest).trim_end();
        }
    }
    names
}

#[test]
fn files_and_names_are_there() {
    let mut missing = Vec::new();
    for (number, line) in lines() {
        for file in files(&line) {
            if !root().join("crates").join(file).is_file() {
                missing.push(format!("line {number}: no file {file}"));
            }
        }
        for (at, _) in line.match_indices('(') {
            let inside = line[at + 1..].split(')').next().unwrap_or("");
            let texts: Vec<String> = files(inside)
                .iter()
                .filter_map(|f| fs::read_to_string(root().join("crates").join(f)).ok())
                .collect();
            for name in names_before(&line[..at]) {
                let word = name.rsplit('.').next().unwrap_or(name);
                if !texts.is_empty() && !texts.iter().any(|t| has_word(t, word)) {
                    missing.push(format!("line {number}: no {name} in {inside}"));
                }
            }
        }
    }
    assert!(missing.is_empty(), "{}", missing.join("\n"));
}

#[test]
fn wrong_programs_are_there_and_all_named() {
    let mut wrong = Vec::new();
    let mut named = BTreeSet::new();
    for (number, line) in lines() {
        for edit in edits(&line) {
            let file = match edit.split_once('/') {
                Some((name, label)) => root().join(format!("crates/{name}/must-fail/{label}.edit")),
                None => root().join("none"),
            };
            if file.is_file() {
                named.insert(edit);
            } else {
                wrong.push(format!("line {number}: no edit {edit}"));
            }
        }
    }
    for name in fs::read_dir(root().join("crates")).expect("crates/") {
        let folder = name.expect("a crate").path();
        let Ok(edits) = fs::read_dir(folder.join("must-fail")) else { continue };
        for edit in edits {
            let path = edit.expect("an edit").path();
            let label = path.file_stem().unwrap_or_default().to_string_lossy().into_owned();
            let name = folder.file_name().unwrap_or_default().to_string_lossy().into_owned();
            if !named.contains(&format!("{name}/{label}")) {
                wrong.push(format!("the edit {name}/{label} is on no row"));
            }
        }
    }
    assert!(wrong.is_empty(), "{}", wrong.join("\n"));
}
