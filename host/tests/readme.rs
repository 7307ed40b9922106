//! The commands and outputs that the README shows, and the files that the documents name.

mod common;

use common::*;
use std::fs;
use std::path::PathBuf;
use std::process::Command;

/// The fenced blocks of a language.
fn blocks<'a>(text: &'a str, language: &str) -> Vec<&'a str> {
    let start = format!("```{language}\n");
    let pieces = text.split(start.as_str()).skip(1);
    pieces
        .map(|piece| piece.split("```").next().unwrap())
        .collect()
}

#[test]
fn what_the_commands_print() {
    let readme = fs::read_to_string(root().join("README.md")).unwrap();
    let mut tried = 0;
    for block in blocks(&readme, "console") {
        let (command, shown) = block.split_once('\n').unwrap();
        let Some((_, arguments)) = command.split_once("host/Cargo.toml -- ") else {
            continue;
        };
        // The picture goes to the tests' own folder.
        let picture = place(&format!("readme{tried}.svg"));
        let words = arguments
            .split_whitespace()
            .map(|word| match word.ends_with(".svg") {
                true => picture.to_str().unwrap(),
                false => word,
            });
        let printed = said(words).replace(picture.to_str().unwrap(), "host/target/chest.svg");
        assert_eq!(printed, shown, "{command}");
        tried += 1;
    }
    assert!(tried >= 3, "{tried} commands");
}

/// The program in C builds with the header and the archive, and answers.
#[test]
fn the_program_in_c() {
    let readme = fs::read_to_string(root().join("README.md")).unwrap();
    let source = file("margin.c", blocks(&readme, "c")[0]);
    let program = place("margin");
    let built = Command::new("cc")
        .args(["-Wall", "-Wextra", "-Werror", "-I"])
        .arg(root().join("include"))
        .arg(source)
        .arg(concat!(env!("OUT_DIR"), "/libc_api.a"))
        .arg("-o")
        .arg(&program)
        .output()
        .unwrap();
    assert!(
        built.status.success(),
        "{}",
        String::from_utf8_lossy(&built.stderr)
    );
    let answer = Command::new(program).output().unwrap();
    assert_eq!(
        String::from_utf8(answer.stdout).unwrap(),
        "phase margin 40 degrees\n"
    );
}

/// The folders that a build makes.
const MADE: [&str; 2] = ["host/target/", "host/archives/"];

/// The folders whose files the documents name.
const FOLDERS: [&str; 6] = [
    "docs/",
    "crates/",
    "tools/",
    "examples/",
    "host/",
    "include/",
];

/// Whether a path stands for several: a part of it is a pattern, or in capitals, as in CRATE or FN.rt.
fn is_pattern(path: &str) -> bool {
    let capitals = |part: &str| {
        let (stem, extension) = part.split_once('.').unwrap_or((part, ""));
        let mut letters = stem.chars();
        extension != "md" && !stem.is_empty() && letters.all(|c| c.is_ascii_uppercase() || c == '_')
    };
    path.contains('*') || path.split('/').any(capitals)
}

/// The paths from the repository's root that a line names.
fn paths(line: &str) -> impl Iterator<Item = &str> {
    let words = line.split(|c: char| c.is_whitespace() || "`()[]|,;:\"'".contains(c));
    let words = words.map(|word| word.trim_end_matches('.'));
    let ours = |word: &str| FOLDERS.iter().any(|folder| word.starts_with(folder));
    let made = |word: &str| MADE.iter().any(|folder| word.starts_with(folder));
    words.filter(move |word| ours(word) && !made(word) && !is_pattern(word))
}

/// README.md, docs/*.md and tools/*/README.md.
fn documents() -> Vec<PathBuf> {
    let inside = |folder: &str| {
        let entries = fs::read_dir(root().join(folder)).unwrap();
        entries.map(|entry| entry.unwrap().path())
    };
    let mut documents = vec![root().join("README.md")];
    documents.extend(inside("docs").filter(|path| path.extension() == Some("md".as_ref())));
    documents.extend(inside("tools").map(|tool| tool.join("README.md")));
    documents.retain(|path| path.exists());
    documents.sort();
    documents
}

#[test]
fn paths_of_a_line() {
    let named = |line| paths(line).collect::<Vec<&str>>();
    assert_eq!(
        named("`docs/A.md`, [one](examples/a.svg); crates/a/src/lib.rt, `f` and host/."),
        [
            "docs/A.md",
            "examples/a.svg",
            "crates/a/src/lib.rt",
            "host/"
        ]
    );
    assert_eq!(
        named("tools/a/run: include/b.h"),
        ["tools/a/run", "include/b.h"]
    );
    let none: [&str; 0] = [];
    assert_eq!(
        named(
            "crates/*/src, crates/CRATE/proofs, tools/a/FN.rt, ../docs/a, my_docs/a, host/target/a"
        ),
        none
    );
}

#[test]
fn files_that_the_documents_name_are_there() {
    let mut named = 0;
    let mut missing = Vec::new();
    for document in documents() {
        let text = fs::read_to_string(&document).unwrap();
        let name = document.strip_prefix(root()).unwrap().display();
        for (i, line) in text.lines().enumerate() {
            for path in paths(line) {
                named += 1;
                if !root().join(path).exists() {
                    missing.push(format!("{name}, line {}: {path}", i + 1));
                }
            }
        }
    }
    assert!(missing.is_empty(), "not there:\n{}", missing.join("\n"));
    assert!(named > 30, "{named} paths");
}

#[test]
fn files_that_it_links_to_are_there() {
    let readme = fs::read_to_string(root().join("README.md")).unwrap();
    let mut named = 0;
    for link in readme.split("](").skip(1) {
        let path = link.split(')').next().unwrap();
        if !path.starts_with("http") {
            assert!(root().join(path).exists(), "{path}");
            named += 1;
        }
    }
    assert!(named > 0);
}
