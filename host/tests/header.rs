//! include/bazintroa.h, by a program in C that calls every function in it.

mod common;

use bazintroa::Refusal;
use common::*;
use std::collections::{BTreeMap, BTreeSet};
use std::fs;
use std::process::Command;

/// The text without its comments.
fn code(text: &str) -> String {
    let mut pieces = text.split("/*");
    let mut code = pieces.next().unwrap().to_string();
    for piece in pieces {
        let (_, behind) = piece.split_once("*/").expect("the end of a comment");
        code.push_str(behind);
    }
    code
}

/// The names that begin as the functions do, each with what stands behind it.
fn names(text: &str) -> impl Iterator<Item = (String, &str)> {
    text.split("bazintroa_").skip(1).map(|piece| {
        let end = piece.find(|c: char| !c.is_alphanumeric() && c != '_');
        let (name, behind) = piece.split_at(end.unwrap_or(piece.len()));
        (format!("bazintroa_{name}"), behind)
    })
}

fn header() -> String {
    fs::read_to_string(root().join("include/bazintroa.h")).unwrap()
}

/// The functions that the header declares.
fn declared() -> BTreeSet<String> {
    let header = code(&header());
    let functions = names(&header).filter(|(_, behind)| behind.starts_with('('));
    functions.map(|(name, _)| name).collect()
}

/// The macros of the header, with what each stands for.
fn macros() -> BTreeMap<String, String> {
    let header = code(&header());
    let lines = header
        .lines()
        .filter_map(|line| line.strip_prefix("#define BAZINTROA_"));
    let pairs = lines.filter_map(|line| line.split_once(' '));
    pairs
        .map(|(name, value)| (name.into(), value.into()))
        .collect()
}

/// The names for what a function returns, by their numbers: the three that are no refusal, and each
/// refusal's, in the header's letters.
fn numbers() -> BTreeMap<u32, String> {
    let mut numbers = BTreeMap::from(
        [(0, "OK"), (100, "NONE"), (101, "NOT_KEPT")].map(|(n, name)| (n, name.to_string())),
    );
    for refusal in (0..=1000).filter_map(Refusal::from_number) {
        numbers.insert(refusal.number(), capitals(&format!("{refusal:?}")));
    }
    numbers
}

/// The names for how a search ended, by their numbers.
fn endings() -> BTreeMap<u32, String> {
    let names = [(0, "SETTLED"), (1, "SPENT"), (2, "BROKEN")];
    BTreeMap::from(names.map(|(n, name)| (n, name.to_string())))
}

/// LengthsDiffer as LENGTHS_DIFFER.
fn capitals(name: &str) -> String {
    let mut text = String::new();
    for (i, c) in name.chars().enumerate() {
        if i > 0 && c.is_uppercase() {
            text.push('_');
        }
        text.extend(c.to_uppercase());
    }
    text
}

#[test]
fn every_number_has_its_name() {
    let mut macros = macros();
    macros.retain(|name, _| !name.starts_with("VERSION"));
    let expected = numbers()
        .into_iter()
        .chain(endings())
        .map(|(number, name)| (name, format!("{number}u")));
    assert_eq!(macros, expected.collect());
}

/// The table at the header's head.
#[test]
fn every_number_is_in_the_table() {
    let header = header();
    let (head, _) = header.split_once("*/").unwrap();
    let rows = head.lines().filter_map(|line| {
        let mut words = line.trim_start_matches(" *").split_whitespace();
        let number = words.next()?.parse().ok()?;
        Some((
            number,
            words.next()?.strip_prefix("BAZINTROA_")?.to_string(),
        ))
    });
    assert_eq!(rows.collect::<BTreeMap<u32, String>>(), numbers());
}

/// The library's refusals and numbers are those of `Refusal`.
#[test]
fn every_refusal_of_the_library() {
    let source = fs::read_to_string(root().join("crates/sweep/src/lib.rt")).unwrap();
    let (_, rest) = source.split_once("pub enum FreqError {").unwrap();
    let (cases, _) = rest.split_once('}').unwrap();
    let cases = cases.lines().filter_map(|line| {
        let (name, number) = line.trim().strip_suffix(',')?.split_once(" = ")?;
        Some((number.parse().ok()?, name.to_string()))
    });
    let refusals = (0..=1000).filter_map(Refusal::from_number);
    let expected = refusals.map(|refusal| (refusal.number(), format!("{refusal:?}")));
    assert_eq!(cases.collect::<BTreeMap<u32, String>>(), expected.collect());
}

/// The library's endings and numbers are the header's.
#[test]
fn every_ending_of_the_library() {
    let source = fs::read_to_string(root().join("crates/root_locus/src/ending.rt")).unwrap();
    let arms = source.lines().filter_map(|line| {
        let arm = line.trim().strip_prefix("Ending::")?;
        let (name, number) = arm.strip_suffix(',')?.split_once(" => ")?;
        Some((number.parse().ok()?, capitals(name.trim_end_matches("(_)"))))
    });
    assert_eq!(arms.collect::<BTreeMap<u32, String>>(), endings());
}

#[test]
fn the_version() {
    let macros = macros();
    let version = env!("CARGO_PKG_VERSION");
    assert_eq!(macros["VERSION"], format!("\"{version}\""));
    let parts = ["MAJOR", "MINOR", "PATCH"].map(|part| macros[&format!("VERSION_{part}")].clone());
    assert_eq!(parts.join("."), version);
}

const PROGRAM: &str = "host/tests/every_function.c";

#[test]
fn every_function_is_called() {
    let program = code(&fs::read_to_string(root().join(PROGRAM)).unwrap());
    // What TRY names is not yet called.
    let program = program.replace("TRY(bazintroa_", "");
    let called: BTreeSet<String> = names(&program).map(|(name, _)| name).collect();
    let missing: Vec<String> = declared().difference(&called).cloned().collect();
    assert!(missing.is_empty(), "{PROGRAM} does not call {missing:?}");
}

#[test]
fn every_name_is_used() {
    let program = code(&fs::read_to_string(root().join(PROGRAM)).unwrap());
    let is_used = |name: &str| {
        let name = format!("BAZINTROA_{name}");
        let mut pieces = program.split(&name).skip(1);
        pieces.any(|behind| !behind.starts_with(|c: char| c.is_alphanumeric() || c == '_'))
    };
    let names = numbers().into_values().chain(endings().into_values());
    let missing: Vec<String> = names.filter(|name| !is_used(name)).collect();
    assert!(missing.is_empty(), "{PROGRAM} does not use {missing:?}");
}

/// The functions of a crate that are marked as exported, by file and name: what stands before the body, and the body.
fn marked(name: &str) -> BTreeMap<(String, String), (String, String)> {
    let mut marked = BTreeMap::new();
    for entry in fs::read_dir(root().join("crates").join(name).join("src")).unwrap() {
        let path = entry.unwrap().path();
        let file = path.file_stem().unwrap().to_str().unwrap();
        let source = fs::read_to_string(&path).unwrap();
        for piece in source.split("#[unsafe(no_mangle)]\n").skip(1) {
            let (head, behind) = piece.split_once("\n{\n").unwrap();
            let (body, _) = behind.split_once("\n}\n").unwrap();
            let (name, _) = names(head).next().unwrap();
            marked.insert((file.into(), name), (head.into(), body.into()));
        }
    }
    marked
}

/// A function is exported with the parameters and clauses of the library's, by one call that hands each parameter on in
/// its place; and what the header declares is what is exported.
#[test]
fn every_export_is_the_librarys() {
    let mut exported = BTreeSet::new();
    for library in ["c_api", "c_summaries", "panel"] {
        let (functions, exports) = (marked(library), marked(&format!("{library}_c")));
        assert!(functions.keys().eq(exports.keys()), "{library}");
        for ((file, name), (head, body)) in exports {
            let (expected, _) = &functions[&(file.clone(), name.clone())];
            assert_eq!(&head, expected);
            let (_, parameters) = head.split_once('(').unwrap();
            let (parameters, _) = parameters.split_once(')').unwrap();
            let parameters = parameters.split(',').filter_map(|one| one.split_once(':'));
            let parameters: Vec<&str> = parameters.map(|(name, _)| name.trim()).collect();
            let module = match file.as_str() {
                "lib" => library.to_string(),
                _ => format!("{library}::{file}"),
            };
            let body: String = body.split_whitespace().collect();
            let body = body.trim_end_matches(';').replace(",)", ")");
            assert_eq!(body, format!("{module}::{name}({})", parameters.join(",")));
            exported.insert(name);
        }
    }
    assert_eq!(exported, declared());
}

/// The header is C++ too.
#[test]
fn a_program_in_cpp() {
    let source = file(
        "names.cpp",
        "#include <bazintroa.h>\n\
         static_assert(BAZINTROA_VERSION_MAJOR >= 0 && BAZINTROA_OK == 0, \"\");\n\
         int main() {\n\
             double x = 0;\n\
             switch (bazintroa_bandwidth(&x, 1, &x, 1, &x, 0, &x)) {\n\
             case BAZINTROA_LENGTHS_DIFFER: return 0;\n\
             default: return 1;\n\
             }\n\
         }\n",
    );
    let program = place("names");
    let built = Command::new("c++")
        .args([
            "-std=c++11",
            "-Wall",
            "-Wextra",
            "-Werror",
            "-pedantic",
            "-I",
        ])
        .arg(root().join("include"))
        .arg(source)
        .arg(concat!(env!("OUT_DIR"), "/libc_api.a"))
        .arg("-o")
        .arg(&program)
        .output()
        .unwrap();
    assert!(
        built.status.success(),
        "{}",
        String::from_utf8_lossy(&built.stderr)
    );
    assert!(Command::new(program).status().unwrap().success());
}

#[test]
fn every_function_answers() {
    let program = place("every_function");
    let archive = |name: &str| format!("{}/lib{name}.a", env!("OUT_DIR"));
    let built = Command::new("cc")
        .args(["-std=c11", "-Wall", "-Wextra", "-Werror", "-pedantic", "-I"])
        .arg(root().join("include"))
        .arg(root().join(PROGRAM))
        .args(["c_api", "c_summaries", "panel"].map(archive))
        .arg("-o")
        .arg(&program)
        .output()
        .unwrap();
    assert!(
        built.status.success(),
        "{}",
        String::from_utf8_lossy(&built.stderr)
    );

    let run = Command::new(program).output().unwrap();
    let tried = String::from_utf8(run.stdout).unwrap();
    assert!(
        run.status.success() && run.stderr.is_empty(),
        "{}, the last function tried {}\n{}",
        run.status,
        tried.lines().last().unwrap_or("none"),
        String::from_utf8_lossy(&run.stderr)
    );
    let tried: BTreeSet<String> = tried.lines().map(String::from).collect();
    assert_eq!(tried, declared());
}
