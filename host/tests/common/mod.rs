//! Running the program and reading what it says.
#![allow(dead_code)]

use std::fs;
use std::io::Write;
use std::path::{Path, PathBuf};
use std::process::{Command, Output, Stdio};

/// The repository's root, from which the examples are named.
pub fn root() -> PathBuf {
    Path::new(env!("CARGO_MANIFEST_DIR")).join("..")
}

pub fn program() -> Command {
    let mut command = Command::new(env!("CARGO_BIN_EXE_bazintroa"));
    command.current_dir(root());
    command
}

/// A place for a file of a test. Each test takes a name of its own; the files of test programs that run
/// side by side lie in one folder, so the program's name stands in front.
pub fn place(name: &str) -> PathBuf {
    let folder = Path::new(env!("CARGO_TARGET_TMPDIR"));
    folder.join(format!("{}_{name}", env!("CARGO_CRATE_NAME")))
}

pub fn file(name: &str, contents: impl AsRef<[u8]>) -> PathBuf {
    let path = place(name);
    fs::write(&path, contents).unwrap();
    path
}

/// What the program prints, when it ends well and says nothing on standard error.
pub fn said<S: AsRef<std::ffi::OsStr>>(arguments: impl IntoIterator<Item = S>) -> String {
    text_of(program().args(arguments).output().unwrap())
}

/// What a call prints that ends well and says nothing on standard error.
pub fn text_of(output: Output) -> String {
    assert_eq!(String::from_utf8_lossy(&output.stderr), "");
    assert_eq!(output.status.code(), Some(0));
    String::from_utf8(output.stdout).unwrap()
}

/// What the program prints when it reads `input`.
pub fn said_of_input(arguments: &[&str], input: &[u8]) -> String {
    let mut child = program()
        .args(arguments)
        .stdin(Stdio::piped())
        .stdout(Stdio::piped())
        .stderr(Stdio::piped())
        .spawn()
        .unwrap();
    child.stdin.take().unwrap().write_all(input).unwrap();
    text_of(child.wait_with_output().unwrap())
}

/// The one line on standard error of a call that ends with status 2 and prints nothing.
pub fn refused<S: AsRef<std::ffi::OsStr>>(arguments: impl IntoIterator<Item = S>) -> String {
    line_of(program().args(arguments).output().unwrap())
}

/// The one line of such a call.
pub fn line_of(output: Output) -> String {
    assert_eq!(output.status.code(), Some(2));
    assert_eq!(String::from_utf8_lossy(&output.stdout), "");
    let line = String::from_utf8(output.stderr).unwrap();
    assert!(
        line.ends_with('\n') && line.lines().count() == 1,
        "{line:?}"
    );
    let line = line.trim_end();
    line.strip_prefix("bazintroa: ").unwrap().to_string()
}

/// What stands behind a key, up to the comma or the line's end.
pub fn json(text: &str, key: &str) -> String {
    let start = format!("\"{key}\": ");
    let at = text
        .find(&start)
        .unwrap_or_else(|| panic!("no key {key} in {text}"));
    let line = text[at + start.len()..].lines().next().unwrap();
    line.trim_end_matches(',').to_string()
}

/// The number behind a key.
pub fn json_number(text: &str, key: &str) -> f64 {
    json(text, key).parse().unwrap()
}

/// Whether a picture is XML whose elements all close, with no number that is none.
pub fn check_svg(svg: &str) {
    assert!(svg.starts_with("<svg xmlns=\"http://www.w3.org/2000/svg\""));
    for bad in ["NaN", "inf"] {
        let numbers = svg.split('"').skip(1).step_by(2);
        let mut attributes = numbers.filter(|a| !a.starts_with("#") && !a.contains("Sans"));
        assert!(!attributes.any(|a| a.contains(bad)), "{bad} in a picture");
    }
    let mut open = Vec::new();
    for element in svg.split('<').skip(1) {
        let (tag, _) = element.split_once('>').expect("a closed tag");
        let name = tag.split_whitespace().next().unwrap();
        if let Some(name) = name.strip_prefix('/') {
            assert_eq!(open.pop(), Some(name));
        } else if !tag.ends_with('/') {
            open.push(name);
        }
    }
    assert!(open.is_empty());
}
