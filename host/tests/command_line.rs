//! Options, wrong calls, and where the output goes.

mod common;

use common::*;
use std::fs;
use std::io::Read;
use std::process::Stdio;

const STEADY: &str = "examples/steady/sweep.csv";
const LOOP: &str = "examples/steady/loop.txt";

#[test]
fn help_for_all_and_each() {
    let all = said(["--help"]);
    for command in ["margins", "loop", "locus"] {
        assert!(all.contains(&format!("bazintroa {command} ")));
        let help = said([command, "--help"]);
        assert!(help.starts_with(&format!("bazintroa {command} ")));
        assert!(help.contains("\nExample:\n"));
        assert!(help.lines().all(|line| line.chars().count() <= 100));
    }
    // What the poles are worth.
    for command in ["loop", "locus"] {
        let help = said([command, "--help"]);
        for words in [
            "settled ",
            "spent ",
            "broken ",
            "off ",
            "Settled does not mean right",
            "gives_polynomial_back",
            "spent or off",
        ] {
            assert!(help.contains(words), "{command}: {words}");
        }
    }
    assert_eq!(said(["-h"]), all);
    assert_eq!(said(["help"]), all);
    assert_eq!(
        said(["--version"]),
        format!("bazintroa {}\n", env!("CARGO_PKG_VERSION"))
    );
}

/// The commands that the help shows as examples work from the repository's root.
#[test]
fn the_examples_of_the_help_work() {
    let mut tried = 0;
    for help in [
        vec!["--help"],
        vec!["margins", "--help"],
        vec!["loop", "--help"],
        vec!["locus", "--help"],
    ] {
        let text = said(help);
        let (_, examples) = text
            .split_once("\nExamples:\n")
            .or(text.split_once("\nExample:\n"))
            .unwrap();
        for line in examples.lines().take_while(|line| !line.is_empty()) {
            let picture = place(&format!("help{tried}.svg"));
            let words = line.split_whitespace().skip(1).map(|word| match word {
                "steady.svg" => picture.to_str().unwrap(),
                word => word,
            });
            assert!(said(words).starts_with("examples/steady/"));
            tried += 1;
        }
    }
    assert_eq!(tried, 6);
}

#[test]
fn wrong_calls_are_one_line() {
    for (arguments, line) in [
        (
            &[][..],
            "a command is missing: margins, loop or locus; --help says more",
        ),
        (
            &["bode"],
            "there is no command bode: margins, loop and locus are there; --help says more",
        ),
        (
            &["--json"],
            "there is no command --json: margins, loop and locus are there; --help says more",
        ),
        (
            &["margins"],
            "margins needs a file, SWEEP.csv; bazintroa margins --help says more",
        ),
        (
            &["locus", "--k-max", "1"],
            "locus needs a file, LOOP.txt; bazintroa locus --help says more",
        ),
        (
            &["margins", STEADY, LOOP],
            "margins takes one file, and examples/steady/loop.txt is a second",
        ),
        (
            &["margins", STEADY, "--points", "9"],
            "margins has no option --points; bazintroa margins --help lists them",
        ),
        (
            &["margins", STEADY, "-x"],
            "margins has no option -x; bazintroa margins --help lists them",
        ),
        (
            &["margins", STEADY, "--json", "--json"],
            "--json is given twice",
        ),
        (&["margins", STEADY, "--json=yes"], "--json takes no value"),
        (&["margins", STEADY, "--svg"], "--svg needs a FILE"),
        (&["margins", STEADY, "--svg="], "--svg needs a FILE"),
        (&["locus", LOOP], "locus needs --k-max, the largest gain"),
        (
            &["locus", LOOP, "--k-max", "much"],
            "--k-max needs a finite number, and \"much\" is none",
        ),
        (
            &["locus", LOOP, "--k-max", "inf"],
            "--k-max needs a finite number, and \"inf\" is none",
        ),
        (
            &["locus", LOOP, "--k-max", "NaN"],
            "--k-max needs a finite number, and \"NaN\" is none",
        ),
        (
            &["locus", LOOP, "--k-max", "1", "--points", "2.5"],
            "--points needs a whole number, and \"2.5\" is none",
        ),
        (
            &["loop", LOOP, "--points", "-3"],
            "--points needs a whole number, and \"-3\" is none",
        ),
        (
            &["margins", "no/such/file.csv"],
            "cannot read no/such/file.csv: No such file or directory (os error 2)",
        ),
        (
            &["margins", "examples"],
            "cannot read examples: Is a directory (os error 21)",
        ),
        (
            &["margins", STEADY, "--svg", "no/such/folder.svg"],
            "cannot write no/such/folder.svg: No such file or directory (os error 2)",
        ),
        (
            &["loop", LOOP, "--csv", "no/such/folder.csv"],
            "cannot write no/such/folder.csv: No such file or directory (os error 2)",
        ),
    ] {
        assert_eq!(refused(arguments), line);
    }
}

#[test]
fn refusals_have_their_number() {
    for (arguments, line) in [
        (
            &["locus", LOOP, "--k-max", "1", "--points", "1"][..],
            "a locus of 1 point up to 1 is refused with 1: fewer than 2 points are asked for",
        ),
        (
            &["locus", LOOP, "--k-max", "-2"],
            "a locus of 101 points up to -2 is refused with 3: the largest gain is 0 or below",
        ),
        (
            &["locus", LOOP, "--k-max", "1", "--points", "4097"],
            "a locus of 4,097 points up to 1 is refused with 15: there are more than 4,096 readings or points",
        ),
        (
            &["loop", LOOP, "--points", "1"],
            "a grid of 1 point from 0.001 to 3.14159 is refused with 1: fewer than 2 points are asked for",
        ),
        (
            &["loop", LOOP, "--points", "4097"],
            "a grid of 4,097 points from 0.001 to 3.14159 is refused with 15: there are more than 4,096 readings or points",
        ),
        (
            &["loop", LOOP, "--omega-min", "0"],
            "a grid of 4,096 points from 0 to 3.14159 is refused with 2: the lowest frequency must be above 0 and below the highest",
        ),
        (
            &["loop", LOOP, "--omega-min", "2", "--omega-max", "2"],
            "a grid of 4,096 points from 2 to 2 is refused with 2: the lowest frequency must be above 0 and below the highest",
        ),
        (
            &["loop", LOOP, "--even", "--omega-max", "-1"],
            "a grid of 4,096 points from 0 to -1 is refused with 2: the highest frequency is 0 or below",
        ),
        (
            &["loop", LOOP, "--even", "--points", "99999999999"],
            "a grid of 99,999,999,999 points from 0 to 3.14159 is refused with 15: there are more than 4,096 readings or points",
        ),
        (
            &["loop", LOOP, "--even", "--omega-min", "1"],
            "--even begins at 0, so --omega-min cannot be given with it",
        ),
    ] {
        assert_eq!(refused(arguments), line);
    }
}

#[test]
fn values_joined_with_an_equals_sign() {
    let picture = place("joined.svg");
    let option = format!("--svg={}", picture.display());
    said(["locus", LOOP, "--k-max=2", "--points=5", &option]);
    check_svg(&fs::read_to_string(picture).unwrap());
}

#[test]
fn a_closed_pipe_ends_it_quietly() {
    let mut child = program()
        .args(["locus", LOOP, "--k-max", "8", "--points", "4096", "--json"])
        .stdout(Stdio::piped())
        .stderr(Stdio::piped())
        .spawn()
        .unwrap();
    let mut first = [0; 10];
    let mut pipe = child.stdout.take().unwrap();
    pipe.read_exact(&mut first).unwrap();
    drop(pipe);
    let output = child.wait_with_output().unwrap();
    assert_eq!(String::from_utf8_lossy(&output.stderr), "");
    assert_eq!(output.status.code(), Some(0));
}

#[test]
fn a_full_device_is_told() {
    let full = fs::OpenOptions::new()
        .write(true)
        .open("/dev/full")
        .unwrap();
    let output = program()
        .args(["margins", STEADY])
        .stdout(full)
        .output()
        .unwrap();
    assert_eq!(output.status.code(), Some(2));
    let line = String::from_utf8(output.stderr).unwrap();
    assert_eq!(
        line,
        "bazintroa: cannot write to standard output: No space left on device (os error 28)\n"
    );
}
