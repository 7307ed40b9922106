//! The chests in examples/: their sweeps, outputs and pictures are what the program makes now.
//! `REWRITE=1 cargo test --test examples` writes outputs and pictures anew.

mod common;

use common::*;
use std::{env, fs};

const CHESTS: [&str; 3] = ["steady", "two_crossings", "wrapped_phase"];

/// Compares a file of the repository, or writes it.
fn compare(path: &str, made: &str) {
    let path = root().join(path);
    if env::var_os("REWRITE").is_some() {
        fs::write(&path, made).unwrap();
    }
    let kept =
        fs::read_to_string(&path).unwrap_or_else(|error| panic!("{}: {error}", path.display()));
    for (i, (kept, made)) in kept.lines().zip(made.lines()).enumerate() {
        assert_eq!(kept, made, "{}, line {}", path.display(), i + 1);
    }
    assert_eq!(kept.len(), made.len(), "{}", path.display());
}

/// Runs a command on a file of a chest, and compares what it prints and draws.
fn check(chest: &str, command: &str, input: &str, options: &[&str]) {
    let file = format!("examples/{chest}/{input}");
    let picture = place(&format!("{chest}_{command}.svg"));
    let mut arguments = vec![command, &file];
    arguments.extend(options);
    compare(
        &format!("examples/{chest}/{command}.out"),
        &said(&arguments),
    );
    arguments.extend(["--svg", picture.to_str().unwrap()]);
    said(&arguments);
    let picture = fs::read_to_string(picture).unwrap();
    check_svg(&picture);
    compare(&format!("examples/{chest}/{command}.svg"), &picture);
}

#[test]
fn margins_of_each_sweep() {
    for chest in CHESTS {
        check(chest, "margins", "sweep.csv", &[]);
    }
}

#[test]
fn each_loop() {
    for chest in CHESTS {
        check(chest, "loop", "loop.txt", &["--unwrap"]);
    }
}

#[test]
fn each_locus() {
    for chest in CHESTS {
        check(chest, "locus", "loop.txt", &["--k-max", "8"]);
    }
}

/// Each sweep is its loop's. Numbers are compared to nine digits, since sine, cosine, logarithm and
/// arctangent may differ in the last bit from one system to the next.
#[test]
fn each_sweep_is_of_its_loop() {
    for chest in CHESTS {
        let (made, file) = (
            place(&format!("{chest}.csv")),
            format!("examples/{chest}/loop.txt"),
        );
        let mut arguments = vec!["loop", &file, "--points", "160", "--omega-min", "0.01"];
        arguments.extend(["--csv", made.to_str().unwrap()]);
        if chest != "wrapped_phase" {
            arguments.push("--unwrap");
        }
        said(&arguments);
        let made = fs::read_to_string(made).unwrap();
        let kept = fs::read_to_string(root().join(format!("examples/{chest}/sweep.csv"))).unwrap();
        assert_eq!(made.lines().count(), 161);
        assert_eq!(kept.lines().count(), 161);
        assert_eq!(made.lines().next(), kept.lines().next());
        for (made, kept) in made.lines().zip(kept.lines()).skip(1) {
            for (made, kept) in made.split(',').zip(kept.split(',')) {
                let (made, kept): (f64, f64) = (made.parse().unwrap(), kept.parse().unwrap());
                assert!((made - kept).abs() <= 1e-9 * (1.0 + kept.abs()), "{chest}");
            }
        }
    }
}

/// What makes each chest an example.
#[test]
fn what_the_chests_show() {
    let of = |chest: &str| said(["margins", &format!("examples/{chest}/sweep.csv"), "--json"]);
    let steady = of("steady");
    assert!(json_number(&steady, "phase_margin_degrees") > 45.0);
    assert!(json_number(&steady, "gain_margin_db") > 6.0);
    let twice = of("two_crossings");
    assert_eq!(json(&twice, "gain_crossings").split(',').count(), 2);
    let wrapped = of("wrapped_phase");
    assert_eq!(json(&wrapped, "gain_margin_db"), "null");
    let unwrapped = said([
        "margins",
        "examples/wrapped_phase/sweep.csv",
        "--json",
        "--unwrap",
    ]);
    assert!(json_number(&unwrapped, "gain_margin_db") > 6.0);
}
