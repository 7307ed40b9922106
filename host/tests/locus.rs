//! `bazintroa locus`.

mod common;

use common::*;
use std::fs;

const STEADY: &str = "examples/steady/loop.txt";

fn locus(name: &str, contents: &str, more: &[&str]) -> String {
    let path = file(name, contents);
    let mut arguments = vec!["locus", path.to_str().unwrap()];
    arguments.extend(more);
    let text = said(arguments);
    text.split_once('\n').unwrap().1.to_string()
}

#[test]
fn poles_by_gain() {
    // z - 2 + k/2: the pole is 2 - k/2. b has z^-1, so the polynomial is of order 2 with a pole at 0.
    let text = locus(
        "line.txt",
        "plant.b = 0 1\nplant.a = -2\ncontroller.b = 0.5\n",
        &["--k-max", "4", "--points", "5"],
    );
    assert_eq!(
        text,
        "
  gain         outermost    poles
  0            2            not inside   2, 0
  1            1.5          not inside   1.5, 0
  2            1            not inside   1, 0
  3            0.5          inside       0.5, 0
  4            0            inside       0, 0

The first gain at which a pole is not inside the unit circle is 0, where the poles are the open loop's.
All poles are inside from 3 to 4.
One pole at 0 is not the loop's, and comes with the polynomial.
"
    );
}

#[test]
fn the_first_gain_not_inside() {
    // z^2 - z + 0.25 + k: poles 0.5 and 0.5 at gain 0, on the circle at gain 0.75.
    let loop_ = "plant.b = 0 0 1\nplant.a = -1 0.25\ncontroller.b = 1\n";
    let path = file("circle.txt", loop_);
    let line = refused(["locus", path.to_str().unwrap(), "--k-max", "1"]);
    assert!(line.ends_with(
        "at gain 0 and at every other the poles are refused with 12: the polynomial is of degree 3, whose roots are left out; --pole-at-0 makes it degree 4"
    ));
    let text = locus(
        "circle2.txt",
        loop_,
        &["--k-max", "1.2", "--points", "7", "--pole-at-0"],
    );
    assert!(text.contains(
        "The first gain at which a pole is not inside the unit circle is 0.8; the one before is 0.6.\n"
    ));
    assert!(text.contains("  0.2          0.67082      inside       "));
    assert!(text.contains("  1            1.11803      not inside   "));
    assert!(text.contains("All poles are inside from 0 to 0.6 (the next is 0.8).\n"));
    assert!(text.contains("2 poles at 0 are not the loop's, and come with the polynomial.\n"));

    let line = refused([
        "locus",
        "tools/margins/loops/01-lag-integrator.txt",
        "--k-max",
        "1",
        "--pole-at-0",
    ]);
    assert!(line.ends_with("left out; without --pole-at-0 it is of degree 2"));
}

#[test]
fn degree_3_at_one_gain() {
    // Order 4 with 1 - 4k in front: at gain 0.25 the degree is 3.
    let text = locus(
        "lead.txt",
        "plant.b = -4\nplant.a = 0.1 0 0 0.1\ncontroller.b = 1\n",
        &["--k-max", "1", "--points", "5"],
    );
    assert!(text.contains("\n  0.25                      refused      degree 3\n"));
    assert!(text.contains(
        "At 1 gain, the first 0.25, the poles are refused with 12: the polynomial is of degree 3, whose roots are left out.\n"
    ));
    let path = file(
        "lead2.txt",
        "plant.b = -4\nplant.a = 0.1 0 0 0.1\ncontroller.b = 1\n",
    );
    let picture = place("lead2.svg");
    let text = said([
        "locus",
        path.to_str().unwrap(),
        "--k-max=1",
        "--points=5",
        "--json",
        "--svg",
        picture.to_str().unwrap(),
    ]);
    check_svg(&fs::read_to_string(picture).unwrap());
    assert!(text.contains(
        "\"gain\": 0.25,\n      \"stable\": null,\n      \"refused\": 12,\n      \"ending\": null,\n      \
         \"rounds\": null,\n      \"last_change\": null,\n      \"gives_polynomial_back\": null,\n      \
         \"poles\": null\n"
    ));
}

/// The text of a locus without its first line, its JSON and its picture.
fn in_three_forms(name: &str, contents: &str, grid: [&str; 2]) -> (String, String, String) {
    let path = file(&format!("{name}.txt"), contents);
    let picture = place(&format!("{name}.svg"));
    let arguments = ["locus", path.to_str().unwrap(), grid[0], grid[1]];
    let text = said(arguments);
    let json = said(
        arguments
            .iter()
            .chain(&["--json", "--svg", picture.to_str().unwrap()]),
    );
    let picture = fs::read_to_string(picture).unwrap();
    check_svg(&picture);
    (text.split_once('\n').unwrap().1.to_string(), json, picture)
}

/// What the JSON says of each gain.
fn gains(json: &str) -> Vec<&str> {
    json.split("\"gain\": ").skip(1).collect()
}

/// The words that JSON has of a gain, but for the poles.
fn of_gain(gain: &str) -> [String; 5] {
    [
        "stable",
        "ending",
        "rounds",
        "last_change",
        "gives_polynomial_back",
    ]
    .map(|key| json(gain, key))
}

#[test]
fn poles_that_settled_in_a_wrong_place() {
    // At gain 1 the polynomial is 1, -2, 4, 2, 3: two poles meet at -1, where it is 8.
    let (text, json_, picture) = in_three_forms(
        "met",
        "plant.b = 0 0 0 1\nplant.a = -2 4 1 3\ncontroller.b = 1\n",
        ["--k-max=2", "--points=3"],
    );
    let lines: Vec<&str> = text.lines().collect();
    assert_eq!(lines[1], "  gain         outermost    poles");
    assert_eq!(&lines[2][28..50], "not inside            ");
    assert_eq!(
        lines[3],
        "  1            2.28761      not inside, off 0.427   -1, 1.3376 + 1.8558j, -1, 1.3376 - 1.8558j"
    );
    assert_eq!(&lines[4][28..50], "not inside            ");
    assert_eq!(
        lines[6..],
        [
            "The first gain at which a pole is not inside the unit circle is 0, where the poles are the open loop's.",
            "At no gain of this grid are all poles known to be inside.",
            "The poles do not give the polynomial back at 1 gain, the first 1: multiplied out, they miss a \
             coefficient by 0.427 of its scale. What is said of such a gain is said of poles of which some \
             are wrong.",
        ]
    );
    let gains = gains(&json_);
    for (i, gain) in gains.iter().enumerate() {
        let [stable, ending, rounds, change, back] = of_gain(gain);
        assert_eq!((stable.as_str(), ending.as_str()), ("false", "\"settled\""));
        assert_eq!(rounds == "31", i == 1);
        assert_eq!((change.as_str(), back == "false"), ("null", i == 1));
    }
    assert_eq!(json(&json_, "first_gain_not_inside"), "0.0");
    assert!(picture.contains("not settled, or off, at 1 gain<"));
    assert!(!picture.contains("NaN"));
    // A halo about each of the three places, and one in the legend; the poles of the two other gains, four
    // each, are points, since no curve goes through what is off.
    assert_eq!(picture.matches(" r=\"7.50\"").count(), 4);
    assert_eq!(picture.matches(" r=\"2.2\"").count(), 8);
}

#[test]
fn poles_that_were_still_moving() {
    // At gain 1 the polynomial is 1, 5, -1, 2, 1.
    let (text, json_, picture) = in_three_forms(
        "moving",
        "plant.b = 0 0 0 1\nplant.a = 5 -1 1 1\ncontroller.b = 1\n",
        ["--k-max=2", "--points=3"],
    );
    assert!(text.contains(
        "\n  1            5.25578      not inside, spent 0.0568, off 1.07   -1, -5.2558, -1, -0.31291\n"
    ));
    assert!(text.contains(
        "\nThe search is spent at 1 gain, the first 1: the last of its 200 rounds still moved a pole by 0.0568. \
         What is said of such a gain is said of poles that were still moving.\n"
    ));
    assert!(text.contains("\nThe poles do not give the polynomial back at 1 gain, the first 1: "));
    let gains = gains(&json_);
    assert_eq!(
        of_gain(gains[1]),
        ["false", "\"spent\"", "null", "0.05684576108915305", "false"]
    );
    for gain in [gains[0], gains[2]] {
        let [stable, ending, _, change, back] = of_gain(gain);
        assert_eq!(
            [stable, ending, change, back],
            ["false", "\"settled\"", "null", "true"]
        );
    }
    assert!(picture.contains("not settled, or off, at 1 gain<"));

    // Spent at gain 0 and off at gains 1 and 3: the first is named, and the most.
    let (text, _, picture) = in_three_forms(
        "both",
        "plant.b = 0 1.5 -0.5 1\nplant.a = 0.5 -1.5 1 1\ncontroller.b = 1\n",
        ["--k-max=4", "--points=9"],
    );
    assert!(text.contains(
        "\nThe first gain at which a pole is not inside the unit circle is 0, spent 2.25, off 0.99, where the \
         poles are the open loop's.\n"
    ));
    assert!(text.contains(
        "The poles do not give the polynomial back at 3 gains, the first 0: multiplied out, they miss a \
         coefficient by 0.99 of its scale, at another by 1.22. "
    ));
    assert!(picture.contains("not settled, or off, at 3 gains<"));
}

/// The text, and the runs of stable gains in JSON, have no gain that is spent or off. The first gain not
/// inside may be one.
#[test]
fn runs_of_stable_gains_leave_out_what_is_spent_or_off() {
    // z^6 at gain 0.75: six poles in one place, which the search leaves in a ring about it.
    let (text, json_, _) = in_three_forms(
        "ring",
        "plant.b = 0 0 0 0 -1\nplant.a = 0 0 0 0.75 0 0\ncontroller.b = 1 0\ncontroller.a = 0 0\n",
        ["--k-max=2", "--points=9"],
    );
    assert!(text.contains("\n  0.75         0."));
    assert!(text.contains(" inside, off 0.00"), "{text}");
    assert!(
        text.contains(
            "\nWithout the gains whose poles are spent or off, all poles are inside from 0 to 0.5 (the next is \
             0.75) and from 1 to 1.5 (the next is 1.75).\n"
        ),
        "{text}"
    );
    assert_eq!(json(&json_, "stable_gains"), "[[0.0, 0.5], [1.0, 1.5]]");
    assert_eq!(json(&json_, "first_gain_not_inside"), "1.75");
    assert_eq!(json(gains(&json_)[3], "stable"), "true");

    // Two double poles, which the last round still moves.
    let (text, json_, picture) = in_three_forms(
        "double",
        "plant.b = 0 0.1\nplant.a = 0.35 -0.57\ncontroller.b = 1\ncontroller.a = 0.35 -0.57\n",
        ["--k-max=0.4", "--points=5"],
    );
    assert!(text.contains(
        "\n  0            0.95         inside, spent 2.14e-9   0.6, -0.95, -0.95, 0.6\n"
    ));
    assert!(text.contains(
        "\nWithout the gains whose poles are spent or off, at no gain of this grid are all poles known to be inside.\n"
    ));
    assert!(!text.contains("give the polynomial back"));
    assert_eq!(json(&json_, "stable_gains"), "[]");
    assert_eq!(json(&json_, "first_gain_not_inside"), "0.1");
    let [stable, ending, rounds, _, back] = of_gain(gains(&json_)[0]);
    assert_eq!(
        [stable, ending, rounds, back],
        ["true", "\"spent\"", "null", "true"]
    );
    assert!(picture.contains("not settled, or off, at 1 gain<"));

    // The first gain not inside is one at which the poles are off: 1, 0, 3, 3.5, 0.5.
    let (text, json_, _) = in_three_forms(
        "first",
        "plant.b = 0 0 3 3.5\nplant.a = 0 0 0 0.5\ncontroller.b = 1\n",
        ["--k-max=1", "--points=2"],
    );
    assert!(text.contains(
        "\nThe first gain at which a pole is not inside the unit circle is 1, off 0.868; the one before is 0.\n\
         All poles are inside from 0 to 0 (the next is 1).\n"
    ));
    assert_eq!(json(&json_, "first_gain_not_inside"), "1.0");
}

#[test]
fn poles_that_are_not_numbers() {
    // At gain 0 the search is spent; above it overflows.
    let (text, json_, picture) = in_three_forms(
        "broken",
        "plant.b = 0 0 0 1e155\nplant.a = 5 -1 2 1\ncontroller.b = 1\n",
        ["--k-max=2", "--points=3"],
    );
    assert!(
        text.contains("\n  0            5.25578      not inside, spent 0.0568, off 1.07   -1, ")
    );
    assert!(text.contains(
        "\n  1            NaN          not known, broken                    NaN + NaNj, "
    ));
    assert!(text.contains(
        "\nThe poles are broken at 2 gains, the first 1: a part of one is NaN, and whether the loop is stable \
         there is not known.\n"
    ));
    let gains_ = gains(&json_);
    for gain in &gains_[1..] {
        assert_eq!(
            of_gain(gain),
            ["null", "\"broken\"", "null", "null", "null"]
        );
        assert!(json(gain, "poles").starts_with("[[\"NaN\", \"NaN\"], "));
    }
    assert!(picture.contains("not settled, or off, at 3 gains<"));
    assert!(picture.contains("a pole is NaN, and not drawn, at 2 gains<"));
    assert_eq!(picture.matches(" r=\"7.50\"").count(), 4);

    // Some poles are numbers, and nothing is known all the same.
    let (text, json_, picture) = in_three_forms(
        "huge",
        "plant.b = 0 0 0 0 1\nplant.a = -1 1.7e308 -1.7e308\ncontroller.b = 1\n",
        ["--k-max=2", "--points=3"],
    );
    assert!(text.contains("\n  0            NaN          not known, broken   1, NaN "));
    assert!(text.contains("\nThe poles are broken at 3 gains, the first 0: "));
    assert!(text
        .contains("At no gain of this grid is a pole known not to be inside the unit circle.\n"));
    assert_eq!(json(&json_, "first_gain_not_inside"), "null");
    assert_eq!(json(&json_, "stable_gains"), "[]");
    for gain in gains(&json_) {
        assert_eq!(
            of_gain(gain),
            ["null", "\"broken\"", "null", "null", "null"]
        );
    }
    assert!(picture.contains("a pole is NaN, and not drawn, at 3 gains<"));
}

/// A pole too large to multiply out, by a formula and so settled, is not called right.
#[test]
fn poles_that_overflow() {
    let (text, json_, _) = in_three_forms(
        "infinite",
        "plant.b = -1\nplant.a = 1e300\ncontroller.b = 1\n",
        ["--k-max=0.9999999999", "--points=2"],
    );
    assert!(
        text.contains("\n  1            infinite     not inside, off   -infinite\n"),
        "{text}"
    );
    assert!(text.contains("multiplied out, they are too large for numbers. "));
    let [stable, ending, rounds, _, back] = of_gain(gains(&json_)[1]);
    assert_eq!(
        [stable, ending, rounds, back],
        ["false", "\"settled\"", "0", "false"]
    );
}

#[test]
fn orders_above_8() {
    let path = file(
        "nine.txt",
        "plant.b = 1\nplant.a = 0 0 0 0.1\ncontroller.b = 1\ncontroller.a = 0 0 0 0 0.1\n",
    );
    let line = refused(["locus", path.to_str().unwrap(), "--k-max", "1"]);
    assert!(line.ends_with("nine.txt: plant times controller is of order 9, above 8"));
    let path = file(
        "eight.txt",
        "plant.b = 1\nplant.a = 0 0 0 0.1\ncontroller.b = 1\ncontroller.a = 0 0 0 0.1\n",
    );
    said(["locus", path.to_str().unwrap(), "--k-max", "1"]);
    let line = refused([
        "locus",
        path.to_str().unwrap(),
        "--k-max",
        "1",
        "--pole-at-0",
    ]);
    assert!(line.ends_with("eight.txt: the order is 8, and --pole-at-0 would make it 9"));
}

#[test]
fn products_too_large_for_a_number() {
    let path = file("overflow.txt", "plant.b = 1e308\ncontroller.b = 1e308\n");
    let line = refused(["locus", path.to_str().unwrap(), "--k-max", "1"]);
    assert!(line.ends_with("a coefficient of plant times controller is too large for a number"));
}

/// At every gain the closed loop's polynomial, evaluated here, vanishes at the poles.
#[test]
fn the_polynomial_vanishes_at_the_poles() {
    let text = said(["locus", STEADY, "--k-max", "8", "--points", "33", "--json"]);
    // (1 - 1.55/z + 0.585/z²)(1 - 1/z) and (0.02/z + 0.015/z²)(4.8 - 4.5/z), multiplied out by hand.
    let a = [1.0, -2.55, 2.135, -0.585, 0.0];
    let b = [0.0, 0.096, -0.018, -0.0675, 0.0];
    let mut gains = 0;
    for (i, block) in text.split("\"gain\": ").skip(1).enumerate() {
        let gain: f64 = block.split(',').next().unwrap().parse().unwrap();
        assert_eq!(gain, 8.0 * i as f64 / 32.0);
        assert_eq!(json(block, "ending"), "\"settled\"");
        assert!((1.0..=200.0).contains(&json_number(block, "rounds")));
        assert_eq!(json(block, "gives_polynomial_back"), "true");
        let poles = json(block, "poles");
        let numbers: Vec<f64> = poles
            .split(|c: char| "[], ".contains(c))
            .filter(|word| !word.is_empty())
            .map(|word| word.parse().unwrap())
            .collect();
        assert_eq!(numbers.len(), 8);
        for pole in numbers.chunks(2) {
            let value = a.iter().zip(b).fold((0.0, 0.0), |(re, im), (a, b)| {
                let c = a + gain * b;
                (re * pole[0] - im * pole[1] + c, re * pole[1] + im * pole[0])
            });
            assert!(value.0.hypot(value.1) < 1e-9, "gain {gain}");
        }
        gains += 1;
    }
    assert_eq!(gains, 33);
    assert_eq!(json(&text, "order"), "4");
    assert_eq!(json(&text, "poles_added_at_0"), "1");
    assert_eq!(json(&text, "first_gain_not_inside"), "0.0");
    assert_eq!(json(&text, "stable_gains"), "[[0.25, 5.0]]");
}

#[test]
fn a_picture() {
    let picture = place("locus.svg");
    let text = said([
        "locus",
        STEADY,
        "--k-max",
        "8",
        "--points",
        "4096",
        "--svg",
        picture.to_str().unwrap(),
    ]);
    assert!(text.ends_with(&format!("The picture is in {}.\n", picture.display())));
    let picture = fs::read_to_string(picture).unwrap();
    check_svg(&picture);
    for label in [
        "real part of z",
        "imaginary part of z",
        "unit circle",
        "not inside at gain",
    ] {
        assert!(picture.contains(label), "{label}");
    }
    assert!(picture.len() < 200_000);

    // Eight poles in one place, or nearly so, at every gain: one mark stands for those that fall together.
    let path = file(
        "many.txt",
        "plant.b = 0 0 0 0 0 0 0 1e-9\nplant.a = 0 0 0 0 0 0 0 0\ncontroller.b = 1\n",
    );
    let place = place("many.svg");
    said([
        "locus",
        path.to_str().unwrap(),
        "--k-max=4",
        "--points=4096",
        "--svg",
        place.to_str().unwrap(),
    ]);
    let picture = fs::read_to_string(place).unwrap();
    check_svg(&picture);
    assert!(picture.contains("not settled, or off, at 4,096 gains<"));
    assert!(picture.len() < 200_000);
}
