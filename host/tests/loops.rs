//! `bazintroa loop`.

mod common;

use common::*;
use std::fs;

const STEADY: &str = "examples/steady/loop.txt";

/// The columns of a sweep that was written.
fn columns(csv: &str) -> Vec<Vec<f64>> {
    let mut lines = csv.lines();
    assert_eq!(lines.next(), Some("omega,db,phase,re,im,s_db,t_db,q_db"));
    let mut columns = vec![Vec::new(); 8];
    for line in lines {
        let fields: Vec<f64> = line
            .split(',')
            .map(|field| field.parse().unwrap())
            .collect();
        assert_eq!(fields.len(), 8);
        for (column, field) in columns.iter_mut().zip(fields) {
            column.push(field);
        }
    }
    columns
}

#[test]
fn the_loop_of_document_01() {
    // At frequency 0: L 1, S 0.5, T 0.5, Q 0.25.
    let path = file(
        "worked.txt",
        "plant.b = 1\nplant.a = -0.5\ncontroller.b = 0.5\ncontroller.a = 0\n",
    );
    let csv = place("worked.csv");
    said([
        "loop".as_ref(),
        path.as_os_str(),
        "--even".as_ref(),
        "--points".as_ref(),
        "2".as_ref(),
        "--csv".as_ref(),
        csv.as_os_str(),
    ]);
    let columns = columns(&fs::read_to_string(csv).unwrap());
    let first: Vec<f64> = columns.iter().map(|column| column[0]).collect();
    let half = 20.0 * 0.5_f64.log10();
    let quarter = 20.0 * 0.25_f64.log10();
    assert_eq!(first, [0.0, 0.0, 0.0, 1.0, 0.0, half, half, quarter]);
    assert_eq!(columns[0][1], std::f64::consts::PI);
}

#[test]
fn the_sweep_agrees_with_a_direct_evaluation() {
    let csv = place("steady.csv");
    said([
        "loop",
        STEADY,
        "--points",
        "50",
        "--csv",
        csv.to_str().unwrap(),
    ]);
    let columns = columns(&fs::read_to_string(csv).unwrap());
    assert_eq!(columns[0].len(), 50);
    for i in 0..50 {
        let omega = columns[0][i];
        // Powers of 1/z by the angle sum, without the program's pairs.
        let power = |k: i32| ((omega * k as f64).cos(), -(omega * k as f64).sin());
        let sum = |list: &[f64]| {
            list.iter()
                .enumerate()
                .fold((0.0, 0.0), |(re, im), (k, x)| {
                    let (c, s) = power(k as i32);
                    (re + x * c, im + x * s)
                })
        };
        let times = |z: (f64, f64), w: (f64, f64)| (z.0 * w.0 - z.1 * w.1, z.0 * w.1 + z.1 * w.0);
        let over = |z: (f64, f64), w: (f64, f64)| {
            let d = w.0 * w.0 + w.1 * w.1;
            ((z.0 * w.0 + z.1 * w.1) / d, (z.1 * w.0 - z.0 * w.1) / d)
        };
        let p = over(sum(&[0.0, 0.02, 0.015]), sum(&[1.0, -1.55, 0.585]));
        let c = over(sum(&[4.8, -4.5]), sum(&[1.0, -1.0]));
        let l = times(p, c);
        let one = (1.0 + l.0, l.1);
        let db = |z: (f64, f64)| 20.0 * z.0.hypot(z.1).log10();
        let expected = [
            db(l),
            l.1.atan2(l.0).to_degrees(),
            l.0,
            l.1,
            db(over((1.0, 0.0), one)),
            db(over(l, one)),
            db(over(c, one)),
        ];
        for (column, expected) in columns[1..].iter().zip(expected) {
            assert!((column[i] - expected).abs() < 1e-9 * (1.0 + expected.abs()));
        }
    }
    // Even ratios from the lowest to the highest.
    let ratio = columns[0][1] / columns[0][0];
    assert!((columns[0][0] - 0.001).abs() < 1e-15);
    assert!((columns[0][49] - std::f64::consts::PI).abs() < 1e-12);
    assert!(columns[0]
        .windows(2)
        .all(|w| (w[1] / w[0] - ratio).abs() < 1e-12));
}

#[test]
fn what_is_written_can_be_read_as_a_sweep() {
    for unwrap in [&[][..], &["--unwrap"]] {
        let csv = place(&format!("read_{}.csv", unwrap.len()));
        let mut arguments = vec!["loop", STEADY, "--json", "--csv", csv.to_str().unwrap()];
        arguments.extend(unwrap);
        let of_loop = said(arguments);
        let of_sweep = said(["margins", csv.to_str().unwrap(), "--json"]);
        for key in [
            "gain_crossover",
            "phase_crossover",
            "gain_margin_db",
            "phase_margin_degrees",
        ] {
            assert_eq!(json(&of_loop, key), json(&of_sweep, key));
        }
    }
}

#[test]
fn all_answers_in_words() {
    let text = said(["loop", STEADY, "--unwrap"]);
    let names: Vec<&str> = text
        .lines()
        .filter(|line| line.starts_with("  "))
        .map(|line| line[2..].split("  ").next().unwrap())
        .collect();
    assert_eq!(
        names,
        [
            "gain crossover",
            "phase margin",
            "phase crossover",
            "gain margin",
            "S equals T",
            "bandwidth",
            "closest approach",
            "closed loop"
        ]
    );
    assert!(text.starts_with(
        "examples/steady/loop.txt: plant of order 3, controller of order 2\n4,096 readings from 0.001 to 3.14159 rad/sample\n"
    ));
    assert!(text.contains("closed loop        stable: the outermost pole lies 0.941874 from 0\n"));
}

#[test]
fn options_of_the_grid() {
    let text = said([
        "loop",
        STEADY,
        "--points",
        "7",
        "--omega-min",
        "0.5",
        "--omega-max",
        "1",
    ]);
    assert!(text.contains("\n7 readings from 0.5 to 1 rad/sample\n"));
    // The integrator has no value at 0.
    let text = said(["loop", STEADY, "--even", "--points", "9"]);
    assert!(text.contains("\n8 readings from 0.392699 to 3.14159 rad/sample\n"));
    assert!(text.contains(
        "The frequency 0 rad/sample is left out: L is 0, infinite or NaN there, or a denominator vanishes.\n"
    ));
    let text = said(["loop", STEADY, "--even", "--points", "9", "--json"]);
    assert_eq!(json(&text, "left_out"), "[0.0]");
    // At 0 this is 1e308/0.5, too large for a number.
    let path = file(
        "infinite.txt",
        "plant.b = 1e308\nplant.a = -0.5\ncontroller.b = 1\n",
    );
    let path = path.to_str().unwrap();
    let text = said(["loop", path, "--even", "--points", "9", "--json"]);
    assert_eq!(json(&text, "left_out"), "[0.0]");
    assert_eq!(json(&text, "readings"), "8");
}

#[test]
fn json_has_stable_keys() {
    let text = said(["loop", STEADY, "--json"]);
    let keys: Vec<&str> = text
        .lines()
        .filter_map(|line| line.split('"').nth(1))
        .collect();
    assert_eq!(
        keys,
        [
            "command",
            "readings",
            "left_out",
            "unwrapped",
            "gain_crossover",
            "phase_crossover",
            "gain_margin_db",
            "phase_margin_degrees",
            "margins_refused",
            "gain_crossings",
            "sensitivity_crossover",
            "bandwidth",
            "closest_approach",
            "closed_loop",
            "stable",
            "refused",
            "ending",
            "rounds",
            "last_change",
            "gives_polynomial_back",
            "poles",
            "multiplied_by_z",
            "not_decided"
        ]
    );
    assert_eq!(json(&text, "stable"), "true");
    assert_eq!(json(&text, "ending"), "\"settled\"");
    assert_eq!(json(&text, "last_change"), "null");
    assert_eq!(json(&text, "gives_polynomial_back"), "true");
    assert_eq!(json(&text, "not_decided"), "null");
}

#[test]
fn whether_the_closed_loop_is_stable() {
    let closed = |name: &str, contents: &str| {
        let path = file(name, contents);
        let text = said(["loop".as_ref(), path.as_os_str()]);
        let line = text
            .lines()
            .find(|line| line.starts_with("  closed loop"))
            .unwrap();
        let words = line[19..].trim().to_string();
        // JSON has the same reason where it is not decided, and none where it is.
        let of_json = said(["loop".as_ref(), path.as_os_str(), "--json".as_ref()]);
        let (verdict, why) = words.split_once(": ").unwrap();
        let (verdict, of) = verdict
            .split_once(", of poles that ")
            .unwrap_or((verdict, ""));
        let (stable, why) = match verdict {
            "stable" => ("true", "null".to_string()),
            "not stable" => ("false", "null".to_string()),
            "not decided" | "not known" => ("null", format!("\"{why}\"")),
            _ => panic!("{words}"),
        };
        assert_eq!(json(&of_json, "stable"), stable);
        assert_eq!(json(&of_json, "not_decided"), why);
        // And how the search ended, and whether the poles give the polynomial back.
        let (moving, off) = (
            of.contains("were still moving"),
            of.contains("do not give the polynomial back"),
        );
        let (ending, back) = match verdict {
            "not decided" => ("null", "null"),
            "not known" => ("\"broken\"", "null"),
            _ if moving => ("\"spent\"", if off { "false" } else { "true" }),
            _ => ("\"settled\"", if off { "false" } else { "true" }),
        };
        assert_eq!(json(&of_json, "ending"), ending);
        assert_eq!(json(&of_json, "gives_polynomial_back"), back);
        assert_eq!(json(&of_json, "rounds") == "null", ending != "\"settled\"");
        assert_eq!(json(&of_json, "last_change") == "null", !moving);
        (words, text)
    };
    let (said, _) = closed(
        "out.txt",
        "plant.b = 0 1\nplant.a = -2\ncontroller.b = 0.5\n",
    );
    assert_eq!(said, "not stable: the outermost pole lies 1.5 from 0");
    let (said, _) = closed(
        "edge.txt",
        "plant.b = 0 1\nplant.a = -2\ncontroller.b = 1\n",
    );
    assert_eq!(said, "not stable: the outermost pole lies 1 from 0");
    // (z - 0.5)^3 plus z^2/8: order 3, asked for again with a pole more.
    let (said, text) = closed(
        "cubic.txt",
        "plant.b = 0 0.125\nplant.a = -1.5 0.75 -0.125\ncontroller.b = 1\n",
    );
    assert!(said.starts_with("stable: the outermost pole lies 0."));
    assert!(text.contains("is of degree 3, which is refused with 12: it was multiplied by z.\n"));
    let nine = "plant.b = 0 1\nplant.a = 0 0 0 0.1\ncontroller.b = 1\ncontroller.a = 0 0 0 0 0.1\n";
    let (said, _) = closed("nine.txt", nine);
    assert_eq!(
        said,
        "not decided: plant times controller is of order 9, above 8"
    );
    let (said, _) = closed(
        "nan.txt",
        "plant.b = 0 0 0 0 1\nplant.a = -1 1e150 -1e150\ncontroller.b = 1\n",
    );
    assert_eq!(said, "not known: a part of a pole is NaN");

    // Two double poles, which the last round still moves.
    let (said, text) = closed(
        "moving.txt",
        "plant.b = 0 0.5\nplant.a = 0.2 -1.0174999999999998 -0.39899999999999997 0.32489999999999997\n\
         controller.b = 1\n",
    );
    assert_eq!(
        said,
        "stable, of poles that were still moving: the outermost pole lies 0.95 from 0"
    );
    assert!(text.contains(
        "\nThe search for the closed loop's poles is spent: the last of its 200 rounds still moved a pole by \
         2.14e-9.\n"
    ));
    // 1, -2, 4, 2, 3, whose poles settle in a wrong place.
    let (said, text) = closed(
        "met.txt",
        "plant.b = 0 0 0 1\nplant.a = -2 4 1 3\ncontroller.b = 1\n",
    );
    assert_eq!(
        said,
        "not stable, of poles that do not give the polynomial back: the outermost pole lies 2.28761 from 0"
    );
    assert!(text.contains(
        "\nMultiplied out, the closed loop's poles miss a coefficient by 0.427 of its scale: some of them are \
         wrong.\n"
    ));
    // Five poles in one place.
    let (said, _) = closed(
        "ring.txt",
        "plant.b = 0 1\nplant.a = -1 0 0 0 0\ncontroller.b = 1 0 0 0\ncontroller.a = 0 0\n",
    );
    assert!(
        said.starts_with("stable: the outermost pole lies 0"),
        "{said}"
    );
    let (said, _) = closed(
        "ring5.txt",
        "plant.b = 0 0 0 0 1\nplant.a = 0 0 0 -1 0\ncontroller.b = 1\n",
    );
    assert!(
        said.starts_with(
            "stable, of poles that do not give the polynomial back: the outermost pole lies 0.00"
        ),
        "{said}"
    );
    // 1, 5, -1, 2, 1: both.
    let (said, text) = closed(
        "both.txt",
        "plant.b = 0 0 0 1\nplant.a = 5 -1 1 1\ncontroller.b = 1\n",
    );
    assert_eq!(
        said,
        "not stable, of poles that were still moving and do not give the polynomial back: the outermost pole \
         lies 5.25578 from 0"
    );
    assert!(text.contains("still moved a pole by 0.0568.\nMultiplied out, "));
}

#[test]
fn forms_of_a_file() {
    let text = fs::read_to_string(root().join(STEADY)).unwrap();
    let answers = |text: String| text.split_once('\n').unwrap().1.to_string();
    let plain = answers(said(["loop", STEADY]));
    for (name, contents) in [
        ("f1.txt", text.replace('\n', "\r\n")),
        ("f2.txt", text.replace(" = ", "=").replace(' ', ", ")),
        (
            "f3.txt",
            text.replace(" = ", " =\t")
                .replace('\n', "   # a comment\n\n"),
        ),
        ("f4.txt", format!("\u{feff}{text}")),
        // What follows this comma cannot be decimals.
        ("f5.txt", text.replace("4.8 -4.5", "4.8,-4.5")),
    ] {
        let path = file(name, contents);
        assert_eq!(
            answers(said(["loop".as_ref(), path.as_os_str()])),
            plain,
            "{name}"
        );
    }
    let input = said_of_input(&["loop", "-"], text.as_bytes());
    assert!(input.starts_with("standard input: plant of order 3, controller of order 2\n"));
    assert_eq!(answers(input), plain);
}

#[test]
fn wrong_lines_are_named() {
    for (name, contents, line) in [
        ("w1.txt", "", "there is no line for plant.b"),
        (
            "w2.txt",
            "plant.b = 1\n",
            "there is no line for controller.b",
        ),
        (
            "w3.txt",
            "plant.b 1 2\n",
            "line 1: a name, = and numbers are needed",
        ),
        (
            "w4.txt",
            "\nplant.c = 1\n",
            "line 2: \"plant.c\" is not plant.b, plant.a, controller.b or controller.a",
        ),
        (
            "w5.txt",
            "plant.b = 1\nplant.b = 1\n",
            "line 2: plant.b is given twice",
        ),
        (
            "w6.txt",
            "plant.b = one\n",
            "line 1: \"one\" is no finite number",
        ),
        (
            "w7.txt",
            "plant.b = 1 NaN\n",
            "line 1: \"NaN\" is no finite number",
        ),
        (
            "w8.txt",
            "plant.b = inf\n",
            "line 1: \"inf\" is no finite number",
        ),
        (
            "w9.txt",
            "plant.b =   # none\n",
            "line 1: there is no number behind =",
        ),
        (
            "w10.txt",
            "plant.b = 1 2 3 4 5 6 7 8 9\n",
            "line 1: plant.b has 9 coefficients, and the order is at most 8 (refusal 16)",
        ),
        (
            "comma.txt",
            "plant.b = 0 0,06\ncontroller.b = 1\n",
            "line 1: \"0,06\" may be one number or two: a number has a decimal point, and numbers are \
             separated by blanks or by a comma followed by a blank",
        ),
        (
            "commas.txt",
            "plant.b = 1\ncontroller.b = 0.8,2,-0.72 1\n",
            "line 2: \"0.8,2,-0.72\" may be one number or two: a number has a decimal point, and numbers \
             are separated by blanks or by a comma followed by a blank",
        ),
        (
            "comma_in_front.txt",
            "plant.b = 1 ,06\n",
            "line 1: \",06\" may be one number or two: a number has a decimal point, and numbers are \
             separated by blanks or by a comma followed by a blank",
        ),
        (
            "w11.txt",
            "plant.b = 0\ncontroller.b = 1\n",
            "L is 0 or has no value at every frequency of the grid",
        ),
    ] {
        let path = file(name, contents);
        let said = refused(["loop".as_ref(), path.as_os_str()]);
        assert_eq!(said, format!("{}: {line}", path.display()));
    }
}

#[test]
fn pictures() {
    for (i, arguments) in [
        &[STEADY][..],
        &[STEADY, "--unwrap"],
        &[STEADY, "--even"],
        &[STEADY, "--points", "2"],
        &["examples/two_crossings/loop.txt"],
        &["examples/wrapped_phase/loop.txt"],
    ]
    .iter()
    .enumerate()
    {
        let picture = place(&format!("loop{i}.svg"));
        let mut all = vec!["loop"];
        all.extend(*arguments);
        all.extend(["--svg", picture.to_str().unwrap()]);
        assert!(said(all).contains(&format!("The picture is in {}.\n", picture.display())));
        let picture = fs::read_to_string(picture).unwrap();
        check_svg(&picture);
        for label in [
            "magnitude, dB",
            "phase, degrees",
            "real part of L",
            "rad/sample",
            "the point -1",
        ] {
            assert!(picture.contains(label), "{label}");
        }
    }
}
