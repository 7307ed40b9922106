//! `bazintroa margins`.

mod common;

use common::*;
use std::fs;

const SWEEP: &str = "1,6,-90\n2,2,-120\n4,-2,-160\n8,-10,-200\n";

fn margins(name: &str, contents: impl AsRef<[u8]>) -> String {
    let path = file(name, contents);
    said(["margins".as_ref(), path.as_os_str()])
}

fn wrong(name: &str, contents: impl AsRef<[u8]>) -> String {
    let path = file(name, contents);
    let line = refused(["margins".as_ref(), path.as_os_str()]);
    let start = format!("{}: ", path.display());
    line.strip_prefix(&start)
        .expect("the file's name")
        .to_string()
}

#[test]
fn the_sweep_of_document_01() {
    let text = margins("worked.csv", SWEEP);
    let (_, table) = text.split_once('\n').unwrap();
    assert_eq!(
        table,
        "
  gain crossover    3  rad/sample
  phase margin      40 degrees
  phase crossover   6  rad/sample
  gain margin       6  dB

0 dB is crossed once.
"
    );
}

#[test]
fn an_earlier_pair_that_encloses_the_crossover() {
    let text = margins("earlier.csv", "1 5 -100\n4 5 -140\n2 1 -150\n3 -1 -170\n");
    assert!(text.contains("gain crossover    2.5 rad/sample\n"));
    assert!(text.contains("phase margin      60  degrees\n"));
}

#[test]
fn a_crossover_past_its_own_pair() {
    let text = margins("past.csv", "1.5,1,-90\n4503599627370499,0,-120\n");
    assert!(text.contains("gain crossover    4.5036e15 rad/sample\n"));
    assert!(text.contains("none: no two neighbouring readings enclose the gain crossover\n"));
}

#[test]
fn forms_of_a_file() {
    let answers = |text: &str| text.split_once('\n').unwrap().1.to_string();
    let plain = answers(&margins("plain.csv", SWEEP));
    let forms = [
        ("windows.csv", SWEEP.replace('\n', "\r\n")),
        ("header.csv", format!("omega,dB,phase\n{SWEEP}")),
        (
            "quoted_names.csv",
            format!("\"omega\",\"dB\",\"phase\"\n{SWEEP}"),
        ),
        (
            "comments.csv",
            format!(
                "# measured in June\n\nω, dB, phase\n{}# end",
                SWEEP.replace('\n', "\n  \n")
            ),
        ),
        ("blanks.csv", SWEEP.replace(',', " \t ")),
        ("semicolons.csv", SWEEP.replace(',', " ; ")),
        ("mark.csv", format!("\u{feff}{SWEEP}")),
        ("no_end.csv", SWEEP.trim_end().to_string()),
        (
            "columns.csv",
            format!("omega,db,phase,note\n{}", SWEEP.replace('\n', ",x\n")),
        ),
    ];
    for (name, contents) in forms {
        assert_eq!(answers(&margins(name, contents)), plain, "{name}");
    }
    // A header in another encoding.
    let mut latin = b"omega,dB,phase in \xb0\n".to_vec();
    latin.extend_from_slice(SWEEP.as_bytes());
    assert_eq!(answers(&margins("latin.csv", latin)), plain);

    let input = said_of_input(&["margins", "-"], SWEEP.as_bytes());
    assert_eq!(input, format!("standard input: 4 readings\n{plain}"));
}

#[test]
fn wrong_lines_are_named() {
    for (name, contents, line) in [
        ("empty.csv", "", "there is no reading in it"),
        (
            "only_header.csv",
            "omega,db,phase\n",
            "there is no reading in it",
        ),
        (
            "two.csv",
            "# two fields\n1,2,3\n1,2\n",
            "line 3: 2 fields where 3 are needed: frequency, dB and phase, with decimal points",
        ),
        (
            "decimal_commas.csv",
            "0,5,6,25,-90,0\n",
            "line 1: 6 fields where 3 are needed: frequency, dB and phase, with decimal points",
        ),
        (
            "decimal_commas_and_semicolons.csv",
            "0,5;6,25;-90,0\n",
            "line 1: the frequency is no number: \"0,5\"; a number has a decimal point",
        ),
        (
            "decimal_commas_behind_names.csv",
            "omega;db;phase;note\n1;6,25;-90;x\n",
            "line 2: the magnitude in dB is no number: \"6,25\"; a number has a decimal point",
        ),
        (
            "two_decimal_commas.csv",
            "0,5;1,2\n",
            "line 1: 2 fields where 3 are needed: frequency, dB and phase, with decimal points",
        ),
        (
            "four.csv",
            "0,1,2,3\n",
            "line 1: 4 fields where 3 are needed: frequency, dB and phase, with decimal points",
        ),
        (
            "behind_a_semicolon.csv",
            "1,2,3\n1,2,3;4\n",
            "line 2: 2 fields where 3 are needed: frequency, dB and phase, with decimal points",
        ),
        (
            "long_line.csv",
            "omega,db,phase,note\n1,2,3,x\n1,2,3,x,4\n",
            "line 3: 5 fields where the first line names 4",
        ),
        // Readings, and no names of columns.
        (
            "commas_in_front.csv",
            ",5;,25;,75\n1;2;3\n",
            "line 1: the frequency is no number: \",5\"; a number has a decimal point",
        ),
        (
            "quotes.csv",
            "\"0.5\",\"6\",\"-90\"\n1,2,3\n",
            "line 1: the frequency is no number: \"\\\"0.5\\\"\"",
        ),
        (
            "word.csv",
            "1,2,3\n1,loud,3\n",
            "line 2: the magnitude in dB is no number: \"loud\"",
        ),
        (
            "no_phase.csv",
            "1,2,\n",
            "line 1: the phase in degrees is no number: \"\"",
        ),
        (
            "second_header.csv",
            "omega,db,phase\nomega,db,phase\n",
            "line 2: the frequency is no number: \"omega\"",
        ),
        (
            "short_line.csv",
            "omega,db,phase,note\n1,2,3\n",
            "line 2: 3 fields where the first line names 4",
        ),
        (
            "prose.csv",
            "hello\n",
            "line 1: 1 field where 3 are needed: frequency, dB and phase, with decimal points",
        ),
    ] {
        assert_eq!(wrong(name, contents), line, "{name}");
    }
    // What is no text at all gets one line too.
    let bytes: Vec<u8> = (0..=255).cycle().take(5000).collect();
    assert!(wrong("bytes.csv", bytes).starts_with("line 1: 1 field where 3 are needed"));
}

#[test]
fn answers_that_are_not_there() {
    let text = margins("one.csv", "1,0,-180\n");
    assert!(text.contains("gain crossover    none: one reading crosses nothing\n"));
    assert!(text.contains("phase crossover   none: one reading crosses nothing\n"));
    assert!(text.contains(": 1 reading\n"));

    let text = margins("above.csv", "1,6,-90\n2,3,-100\n");
    assert!(text.contains("none: the magnitude stays above 0 dB in this sweep\n"));
    assert!(text.contains("none: the phase never reaches -180 degrees in this sweep\n"));
    assert!(text.contains("phase margin      none: there is no gain crossover\n"));
    assert!(text.contains("gain margin       none: there is no phase crossover\n"));
    assert!(text.contains("0 dB is not crossed.\n"));

    let text = margins("below.csv", "1,-6,-190\n2,-9,-180\n");
    assert!(text.contains("none: the magnitude stays below 0 dB in this sweep\n"));
    assert!(text.contains("none: the phase never rises above -180 degrees in this sweep\n"));
}

#[test]
fn crossings_are_counted() {
    let places = |name: &str, dbs: &[&str]| {
        let lines: Vec<String> = dbs
            .iter()
            .enumerate()
            .map(|(i, db)| format!("{},{db},-90\n", i + 1))
            .collect();
        let path = file(name, lines.concat());
        let text = said(["margins".as_ref(), path.as_os_str(), "--json".as_ref()]);
        json(&text, "gain_crossings")
    };
    assert_eq!(
        places("c1.csv", &["4", "-4", "-4", "4", "-4"]),
        "[1.5, 3.5, 4.5]"
    );
    // A reading of exactly 0 dB counts once, and so does a run of them.
    assert_eq!(places("c2.csv", &["4", "0", "-4"]), "[2.0]");
    assert_eq!(
        places("c3.csv", &["4", "0", "0", "-0", "-4", "4"]),
        "[2.0, 5.5]"
    );
    assert_eq!(places("c4.csv", &["0", "4", "4", "-4"]), "[1.0, 3.5]");
    assert_eq!(places("c5.csv", &["4", "NaN", "-4"]), "[]");

    let text = margins("twice.csv", "1,4,-90\n2,-4,-95\n3,4,-100\n");
    assert!(
        text.contains("0 dB is crossed 2 times, at 1.5 and 2.5 rad/sample. The first counts.\n")
    );
    let many: String = (0..20)
        .map(|i| format!("{},{},-90\n", i + 1, 1 - i % 2 * 2))
        .collect();
    assert!(margins("many.csv", many).contains("0 dB is crossed 19 times. The first counts.\n"));
}

#[test]
fn nan_and_infinities() {
    let text = margins("nan.csv", "1,6,-90\n2,nan,-100\nNaN,-2,-110\n4,-inf,-200\n");
    assert!(text.contains("gain crossover    none: no two neighbouring readings cross 0 dB\n"));
    assert!(text.contains("3 readings hold a NaN or an infinity. A NaN in dB crosses nothing;"));

    let text = margins("infinite.csv", "1,inf,-90\n2,-inf,-100\n");
    assert!(text.contains("gain crossover    NaN rad/sample\n"));
    assert!(text.contains("phase margin      none: no two neighbouring readings enclose"));

    let path = file("json.csv", "1,inf,-90\n2,-inf,-inf\n");
    let text = said(["margins".as_ref(), path.as_os_str(), "--json".as_ref()]);
    assert_eq!(json(&text, "gain_crossover"), "\"NaN\"");
    assert_eq!(json(&text, "phase_crossover"), "1.0");
    assert_eq!(json(&text, "gain_margin_db"), "\"NaN\"");
    assert_eq!(json(&text, "phase_margin_degrees"), "null");
    assert_eq!(json(&text, "not_finite"), "2");

    for (name, db, margin) in [
        ("i1.csv", "inf", "\"-Infinity\""),
        ("i2.csv", "-inf", "\"Infinity\""),
    ] {
        let path = file(name, format!("1,5,-100\n2,{db},-260\n"));
        let text = said(["margins".as_ref(), path.as_os_str(), "--json".as_ref()]);
        assert_eq!(json(&text, "gain_margin_db"), margin);
    }

    for (name, contents) in [
        ("p1.csv", "1,inf,-90\n2,-inf,-inf\n"),
        ("p2.csv", "nan,nan,nan\n"),
        ("p3.csv", "-1e308,1e308,1e300\n1e308,-1e308,-1e300\n"),
        ("p4.csv", "1e17,0,-180\n1e17,0,-180\n"),
        ("p5.csv", "-5,1,2\n0,-1,-300\n3,3,4\n"),
        ("p6.csv", "5e-324,1,2\n1e300,-1,-300\n"),
    ] {
        let (path, picture) = (file(name, contents), place(&format!("{name}.svg")));
        said([
            "margins".as_ref(),
            path.as_os_str(),
            "--svg".as_ref(),
            picture.as_os_str(),
        ]);
        check_svg(&fs::read_to_string(picture).unwrap());
    }
}

#[test]
fn a_wrapped_phase() {
    let sweep = "1,6,-120\n2,2,-160\n4,-2,160\n8,-10,100\n";
    let text = margins("wrapped.csv", sweep);
    assert!(text.contains("phase crossover   none: the phase never reaches -180"));
    assert!(text.contains(
        "The phase jumps by more than 180 degrees between 2 and 4 rad/sample: it is wrapped. --unwrap"
    ));
    let path = file("wrapped2.csv", sweep);
    let text = said(["margins".as_ref(), path.as_os_str(), "--unwrap".as_ref()]);
    assert!(text.contains("phase crossover   3 rad/sample\n"));
    assert!(text.contains("gain margin       0 dB\n"));
    assert!(!text.contains("jumps"));

    // The other way, and back.
    let path = file(
        "wrapped3.csv",
        "1,6,170\n2,2,-170\n3,2,-90\n4,2,100\n5,-1,-100\n",
    );
    let picture = place("wrapped3.svg");
    let text = said([
        "margins".as_ref(),
        path.as_os_str(),
        "--unwrap".as_ref(),
        "--json".as_ref(),
        "--svg".as_ref(),
        picture.as_os_str(),
    ]);
    assert_eq!(json(&text, "unwrapped"), "true");
    assert_eq!(json(&text, "phase_crossover"), "null");
    check_svg(&fs::read_to_string(picture).unwrap());

    let text = margins("turn.csv", "1,2,170\n2,-2,160\n");
    assert!(text.contains("phase margin      345 degrees\n"));
    assert!(text.contains("A turn lower, the phase margin is -15 degrees.\n"));
}

#[test]
fn json_reads_back_to_the_same_bits() {
    let (omega, db, phase) = (
        [0.1, 0.2 + 1e-16, 0.30000000000000004],
        [1.0 / 3.0, -0.7, -5e-324],
        [-179.99999999999997, -180.00000000000003, -181.7],
    );
    let lines: String = (0..3)
        .map(|i| format!("{},{},{}\n", omega[i], db[i], phase[i]))
        .collect();
    let path = file("bits.csv", lines);
    let text = said(["margins".as_ref(), path.as_os_str(), "--json".as_ref()]);
    let same = |key: &str, answer: Result<Option<f64>, bazintroa::Refusal>| {
        let answer = answer.unwrap().unwrap();
        assert_eq!(json_number(&text, key).to_bits(), answer.to_bits(), "{key}");
    };
    same(
        "gain_crossover",
        bazintroa::gain_crossover_frequency(&omega, &db, &phase),
    );
    same(
        "phase_crossover",
        bazintroa::phase_crossover_frequency(&omega, &db, &phase),
    );
    same(
        "gain_margin_db",
        bazintroa::gain_margin(&omega, &db, &phase),
    );
    same(
        "phase_margin_degrees",
        bazintroa::phase_margin(&omega, &db, &phase),
    );
    assert_eq!(json(&text, "margins_refused"), "null");
    let keys: Vec<&str> = text
        .lines()
        .filter_map(|line| line.split('"').nth(1))
        .collect();
    assert_eq!(
        keys,
        [
            "command",
            "readings",
            "not_finite",
            "unwrapped",
            "gain_crossover",
            "phase_crossover",
            "gain_margin_db",
            "phase_margin_degrees",
            "margins_refused",
            "gain_crossings"
        ]
    );
}

/// A sweep of n readings that crosses 0 dB and -180 degrees once each, half way between readings.
fn long(n: usize, gain: usize, phase: usize) -> String {
    (0..n)
        .map(|i| {
            let db = if i <= gain { 1 } else { -1 };
            let degrees = if i <= phase { -179 } else { -181 };
            format!("{i},{db},{degrees}\n")
        })
        .collect()
}

#[test]
fn at_most_4096_readings_have_margins() {
    let text = margins("limit.csv", long(4096, 10, 4094));
    assert!(text.contains(": 4,096 readings\n"));
    assert!(text.contains("gain crossover    10.5   rad/sample\n"));
    assert!(text.contains("phase crossover   4094.5 rad/sample\n"));
    assert!(text.contains("gain margin       1      dB\n"));

    // The crossing of the cut, between readings 4,096 and 4,097.
    let text = margins("past_limit.csv", long(4097, 4095, 4094));
    assert!(text.contains("gain crossover    4095.5 rad/sample\n"));
    assert!(text.contains("phase crossover   4094.5 rad/sample\n"));
    assert!(text.contains(
        "gain margin       refused with 15: there are more than 4,096 readings or points; margins need at most 4,096\n"
    ));
    assert!(text
        .contains("The crossovers were found part by part, and are those of the whole sweep.\n"));
    let path = file("past_limit2.csv", long(4097, 4095, 4094));
    let text = said(["margins".as_ref(), path.as_os_str(), "--json".as_ref()]);
    assert_eq!(json(&text, "margins_refused"), "15");
    assert_eq!(json(&text, "gain_margin_db"), "null");
    assert_eq!(json(&text, "gain_crossover"), "4095.5");
}

#[test]
fn a_million_readings() {
    let path = file("million.csv", long(1_000_000, 999_998, 8191));
    let picture = place("million.svg");
    let text = said([
        "margins".as_ref(),
        path.as_os_str(),
        "--svg".as_ref(),
        picture.as_os_str(),
    ]);
    assert!(text.contains(": 1,000,000 readings\n"));
    assert!(text.contains("gain crossover    999998 rad/sample\n"));
    assert!(text.contains("phase crossover   8191.5"));
    let picture = fs::read_to_string(picture).unwrap();
    check_svg(&picture);
    assert!(picture.len() < 300_000, "{} bytes", picture.len());
}
