//! Makes the test vectors by asking the Rust. `vectors FOLDER` writes FOLDER/NAME/stdin for each
//! file and prints how many cases of each kind it holds. README.md gives the formats.
//! `vectors start-table` prints the starting points of the root search instead, and `vectors rows`
//! the table that the prover computes.

use std::path::Path;
use std::{env, fs, io};
use vectors::{complex, grids, locus, panel, rows, scans, sensitivity, start_table, summaries};

fn main() -> io::Result<()> {
    let words: Vec<_> = env::args().skip(1).collect();
    let words: Vec<_> = words.iter().map(String::as_str).collect();
    match words[..] {
        ["start-table"] => {
            print!("{}", start_table::lines());
            Ok(())
        }
        ["rows"] => {
            print!("{}", rows::file());
            Ok(())
        }
        [folder] => write_files(folder),
        _ => panic!("usage: vectors FOLDER | start-table | rows"),
    }
}

fn write_files(folder: &str) -> io::Result<()> {
    let files = [
        ("replay_complex", complex::vectors()),
        ("replay_sensitivity", sensitivity::vectors()),
        ("replay_scans", scans::vectors()),
        ("replay_grids", grids::vectors()),
        ("replay_locus", locus::vectors()),
        ("replay_summaries", summaries::vectors()),
        ("replay_panel", panel::vectors()),
    ];
    for (name, words) in files {
        let folder = Path::new(&folder).join(name);
        fs::create_dir_all(&folder)?;
        fs::write(folder.join("stdin"), words.bytes())?;
        let cases: usize = words.counts().iter().map(|(_, count)| count).sum();
        println!("{name}: {cases} cases, {} bytes", words.bytes().len());
        for (kind, count) in words.counts() {
            println!("{count:8} {kind}");
        }
    }
    Ok(())
}
