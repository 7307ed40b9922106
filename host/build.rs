//! Links the archives of exported functions. They are kept in host/archives/, by what decides them; `rt`
//! proves the crates and writes the archives where there are none.
//!
//! host/archives/ is in no folder named target/ or out/: `rt ci` sets aside the out/ of each crate, `cargo clean` removes
//! cargo's target/, and each dependent crate has one of its own.

#[path = "build/archives.rs"]
mod archives;

use std::fs::{self, File, OpenOptions};
use std::io::{IsTerminal, Write};
use std::os::unix::fs::FileTypeExt;
use std::os::unix::process::parent_id;
use std::path::PathBuf;
use std::{env, process};

use archives::{file, Archives};

/// The crates whose functions are exported, each by a thin crate NAME_c.
const EXPORTING: [&str; 3] = ["c_api", "c_summaries", "panel"];

fn main() {
    let mut printed = false;
    if let Err(line) = link(&mut printed) {
        println!("cargo::error={line}");
        // Cargo shows the lines of `rt` only of a script that fails.
        if printed {
            process::exit(1);
        }
    }
}

/// Whether lines of `rt` were printed is left in `printed`.
fn link(printed: &mut bool) -> Result<(), String> {
    let host = folder("CARGO_MANIFEST_DIR")?;
    let out = folder("OUT_DIR")?;
    let archives = Archives {
        repository: &host.join(".."),
        crates: &EXPORTING,
        kept: &host.join("archives"),
        rt: "rt".into(),
    };
    let mut terminal = terminal();
    let made = archives.get(&mut |line| {
        *printed = true;
        eprintln!("{line}");
        if let Some(terminal) = &mut terminal {
            // In the place of cargo's bar, which cargo draws again. What cannot be shown is not shown.
            let _ = writeln!(terminal, "\r\x1b[K{line}");
        }
    })?;
    for (name, bytes) in EXPORTING.iter().zip(made) {
        let path = out.join(file(name));
        fs::write(&path, bytes)
            .map_err(|error| format!("cannot write {}: {error}", path.display()))?;
        println!("cargo::rustc-link-lib=static={name}");
    }
    println!("cargo::rustc-link-search=native={}", out.display());
    // Not ../crates: what `rt` writes there would have each build come after a change. A new crate changes crates.txt.
    for folder in archives.folders()? {
        let folder = folder.strip_prefix(&host).unwrap_or(&folder);
        println!("cargo::rerun-if-changed={}", folder.display());
    }
    println!("cargo::rerun-if-changed=../crates.txt");
    Ok(())
}

/// The terminal that cargo writes to, where it does. Cargo keeps to itself what a build script prints,
/// until it fails; with -vv it shows it as it comes. A log or a program that reads cargo's messages
/// therefore gets nothing of a proof that succeeds.
fn terminal() -> Option<File> {
    let path = format!("/proc/{}/fd/2", parent_id());
    // A pipe is not opened: that may wait.
    let kind = fs::metadata(&path).ok()?.file_type();
    let opened = kind
        .is_char_device()
        .then(|| OpenOptions::new().write(true).open(path));
    opened?.ok().filter(File::is_terminal)
}

/// The folder that a variable of cargo's names.
fn folder(variable: &str) -> Result<PathBuf, String> {
    let folder = env::var_os(variable).ok_or(format!("cargo did not set {variable}"))?;
    Ok(folder.into())
}
