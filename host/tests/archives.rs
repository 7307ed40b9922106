//! build/: what decides an archive, and when `rt` is asked for one. A script stands for `rt`.

#[path = "../build/archives.rs"]
mod archives;
mod common;

use archives::{sha256, Archives};
use common::*;
use std::fs;
use std::os::unix::fs::PermissionsExt;
use std::path::{Path, PathBuf};
use std::process::Command;
use std::thread;

const CRATES: [&str; 2] = ["low", "high"];

/// A repository of two crates, each with a thin one, and a script for `rt` that counts its calls. Its files are not
/// named as Rattle's are: the real `rt` refuses one that stands below the repository and in no crate.
struct Repository(PathBuf);

impl Repository {
    fn new(name: &str) -> Repository {
        let folder = place(name);
        let _ = fs::remove_dir_all(&folder);
        let repository = Repository(folder);
        repository.write("crates.txt", "low:\nhigh: low\n");
        for name in CRATES {
            repository.write(&format!("crates/{name}_c/src/exports.txt"), name);
            for part in ["src/lib.txt", "specs/Spec.txt", "proofs/deep/Proof.txt"] {
                repository.write(&format!("crates/{name}/{part}"), &format!("{name} {part}"));
            }
        }
        repository.rt("kit 1", "");
        repository
    }

    fn path(&self, path: &str) -> PathBuf {
        self.0.join(path)
    }

    fn write(&self, path: &str, contents: &str) {
        let path = self.path(path);
        fs::create_dir_all(path.parent().unwrap()).unwrap();
        fs::write(path, contents).unwrap();
    }

    /// An `rt` of a version, which does `more` before it writes an archive.
    fn rt(&self, version: &str, more: &str) {
        let script = format!(
            "#!/bin/sh\n\
             if [ \"$1\" = version ]; then echo '{version}'; exit; fi\n\
             [ \"$*\" = lib ] || exit 2\n\
             name=$(basename \"$PWD\" _c)\n\
             echo \"$name\" >> ../../calls\n\
             echo \"rt: $name proved\"\n\
             {more}\n\
             mkdir -p out\n\
             cat ../*/src/lib.txt > out/lib${{name}}_c.a\n"
        );
        // Written by another process: one that starts meanwhile would hold it open for writing.
        let path = self.path("rt");
        self.write("script", &script);
        assert!(Command::new("cp")
            .arg(self.path("script"))
            .arg(&path)
            .status()
            .unwrap()
            .success());
        fs::set_permissions(path, fs::Permissions::from_mode(0o755)).unwrap();
    }

    fn archives<T>(&self, then: impl FnOnce(&Archives) -> T) -> T {
        then(&Archives {
            repository: &self.0,
            crates: &CRATES,
            kept: &self.path("kept"),
            rt: self.path("rt").into(),
        })
    }

    fn get(&self) -> Result<Vec<Vec<u8>>, String> {
        self.archives(|archives| archives.get(&mut |_| ()))
    }

    fn sources(&self) -> String {
        self.archives(|archives| archives.sources().unwrap())
    }

    /// How often `rt` was asked for an archive.
    fn proofs(&self) -> usize {
        fs::read_to_string(self.path("calls")).map_or(0, |calls| calls.lines().count())
    }

    /// The folder of the archives that are kept, where there is one.
    fn kept(&self) -> PathBuf {
        let sources = self.path("kept").join(self.sources());
        let mut toolchains = fs::read_dir(sources).unwrap();
        toolchains.next().unwrap().unwrap().path()
    }
}

/// FIPS 180-4's examples, the empty message, and lengths around a block, by `sha256sum`.
#[test]
fn sha256_of_known_messages() {
    let long = "abcdefghbcdefghicdefghijdefghijkefghijklfghijklmghijklmnhijklmnoijklmnopjklmnopqklmnopqrlmnopqrsmnopqrstnopqrstu";
    for (message, digest) in [
        (
            "".to_string(),
            "e3b0c44298fc1c149afbf4c8996fb92427ae41e4649b934ca495991b7852b855",
        ),
        (
            "abc".to_string(),
            "ba7816bf8f01cfea414140de5dae2223b00361a396177a9cb410ff61f20015ad",
        ),
        (
            "abcdbcdecdefdefgefghfghighijhijkijkljklmklmnlmnomnopnopq".to_string(),
            "248d6a61d20638b8e5c026930c3e6039a33ce45964ff2167f6ecedd419db06c1",
        ),
        (
            long.to_string(),
            "cf5b16a778af8380036ce59e7b0492370b249b11e8f07a51afac45037afee9d1",
        ),
        (
            "a".repeat(1_000_000),
            "cdc76e5c9914fb9281a1c7e284d73e67f1809a48a497200e046d39ccc7112cd0",
        ),
    ] {
        assert_eq!(sha256(message.as_bytes()), digest);
    }
    for length in [1, 54, 55, 56, 57, 63, 64, 65, 119, 120, 128] {
        let bytes: Vec<u8> = (0..length).map(|i| (i * 37 + 200) as u8).collect();
        let path = file(&format!("sha256_{length}"), &bytes);
        let said = Command::new("sha256sum").arg(path).output().unwrap();
        let said = String::from_utf8(said.stdout).unwrap();
        assert_eq!(
            sha256(&bytes),
            said.split(' ').next().unwrap(),
            "{length} bytes"
        );
    }
}

#[test]
fn any_change_of_what_decides_is_seen() {
    let repository = Repository::new("changes");
    let mut seen = vec![repository.sources()];
    let mut changed = |what: &str| {
        let sources = repository.sources();
        assert!(!seen.contains(&sources), "{what}");
        seen.push(sources);
    };
    for part in ["src/lib.txt", "specs/Spec.txt", "proofs/deep/Proof.txt"] {
        repository.write(&format!("crates/low/{part}"), "other");
        changed(part);
    }
    repository.write("crates.txt", "low:\nhigh:\n");
    changed("crates.txt");
    repository.write("crates/low_c/src/exports.txt", "other");
    changed("a thin crate");
    repository.write("crates/high/proofs/More.txt", "");
    changed("a new file");
    let (lib, moved) = ("crates/high/src/lib.txt", "crates/high/src/moved.txt");
    fs::rename(repository.path(lib), repository.path(moved)).unwrap();
    changed("another name");
    fs::rename(
        repository.path(moved),
        repository.path("crates/high/specs/moved.txt"),
    )
    .unwrap();
    changed("another folder");
    fs::remove_file(repository.path("crates/high/specs/moved.txt")).unwrap();
    changed("one file less");
    // One file that holds what two held, the name between them too.
    repository.write("crates/low/src/a", "x");
    repository.write("crates/low/src/b", "y");
    changed("two files");
    fs::remove_file(repository.path("crates/low/src/b")).unwrap();
    repository.write("crates/low/src/a", "xlow/src/by");
    changed("one file with the contents of two");

    let before = repository.sources();
    for beside in ["must-fail/a.edit", "stdin", "stdout", "data/a", "out/a"] {
        repository.write(&format!("crates/low/{beside}"), "more");
    }
    assert_eq!(repository.sources(), before);
    // Not the time of a file, nor where the repository is.
    repository.write("crates/low/src/a", "xlow/src/by");
    let elsewhere = place("changes_elsewhere");
    let _ = fs::remove_dir_all(&elsewhere);
    fs::rename(&repository.0, &elsewhere).unwrap();
    assert_eq!(Repository(elsewhere).sources(), before);
}

#[test]
fn other_crates_have_other_sources() {
    let repository = Repository::new("crates");
    let alone = repository.archives(|archives| {
        let archives = Archives {
            crates: &["low"],
            rt: "rt".into(),
            ..*archives
        };
        archives.sources().unwrap()
    });
    assert_ne!(alone, repository.sources());
}

/// Cargo looks at these for changes: what `rt` writes is not among them.
#[test]
fn folders_that_decide() {
    let repository = Repository::new("folders");
    repository.get().unwrap();
    let mut folders = repository.archives(|archives| archives.folders().unwrap());
    folders.sort();
    let expected = [
        "high/proofs",
        "high/specs",
        "high/src",
        "high_c/src",
        "low/proofs",
        "low/specs",
        "low/src",
        "low_c/src",
    ];
    let crates = repository.path("crates");
    assert_eq!(folders, expected.map(|folder| crates.join(folder)));
}

#[test]
fn proved_once() {
    let repository = Repository::new("once");
    let mut lines = Vec::new();
    let made =
        repository.archives(|archives| archives.get(&mut |line| lines.push(line.to_string())));
    let made = made.unwrap();
    assert_eq!(made, [b"high src/lib.txtlow src/lib.txt"; 2]);
    assert_eq!(lines[1..], ["rt: low proved", "rt: high proved"]);
    assert!(
        lines[0].starts_with("`rt` proves the library"),
        "{}",
        lines[0]
    );
    assert_eq!(repository.proofs(), 2);

    // What `rt` writes into the crates may go. Nothing is shown when nothing is proved.
    for name in CRATES {
        fs::remove_dir_all(repository.path(&format!("crates/{name}_c/out"))).unwrap();
    }
    let again = repository.archives(|archives| archives.get(&mut |line| panic!("{line}")));
    assert_eq!(again.unwrap(), made);
    assert_eq!(repository.proofs(), 2);

    // A change is proved, and what was kept before is still there.
    repository.write("crates/low/src/lib.txt", "changed");
    assert_ne!(repository.get().unwrap(), made);
    assert_eq!(repository.proofs(), 4);
    repository.write("crates/low/src/lib.txt", "low src/lib.txt");
    assert_eq!(repository.get().unwrap(), made);
    assert_eq!(repository.proofs(), 4);

    // Another toolchain proves anew.
    repository.rt("kit 2", "");
    assert_eq!(repository.get().unwrap(), made);
    assert_eq!(repository.proofs(), 6);
}

#[test]
fn without_rt() {
    let repository = Repository::new("without");
    fs::remove_file(repository.path("rt")).unwrap();
    let line = "the library is not proved yet, and there is no `rt`: install Rattle's kit and put its folder bin/ on the PATH";
    assert_eq!(repository.get().unwrap_err(), line);

    repository.rt("kit 1", "");
    let made = repository.get().unwrap();
    fs::remove_file(repository.path("rt")).unwrap();
    assert_eq!(repository.get().unwrap(), made);
    repository.write("crates.txt", "low:\nhigh: low low\n");
    assert_eq!(repository.get().unwrap_err(), line);
}

#[test]
fn an_rt_that_fails() {
    let repository = Repository::new("fails");
    repository.rt(
        "kit 1'; echo 'rt: no kit' >&2; echo more >&2; exit 2; '",
        "",
    );
    assert_eq!(
        repository.get().unwrap_err(),
        "`rt version` failed: rt: no kit"
    );
}

/// What is kept is used only where it has the digest it was kept with.
#[test]
fn a_damaged_archive_is_not_used() {
    let repository = Repository::new("damaged");
    let made = repository.get().unwrap();
    for (i, damage) in ["liblow.a", "libhigh.a", "sums"].into_iter().enumerate() {
        fs::write(repository.kept().join(damage), "damaged").unwrap();
        assert_eq!(repository.get().unwrap(), made, "{damage}");
        assert_eq!(repository.proofs(), 2 * (i + 2), "{damage}");
    }
    fs::remove_file(repository.kept().join("liblow.a")).unwrap();
    fs::remove_file(repository.path("rt")).unwrap();
    assert!(repository.get().is_err());
}

#[test]
fn what_is_not_proved_is_not_kept() {
    let repository = Repository::new("not_proved");
    repository.rt(
        "kit 1",
        "[ \"$name\" = low ] || { echo 'rt: high NOT PROVED' >&2; exit 1; }",
    );
    let mut lines = Vec::new();
    let line = repository
        .archives(|archives| archives.get(&mut |line| lines.push(line.to_string())))
        .unwrap_err();
    assert_eq!(line, "`rt lib` in crates/high_c failed, exit status: 1");
    assert_eq!(
        lines[1..],
        ["rt: low proved", "rt: high proved", "rt: high NOT PROVED"]
    );
    assert!(!repository.path("kept").join(repository.sources()).exists());

    // A change while it is proved: the archive may be of either.
    repository.rt("kit 1", "echo more >> ../low/src/lib.txt");
    let line = "crates/ or crates.txt was changed while it was proved: build again";
    assert_eq!(repository.get().unwrap_err(), line);
    assert!(!repository.path("kept").join(repository.sources()).exists());
}

/// Of several builds at once one proves.
#[test]
fn several_builds() {
    let repository = Repository::new("several");
    repository.rt("kit 1", "sleep 0.3");
    let made: Vec<Vec<Vec<u8>>> = thread::scope(|scope| {
        let builds: Vec<_> = (0..4).map(|_| scope.spawn(|| repository.get())).collect();
        let made = builds
            .into_iter()
            .map(|build| build.join().unwrap().unwrap());
        made.collect()
    });
    assert!(made.iter().all(|archives| *archives == made[0]));
    assert_eq!(repository.proofs(), 2);
}

/// The folder of this repository that build.rs keeps archives in is ignored by git.
#[test]
fn what_is_kept_is_not_committed() {
    assert!(Path::new(env!("CARGO_MANIFEST_DIR"))
        .join("archives")
        .is_dir());
    let ignored = fs::read_to_string(root().join(".gitignore")).unwrap();
    assert!(ignored.lines().any(|line| line == "host/archives/"));
}
