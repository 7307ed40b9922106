//! The archives that the host links, kept by what decides them: nothing is proved twice.

mod sha256;

use std::ffi::OsString;
use std::fs::{self, File, TryLockError};
use std::io::{self, BufRead, BufReader, ErrorKind};
use std::path::{Path, PathBuf};
use std::process::Command;

pub use sha256::sha256;

/// The folders of a crate whose files decide what is proved. What lies beside them, as must-fail/, stdin
/// and stdout, is for `rt ci` alone.
const DECIDING: [&str; 3] = ["src", "specs", "proofs"];

/// The archives of some crates of a repository. That of a crate NAME is the static library of the thin crate
/// NAME_c, which exports the functions of NAME.
pub struct Archives<'a> {
    pub repository: &'a Path,
    /// The crates whose functions are exported.
    pub crates: &'a [&'a str],
    /// The folder in which archives are kept: KEPT/SOURCES/TOOLCHAIN/libNAME.a, where SOURCES is the digest
    /// of what was proved and TOOLCHAIN that of what `rt version` said.
    pub kept: &'a Path,
    /// The program `rt`.
    pub rt: OsString,
}

impl Archives<'_> {
    /// The bytes of each archive: those kept, or else those that `rt` makes now, which are then kept. `show`
    /// gets the lines that `rt` prints, as they come. An error is one line.
    pub fn get(&self, show: &mut dyn FnMut(&str)) -> Result<Vec<Vec<u8>>, String> {
        let sources = self.sources()?;
        let toolchain = self.toolchain()?;
        if let Some(archives) = self.find(&sources, toolchain.as_deref()) {
            return Ok(archives);
        }
        let Some(toolchain) = toolchain else {
            return Err(
                "the library is not proved yet, and there is no `rt`: install Rattle's kit and put its folder bin/ on the PATH"
                    .into(),
            );
        };
        // One build proves; another that comes meanwhile waits, and finds what was kept.
        let _lock = self.lock(show)?;
        if let Some(archives) = self.find(&sources, Some(&toolchain)) {
            return Ok(archives);
        }
        show(&format!(
            "`rt` proves the library, which takes some minutes; {} keeps what it makes",
            self.kept.display()
        ));
        let archives = self.crates.iter().map(|name| self.prove(name, show));
        let archives: Vec<Vec<u8>> = archives.collect::<Result<_, _>>()?;
        if self.sources()? != sources {
            return Err(
                "crates/ or crates.txt was changed while it was proved: build again".into(),
            );
        }
        self.keep(&sources, &toolchain, &archives)?;
        Ok(archives)
    }

    /// The folders whose files decide the archives: those of every crate, the thin ones too. What `rt` writes into a
    /// crate, out/, is none of them.
    pub fn folders(&self) -> Result<Vec<PathBuf>, String> {
        let crates = listed(&self.repository.join("crates"))?;
        let parts = crates
            .iter()
            .flat_map(|folder| DECIDING.map(|part| folder.join(part)));
        Ok(parts.filter(|part| part.is_dir()).collect())
    }

    /// The digest of what decides the archives: which crates they are of, crates.txt, and the name and the
    /// contents of each file that decides.
    pub fn sources(&self) -> Result<String, String> {
        let crates = self.repository.join("crates");
        let mut files = Vec::new();
        for folder in self.folders()? {
            collect(&folder, &mut files)?;
        }
        files.sort();
        let mut bytes = Vec::new();
        // Each piece behind its length, so that none can end in the next.
        let mut piece = |piece: &[u8]| {
            bytes.extend((piece.len() as u64).to_le_bytes());
            bytes.extend(piece);
        };
        piece(self.crates.join(" ").as_bytes());
        piece(&read(&self.repository.join("crates.txt"))?);
        for file in files {
            let name = file.strip_prefix(&crates).expect("a file of crates/");
            piece(name.as_os_str().as_encoded_bytes());
            piece(&read(&file)?);
        }
        Ok(sha256(&bytes))
    }

    /// What `rt version` says, where there is `rt`.
    fn toolchain(&self) -> Result<Option<String>, String> {
        let said = match Command::new(&self.rt).arg("version").output() {
            Err(error) if error.kind() == ErrorKind::NotFound => return Ok(None),
            Err(error) => return Err(format!("cannot run `rt`: {error}")),
            Ok(said) => said,
        };
        if !said.status.success() {
            let why = String::from_utf8_lossy(&said.stderr);
            let why = why.lines().next().unwrap_or("it says nothing");
            return Err(format!("`rt version` failed: {why}"));
        }
        Ok(Some(String::from_utf8_lossy(&said.stdout).trim().into()))
    }

    /// Archives that are kept: of this toolchain, or of the last one where it is not known.
    fn find(&self, sources: &str, toolchain: Option<&str>) -> Option<Vec<Vec<u8>>> {
        let kept = self.kept.join(sources);
        if let Some(toolchain) = toolchain {
            return self.read(&kept.join(sha256(toolchain.as_bytes())));
        }
        let made = |folder: &PathBuf| {
            fs::metadata(folder)
                .and_then(|folder| folder.modified())
                .ok()
        };
        let mut folders = listed(&kept).ok()?;
        folders.sort_by_key(made);
        folders.iter().rev().find_map(|folder| self.read(folder))
    }

    /// The archives of a folder, where each has its digest.
    fn read(&self, folder: &Path) -> Option<Vec<Vec<u8>>> {
        let sums = fs::read_to_string(folder.join("sums")).ok()?;
        let archive = |name: &&str| {
            let bytes = fs::read(folder.join(file(name))).ok()?;
            let line = sum(name, &bytes);
            sums.lines().any(|kept| kept == line).then_some(bytes)
        };
        self.crates.iter().map(archive).collect()
    }

    /// Keeps archives: written under another name first, so that a folder that is there is complete.
    fn keep(&self, sources: &str, toolchain: &str, archives: &[Vec<u8>]) -> Result<(), String> {
        let unfinished = self.kept.join("unfinished");
        let folder = self.kept.join(sources).join(sha256(toolchain.as_bytes()));
        let keep = || {
            remove(&unfinished)?;
            fs::create_dir_all(&unfinished)?;
            let mut sums = String::new();
            for (name, bytes) in self.crates.iter().zip(archives) {
                fs::write(unfinished.join(file(name)), bytes)?;
                sums.push_str(&format!("{}\n", sum(name, bytes)));
            }
            fs::write(unfinished.join("toolchain"), format!("{toolchain}\n"))?;
            fs::write(unfinished.join("sums"), sums)?;
            fs::create_dir_all(self.kept.join(sources))?;
            // There is one where an archive has not its digest.
            remove(&folder)?;
            fs::rename(&unfinished, &folder)
        };
        keep().map_err(|error: io::Error| format!("cannot write {}: {error}", folder.display()))
    }

    /// Holds until it is dropped, or its process ends.
    fn lock(&self, show: &mut dyn FnMut(&str)) -> Result<File, String> {
        let path = self.kept.join("lock");
        let cannot = |error: io::Error| format!("cannot lock {}: {error}", path.display());
        fs::create_dir_all(self.kept).map_err(cannot)?;
        let file = File::create(&path).map_err(cannot)?;
        match file.try_lock() {
            Ok(()) => {}
            Err(TryLockError::WouldBlock) => {
                show("another build proves the library; this one waits");
                file.lock().map_err(cannot)?;
            }
            Err(TryLockError::Error(error)) => return Err(cannot(error)),
        }
        Ok(file)
    }

    /// Has `rt` write the archive of a crate, which it does once it has proved the thin crate and those below it.
    fn prove(&self, name: &str, show: &mut dyn FnMut(&str)) -> Result<Vec<u8>, String> {
        let thin = format!("{name}_c");
        let folder = self.repository.join("crates").join(&thin);
        let mut run = || {
            let (lines, printed) = io::pipe()?;
            let mut child = Command::new(&self.rt)
                .arg("lib")
                .current_dir(&folder)
                .stdout(printed.try_clone()?)
                .stderr(printed)
                .spawn()?;
            for line in BufReader::new(lines).split(b'\n') {
                show(&String::from_utf8_lossy(&line?));
            }
            child.wait()
        };
        let status = run().map_err(|error| format!("cannot run `rt`: {error}"))?;
        if !status.success() {
            return Err(format!("`rt lib` in crates/{thin} failed, {status}"));
        }
        read(&folder.join("out").join(file(&thin)))
    }
}

/// The file of a crate's archive.
pub fn file(name: &str) -> String {
    format!("lib{name}.a")
}

/// A line as `sha256sum` has it.
fn sum(name: &str, bytes: &[u8]) -> String {
    format!("{}  {}", sha256(bytes), file(name))
}

fn read(path: &Path) -> Result<Vec<u8>, String> {
    fs::read(path).map_err(|error| format!("cannot read {}: {error}", path.display()))
}

fn remove(folder: &Path) -> io::Result<()> {
    match fs::remove_dir_all(folder) {
        Err(error) if error.kind() != ErrorKind::NotFound => Err(error),
        _ => Ok(()),
    }
}

/// What a folder holds.
fn listed(folder: &Path) -> Result<Vec<PathBuf>, String> {
    let paths: io::Result<Vec<PathBuf>> =
        fs::read_dir(folder).and_then(|entries| entries.map(|entry| Ok(entry?.path())).collect());
    paths.map_err(|error| format!("cannot read {}: {error}", folder.display()))
}

/// The files of a folder and those below it.
fn collect(folder: &Path, files: &mut Vec<PathBuf>) -> Result<(), String> {
    for path in listed(folder)? {
        if path.is_dir() {
            collect(&path, files)?;
        } else {
            files.push(path);
        }
    }
    Ok(())
}
