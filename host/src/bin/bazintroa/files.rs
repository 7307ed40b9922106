//! The files that a command writes: which file a name leads to, and all of them or none.

use std::fs::{self, File, OpenOptions};
use std::io::{self, Write};
use std::os::unix::ffi::OsStrExt;
use std::os::unix::fs::{chown, MetadataExt, OpenOptionsExt};
use std::path::{Path, PathBuf};
use std::process;

/// Which file a name leads to. Two names of one file, by links or other spellings, are equal.
#[derive(PartialEq)]
enum Identity {
    /// The device and the number on it.
    There(u64, u64),
    /// What it will be called.
    NotYet(PathBuf),
}

fn identity(path: &Path) -> io::Result<Identity> {
    match fs::metadata(path) {
        Ok(file) => Ok(Identity::There(file.dev(), file.ino())),
        Err(_) => destination(path).map(Identity::NotYet),
    }
}

/// The name behind the links at a name's end, in a folder whose name has no links.
fn destination(path: &Path) -> io::Result<PathBuf> {
    const EISDIR: i32 = 21;
    const ELOOP: i32 = 40;
    let mut path = path.to_path_buf();
    for _ in 0..40 {
        // `Path` passes over a slash or a dot at the end, which names a folder.
        let end = path.as_os_str().as_bytes().rsplit(|&b| b == b'/').next();
        if matches!(end, None | Some(b"" | b"." | b"..")) {
            return Err(io::Error::from_raw_os_error(EISDIR));
        }
        let folder = folder(&path);
        match fs::read_link(&path) {
            Ok(target) => path = folder.join(target),
            Err(_) => {
                return Ok(folder
                    .canonicalize()?
                    .join(path.file_name().unwrap_or_default()))
            }
        }
    }
    Err(io::Error::from_raw_os_error(ELOOP))
}

fn folder(path: &Path) -> &Path {
    match path.parent() {
        Some(folder) if folder != Path::new("") => folder,
        _ => Path::new("."),
    }
}

/// Refuses outputs of which one would overwrite the input, another output, or what standard output is
/// sent to. Each is an option with its file; `-` is standard input.
pub fn check(input: &Path, outputs: &[(&str, &Path)]) -> Result<(), String> {
    // Only a file has contents that can be overwritten.
    let of_file = |path: &Path| {
        let file = fs::metadata(path).ok().filter(|file| file.is_file())?;
        Some(Identity::There(file.dev(), file.ino()))
    };
    let (input, name) = if input == Path::new("-") {
        (Path::new("/dev/stdin"), "standard input".into())
    } else {
        (input, input.to_string_lossy())
    };
    let (read, sent) = (of_file(input), of_file(Path::new("/dev/stdout")));
    let mut seen: Vec<(&str, &Path, Identity)> = Vec::new();
    for &(option, path) in outputs {
        let shown = path.display();
        // What is there and no file, as /dev/null, has no contents either; what cannot be named cannot be
        // written, which is said when it is tried.
        let other = fs::metadata(path).is_ok_and(|file| !file.is_file());
        let Some(identity) = identity(path).ok().filter(|_| !other) else {
            continue;
        };
        if read.as_ref() == Some(&identity) {
            return Err(format!(
                "{option} {shown} would overwrite {name}, which is read"
            ));
        }
        if sent.as_ref() == Some(&identity) {
            return Err(format!("{option} {shown} is where standard output goes"));
        }
        if let Some((other, first, _)) = seen.iter().find(|(.., before)| *before == identity) {
            let first = first.display();
            return Err(format!("{other} {first} and {option} {shown} are one file"));
        }
        seen.push((option, path, identity));
    }
    Ok(())
}

/// A file that is complete under another name, in the folder of its destination.
struct Complete {
    temporary: PathBuf,
    destination: PathBuf,
    /// Whether a file stands at the destination.
    replaces: bool,
    renamed: bool,
}

impl Complete {
    fn write(path: &Path, contents: &[u8]) -> io::Result<Complete> {
        let (destination, before) = match fs::metadata(path) {
            Ok(before) => {
                // A file that may not be written is not replaced either. Of a folder this fails.
                OpenOptions::new().write(true).open(path)?;
                (path.canonicalize()?, Some(before))
            }
            Err(_) => (destination(path)?, None),
        };
        // What replaces a file is closed to others until it has that file's mode.
        let mode = if before.is_some() { 0o600 } else { 0o666 };
        let (file, temporary) = temporary(folder(&destination), mode)?;
        let complete = Complete {
            temporary,
            destination,
            replaces: before.is_some(),
            renamed: false,
        };
        fill(file, contents)?;
        if let Some(before) = before {
            // Its owner where that is allowed, and its mode.
            let _ = chown(&complete.temporary, Some(before.uid()), Some(before.gid()));
            fs::set_permissions(&complete.temporary, before.permissions())?;
        }
        Ok(complete)
    }

    fn rename(&mut self) -> io::Result<()> {
        fs::rename(&self.temporary, &self.destination)?;
        self.renamed = true;
        Ok(())
    }
}

impl Drop for Complete {
    fn drop(&mut self) {
        if !self.renamed {
            let _ = fs::remove_file(&self.temporary);
        }
    }
}

/// A new file with a name that no other has. It is short, since a destination's may be as long as allowed.
fn temporary(folder: &Path, mode: u32) -> io::Result<(File, PathBuf)> {
    let mut options = OpenOptions::new();
    options.write(true).create_new(true).mode(mode);
    let mut i = 0;
    loop {
        let path = folder.join(format!(".bazintroa-{}-{i}", process::id()));
        match options.open(&path) {
            Err(error) if error.kind() == io::ErrorKind::AlreadyExists => i += 1,
            opened => return opened.map(|file| (file, path)),
        }
    }
}

fn fill(mut file: File, contents: &[u8]) -> io::Result<()> {
    file.write_all(contents)?;
    file.sync_all()
}

/// Writes all files or none: each is written under another name beside its destination, and they are
/// renamed when all are complete. A link is written through. An existing file keeps its mode; where it
/// has other hard links, these keep the old contents. What is neither file nor folder, as a pipe or
/// /dev/null, is written as it is, before anything is renamed.
pub fn write_all(files: &[(PathBuf, String)]) -> Result<(), String> {
    let direct = |path: &Path| {
        let kind = fs::metadata(path).map(|file| file.file_type());
        kind.is_ok_and(|kind| !kind.is_file() && !kind.is_dir())
    };
    let mut complete = Vec::new();
    for (path, contents) in files.iter().filter(|(path, _)| !direct(path)) {
        let written = Complete::write(path, contents.as_bytes());
        complete.push((
            path.as_path(),
            written.map_err(|error| cannot(path, error))?,
        ));
    }
    for (path, contents) in files.iter().filter(|(path, _)| direct(path)) {
        fs::write(path, contents).map_err(|error| cannot(path, error))?;
    }
    rename_all(complete)
}

/// Where one cannot be renamed, those renamed before it that replaced nothing are removed again. One
/// that replaced a file stays: what it replaced is gone.
fn rename_all(mut complete: Vec<(&Path, Complete)>) -> Result<(), String> {
    for i in 0..complete.len() {
        let (path, file) = &mut complete[i];
        if let Err(error) = file.rename() {
            let line = cannot(path, error);
            for (_, file) in complete[..i].iter().filter(|(_, file)| !file.replaces) {
                let _ = fs::remove_file(&file.destination);
            }
            return Err(line);
        }
    }
    Ok(())
}

fn cannot(path: &Path, error: io::Error) -> String {
    format!("cannot write {}: {error}", path.display())
}

#[cfg(test)]
mod tests {
    use super::*;
    use std::env;

    #[test]
    fn a_rename_that_fails() {
        let folder = env::temp_dir().join(format!("bazintroa-renames-{}", process::id()));
        fs::create_dir(&folder).unwrap();
        let [new, old, blocked] = ["new", "old", "blocked"].map(|name| folder.join(name));
        fs::write(&old, "before").unwrap();
        let complete: Vec<(&Path, Complete)> = [&new, &old, &blocked]
            .map(|path| (path.as_path(), Complete::write(path, b"after").unwrap()))
            .into();
        // A folder comes between.
        fs::create_dir(&blocked).unwrap();
        assert_eq!(
            rename_all(complete).unwrap_err(),
            format!(
                "cannot write {}: Is a directory (os error 21)",
                blocked.display()
            )
        );
        assert!(!new.exists());
        assert_eq!(fs::read_to_string(&old).unwrap(), "after");
        let left = fs::read_dir(&folder).unwrap().count();
        fs::remove_dir_all(&folder).unwrap();
        assert_eq!(left, 2);
    }
}
