//! The files that the program writes: which it refuses to write, and all or none.

mod common;

use common::*;
use std::fs::{self, File};
use std::io::Read;
use std::os::unix::fs::{symlink, MetadataExt, PermissionsExt};
use std::path::{Path, PathBuf};
use std::process::{Command, Stdio};
use std::thread;

const SWEEP: &str = "1,6,-90\n2,2,-120\n4,-2,-160\n8,-10,-200\n";
const LOOP: &str = "plant.b = 0 0.06\nplant.a = -0.94\ncontroller.b = 0.8\n";

/// An empty folder with a sweep and a loop, in which the program runs.
struct Folder(PathBuf);

impl Folder {
    fn new(name: &str) -> Folder {
        let path = place(name);
        let _ = fs::remove_dir_all(&path);
        fs::create_dir(&path).unwrap();
        fs::write(path.join("in.csv"), SWEEP).unwrap();
        fs::write(path.join("loop.txt"), LOOP).unwrap();
        Folder(path)
    }

    fn path(&self, name: &str) -> PathBuf {
        self.0.join(name)
    }

    fn program(&self, arguments: &[&str]) -> Command {
        let mut command = program();
        command.current_dir(&self.0).args(arguments);
        command
    }

    fn said(&self, arguments: &[&str]) -> String {
        text_of(self.program(arguments).output().unwrap())
    }

    /// The line of a call that is refused, after which everything is as it was.
    fn refused(&self, arguments: &[&str]) -> String {
        self.refused_by(self.program(arguments))
    }

    fn refused_by(&self, mut command: Command) -> String {
        let before = self.contents();
        let line = line_of(command.output().unwrap());
        assert_eq!(self.contents(), before, "{line}");
        line
    }

    /// A device of the folder's own: a program gone wrong, run by root, would replace the one in /dev.
    /// Who may not make one may not replace one either.
    fn device(&self, name: &str, minor: &str) -> String {
        let made = Command::new("mknod")
            .arg(self.path(name))
            .args(["c", "1", minor])
            .stderr(Stdio::null())
            .status();
        if made.unwrap().success() {
            name.into()
        } else {
            format!("/dev/{name}")
        }
    }

    /// Names, kinds and contents of what is there.
    fn contents(&self) -> Vec<(String, String)> {
        let of = |path: PathBuf| {
            let contents = match fs::read_link(&path) {
                Ok(target) => format!("-> {}", target.display()),
                Err(_) if path.is_file() => fs::read_to_string(&path).unwrap(),
                Err(_) => format!("{:?}", fs::metadata(&path).unwrap().file_type()),
            };
            (path.file_name().unwrap().to_string_lossy().into(), contents)
        };
        let entries = fs::read_dir(&self.0).unwrap();
        let mut contents: Vec<_> = entries.map(|entry| of(entry.unwrap().path())).collect();
        contents.sort();
        contents
    }

    fn read(&self, name: &str) -> String {
        fs::read_to_string(self.path(name)).unwrap()
    }

    fn names(&self) -> Vec<String> {
        self.contents().into_iter().map(|(name, _)| name).collect()
    }
}

#[test]
fn an_output_that_is_read() {
    let folder = Folder::new("read");
    symlink("in.csv", folder.path("link.csv")).unwrap();
    symlink(".", folder.path("here")).unwrap();
    fs::hard_link(folder.path("in.csv"), folder.path("hard.csv")).unwrap();
    let whole = folder.path("in.csv");
    for (input, output) in [
        ("in.csv", "in.csv"),
        ("in.csv", "./in.csv"),
        ("in.csv", "here/in.csv"),
        ("in.csv", "link.csv"),
        ("link.csv", "in.csv"),
        ("in.csv", "hard.csv"),
        ("in.csv", whole.to_str().unwrap()),
    ] {
        assert_eq!(
            folder.refused(&["margins", input, "--svg", output]),
            format!("--svg {output} would overwrite {input}, which is read")
        );
    }
    assert_eq!(
        folder.refused(&["loop", "loop.txt", "--svg", "x.svg", "--csv=loop.txt"]),
        "--csv loop.txt would overwrite loop.txt, which is read"
    );
    assert_eq!(
        folder.refused(&["locus", "./loop.txt", "--k-max", "2", "--svg", "loop.txt"]),
        "--svg loop.txt would overwrite ./loop.txt, which is read"
    );
    let mut command = folder.program(&["margins", "-", "--svg", "in.csv"]);
    command.stdin(File::open(&whole).unwrap());
    assert_eq!(
        folder.refused_by(command),
        "--svg in.csv would overwrite standard input, which is read"
    );
}

#[test]
fn two_outputs_of_one_name() {
    let folder = Folder::new("two");
    symlink("x", folder.path("to_x")).unwrap();
    symlink(".", folder.path("here")).unwrap();
    for there in [false, true] {
        if there {
            fs::write(folder.path("x"), "before").unwrap();
            fs::hard_link(folder.path("x"), folder.path("hard")).unwrap();
        }
        for (csv, svg) in [
            ("x", "x"),
            ("x", "./x"),
            ("x", "to_x"),
            ("here/x", "x"),
            ("to_x", "x"),
        ] {
            assert_eq!(
                folder.refused(&["loop", "loop.txt", "--csv", csv, "--svg", svg]),
                format!("--csv {csv} and --svg {svg} are one file")
            );
        }
    }
    assert_eq!(
        folder.refused(&["loop", "loop.txt", "--svg", "hard", "--csv", "x"]),
        "--svg hard and --csv x are one file"
    );
}

/// Standard output is an output too.
#[test]
fn a_file_that_standard_output_goes_to() {
    let folder = Folder::new("standard_output");
    for output in ["out", "/dev/stdout"] {
        let out = File::create(folder.path("out")).unwrap();
        let mut command = folder.program(&["margins", "in.csv", "--svg", output]);
        let child = command.stdout(out).stderr(Stdio::piped()).spawn().unwrap();
        assert_eq!(
            line_of(child.wait_with_output().unwrap()),
            format!("--svg {output} is where standard output goes")
        );
        assert_eq!(folder.read("out"), "");
    }
}

#[test]
fn an_option_for_a_name() {
    let folder = Folder::new("option");
    for option in ["--json", "--unwrap", "-", "-x"] {
        let line = format!(
            "--svg needs a FILE, and {option} begins as an option does; ./{option} names a file"
        );
        assert_eq!(
            folder.refused(&["margins", "in.csv", "--svg", option]),
            line
        );
        let joined = format!("--svg={option}");
        assert_eq!(folder.refused(&["margins", "in.csv", &joined]), line);
    }
    assert_eq!(
        folder.refused(&["loop", "loop.txt", "--csv", "--svg", "x.svg"]),
        "--csv needs a FILE, and --svg begins as an option does; ./--svg names a file"
    );
    assert_eq!(
        folder.refused(&["margins", "in.csv", "--svg", ""]),
        "--svg needs a FILE"
    );
    folder.said(&["margins", "in.csv", "--svg", "./--json"]);
    check_svg(&folder.read("--json"));
}

#[test]
fn all_or_none() {
    let folder = Folder::new("none");
    fs::write(folder.path("old.csv"), "before").unwrap();
    fs::create_dir(folder.path("folder")).unwrap();
    symlink("nowhere/x", folder.path("astray")).unwrap();
    symlink("around", folder.path("around")).unwrap();
    let full = folder.device("full", "7");
    for (svg, why) in [
        ("nowhere/x.svg", "No such file or directory (os error 2)"),
        ("astray", "No such file or directory (os error 2)"),
        ("around", "Too many levels of symbolic links (os error 40)"),
        ("folder", "Is a directory (os error 21)"),
        ("folder/", "Is a directory (os error 21)"),
        ("new.svg/", "Is a directory (os error 21)"),
        ("new.svg/.", "Is a directory (os error 21)"),
        (".", "Is a directory (os error 21)"),
        ("..", "Is a directory (os error 21)"),
        ("in.csv/x.svg", "Not a directory (os error 20)"),
        (&full, "No space left on device (os error 28)"),
    ] {
        for csv in ["ok.csv", "old.csv"] {
            assert_eq!(
                folder.refused(&["loop", "loop.txt", "--csv", csv, "--svg", svg]),
                format!("cannot write {svg}: {why}")
            );
        }
    }
    let text = folder.said(&["loop", "loop.txt", "--csv", "old.csv", "--svg", "x.svg"]);
    assert!(text.ends_with("The sweep is in old.csv.\nThe picture is in x.svg.\n"));
    assert!(folder.read("old.csv").starts_with("omega,db,phase,"));
    check_svg(&folder.read("x.svg"));
    let names = folder.names();
    assert!(names.iter().all(|name| !name.starts_with('.')), "{names:?}");
}

/// A file that may not be written is not replaced, though its folder may be. Root may write any.
#[test]
fn a_file_that_may_not_be_written() {
    let folder = Folder::new("read_only");
    let old = folder.path("old.svg");
    fs::write(&old, "before").unwrap();
    fs::set_permissions(&old, fs::Permissions::from_mode(0o444)).unwrap();
    if File::options().write(true).open(&old).is_err() {
        assert_eq!(
            folder.refused(&["margins", "in.csv", "--svg", "old.svg"]),
            "cannot write old.svg: Permission denied (os error 13)"
        );
    }
}

#[test]
fn modes_and_links_stay() {
    let folder = Folder::new("modes");
    let mode = |name: &str| fs::metadata(folder.path(name)).unwrap().mode() & 0o7777;
    let made = |name: &str| folder.said(&["margins", "in.csv", "--svg", name]);
    for bits in [0o600, 0o640, 0o666, 0o755] {
        fs::write(folder.path("old.svg"), "before").unwrap();
        fs::set_permissions(folder.path("old.svg"), fs::Permissions::from_mode(bits)).unwrap();
        made("old.svg");
        assert_eq!(mode("old.svg"), bits);
    }
    // A new file has the mode of any new file.
    made("new.svg");
    fs::write(folder.path("by_hand"), "").unwrap();
    assert_eq!(mode("new.svg"), mode("by_hand"));

    fs::create_dir(folder.path("folder")).unwrap();
    symlink("folder/far.svg", folder.path("near.svg")).unwrap();
    for _ in ["new", "there"] {
        made("near.svg");
        assert_eq!(
            fs::read_link(folder.path("near.svg")).unwrap(),
            Path::new("folder/far.svg")
        );
        check_svg(&folder.read("folder/far.svg"));
        assert_eq!(fs::read_dir(folder.path("folder")).unwrap().count(), 1);
        fs::write(folder.path("folder/far.svg"), "before").unwrap();
    }
    // A name as long as a name may be.
    let long = format!("{}.svg", "x".repeat(251));
    made(&long);
    check_svg(&folder.read(&long));
    assert!(folder.names().iter().all(|name| !name.starts_with('.')));
}

#[test]
fn what_is_no_file_is_written_as_it_is() {
    let folder = Folder::new("devices");
    let null = folder.device("null", "3");
    let before = folder.contents();
    folder.said(&["margins", "in.csv", "--svg", &null]);
    // It may be named twice.
    folder.said(&["loop", "loop.txt", "--csv", &null, "--svg", &null]);
    assert_eq!(folder.contents(), before);

    // The picture, then the text.
    let text = folder.said(&["margins", "in.csv", "--svg", "/dev/stdout"]);
    let (picture, words) = text.split_once("</svg>\n").unwrap();
    check_svg(&format!("{picture}</svg>\n"));
    assert!(words.starts_with("in.csv: 4 readings\n"));

    let pipe = folder.path("pipe");
    assert!(Command::new("mkfifo")
        .arg(&pipe)
        .status()
        .unwrap()
        .success());
    let reader = thread::spawn(move || {
        let mut picture = String::new();
        File::open(pipe)
            .unwrap()
            .read_to_string(&mut picture)
            .unwrap();
        picture
    });
    let there = folder.names().len();
    folder.said(&["loop", "loop.txt", "--svg", "pipe", "--csv", "x.csv"]);
    check_svg(&reader.join().unwrap());
    assert_eq!(folder.names().len(), there + 1);
}
