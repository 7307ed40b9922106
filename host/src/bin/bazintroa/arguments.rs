//! The command line of a command: one file, and options.

use std::ffi::OsString;
use std::fs;
use std::io::{self, Read};
use std::path::{Path, PathBuf};

use crate::files;
use crate::output::{Failure, Output};
use crate::words::quoted;

/// What the value of an option is called that names a file to write.
pub const FILE: &str = "FILE";

/// A command of the program.
pub struct Command {
    pub name: &'static str,
    /// The help, in pieces that follow each other.
    pub help: &'static [&'static str],
    /// What the file is called in messages.
    pub file: &'static str,
    /// The options, each with what its value is called, or "" where it takes none.
    pub options: &'static [(&'static str, &'static str)],
    pub run: fn(&Arguments) -> Result<Output, Failure>,
}

/// A file, and the options given with it.
#[derive(Debug)]
pub struct Arguments {
    file: OsString,
    options: Vec<(&'static str, OsString)>,
}

impl Arguments {
    /// `None` where help is asked for.
    pub fn parse(
        command: &Command,
        arguments: impl IntoIterator<Item = OsString>,
    ) -> Result<Option<Self>, Failure> {
        let name = command.name;
        let mut file = None;
        let mut options: Vec<(&'static str, OsString)> = Vec::new();
        let mut arguments = arguments.into_iter();
        while let Some(argument) = arguments.next() {
            let text = argument.to_string_lossy();
            if text == "--help" || text == "-h" {
                return Ok(None);
            }
            if !text.starts_with('-') || text == "-" {
                if file.is_some() {
                    return Err(format!("{name} takes one file, and {text} is a second").into());
                }
                file = Some(argument);
                continue;
            }
            let (given, joined) = match text.split_once('=') {
                Some((given, value)) => (given, Some(OsString::from(value))),
                None => (text.as_ref(), None),
            };
            let Some(&(option, value)) = command.options.iter().find(|(o, _)| *o == given) else {
                return Err(format!(
                    "{name} has no option {given}; bazintroa {name} --help lists them"
                )
                .into());
            };
            if options.iter().any(|(o, _)| *o == option) {
                return Err(format!("{option} is given twice").into());
            }
            let given = match (value, joined) {
                ("", None) => OsString::new(),
                ("", Some(_)) => return Err(format!("{option} takes no value").into()),
                (value, joined) => joined
                    .or_else(|| arguments.next())
                    .filter(|given| !given.is_empty())
                    .ok_or_else(|| format!("{option} needs a {value}"))?,
            };
            let text = given.to_string_lossy();
            if value == FILE && text.starts_with('-') {
                return Err(format!(
                    "{option} needs a {FILE}, and {text} begins as an option does; ./{text} names a file"
                )
                .into());
            }
            options.push((option, given));
        }
        let file = file.ok_or_else(|| {
            format!(
                "{name} needs a file, {}; bazintroa {name} --help says more",
                command.file
            )
        })?;
        let is_output = |option: &str| command.options.contains(&(option, FILE));
        let outputs: Vec<(&str, &Path)> = options
            .iter()
            .filter(|(option, _)| is_output(option))
            .map(|(option, path)| (*option, Path::new(path)))
            .collect();
        files::check(Path::new(&file), &outputs)?;
        Ok(Some(Arguments { file, options }))
    }

    fn value(&self, option: &str) -> Option<&OsString> {
        let mut options = self.options.iter();
        options.find(|(o, _)| *o == option).map(|(_, value)| value)
    }

    pub fn has(&self, option: &str) -> bool {
        self.value(option).is_some()
    }

    pub fn path(&self, option: &str) -> Option<PathBuf> {
        self.value(option).map(PathBuf::from)
    }

    /// A finite number.
    pub fn number(&self, option: &str) -> Result<Option<f64>, Failure> {
        let Some(value) = self.value(option) else {
            return Ok(None);
        };
        let text = value.to_string_lossy();
        match text.parse::<f64>() {
            Ok(x) if x.is_finite() => Ok(Some(x)),
            _ => Err(format!(
                "{option} needs a finite number, and {} is none",
                quoted(&text)
            )
            .into()),
        }
    }

    /// A whole number.
    pub fn count(&self, option: &str) -> Result<Option<usize>, Failure> {
        let Some(value) = self.value(option) else {
            return Ok(None);
        };
        let text = value.to_string_lossy();
        match text.parse() {
            Ok(n) => Ok(Some(n)),
            Err(_) => Err(format!(
                "{option} needs a whole number, and {} is none",
                quoted(&text)
            )
            .into()),
        }
    }

    /// The file's name in messages.
    pub fn file_name(&self) -> String {
        if self.file == "-" {
            "standard input".into()
        } else {
            self.file.to_string_lossy().into_owned()
        }
    }

    /// The file's text. Bytes that are no UTF-8 stand as replacement characters.
    pub fn read(&self) -> Result<String, Failure> {
        let mut bytes = Vec::new();
        let read = if self.file == "-" {
            io::stdin().lock().read_to_end(&mut bytes).map(|_| ())
        } else {
            fs::read(&self.file).map(|contents| bytes = contents)
        };
        read.map_err(|error| format!("cannot read {}: {error}", self.file_name()))?;
        let text = String::from_utf8_lossy(&bytes);
        Ok(text.trim_start_matches('\u{feff}').to_string())
    }
}
