//! `bazintroa`: the margins, the responses and the root locus of a control loop, over the proved
//! functions of the library. Sine, cosine, logarithm and arctangent are the standard library's.

mod arguments;
mod bode_plot;
mod files;
mod json;
mod locus;
mod locus_plot;
mod loop_command;
mod loop_file;
mod loop_plot;
mod margins;
mod multiplied_out;
mod output;
mod progress;
mod svg;
mod sweep;
mod words;

use std::ffi::OsString;
use std::process::ExitCode;

use arguments::{Arguments, Command};
use output::{Failure, Output};

const COMMANDS: [Command; 3] = [margins::COMMAND, loop_command::COMMAND, locus::COMMAND];

const HELP: &str = "\
bazintroa: the margins of a control loop, by proved functions

  bazintroa margins SWEEP.csv           margins of a sweep
  bazintroa loop LOOP.txt               margins and responses of a plant with its controller
  bazintroa locus LOOP.txt --k-max K    poles of the closed loop by gain

Each takes --svg FILE for a picture, --json for a program to read, and --help.

Examples:
  bazintroa margins examples/steady/sweep.csv --svg steady.svg
  bazintroa loop examples/steady/loop.txt
  bazintroa locus examples/steady/loop.txt --k-max 8

Frequencies are in radians per sample. Exit status 2 means that a file, an option or a number was
wrong; a line on standard error says which.
";

fn main() -> ExitCode {
    let arguments = std::env::args_os().skip(1).collect();
    match run(arguments).and_then(Output::deliver) {
        Ok(()) | Err(Failure::ClosedPipe) => ExitCode::SUCCESS,
        Err(Failure::Said(line)) => {
            eprintln!("bazintroa: {line}");
            ExitCode::from(2)
        }
    }
}

fn run(arguments: Vec<OsString>) -> Result<Output, Failure> {
    let mut arguments = arguments.into_iter();
    let Some(first) = arguments.next() else {
        return Err(
            "a command is missing: margins, loop or locus; --help says more"
                .to_string()
                .into(),
        );
    };
    let first = first.to_string_lossy();
    match first.as_ref() {
        "--help" | "-h" | "help" => return Ok(Output::text(HELP)),
        "--version" => {
            return Ok(Output::text(concat!(
                "bazintroa ",
                env!("CARGO_PKG_VERSION"),
                "\n"
            )))
        }
        _ => {}
    }
    let Some(command) = COMMANDS.iter().find(|command| command.name == first) else {
        return Err(format!(
            "there is no command {first}: margins, loop and locus are there; --help says more"
        )
        .into());
    };
    match Arguments::parse(command, arguments)? {
        Some(arguments) => (command.run)(&arguments),
        None => Ok(Output::text(command.help.concat())),
    }
}
