//! The command of the bench: thin around the proved library, and never a success when something is missing.
#![deny(unsafe_code)]

mod addresses;
mod arguments;
mod ask;
mod audit;
mod banks;
mod batch;
mod capture;
mod granule;
mod guest;
mod layout;
mod lists;
mod map;
mod number;
mod picture;
mod probe;
mod progress;
mod ranges;
mod reach;
mod refused;
mod registers;
mod results;
mod sample;
mod scope;
mod short;
mod steps;
mod text;
mod trouble;
mod whole;

use arguments::{Arguments, Verb};
use clap::{CommandFactory, Parser};
use std::io::Write;
use std::process::ExitCode;
use trouble::{standard_output, Status, Trouble};

/// Completions for a shell.
fn complete(shell: clap_complete::Shell, out: &mut dyn Write) -> Result<Status, Trouble> {
    let mut script = Vec::new();
    clap_complete::generate(shell, &mut Arguments::command(), "humpelkaas", &mut script);
    out.write_all(&script).and_then(|()| out.flush()).map_err(standard_output)?;
    Ok(Status::Complete)
}

fn run(verb: &Verb, out: &mut dyn Write) -> Result<Status, Trouble> {
    match verb {
        Verb::Ask(ask) => ask::run(ask, out),
        Verb::Batch(batch) => batch::run(batch, out),
        Verb::Audit(audit) => audit::run(audit, out),
        Verb::Map(map) => map::run(map, out),
        Verb::Banks(banks) => banks::run(banks, out),
        Verb::Completions { shell } => complete(*shell, out),
        Verb::Sample(sample) => sample::run(sample, out),
    }
}

fn main() -> ExitCode {
    let arguments = match Arguments::try_parse() {
        Ok(arguments) => arguments,
        Err(wrong) => {
            // Help and version are asked for; all else is wrong usage.
            let usage = wrong.use_stderr();
            return match wrong.print() {
                Ok(()) if !usage => ExitCode::SUCCESS,
                Ok(()) => ExitCode::from(64),
                Err(_) => ExitCode::from(3),
            };
        }
    };
    let ended = results::standard_output_is_open().and_then(|()| run(&arguments.verb, &mut std::io::stdout()));
    match ended {
        Ok(status) => ExitCode::from(status as u8),
        Err(trouble) => {
            trouble::say(&trouble.to_string());
            ExitCode::from(trouble.status())
        }
    }
}
