//! The statement lister as a command: `tilusorgu help`.
mod closed;
mod compare;
mod console;
mod display;
mod files;
mod list;
mod names;
mod options;
mod pack;
mod progress;

use console::say;
use options::Command;
use std::process::ExitCode;

/// Why a command ends early.
pub enum Failure {
    /// The command line is wrong: 2.
    Usage(String),
    /// A file is wrong, or what was asked for is not in it: 2.
    Trouble(String),
    /// A call was refused: 1.
    Refused(String),
    /// Whoever read the output has gone away: that is no news to anyone.
    Gone,
}

/// Was anything refused on the way?
#[derive(Clone, Copy, PartialEq, Eq)]
pub enum Outcome {
    Done,
    SomeRefused,
}

fn main() -> ExitCode {
    let arguments = std::env::args_os().skip(1).collect();
    // once for all calls, and for what walks deep texts
    tilusorgu::try_with_stack(|| run(arguments)).unwrap_or_else(|error| {
        say(&format!("the system gives no thread with a stack of {} bytes: {error}", tilusorgu::STACK));
        ExitCode::from(2)
    })
}

fn run(arguments: Vec<std::ffi::OsString>) -> ExitCode {
    let outcome = options::parse(arguments).and_then(|command| match command {
        Command::Help => console::print(options::HELP).map(|()| Outcome::Done),
        Command::Version => console::print(concat!("tilusorgu ", env!("CARGO_PKG_VERSION"), "\n")).map(|()| Outcome::Done),
        Command::Check(file) => list::check(&file),
        Command::List(list) => list::list(&list),
        Command::Names(file) => names::names(&file),
        Command::Compare(compare) => compare::compare(&compare),
        Command::Pack(pack) => pack::pack(&pack),
    });
    match outcome {
        Ok(Outcome::Done) | Err(Failure::Gone) => ExitCode::SUCCESS,
        Ok(Outcome::SomeRefused) => ExitCode::from(1),
        Err(Failure::Refused(what)) => {
            say(&what);
            ExitCode::from(1)
        }
        Err(Failure::Trouble(what)) => {
            say(&what);
            ExitCode::from(2)
        }
        Err(Failure::Usage(what)) => {
            say(&format!("{what} (tilusorgu help shows what there is)"));
            ExitCode::from(2)
        }
    }
}
