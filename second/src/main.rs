//! The commands of the second program.

#![forbid(unsafe_code)]

use second::{answer, many, LONGEST_PLAN};
use std::env;
use std::fs::File;
use std::io::{self, BufReader, BufWriter, Read, Write};
use std::os::unix::io::AsFd;
use std::process::ExitCode;

const USAGE: &str = "\
usage: second                    answers the plan on standard input in one line
       second --many             answers many plans, each after its length in two bytes;
                                 every line ends with the sweep number
       second --make SEED COUNT  writes COUNT plans for --many
       second --help             prints this";

/// A command that the arguments may ask for.
enum Command {
    One,
    Many,
    Make { seed: u64, count: u64 },
    Help,
}

/// Does what the arguments ask for; the exit status is 0 when that worked and 2 when it did not.
fn main() -> ExitCode {
    let arguments = env::args_os().skip(1);
    let arguments: Vec<String> = arguments.map(|a| a.to_string_lossy().into()).collect();
    let arguments: Vec<&str> = arguments.iter().map(String::as_str).collect();
    let outcome = match command(&arguments) {
        Some(command) => run(command).map_err(|error| format!("second: {error}")),
        None => Err(USAGE.to_string()),
    };
    match outcome {
        Ok(()) => ExitCode::SUCCESS,
        Err(message) => {
            eprintln!("{message}");
            ExitCode::from(2)
        }
    }
}

/// The command that the arguments ask for, if they ask for one.
fn command(arguments: &[&str]) -> Option<Command> {
    match arguments {
        [] => Some(Command::One),
        ["--many"] => Some(Command::Many),
        ["--make", seed, count] => Some(Command::Make {
            seed: seed.parse().ok()?,
            count: count.parse().ok()?,
        }),
        ["--help"] => Some(Command::Help),
        _ => None,
    }
}

/// Runs a command; what it wrote before an error is written out too.
fn run(command: Command) -> io::Result<()> {
    let mut output = BufWriter::new(standard_output()?);
    let outcome = match command {
        Command::One => answer_one(&mut output),
        Command::Many => many::answer_many(&mut BufReader::new(standard_input()?), &mut output),
        Command::Make { seed, count } => second::make::make(seed, count, &mut output),
        Command::Help => writeln!(output, "{USAGE}"),
    };
    let flushed = output.flush();
    outcome.and(flushed)
}

/// Answers the plan on standard input; one byte more than the longest plan tells that it is too
/// long.
fn answer_one(output: &mut impl Write) -> io::Result<()> {
    let mut plan = Vec::new();
    let enough = LONGEST_PLAN as u64 + 1;
    standard_input()?.take(enough).read_to_end(&mut plan)?;
    writeln!(output, "{}", answer::line(&second::answer(&plan)))
}

/// Standard input as a file, because `Stdin` takes some read errors for the end of the input.
fn standard_input() -> io::Result<File> {
    Ok(File::from(io::stdin().as_fd().try_clone_to_owned()?))
}

/// Standard output as a file, because `Stdout` passes over some write errors.
fn standard_output() -> io::Result<File> {
    Ok(File::from(io::stdout().as_fd().try_clone_to_owned()?))
}
