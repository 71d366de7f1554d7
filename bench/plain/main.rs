//! The simulator of driver domains as an ordinary Rust program, with nothing proved. It has every subcommand of the
//! proved program, writes the same bytes and ends with the same status. So it is used instead if the Rattle toolchain
//! is missing, and the checks and the benchmark compare the two. It is written from the documents and
//! shares no code with the proved program.
//!
//! `rustc --edition 2021 -O bench/plain/main.rs` builds it, with the standard library alone.
//!
//! It is known to differ in three ways. `--version` says that nothing is proved. `explore` takes more states for
//! one, and so counts fewer. Standard input or output that is closed from the start is an empty file here, as in
//! every Rust program, and cannot be read or written there.

mod allocator;
mod assembler;
mod audit;
mod campaign;
mod class;
mod contract;
mod device;
mod explore;
mod fault;
mod fields;
mod generated;
mod guard;
mod image;
mod input;
mod instructions;
mod journal;
mod json;
mod lines;
mod listing;
mod machine;
mod medium;
mod memory;
mod mirror;
mod one_order;
mod operation;
mod part;
mod pool;
mod refusal;
mod report;
mod scenario;
mod scenario_text;
mod schedule;
mod side_by_side;
mod simulation;
mod state;
mod subcommand;
mod summary;
mod table;
mod texts;
mod threads;
mod tokens;
mod trace;
mod tracker;

use allocator::{Allocator, NO_MEMORY_STATUS};
use refusal::Refusal;
use std::env;
use std::ffi::OsString;
use std::fs::File;
use std::io::{self, BufWriter, IsTerminal, Write};
use std::os::fd::AsFd;
use std::path::Path;
use std::process::ExitCode;

#[global_allocator]
static ALLOCATOR: Allocator = Allocator;

/// Why the output is not complete.
pub enum Stop {
    Refused(Box<Refusal>),
    ReadFault,
    WriteFault,
    NoMemory,
}

impl From<Box<Refusal>> for Stop {
    fn from(refusal: Box<Refusal>) -> Stop {
        Stop::Refused(refusal)
    }
}

/// Only the output is written by functions that return errors of this type.
impl From<io::Error> for Stop {
    fn from(_: io::Error) -> Stop {
        Stop::WriteFault
    }
}

fn main() -> ExitCode {
    let words: Option<Vec<String>> = env::args_os()
        .skip(1)
        .map(|word| OsString::into_string(word).ok())
        .collect();
    let words = words.unwrap_or_default();
    let words: Vec<&str> = words.iter().map(String::as_str).collect();
    ExitCode::from(answer(&words).unwrap_or_else(report_stop))
}

/// Writes what the arguments ask for, and returns the status.
fn answer(words: &[&str]) -> Result<u8, Stop> {
    // The library's own standard output ignores a write to one that cannot be written.
    let mut out = BufWriter::new(File::from(io::stdout().as_fd().try_clone_to_owned()?));
    let status = match subcommand::find(words) {
        Some((serve, numbers)) => match serve(&numbers, &mut out) {
            Err(Stop::Refused(refusal)) => refuse(&refusal, &mut out)?,
            status => status?,
        },
        None => write_usage(words, &mut out)?,
    };
    out.flush()?;
    Ok(status)
}

/// Writes the usage line. Standard error says where all forms are listed, and how a file is given.
fn write_usage(words: &[&str], out: &mut impl Write) -> io::Result<u8> {
    out.write_all(texts::USAGE.as_bytes())?;
    out.flush()?;
    say(texts::FORMS);
    if words.iter().any(|word| Path::new(word).is_file()) {
        say(texts::STANDARD_INPUT);
    }
    Ok(2)
}

/// Writes the line of a refused input. Standard error has it too, so that a redirection does not hide it, and says how
/// to find the error.
fn refuse(refusal: &Refusal, out: &mut impl Write) -> io::Result<u8> {
    writeln!(out, "{refusal}")?;
    out.flush()?;
    if !io::stdout().is_terminal() {
        say(&format!("nooks: {refusal}\n"));
    }
    say(texts::EXPLAIN);
    Ok(3)
}

/// Says on standard error what went wrong outside the program, and returns the status.
fn report_stop(stop: Stop) -> u8 {
    let (status, line) = match stop {
        Stop::Refused(_) => unreachable!("a refusal is written as output"),
        Stop::ReadFault => (4, texts::READ_FAILED),
        Stop::WriteFault => (5, texts::WRITE_FAILED),
        Stop::NoMemory => (NO_MEMORY_STATUS, texts::NO_MEMORY),
    };
    say(line);
    status
}

/// Writes a line to standard error. If that fails too, there is nowhere to report it.
fn say(line: &str) {
    let _said = io::stderr().write_all(line.as_bytes());
}
