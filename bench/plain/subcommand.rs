//! The subcommands: what each is called, reads, does and writes.

use crate::assembler::assemble;
use crate::json::Value;
use crate::refusal::{Cause, Read, Refusal};
use crate::scenario::Scenario;
use crate::summary::Summary;
use crate::{
    audit, campaign, explore, generated, guard, image, input, json, listing, mirror, report,
    scenario, scenario_text, simulation, table, texts, threads, trace, Stop,
};
use std::fs::File;
use std::io::{BufWriter, Write};
use std::ops::RangeInclusive;

pub type Output = BufWriter<File>;

/// Runs a subcommand with its numbers, and returns the status.
pub type Serve = fn(&[u32], &mut Output) -> Result<u8, Stop>;

struct Subcommand {
    /// The arguments, with a letter for each number.
    words: &'static str,
    about: &'static str,
    serve: Serve,
}

static SUBCOMMANDS: &[Subcommand] = &[
    Subcommand {
        words: "run",
        about: "read a scenario, simulate it, write the report",
        serve: |_, out| run(out),
    },
    Subcommand {
        words: "run threads",
        about: "the same, each thread of the scenario as a thread of its own",
        serve: |_, out| run_threads(out),
    },
    Subcommand {
        words: "asm",
        about: "read a driver as assembler text, write its image as JSON",
        serve: |_, out| write_image(out),
    },
    Subcommand {
        words: "dis",
        about: "read an image as JSON, write assembler text",
        serve: |_, out| write_text(out),
    },
    Subcommand {
        words: "list",
        about: "read a driver as assembler text, write its words with their addresses and source lines",
        serve: |_, out| list(out),
    },
    Subcommand {
        words: "gen N",
        about: "simulate generated scenario N (1 to 256), write the line that sums it up",
        serve: |numbers, out| generate(numbers[0], out),
    },
    Subcommand {
        words: "gen N scenario",
        about: "write generated scenario N as JSON",
        serve: |numbers, out| write_scenario(&generated::scenario(numbers[0]), out),
    },
    Subcommand {
        words: "audit",
        about: "read a scenario and a printed report, check the report line by line",
        serve: |_, out| audit(out),
    },
    Subcommand {
        words: "campaign",
        about: "read a scenario and a list of faults, simulate it once for each, write the table",
        serve: |_, out| run_campaign(out),
    },
    Subcommand {
        words: "mirror",
        about: "read a scenario of two disks, keep one disk on both, write the report",
        serve: |_, out| run_mirror(out),
    },
    Subcommand {
        words: "trace P B",
        about: "read a scenario, write what burst B of part P did, turn by turn (P from 0)",
        serve: |numbers, out| write_trace(numbers[0] as usize, numbers[1], out),
    },
    Subcommand {
        words: "guard",
        about: "read a scenario, stop each driver before it breaks its contract, write traps and report",
        serve: |_, out| run_guarded(out),
    },
    Subcommand {
        words: "guard scenario",
        about: "read a scenario, write it as JSON with the traps of its guard",
        serve: |_, out| write_guarded(out),
    },
    Subcommand {
        words: "explore",
        about: "read a scenario, follow every order of its steps, write a row for each outcome",
        serve: |_, out| Ok(explore::write(&read_scenario()?, out)?),
    },
    Subcommand {
        words: "--help",
        about: "write this",
        serve: |_, out| help(out),
    },
    Subcommand {
        words: "--version",
        about: "write the program's version, and the kit that it is proved with",
        serve: |_, out| write(texts::VERSION, out),
    },
];

/// The numbers that a letter may be, None if the word is another one.
fn range(word: &str) -> Option<RangeInclusive<u32>> {
    match word {
        "N" => Some(1..=256),
        "P" => Some(0..=7),
        "B" => Some(1..=u32::MAX),
        _ => None,
    }
}

/// What serves the arguments after the program's name, and their numbers. None if they are no subcommand.
pub fn find(arguments: &[&str]) -> Option<(Serve, Vec<u32>)> {
    SUBCOMMANDS.iter().find_map(|subcommand| {
        let words: Vec<&str> = subcommand.words.split(' ').collect();
        Some((subcommand.serve, numbers(&words, arguments)?))
    })
}

/// The numbers of the arguments, None if they are not those of a subcommand with these words.
fn numbers(words: &[&str], arguments: &[&str]) -> Option<Vec<u32>> {
    let mut numbers = Vec::new();
    for (word, argument) in words.iter().zip(arguments) {
        match range(word) {
            Some(range) => numbers.push(decimal(argument, range)?),
            None if word == argument => {}
            None => return None,
        }
    }
    (words.len() == arguments.len()).then_some(numbers)
}

/// A number in decimal, without a sign or leading zeros.
pub fn decimal(word: &str, range: RangeInclusive<u32>) -> Option<u32> {
    let number: u32 = word.parse().ok()?;
    (range.contains(&number) && number.to_string() == word).then_some(number)
}

/// Writes the line of each subcommand and of each status.
fn help(out: &mut impl Write) -> Result<u8, Stop> {
    for Subcommand { words, about, .. } in SUBCOMMANDS {
        writeln!(out, "nooks {words:14}  {about}")?;
    }
    write(texts::STATUSES, out)
}

fn write(text: &str, out: &mut impl Write) -> Result<u8, Stop> {
    out.write_all(text.as_bytes())?;
    Ok(0)
}

fn write_scenario(scenario: &Scenario, out: &mut impl Write) -> Result<u8, Stop> {
    scenario_text::write(scenario, out)?;
    Ok(0)
}

/// Reads a JSON value from standard input, and converts it.
fn read_json<T>(read: impl FnOnce(&Value) -> Read<T>) -> Result<T, Stop> {
    let bytes = input::read(input::LONGEST)?;
    let value = json::read(&bytes)?;
    Ok(read(&value)?)
}

fn read_scenario() -> Result<Scenario, Stop> {
    read_json(scenario::read)
}

fn run(out: &mut impl Write) -> Result<u8, Stop> {
    let scenario = read_scenario()?;
    let run = simulation::simulate(&scenario);
    Ok(report::write(&run, out)?)
}

fn run_threads(out: &mut impl Write) -> Result<u8, Stop> {
    let bytes = input::read(input::LONGEST)?;
    let value = json::read(&bytes)?;
    let scenario = scenario::read(&value)?;
    threads::write(&value, &scenario, out)
}

fn write_image(out: &mut impl Write) -> Result<u8, Stop> {
    let bytes = input::read(input::LONGEST)?;
    match assemble(&bytes) {
        Ok(assembled) => writeln!(out, "{}", assembled.image)?,
        Err(fault) => Refusal::here(Cause::BadAssembler(fault))?,
    }
    Ok(0)
}

fn write_text(out: &mut impl Write) -> Result<u8, Stop> {
    let image = read_json(image::read)?;
    listing::write_text(&image, out)?;
    Ok(0)
}

fn list(out: &mut impl Write) -> Result<u8, Stop> {
    let bytes = input::read(input::LONGEST)?;
    match assemble(&bytes) {
        Ok(assembled) => listing::write_list(&assembled, out)?,
        Err(fault) => Refusal::here(Cause::BadAssembler(fault))?,
    }
    Ok(0)
}

fn write_trace(part: usize, burst: u32, out: &mut impl Write) -> Result<u8, Stop> {
    let scenario = read_scenario()?;
    match simulation::run_up_to(&scenario, part, burst) {
        Some((before, context)) => trace::write(part, before, context, out)?,
        None => Refusal::here(Cause::NoSuchBurst)?,
    }
    Ok(0)
}

fn generate(size: u32, out: &mut impl Write) -> Result<u8, Stop> {
    let scenario = generated::scenario(size);
    let summary = Summary::new(&simulation::simulate(&scenario));
    writeln!(
        out,
        "gen {size} events {} failures {} status {}",
        summary.events, summary.failures, summary.status
    )?;
    Ok(summary.status)
}

fn audit(out: &mut impl Write) -> Result<u8, Stop> {
    let bytes = input::read(audit::LONGEST)?;
    let (scenario, report) = audit::split(&bytes)?;
    let value = json::read(scenario)?;
    let scenario = scenario::read(&value)?;
    match audit::first_wrong(&scenario, report) {
        None => write(texts::AUDIT_YES, out),
        Some(line) => {
            writeln!(out, "audit no line {line}")?;
            Ok(8)
        }
    }
}

fn run_campaign(out: &mut impl Write) -> Result<u8, Stop> {
    let bytes = input::read(input::LONGEST)?;
    let value = json::read(&bytes)?;
    let campaign = campaign::read(&value)?;
    table::write(&campaign, out)?;
    Ok(0)
}

fn run_guarded(out: &mut impl Write) -> Result<u8, Stop> {
    let mut scenario = read_guardable()?;
    let status = guard::run(&mut scenario, |run, traps| {
        for trap in traps {
            writeln!(out, "{trap}")?;
        }
        report::write(run, out)
    });
    Ok(status?)
}

fn write_guarded(out: &mut impl Write) -> Result<u8, Stop> {
    let mut scenario = read_guardable()?;
    guard::run(&mut scenario, |_, _| ());
    let mut text = Vec::new();
    scenario_text::write(&scenario, &mut text)?;
    if text.len() > input::LONGEST {
        Refusal::here(Cause::TooMany)?;
    }
    out.write_all(&text)?;
    Ok(0)
}

/// Reads a scenario that has room for the traps of a guard.
fn read_guardable() -> Result<Scenario, Stop> {
    let scenario = read_scenario()?;
    guard::expect_room(&scenario, |_| 0)?;
    Ok(scenario)
}

fn run_mirror(out: &mut impl Write) -> Result<u8, Stop> {
    let scenario = read_scenario()?;
    if !mirror::serves(&scenario) {
        Refusal::here(Cause::NotMirror)?;
    }
    let mirrored = mirror::simulate(&scenario);
    Ok(report::write_mirrored(&mirrored, out)?)
}
