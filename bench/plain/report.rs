//! The report's text.

use crate::class::Class;
use crate::contract::Verdict;
use crate::journal::{Act, Event};
use crate::lines::List;
use crate::memory::OBJECTS;
use crate::mirror::{self, Mirrored};
use crate::part::Part;
use crate::scenario::{PartSpec, Scenario};
use crate::simulation::{Heard, Run};
use std::fmt::Display;
use std::io::{self, Write};

/// How many events a listener hears at most.
const MOST_HEARD: u64 = 1_000_000;

/// Writes the report, and returns its status.
pub fn write(run: &Run, out: &mut impl Write) -> io::Result<u8> {
    let status = run.status();
    write_parts(run, out)?;
    write_threads(run.scenario, &run.answers, out)?;
    write_last(&run.heard, status, out)?;
    Ok(status)
}

/// The report of a mirror: that of its parts, with the mirror's answers in the thread's lines.
pub fn write_mirrored(mirrored: &Mirrored, out: &mut impl Write) -> io::Result<u8> {
    let (run, status) = (&mirrored.run, mirror::status(mirrored));
    let answers = mirrored.answers.iter().map(|answer| (0, answer)).collect();
    write_parts(run, out)?;
    write_threads(run.scenario, &[answers], out)?;
    write_last(&run.heard, status, out)?;
    Ok(status)
}

fn write_parts(run: &Run, out: &mut impl Write) -> io::Result<()> {
    for (index, (part, verdict)) in run.parts.iter().zip(&run.verdicts).enumerate() {
        write_part(index, part, verdict, out)?;
    }
    Ok(())
}

/// The lines of a part.
pub fn write_part(
    index: usize,
    part: &Part,
    verdict: &Verdict,
    out: &mut impl Write,
) -> io::Result<()> {
    write_head(index, part.spec(), out)?;
    for (index, event) in part.journal().iter().enumerate() {
        writeln!(out, "{} {event}", index + 1)?;
    }
    write_ends(part, verdict, out)
}

/// The line before a part's events.
pub fn write_head(index: usize, spec: &PartSpec, out: &mut impl Write) -> io::Result<()> {
    let (name, class, limit) = (&spec.name, spec.class.name(), spec.limit);
    writeln!(out, "part {index} {name} {class} limit {limit}")
}

/// The lines of the threads, each with the part and the answer of each of its operations.
pub fn write_threads(
    scenario: &Scenario,
    answers: &[Vec<(usize, impl Display)>],
    out: &mut impl Write,
) -> io::Result<()> {
    for (index, (spec, answers)) in scenario.threads.iter().zip(answers).enumerate() {
        writeln!(out, "thread {index} {}", spec.name)?;
        for (index, (part, answer)) in answers.iter().enumerate() {
            writeln!(out, "{} p{part} {answer}", index + 1)?;
        }
    }
    Ok(())
}

/// The lines of the listeners and of the status.
pub fn write_last(heard: &Heard, status: u8, out: &mut impl Write) -> io::Result<()> {
    let totals = [heard.failures, heard.bursts, heard.answers];
    for (index, total) in totals.into_iter().enumerate() {
        let fate = if total < MOST_HEARD {
            "kept"
        } else {
            "dropped"
        };
        writeln!(out, "tap {index} total {} {fate}", total.min(MOST_HEARD))?;
    }
    writeln!(out, "status {status}")
}

/// The lines after a part's events.
pub fn write_ends(part: &Part, verdict: &Verdict, out: &mut impl Write) -> io::Result<()> {
    write_left(part, verdict, out)?;
    writeln!(out, "failures {}", part.failures())?;
    match verdict.broken {
        None => writeln!(out, "contract kept"),
        Some((event, clause)) => writeln!(out, "contract broken event {event} clause {clause}"),
    }
}

/// The lines that say what a part leaves.
pub fn write_left(part: &Part, verdict: &Verdict, out: &mut impl Write) -> io::Result<()> {
    for object in (1..OBJECTS).filter(|object| !part.memory().is_untouched(*object)) {
        writeln!(
            out,
            "object {object} {}",
            List(part.memory().object(object))
        )?;
    }
    if let Some(medium) = part.device().medium() {
        for (block, words) in medium.blocks() {
            writeln!(out, "disk {block} {}", List(words))?;
        }
    }
    write_outputs(part.journal(), out)?;
    let [first, second, third, fourth] = part.record();
    writeln!(out, "config {first} {second} {third} {fourth}")?;
    write_losses(part.spec().class, verdict, out)
}

/// The frames that were sent and the samples that were played.
fn write_outputs(journal: &[Event], out: &mut impl Write) -> io::Result<()> {
    let bursts = journal.iter().filter_map(|event| match event {
        Event::Burst(burst) => Some(burst),
        _ => None,
    });
    for made in bursts.flat_map(|burst| &burst.acts) {
        match &made.act {
            Act::Sent(frame) => writeln!(out, "wire {}", List(frame))?,
            act @ Act::Played { .. } => writeln!(out, "{act}")?,
            _ => {}
        }
    }
    Ok(())
}

fn write_losses(class: Class, verdict: &Verdict, out: &mut impl Write) -> io::Result<()> {
    let losses = &verdict.losses;
    match class {
        Class::Block => Ok(()),
        Class::Net => {
            writeln!(out, "losses sends {}", losses.sends)?;
            writeln!(
                out,
                "frames arrived {} received {} queued {} ring {} driver {} reset {} full_ring {} full_queue {}",
                losses.arrived,
                losses.received,
                losses.queued,
                losses.ring,
                losses.driver,
                losses.reset,
                losses.full_ring,
                losses.full_queue,
            )
        }
        Class::Sound => writeln!(
            out,
            "losses samples {} busy {}",
            losses.samples, losses.busy
        ),
    }
}
