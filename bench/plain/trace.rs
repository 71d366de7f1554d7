//! Traces: what one burst did, turn by turn.

use crate::fault::{Fault, Strike};
use crate::instructions::{Fields, Instruction, Row, Sets};
use crate::journal::Event;
use crate::lines::Outcome;
use crate::machine::{Bus, Cpu, Crossing, MOST_INSTRUCTIONS};
use crate::part::{Before, Part, Step};
use std::io::{self, Write};

/// Writes the trace of a part's next burst, which runs in this context. Each line is written as soon as it is made.
pub fn write(index: usize, mut part: Part, context: usize, out: &mut impl Write) -> io::Result<()> {
    let mut before = part.before_burst(context);
    let (name, burst, call) = (&part.spec().name, before.burst, before.call);
    writeln!(
        out,
        "trace {index} {name} burst {burst} context {context} call {call}"
    )?;
    write_start(&before.cpu, out)?;
    let struck = write_turns(&mut before, out)?;
    part.take(Step::Burst { context });
    if let Some(Event::Burst(burst)) = part.journal().last() {
        writeln!(out, "{}", Outcome(burst))?;
    }
    for fault in &before.faults[struck..] {
        writeln!(out, "unstruck {fault}")?;
    }
    Ok(())
}

/// The counter, and each register that is not 0.
fn write_start(cpu: &Cpu, out: &mut impl Write) -> io::Result<()> {
    write!(out, "start {}", cpu.counter)?;
    for (register, word) in cpu.registers.iter().enumerate() {
        if *word != 0 {
            write!(out, " r{register} {word}")?;
        }
    }
    writeln!(out)?;
    out.flush()
}

/// Does the burst's turns, and returns how many of its faults struck.
fn write_turns(before: &mut Before, out: &mut impl Write) -> io::Result<usize> {
    let faults = &before.faults;
    let mut acts = Vec::new();
    let mut tracer = Tracer {
        cpu: &mut before.cpu,
        bus: Bus {
            memory: &mut before.memory,
            device: &mut before.device,
            acts: &mut acts,
        },
        turns: 0,
    };
    for (index, fault) in faults.iter().enumerate() {
        if tracer.write_up_to(fault.after, out)? {
            return Ok(index);
        }
        if tracer.write_strike(fault, out)? {
            return Ok(index + 1);
        }
    }
    tracer.write_up_to(MOST_INSTRUCTIONS, out)?;
    Ok(faults.len())
}

/// A burst in progress.
struct Tracer<'b> {
    cpu: &'b mut Cpu,
    bus: Bus<'b>,
    turns: u32,
}

impl Tracer<'_> {
    /// Does turns until there were this many, and returns whether the burst ended before.
    fn write_up_to(&mut self, turns: u32, out: &mut impl Write) -> io::Result<bool> {
        while self.turns < turns {
            self.turns += 1;
            let is_end = self.write_turn(out)?;
            writeln!(out)?;
            out.flush()?;
            if is_end {
                return Ok(true);
            }
        }
        Ok(false)
    }

    /// Does a turn, and returns whether it ended the burst.
    fn write_turn(&mut self, out: &mut impl Write) -> io::Result<bool> {
        let counter = self.cpu.counter;
        write!(out, "{} {counter} ", self.turns)?;
        let Some(word) = self.bus.memory.fetch(counter) else {
            write!(out, "-")?;
            return Ok(true);
        };
        write!(out, "{}", Instruction(word))?;
        let acts = self.bus.acts.len();
        let turn = self.turns - 1..self.turns;
        let (_, crossing) = self.cpu.run(turn, &mut self.bus);
        // A pause comes after the turn, any other crossing replaces it.
        if matches!(crossing, None | Some(Crossing::Pause)) {
            self.write_changes(word, counter, out)?;
            for made in &self.bus.acts[acts..] {
                write!(out, " | {}", made.act)?;
            }
        }
        Ok(crossing.is_some())
    }

    /// What the instruction at this address changed in the driver.
    fn write_changes(&self, word: u32, address: u32, out: &mut impl Write) -> io::Result<()> {
        let registers = &self.cpu.registers;
        let fields = Fields::of(word);
        let value = registers[fields.a];
        match Row::of(word).map_or(Sets::Nothing, |row| row.sets) {
            Sets::Nothing => {}
            Sets::A => write!(out, " | r{} {value}", fields.a)?,
            Sets::Memory => write!(out, " | [{}] {value}", fields.sum(registers))?,
        }
        if self.cpu.counter != address.wrapping_add(1) {
            write!(out, " | goto {}", self.cpu.counter)?;
        }
        Ok(())
    }

    /// Has a fault strike, and returns whether it ended the burst.
    fn write_strike(&mut self, fault: &Fault, out: &mut impl Write) -> io::Result<bool> {
        let strike = fault.kind.strike(self.cpu, self.bus.memory);
        let refused = match strike {
            Strike::Refused => " refused",
            Strike::Done | Strike::Ended(_) => "",
        };
        writeln!(out, "fault {fault}{refused}")?;
        out.flush()?;
        Ok(matches!(strike, Strike::Ended(_)))
    }
}
