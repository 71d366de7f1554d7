//! The faults that a scenario injects: their kinds, how they are read and written, and what they do.

use crate::fields::{Object, Rows};
use crate::journal::Trap;
use crate::json::Value;
use crate::machine::{Cpu, MOST_INSTRUCTIONS};
use crate::memory::Memory;
use crate::refusal::Read;
use crate::scenario_text::Json;
use std::fmt::{self, Display, Formatter};

/// What strikes a burst after this many instructions.
#[derive(Clone, Copy)]
pub struct Fault {
    pub burst: u32,
    pub after: u32,
    pub kind: FaultKind,
}

#[derive(Clone, Copy)]
pub enum FaultKind {
    Trap,
    Hang,
    Poke { address: u32, value: u32 },
    Code { address: u32, value: u32 },
    Register { register: usize, value: u32 },
}

/// What became of a fault that struck.
pub enum Strike {
    Done,
    /// Nothing was changed.
    Refused,
    /// The burst ends here.
    Ended(Trap),
}

/// The kinds, each with the keys of its numbers.
const KINDS: Rows = &[
    ("trap", &[]),
    ("hang", &[]),
    ("poke", &["address", "value"]),
    ("code", &["address", "value"]),
    ("reg", &["register", "value"]),
];

pub fn read(value: &Value) -> Read<Fault> {
    let fields = Object::any(value)?;
    let name = fields.kind("kind", &["burst", "after"], KINDS)?;
    let last = u64::from(MOST_INSTRUCTIONS) - 1;
    Ok(Fault {
        burst: fields.number("burst", 1..=u64::from(u32::MAX))? as u32,
        after: fields.number("after", 0..=last)? as u32,
        kind: read_named(name, &fields)?,
    })
}

/// Reads a fault without the burst and the instruction at which it strikes.
pub fn read_kind(value: &Value) -> Read<FaultKind> {
    let fields = Object::any(value)?;
    let name = fields.kind("kind", &[], KINDS)?;
    read_named(name, &fields)
}

fn read_named(name: &str, fields: &Object) -> Read<FaultKind> {
    Ok(match name {
        "trap" => FaultKind::Trap,
        "hang" => FaultKind::Hang,
        "poke" => FaultKind::Poke {
            address: fields.word("address")?,
            value: fields.word("value")?,
        },
        "code" => FaultKind::Code {
            address: fields.word("address")?,
            value: fields.word("value")?,
        },
        _ => FaultKind::Register {
            register: fields.number("register", 0..=15)? as usize,
            value: fields.word("value")?,
        },
    })
}

impl FaultKind {
    /// Its name, and its numbers with their keys.
    fn described(self) -> (&'static str, Vec<(&'static str, u32)>) {
        match self {
            FaultKind::Trap => ("trap", vec![]),
            FaultKind::Hang => ("hang", vec![]),
            FaultKind::Poke { address, value } => {
                ("poke", vec![("address", address), ("value", value)])
            }
            FaultKind::Code { address, value } => {
                ("code", vec![("address", address), ("value", value)])
            }
            FaultKind::Register { register, value } => {
                let register = register as u32;
                ("reg", vec![("register", register), ("value", value)])
            }
        }
    }

    /// Does to a driver what the fault does.
    pub fn strike(self, cpu: &mut Cpu, memory: &mut Memory) -> Strike {
        let is_done = match self {
            FaultKind::Trap => return Strike::Ended(Trap::Injected),
            FaultKind::Hang => return Strike::Ended(Trap::Hang),
            FaultKind::Poke { address, value } => memory.write(address, value),
            FaultKind::Code { address, value } => memory.patch(address, value),
            FaultKind::Register { register, value } => {
                cpu.registers[register] = value;
                true
            }
        };
        if is_done {
            Strike::Done
        } else {
            Strike::Refused
        }
    }
}

/// A fault as a trace has it.
impl Display for Fault {
    fn fmt(&self, f: &mut Formatter) -> fmt::Result {
        let (name, numbers) = self.kind.described();
        write!(f, "{} {name}", self.after)?;
        numbers
            .iter()
            .try_for_each(|(_, number)| write!(f, " {number}"))
    }
}

impl Display for Json<&Fault> {
    fn fmt(&self, f: &mut Formatter) -> fmt::Result {
        let Fault { burst, after, kind } = self.0;
        let (name, numbers) = kind.described();
        write!(f, r#"{{"burst":{burst},"after":{after},"kind":"{name}""#)?;
        for (key, number) in numbers {
            write!(f, r#","{key}":{number}"#)?;
        }
        f.write_str("}")
    }
}
