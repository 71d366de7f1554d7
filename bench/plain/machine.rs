//! The driver machine.

use crate::device::Device;
use crate::fault::{Fault, Strike};
use crate::instructions::{execute, Next};
use crate::journal::{MadeAct, Trap};
use crate::memory::Memory;
use std::ops::Range;

/// The turns and the acts of a burst.
pub const MOST_INSTRUCTIONS: u32 = 4_096;
const MOST_ACTS: usize = 64;

pub type Registers = [u32; 16];

#[derive(Clone, PartialEq, Eq, Hash)]
pub struct Cpu {
    pub counter: u32,
    pub registers: Registers,
}

/// What a driver can reach.
pub struct Bus<'p> {
    pub memory: &'p mut Memory,
    pub device: &'p mut Device,
    pub acts: &'p mut Vec<MadeAct>,
}

/// What ends a burst.
pub enum Crossing {
    KernelCall(u32),
    Reply(u32),
    Pause,
    Trap(Trap),
}

impl From<Trap> for Crossing {
    fn from(trap: Trap) -> Crossing {
        Crossing::Trap(trap)
    }
}

/// Runs a driver to its next crossing, with the faults that strike in between, and counts the turns that were made.
pub fn run_burst(cpu: &mut Cpu, bus: &mut Bus, faults: &[Fault]) -> (u32, Crossing) {
    let mut done = 0;
    for fault in faults {
        let (turns, crossing) = cpu.run(done..fault.after, bus);
        done = turns;
        if let Some(crossing) = crossing {
            return (done, crossing);
        }
        match fault.kind.strike(cpu, bus.memory) {
            Strike::Ended(trap) => return (done, trap.into()),
            Strike::Done | Strike::Refused => {}
        }
    }
    let (done, crossing) = cpu.run(done..MOST_INSTRUCTIONS, bus);
    (done, crossing.unwrap_or(Trap::Hang.into()))
}

impl Cpu {
    pub fn at_entry(counter: u32, stack_end: u32) -> Cpu {
        let mut registers = [0; 16];
        registers[14] = stack_end;
        Cpu { counter, registers }
    }

    /// Does these turns of a burst, counted from 0, up to a crossing. How many the burst has then, and the crossing.
    pub fn run(&mut self, turns: Range<u32>, bus: &mut Bus) -> (u32, Option<Crossing>) {
        // The loop is faster with its own references.
        let bus = &mut Bus {
            memory: bus.memory,
            device: bus.device,
            acts: bus.acts,
        };
        let mut at = self.counter;
        let mut left = turns.end - turns.start;
        let (next, crossing) = loop {
            if left == 0 {
                break (at, None);
            }
            left -= 1;
            let Some(word) = bus.memory.fetch(at) else {
                break (at, Some(Trap::BadFetch.into()));
            };
            match execute(word, at, &mut self.registers, bus) {
                Ok(Next::Following) => at += 1,
                Ok(Next::Goto(target)) => at = target,
                Ok(Next::Act(act)) => {
                    let turn = turns.end - left;
                    bus.acts.push(MadeAct { turn, act });
                    at += 1;
                    if bus.acts.len() == MOST_ACTS {
                        break (at, Some(Crossing::Pause));
                    }
                }
                Ok(Next::Crossing(crossing)) => break (at + 1, Some(crossing)),
                Err(trap) => break (at, Some(trap.into())),
            }
        };
        self.counter = next;
        (turns.end - left, crossing)
    }
}
