//! Guarded runs: before a deed of a driver breaks a clause of its class's contract, a trap stops the driver.
//!
//! A guarded run is the run of a scenario with more faults, one trap for each such deed. So it is found by runs: each goes
//! up to the first deed that breaks a clause, and the next one has the trap that comes before it. Whatever came before
//! that burst stays as it was.

use crate::contract::{Breach, Deed};
use crate::fault::{Fault, FaultKind};
use crate::journal::{Burst, Event};
use crate::refusal::{Cause, Read, Refusal, Within};
use crate::scenario::{Scenario, MOST_FAULTS};
use crate::schedule::Schedule;
use crate::simulation::{Run, Simulation};
use std::fmt::{self, Display, Formatter};

/// A trap before the first deed of a burst that would break a clause.
#[derive(Clone, Copy)]
pub struct GuardTrap {
    pub part: usize,
    pub burst: u32,
    /// The instructions of the burst before the deed's.
    pub after: u32,
    /// The smallest clause that the deed would break.
    pub clause: u8,
}

impl GuardTrap {
    fn before(part: usize, burst: &Burst, breach: Breach) -> GuardTrap {
        let turn = match breach.deed {
            Deed::Act(index) => burst.acts[index].turn,
            Deed::Crossing => burst.turns,
        };
        GuardTrap {
            part,
            burst: burst.burst,
            after: turn - 1,
            clause: breach.clause,
        }
    }

    fn fault(self) -> Fault {
        Fault {
            burst: self.burst,
            after: self.after,
            kind: FaultKind::Trap,
        }
    }
}

impl Display for GuardTrap {
    fn fmt(&self, f: &mut Formatter) -> fmt::Result {
        let GuardTrap {
            part,
            burst,
            after,
            clause,
        } = self;
        write!(
            f,
            "guard {part} burst {burst} after {after} clause {clause}"
        )
    }
}

/// Makes a scenario the guarded one: its parts get the traps after the faults that they have. Returns what is taken from
/// the guarded run and from the traps, which are in the order in which they were found.
pub fn run<T>(scenario: &mut Scenario, take: impl FnOnce(&Run, &[GuardTrap]) -> T) -> T {
    let mut traps = Vec::new();
    loop {
        let trap = match run_up_to_breach(scenario) {
            Ok(run) => return take(&run, &traps),
            Err(trap) => trap,
        };
        scenario.parts[trap.part].faults.push(trap.fault());
        traps.push(trap);
    }
}

/// The scheduled run, or the trap that comes before its first deed that breaks a clause.
fn run_up_to_breach(scenario: &Scenario) -> Result<Run<'_>, GuardTrap> {
    let mut simulation = Simulation::new(scenario);
    let mut schedule = Schedule::new(&scenario.order);
    while let Some((part, breach)) = simulation.step(&mut schedule) {
        let last = simulation.part(part).journal().last();
        if let (Some(breach), Some(Event::Burst(burst))) = (breach, last) {
            return Err(GuardTrap::before(part, burst, breach));
        }
    }
    Ok(simulation.end())
}

/// Refuses a scenario in which a part has no room for its traps, each of which is a failure. Each part's faults are
/// counted together with `added` for its index.
pub fn expect_room(scenario: &Scenario, added: impl Fn(usize) -> usize) -> Read<()> {
    for (index, part) in scenario.parts.iter().enumerate() {
        let most_traps = part.limit as usize + 1;
        if part.faults.len() + added(index) + most_traps > MOST_FAULTS {
            return too_many_faults(index);
        }
    }
    Ok(())
}

/// Refuses the faults of a part.
pub fn too_many_faults(part: usize) -> Read<()> {
    let refused = Refusal::here(Cause::TooMany).within("faults");
    refused.within(part).within("parts")
}
