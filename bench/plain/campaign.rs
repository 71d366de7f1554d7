//! Campaigns: one scenario, run once for each of many sets of faults.

use crate::fault::{self, Fault, FaultKind};
use crate::fields::{each, some_items, truth, Object};
use crate::guard;
use crate::json::Value;
use crate::refusal::{Cause, Read, Refusal, Within};
use crate::scenario::{self, Scenario, MOST_FAULTS};

const MOST_MEMBERS: usize = 4_096;
const MOST_FAULTS_OF_MEMBER: usize = 16;
const MOST_FAULTS_OF_EVERY: usize = 64;
const MOST_OPERATIONS: usize = 64;

const KEYS: [&str; 7] = [
    "base", "part", "faults", "members", "every", "guard", "detail",
];

/// Of these keys a campaign has one.
const CHOICES: [&str; 3] = ["faults", "members", "every"];

pub struct Campaign<'v> {
    /// The base as it was written: scenarios count the users of their words without atomics, so each worker reads its
    /// own.
    pub base: &'v Value<'v>,
    /// The part that the faults strike.
    pub part: usize,
    pub choice: Choice,
    /// Whether the runs are guarded.
    pub is_guarded: bool,
    /// Whether the rows have more words.
    pub has_detail: bool,
}

/// Which faults the members have. A member's faults come after the struck part's own.
pub enum Choice {
    /// The faults of each member.
    Members(Vec<Vec<Fault>>),
    /// A member for each of these faults at each burst and instruction of the base's run at which it strikes.
    Every(Vec<FaultKind>),
}

impl Choice {
    /// The faults of the member that has most.
    fn longest(&self) -> usize {
        match self {
            Choice::Members(members) => members.iter().map(Vec::len).max().unwrap_or(0),
            Choice::Every(_) => 1,
        }
    }
}

pub fn read<'v>(value: &'v Value<'v>) -> Read<Campaign<'v>> {
    let fields = Object::with_keys(value, &KEYS)?;
    let mut choices = CHOICES.into_iter().filter(|key| fields.has(key));
    let chosen = choices.next().unwrap_or("faults");
    if let Some(second) = choices.next() {
        return Refusal::here(Cause::UnknownKey).within(second);
    }
    let (base, scenario) = fields.required("base", |base| Ok((base, scenario::read(base)?)))?;
    let part = fields.number("part", 0..=scenario.parts.len() as u64 - 1)? as usize;
    let campaign = Campaign {
        base,
        part,
        choice: fields.required(chosen, |value| read_choice(chosen, value))?,
        is_guarded: fields.optional("guard", truth)?,
        has_detail: fields.optional("detail", truth)?,
    };
    campaign.expect_limits(&scenario).within("base")?;
    Ok(campaign)
}

/// Reads the value at one of the keys that choose the members.
fn read_choice(key: &str, value: &Value) -> Read<Choice> {
    Ok(match key {
        "members" => Choice::Members(each(some_items(value, MOST_MEMBERS)?, read_member)?),
        "every" => Choice::Every(each(
            some_items(value, MOST_FAULTS_OF_EVERY)?,
            fault::read_kind,
        )?),
        _ => Choice::Members(each(some_items(value, MOST_MEMBERS)?, |one| {
            Ok(vec![fault::read(one)?])
        })?),
    })
}

fn read_member(value: &Value) -> Read<Vec<Fault>> {
    each(some_items(value, MOST_FAULTS_OF_MEMBER)?, fault::read)
}

impl Campaign<'_> {
    /// Refuses a base with too many operations, or with no room for the members' faults.
    fn expect_limits(&self, base: &Scenario) -> Read<()> {
        let threads = base.threads.iter();
        if threads.map(|thread| thread.operations.len()).sum::<usize>() > MOST_OPERATIONS {
            return Refusal::here(Cause::TooMany).within("threads");
        }
        let longest = self.choice.longest();
        if base.parts[self.part].faults.len() + longest > MOST_FAULTS {
            return guard::too_many_faults(self.part);
        }
        if !self.is_guarded {
            return Ok(());
        }
        guard::expect_room(base, |part| if part == self.part { longest } else { 0 })
    }
}
