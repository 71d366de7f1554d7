//! The table of a campaign: what became of the run of each member.

use crate::campaign::{Campaign, Choice};
use crate::fault::{Fault, FaultKind};
use crate::guard::{self, GuardTrap};
use crate::journal::Event;
use crate::report::{write_left, write_threads};
use crate::scenario::{self, Scenario};
use crate::side_by_side;
use crate::simulation::{simulate, Run};
use crate::summary::Summary;
use std::fmt::{self, Display, Formatter};
use std::io::{self, Write};

/// Writes the table: a row for each member, and the count of rows by status. Rows are written while more are made.
pub fn write(campaign: &Campaign, out: &mut impl Write) -> io::Result<()> {
    let base = Base::of(campaign);
    if let Choice::Every(_) = campaign.choice {
        writeln!(out, "0 {}", base.row)?;
    }
    let mut counts = Counts::new(campaign);
    side_by_side::work(
        base.members(campaign),
        base.count_members(campaign),
        || worker(campaign, &base),
        |row| {
            counts.add(&row);
            writeln!(out, "{} {row}", counts.members)
        },
    )?;
    writeln!(out, "{counts}")
}

/// The run of the base, with which those of the members are compared.
struct Base {
    row: Row,
    shown: Shown,
    /// The bursts of the struck part, by rising number.
    bursts: Vec<StruckBurst>,
}

/// A burst of the base's run, and before how many of its instructions an added fault strikes.
#[derive(Clone, Copy)]
struct StruckBurst {
    burst: u32,
    instructions: u32,
}

impl Base {
    fn of(campaign: &Campaign) -> Base {
        let mut scenario = read_base(campaign);
        run(campaign, &mut scenario, |run, traps| {
            let shown = Shown::of(run);
            Base {
                row: Row::new(campaign, Some(&shown), run, traps),
                shown,
                bursts: struck_bursts(campaign, run, traps),
            }
        })
    }

    /// The faults of each member.
    fn members<'b>(&'b self, campaign: &'b Campaign) -> Box<dyn Iterator<Item = Vec<Fault>> + 'b> {
        match &campaign.choice {
            Choice::Members(members) => Box::new(members.iter().cloned()),
            Choice::Every(kinds) => {
                let bursts = self.bursts.iter();
                Box::new(bursts.flat_map(|burst| burst.members(kinds)))
            }
        }
    }

    fn count_members(&self, campaign: &Campaign) -> usize {
        match &campaign.choice {
            Choice::Members(members) => members.len(),
            Choice::Every(kinds) => {
                let instructions = self.bursts.iter().map(|burst| burst.instructions as usize);
                instructions.sum::<usize>() * kinds.len()
            }
        }
    }
}

impl StruckBurst {
    /// A member for each instruction and each kind of fault.
    fn members(self, kinds: &[FaultKind]) -> impl Iterator<Item = Vec<Fault>> + '_ {
        let StruckBurst {
            burst,
            instructions,
        } = self;
        (0..instructions).flat_map(move |after| {
            let kinds = kinds.iter();
            kinds.map(move |&kind| vec![Fault { burst, after, kind }])
        })
    }
}

/// The bursts of the struck part. An added fault comes after the part's own and before a guard's trap, so it strikes at
/// the instruction of the latter too.
fn struck_bursts(campaign: &Campaign, run: &Run, traps: &[GuardTrap]) -> Vec<StruckBurst> {
    let guarded = |burst| {
        let mut traps = traps.iter();
        traps.any(|trap| trap.part == campaign.part && trap.burst == burst)
    };
    let journal = run.parts[campaign.part].journal().iter();
    let bursts = journal.filter_map(|event| match event {
        Event::Burst(burst) => Some(burst),
        _ => None,
    });
    bursts
        .map(|burst| StruckBurst {
            burst: burst.burst,
            instructions: burst.turns + u32::from(guarded(burst.burst)),
        })
        .collect()
}

fn read_base(campaign: &Campaign) -> Scenario {
    scenario::read(campaign.base).expect("the base was read before")
}

/// Runs a scenario as the campaign has it run. A guard leaves its traps in the scenario.
fn run<T>(
    campaign: &Campaign,
    scenario: &mut Scenario,
    take: impl FnOnce(&Run, &[GuardTrap]) -> T,
) -> T {
    if campaign.is_guarded {
        guard::run(scenario, take)
    } else {
        take(&simulate(scenario), &[])
    }
}

/// Makes the row of a member from its faults.
fn worker<'c>(campaign: &'c Campaign, base: &'c Base) -> impl FnMut(Vec<Fault>) -> Row + 'c {
    let mut scenario = read_base(campaign);
    let parts = scenario.parts.iter();
    let own: Vec<usize> = parts.map(|part| part.faults.len()).collect();
    let shown = campaign.has_detail.then_some(&base.shown);
    move |faults| {
        scenario.parts[campaign.part].faults.extend(faults);
        let row = run(campaign, &mut scenario, |run, traps| {
            Row::new(campaign, shown, run, traps)
        });
        for (part, own) in scenario.parts.iter_mut().zip(&own) {
            part.faults.truncate(*own);
        }
        row
    }
}

/// What a run shows of its threads and its devices.
struct Shown {
    answers: Vec<u8>,
    /// Of each part.
    left: Vec<Vec<u8>>,
}

impl Shown {
    fn of(run: &Run) -> Shown {
        let parts = run.parts.iter().zip(&run.verdicts);
        Shown {
            answers: text(|out| write_threads(run.scenario, &run.answers, out)),
            left: parts
                .map(|(part, verdict)| text(|out| write_left(part, verdict, out)))
                .collect(),
        }
    }
}

/// What is written.
fn text(write: impl FnOnce(&mut Vec<u8>) -> io::Result<()>) -> Vec<u8> {
    let mut out = Vec::new();
    write(&mut out).expect("memory takes all that is written");
    out
}

/// What became of a run.
struct Row {
    summary: Summary,
    detail: Option<Detail>,
    /// The traps of its guard, in all parts.
    traps: Option<usize>,
}

struct Detail {
    /// Whether the answers and what is left are those of the base's run.
    same_answers: bool,
    same_left: bool,
    /// Of the struck part, the clause of the first break and the cause of the first failure.
    clause: Option<u8>,
    cause: Option<String>,
}

impl Row {
    fn new(campaign: &Campaign, base: Option<&Shown>, run: &Run, traps: &[GuardTrap]) -> Row {
        let base = base.filter(|_| campaign.has_detail);
        Row {
            summary: Summary::new(run),
            detail: base.map(|base| Detail::new(campaign.part, base, run)),
            traps: campaign.is_guarded.then_some(traps.len()),
        }
    }
}

impl Detail {
    fn new(part: usize, base: &Shown, run: &Run) -> Detail {
        let shown = Shown::of(run);
        let mut journal = run.parts[part].journal().iter();
        let cause = journal.find_map(|event| match event {
            Event::Burst(burst) => burst.failure.as_ref(),
            _ => None,
        });
        Detail {
            same_answers: shown.answers == base.answers,
            same_left: shown.left == base.left,
            clause: run.verdicts[part].broken.map(|(_, clause)| clause),
            cause: cause.map(|cause| cause.to_string()),
        }
    }
}

impl Display for Row {
    fn fmt(&self, f: &mut Formatter) -> fmt::Result {
        self.summary.fmt(f)?;
        if let Some(detail) = &self.detail {
            let (answers, left) = (likeness(detail.same_answers), likeness(detail.same_left));
            let clause = Known(&detail.clause);
            write!(f, " answers {answers} left {left} break {clause}")?;
        }
        if let Some(traps) = self.traps {
            write!(f, " traps {traps}")?;
        }
        match &self.detail {
            Some(detail) => write!(f, " cause {}", Known(&detail.cause)),
            None => Ok(()),
        }
    }
}

fn likeness(is_same: bool) -> &'static str {
    if is_same {
        "same"
    } else {
        "other"
    }
}

/// A value, or a dash if there is none.
struct Known<'v, T>(&'v Option<T>);

impl<T: Display> Display for Known<'_, T> {
    fn fmt(&self, f: &mut Formatter) -> fmt::Result {
        match self.0 {
            Some(value) => value.fmt(f),
            None => f.write_str("-"),
        }
    }
}

/// How many rows there are, and how many of which status.
struct Counts {
    members: usize,
    kept: usize,
    given_up: usize,
    broken: usize,
    /// The traps of all rows, if the runs are guarded.
    traps: Option<usize>,
}

impl Counts {
    fn new(campaign: &Campaign) -> Counts {
        Counts {
            members: 0,
            kept: 0,
            given_up: 0,
            broken: 0,
            traps: campaign.is_guarded.then_some(0),
        }
    }

    fn add(&mut self, row: &Row) {
        self.members += 1;
        match row.summary.status {
            0 => self.kept += 1,
            1 => self.given_up += 1,
            _ => self.broken += 1,
        }
        if let (Some(sum), Some(traps)) = (&mut self.traps, row.traps) {
            *sum += traps;
        }
    }
}

impl Display for Counts {
    fn fmt(&self, f: &mut Formatter) -> fmt::Result {
        let Counts {
            members,
            kept,
            given_up,
            broken,
            traps,
        } = self;
        write!(
            f,
            "campaign {members} kept {kept} given_up {given_up} broken {broken}"
        )?;
        match traps {
            Some(traps) => write!(f, " traps {traps}"),
            None => Ok(()),
        }
    }
}
