//! The summary of a run.

use crate::contract::Losses;
use crate::journal::Answer;
use crate::simulation::Run;
use std::fmt::{self, Display, Formatter};

pub struct Summary {
    pub status: u8,
    pub events: usize,
    pub failures: u64,
    /// The operations that were answered `gone`.
    pub gone: usize,
    /// What the applications lost.
    pub lost: u64,
}

impl Summary {
    pub fn new(run: &Run) -> Summary {
        let answers = run.answers.iter().flatten();
        let lost = |losses: &Losses| losses.sends + losses.samples + losses.busy;
        Summary {
            status: run.status(),
            events: run.parts.iter().map(|part| part.journal().len()).sum(),
            failures: run
                .parts
                .iter()
                .map(|part| u64::from(part.failures()))
                .sum(),
            gone: answers
                .filter(|(_, answer)| matches!(answer, Answer::Gone(_)))
                .count(),
            lost: run
                .verdicts
                .iter()
                .map(|verdict| lost(&verdict.losses))
                .sum(),
        }
    }
}

impl Display for Summary {
    fn fmt(&self, f: &mut Formatter) -> fmt::Result {
        let Summary {
            status,
            events,
            failures,
            gone,
            lost,
        } = self;
        write!(
            f,
            "status {status} events {events} failures {failures} gone {gone} lost {lost}"
        )
    }
}
