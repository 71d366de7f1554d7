//! Whole runs: actors take the steps of the parts in the order of a schedule.
//!
//! Each thread is an actor. After the threads come two for each part, its recovery and its arrivals.

use crate::contract::{Breach, Judge, Verdict};
use crate::journal::{Answer, Event};
use crate::part::{Part, Step};
use crate::scenario::{Scenario, ThreadSpec};
use crate::schedule::Schedule;

pub struct Run<'s> {
    pub scenario: &'s Scenario,
    pub parts: Vec<Part<'s>>,
    /// Of each part, what its journal shows.
    pub verdicts: Vec<Verdict>,
    /// Of each thread, the part and the answer of each operation.
    pub answers: Vec<Vec<(usize, Answer)>>,
    /// How many events the listeners heard.
    pub heard: Heard,
}

impl Run<'_> {
    /// 7 if a driver broke its class's contract, else 1 if a part was given up, else 0.
    pub fn status(&self) -> u8 {
        if self.verdicts.iter().any(|verdict| verdict.broken.is_some()) {
            7
        } else {
            u8::from(self.parts.iter().any(Part::is_given_up))
        }
    }
}

#[derive(Default)]
pub struct Heard {
    pub failures: u64,
    pub bursts: u64,
    pub answers: u64,
}

impl Heard {
    pub fn add(&mut self, other: &Heard) {
        self.failures += other.failures;
        self.bursts += other.bursts;
        self.answers += other.answers;
    }

    pub fn hear(&mut self, event: &Event) {
        if let Event::Burst(burst) = event {
            self.bursts += 1;
            self.failures += u64::from(burst.failure.is_some());
        }
        self.answers += u64::from(event.has_answer());
    }
}

struct Thread<'s> {
    spec: &'s ThreadSpec,
    /// The part of its open call.
    waits_for: Option<usize>,
    answers: Vec<(usize, Answer)>,
}

impl Thread<'_> {
    /// The index of its next operation, if it has one and no open call.
    fn next_operation(&self) -> Option<usize> {
        let index = self.answers.len();
        (self.waits_for.is_none() && index < self.spec.operations.len()).then_some(index)
    }
}

pub struct Simulation<'s> {
    scenario: &'s Scenario,
    parts: Vec<Part<'s>>,
    judges: Vec<Judge<'s>>,
    threads: Vec<Thread<'s>>,
    /// How many frames arrived at each part.
    arrived: Vec<usize>,
    heard: Heard,
}

pub fn simulate(scenario: &Scenario) -> Run<'_> {
    let mut simulation = Simulation::new(scenario);
    let mut schedule = Schedule::new(&scenario.order);
    while simulation.step(&mut schedule).is_some() {}
    simulation.end()
}

/// Simulates up to a burst of a part. Returns the part before that burst, and the context of the burst.
pub fn run_up_to(scenario: &Scenario, part: usize, burst: u32) -> Option<(Part<'_>, usize)> {
    let mut simulation = Simulation::new(scenario);
    let mut schedule = Schedule::new(&scenario.order);
    while let Some(actor) = simulation.pick(&mut schedule) {
        match simulation.step_of(actor) {
            Some((own, Step::Burst { context }))
                if own == part && simulation.parts[part].next_burst() == burst =>
            {
                return Some((simulation.parts.swap_remove(part), context));
            }
            _ => {}
        }
        let part = simulation.go(actor);
        simulation.note(part);
    }
    None
}

impl<'s> Simulation<'s> {
    pub fn new(scenario: &'s Scenario) -> Simulation<'s> {
        let new_thread = |spec| Thread {
            spec,
            waits_for: None,
            answers: Vec::new(),
        };
        Simulation {
            scenario,
            parts: scenario.parts.iter().map(Part::new).collect(),
            judges: scenario.parts.iter().map(Judge::new).collect(),
            threads: scenario.threads.iter().map(new_thread).collect(),
            arrived: vec![0; scenario.parts.len()],
            heard: Heard::default(),
        }
    }

    /// Takes the next step, and returns its part and the first breach of its event. None if the run is over.
    pub fn step(&mut self, schedule: &mut Schedule) -> Option<(usize, Option<Breach>)> {
        let actor = self.pick(schedule)?;
        let part = self.go(actor);
        Some((part, self.note(part)))
    }

    pub fn part(&self, index: usize) -> &Part<'s> {
        &self.parts[index]
    }

    /// The run, after its last step.
    pub fn end(self) -> Run<'s> {
        let threads = self.threads.into_iter();
        Run {
            scenario: self.scenario,
            parts: self.parts,
            verdicts: self.judges.into_iter().map(Judge::verdict).collect(),
            answers: threads.map(|thread| thread.answers).collect(),
            heard: self.heard,
        }
    }

    /// The actor that goes next, None if the run is over.
    fn pick(&self, schedule: &mut Schedule) -> Option<usize> {
        let actors = self.threads.len() + 2 * self.parts.len();
        schedule.pick(actors, |actor| self.can_go(actor))
    }

    /// The step that an actor takes next, and its part. None if it is an invocation or an arrival.
    fn step_of(&self, actor: usize) -> Option<(usize, Step)> {
        match self.threads.get(actor) {
            Some(thread) => {
                let part = thread.waits_for?;
                Some((part, self.parts[part].next_for(actor as u8)?))
            }
            None => match self.part_of(actor) {
                (part, false) => Some((part, self.parts[part].next_recovery()?)),
                (_, true) => None,
            },
        }
    }

    fn can_go(&self, actor: usize) -> bool {
        match self.threads.get(actor) {
            Some(thread) => match thread.waits_for {
                Some(part) => self.parts[part].next_for(actor as u8).is_some(),
                None => thread.next_operation().is_some(),
            },
            None => {
                let (part, is_arrival) = self.part_of(actor);
                if is_arrival {
                    self.arrived[part] < self.scenario.parts[part].arrivals.len()
                } else {
                    self.parts[part].next_recovery().is_some()
                }
            }
        }
    }

    /// The part of an actor that is no thread, and whether it hands in the arrivals.
    fn part_of(&self, actor: usize) -> (usize, bool) {
        let number = actor - self.threads.len();
        (number / 2, number % 2 == 1)
    }

    /// An actor that can go takes its step. The part that the step was one of.
    fn go(&mut self, actor: usize) -> usize {
        if actor >= self.threads.len() {
            return self.go_part(actor);
        }
        let thread = &mut self.threads[actor];
        if let Some(index) = thread.next_operation() {
            let (part, operation) = &thread.spec.operations[index];
            thread.waits_for = Some(*part);
            self.parts[*part].invoke(actor as u8, operation);
            return *part;
        }
        let part = thread.waits_for.expect("the thread can go");
        let step = self.parts[part]
            .next_for(actor as u8)
            .expect("the thread can go");
        self.parts[part].take(step);
        part
    }

    fn go_part(&mut self, actor: usize) -> usize {
        let (part, is_arrival) = self.part_of(actor);
        if is_arrival {
            let frame = &self.scenario.parts[part].arrivals[self.arrived[part]];
            self.arrived[part] += 1;
            self.parts[part].arrive(frame);
        } else {
            let step = self.parts[part].next_recovery().expect("the part can go");
            self.parts[part].take(step);
        }
        part
    }

    /// The listeners hear a part's last event, its judge sees it, and the threads get their answers. Returns the first
    /// breach that the judge found.
    fn note(&mut self, part: usize) -> Option<Breach> {
        let mut breach = None;
        if let Some(event) = self.parts[part].journal().last() {
            self.heard.hear(event);
            breach = self.judges[part].see(event).first();
        }
        for (thread, answer) in self.parts[part].take_answers() {
            let thread = &mut self.threads[usize::from(thread)];
            thread.waits_for = None;
            thread.answers.push((part, answer));
        }
        breach
    }
}
