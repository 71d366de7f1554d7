//! What of a simulation determines its further steps and its outcome: neither its journals nor the order of the steps
//! that led to it.

use crate::contract::{Losses, Monitor};
use crate::journal::{Act, Answer, Event, Words};
use crate::medium::Medium;
use crate::memory::{ChangedWord, Memory};
use crate::operation::Operation;
use crate::part::{Part, Snapshot, Step};
use crate::pool::Shared;
use crate::scenario::{PartSpec, Scenario};
use std::rc::Rc;

/// The parts and the threads are those of two pools.
#[derive(Clone, PartialEq, Eq, Hash)]
pub struct State<'s> {
    pub parts: Box<[Shared<PartState<'s>>]>,
    pub threads: Box<[Shared<ThreadState>]>,
}

#[derive(Default, PartialEq, Eq, Hash)]
pub struct ThreadState {
    /// The part of its open call.
    waits_for: Option<usize>,
    answers: Vec<Answer>,
}

#[derive(PartialEq, Eq, Hash)]
pub struct PartState<'s> {
    snapshot: Snapshot<'s>,
    /// How many frames arrived.
    arrived: usize,
    monitor: Monitor<'s>,
    /// The clause of the first break.
    broken: Option<u8>,
    /// The frames that were sent and the samples that were played.
    outputs: Rc<Vec<Act>>,
    /// The step that each thread's call can take next, and that of the boot or of a recovery. The snapshot decides them.
    steps: Box<[Option<Step>]>,
    recovery: Option<Step>,
}

/// What an actor does next, and the part to which it does it.
pub struct Choice<'s> {
    pub actor: u32,
    pub part: usize,
    pub action: Action<'s>,
}

#[derive(Clone, Copy)]
pub enum Action<'s> {
    Invoke {
        thread: u8,
        operation: &'s Operation,
    },
    Take(Step),
    Arrive(&'s Words),
}

impl Action<'_> {
    /// The thread whose call it opens.
    pub fn invoking_thread(&self) -> Option<usize> {
        match self {
            Action::Invoke { thread, .. } => Some((*thread).into()),
            Action::Take(_) | Action::Arrive(_) => None,
        }
    }
}

impl ThreadState {
    pub fn waiting_for(&self, part: usize) -> ThreadState {
        ThreadState {
            waits_for: Some(part),
            answers: self.answers.clone(),
        }
    }

    pub fn answered(&self, answer: Answer) -> ThreadState {
        let mut answers = self.answers.clone();
        answers.push(answer);
        ThreadState {
            waits_for: None,
            answers,
        }
    }
}

impl<'s> State<'s> {
    /// What the actors that can go do next, in the order of the actors.
    pub fn choices(&self, scenario: &'s Scenario) -> Vec<Choice<'s>> {
        let threads = (0..self.threads.len()).map(|thread| self.choice_of_thread(scenario, thread));
        let parts = (0..self.parts.len()).flat_map(|part| {
            let state = &self.parts[part];
            let arrivals = &scenario.parts[part].arrivals;
            let recovery = state.recovery.map(Action::Take);
            let arrival = arrivals.get(state.arrived).map(Action::Arrive);
            [recovery, arrival].map(|action| Some((part, action?)))
        });
        let choices = threads.chain(parts).zip(0..);
        choices
            .filter_map(|(choice, actor)| {
                choice.map(|(part, action)| Choice {
                    actor,
                    part,
                    action,
                })
            })
            .collect()
    }

    fn choice_of_thread(
        &self,
        scenario: &'s Scenario,
        thread: usize,
    ) -> Option<(usize, Action<'s>)> {
        let state = &self.threads[thread];
        if let Some(part) = state.waits_for {
            return Some((part, Action::Take(self.parts[part].steps[thread]?)));
        }
        let operations = &scenario.threads[thread].operations;
        let (part, operation) = operations.get(state.answers.len())?;
        let thread = thread as u8;
        Some((*part, Action::Invoke { thread, operation }))
    }
}

/// What the states of a part have in common.
pub struct Frame<'s> {
    spec: &'s PartSpec,
    /// A memory with the part's driver. Those of the states are held as changes from it.
    base: Box<Memory>,
    threads: u8,
}

impl<'s> Frame<'s> {
    pub fn new(spec: &'s PartSpec, threads: usize) -> Frame<'s> {
        let mut base = Box::new(Memory::new());
        base.load(&spec.image);
        Frame {
            spec,
            base,
            threads: threads as u8,
        }
    }

    pub fn first_state(&self) -> PartState<'s> {
        self.state(
            Part::new(self.spec),
            0,
            Monitor::new(self.spec),
            None,
            Rc::default(),
        )
    }

    /// The state after an action, and the threads that it answered.
    pub fn state_after(
        &self,
        before: &PartState<'s>,
        action: Action<'s>,
    ) -> (PartState<'s>, Vec<(u8, Answer)>) {
        let mut part = Part::restore(self.spec, &self.base, &before.snapshot);
        let mut arrived = before.arrived;
        match action {
            Action::Invoke { thread, operation } => part.invoke(thread, operation),
            Action::Take(step) => part.take(step),
            Action::Arrive(frame) => {
                part.arrive(frame);
                arrived += 1;
            }
        }
        let answers = part.take_answers().collect();
        let mut monitor = before.monitor.clone();
        let mut outputs = before.outputs.clone();
        let mut broken = before.broken;
        for event in part.journal() {
            broken = broken.or(monitor.see(event).clause());
            add_outputs(&mut outputs, event);
        }
        monitor.renumber();
        let after = self.state(part, arrived, monitor, broken, outputs);
        (after, answers)
    }

    fn state(
        &self,
        part: Part<'s>,
        arrived: usize,
        monitor: Monitor<'s>,
        broken: Option<u8>,
        outputs: Rc<Vec<Act>>,
    ) -> PartState<'s> {
        PartState {
            steps: (0..self.threads)
                .map(|thread| part.next_for(thread))
                .collect(),
            recovery: part.next_recovery(),
            snapshot: part.snapshot(&self.base),
            arrived,
            monitor,
            broken,
            outputs,
        }
    }
}

/// Adds the frames and samples of an event.
fn add_outputs(outputs: &mut Rc<Vec<Act>>, event: &Event) {
    let Event::Burst(burst) = event else {
        return;
    };
    let is_output = |act: &&Act| matches!(act, Act::Sent(_) | Act::Played { .. });
    let acts = burst.acts.iter().map(|made| &made.act);
    let new: Vec<Act> = acts.filter(is_output).cloned().collect();
    if !new.is_empty() {
        Rc::make_mut(outputs).extend(new);
    }
}

/// What applications see of the end of a run, and what is left of the parts.
#[derive(PartialEq, Eq, Hash)]
pub struct Outcome {
    /// The answers of each thread.
    pub answers: Vec<Vec<Answer>>,
    pub parts: Vec<PartOutcome>,
}

#[derive(PartialEq, Eq, Hash)]
pub struct PartOutcome {
    objects: Vec<ChangedWord>,
    medium: Option<Medium>,
    outputs: Rc<Vec<Act>>,
    record: [u32; 4],
    pub losses: Losses,
    pub failures: u32,
    /// The clause of the first break.
    pub broken: Option<u8>,
}

impl Outcome {
    pub fn of(state: &State) -> Outcome {
        let threads = state.threads.iter();
        Outcome {
            answers: threads.map(|thread| thread.answers.clone()).collect(),
            parts: state.parts.iter().map(|part| part.outcome()).collect(),
        }
    }
}

impl PartState<'_> {
    fn outcome(&self) -> PartOutcome {
        let snapshot = &self.snapshot;
        PartOutcome {
            objects: snapshot.memory().of_objects().to_vec(),
            medium: snapshot.device().medium().cloned(),
            outputs: self.outputs.clone(),
            record: snapshot.record(),
            losses: self.monitor.clone().losses(),
            failures: snapshot.failures(),
            broken: self.broken,
        }
    }
}
