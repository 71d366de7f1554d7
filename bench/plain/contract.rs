//! What a journal shows: whether the driver kept its class's contract, and what was lost.

use crate::journal::{Act, Answer, Burst, End, Event, Stage, Words};
use crate::medium::Medium;
use crate::operation::Operation;
use crate::scenario::PartSpec;
use std::collections::VecDeque;

const HAND_UP: u32 = 6;

#[derive(Clone, Default, PartialEq, Eq, Hash)]
pub struct Losses {
    /// Sends answered as done without a frame on the wire, and samples not played of plays answered as done.
    pub sends: u64,
    pub samples: u64,
    pub busy: u64,
    pub arrived: u64,
    pub received: u64,
    pub queued: u64,
    pub ring: u64,
    pub driver: u64,
    pub reset: u64,
    pub full_ring: u64,
    pub full_queue: u64,
}

pub struct Verdict {
    pub losses: Losses,
    /// The first event that broke the contract, counted from 1, and the clause that it broke.
    pub broken: Option<(usize, u8)>,
}

pub fn judge(spec: &PartSpec, journal: &[Event]) -> Verdict {
    let mut judge = Judge::new(spec);
    for event in journal {
        judge.see(event);
    }
    judge.verdict()
}

/// What of a burst can break a clause, in the order in which it happens.
#[derive(Clone, Copy, PartialEq, Eq, PartialOrd, Ord)]
pub enum Deed {
    /// The act of this index.
    Act(usize),
    /// The frame that is handed up, or the reply, in which the burst ends.
    Crossing,
}

/// A deed that breaks a clause.
#[derive(Clone, Copy, PartialEq, Eq, PartialOrd, Ord)]
pub struct Breach {
    pub deed: Deed,
    pub clause: u8,
}

/// What of an event breaks a clause.
pub struct Breaches {
    /// The present deed.
    deed: Deed,
    found: Vec<Breach>,
}

impl Breaches {
    fn new() -> Breaches {
        Breaches {
            deed: Deed::Crossing,
            found: Vec::new(),
        }
    }

    /// The first deed that breaks a clause, with the smallest clause that this deed breaks.
    pub fn first(&self) -> Option<Breach> {
        self.found.iter().min().copied()
    }

    /// The smallest clause that the event breaks.
    pub fn clause(&self) -> Option<u8> {
        self.found.iter().map(|breach| breach.clause).min()
    }

    fn add(&mut self, clause: u8) {
        let deed = self.deed;
        self.found.push(Breach { deed, clause });
    }

    fn check(&mut self, clause: u8, holds: bool) {
        if !holds {
            self.add(clause);
        }
    }
}

/// Judges the events of a part, one after the other, and keeps the number of the first that broke the contract.
pub struct Judge<'s> {
    monitor: Monitor<'s>,
    /// How many events it has seen.
    seen: usize,
    broken: Option<(usize, u8)>,
}

impl<'s> Judge<'s> {
    pub fn new(spec: &PartSpec) -> Judge<'s> {
        Judge {
            monitor: Monitor::new(spec),
            seen: 0,
            broken: None,
        }
    }

    /// Judges an event, and returns what of it breaks the contract.
    pub fn see(&mut self, event: &Event<'s>) -> Breaches {
        self.seen += 1;
        let breaches = self.monitor.see(event);
        let broken = breaches.clause().map(|clause| (self.seen, clause));
        self.broken = self.broken.or(broken);
        breaches
    }

    /// What the events show that it saw.
    pub fn verdict(self) -> Verdict {
        Verdict {
            losses: self.monitor.losses(),
            broken: self.broken,
        }
    }
}

#[derive(Clone, PartialEq, Eq, Hash)]
struct Call<'s> {
    number: u32,
    operation: &'s Operation,
    inside: bool,
    /// Frames and samples in its own bursts.
    sent: usize,
    played: usize,
    /// Samples played, in whatever burst, while it was inside.
    heard: usize,
    /// Whether its attempt handed a frame up.
    handed_up: bool,
    /// The blocks that failed in its attempt.
    failed: Vec<u32>,
}

/// What of the events seen so far decides which clauses later ones break, and what was lost. It has neither the numbers
/// of the events nor their count: after events in another order it may be the same.
#[derive(Clone, PartialEq, Eq, Hash)]
pub struct Monitor<'s> {
    /// The registers after a reset.
    defaults: [u32; 4],
    medium: Medium,
    registers: [u32; 4],
    /// How many frames are in the ring.
    ring: u64,
    /// The frames popped since the last reset and not handed up, as long as they are handed up in order.
    popped: VecDeque<Words>,
    in_order: bool,
    popped_count: u64,
    handed_count: u64,
    queued: u64,
    calls: Vec<Call<'s>>,
    replay: Option<(u32, u32)>,
    losses: Losses,
}

impl<'s> Monitor<'s> {
    pub fn new(spec: &PartSpec) -> Monitor<'s> {
        Monitor {
            defaults: spec.class.defaults(),
            medium: Medium::default(),
            registers: spec.class.defaults(),
            ring: 0,
            popped: VecDeque::new(),
            in_order: true,
            popped_count: 0,
            handed_count: 0,
            queued: 0,
            calls: Vec::new(),
            replay: None,
            losses: Losses::default(),
        }
    }

    pub fn losses(self) -> Losses {
        Losses {
            queued: self.queued.saturating_sub(self.losses.received),
            ring: self.ring,
            driver: self.popped_count.saturating_sub(self.handed_count),
            ..self.losses
        }
    }

    /// Numbers the open calls again, from 1.
    pub fn renumber(&mut self) {
        for (number, call) in (1..).zip(&mut self.calls) {
            call.number = number;
        }
    }

    /// Judges an event, and returns what of it breaks the contract.
    pub fn see(&mut self, event: &Event<'s>) -> Breaches {
        let mut breaches = Breaches::new();
        match event {
            Event::Invoke {
                call,
                operation,
                answer,
                ..
            } => {
                self.calls.push(Call {
                    number: *call,
                    operation,
                    inside: false,
                    sent: 0,
                    played: 0,
                    heard: 0,
                    handed_up: false,
                    failed: Vec::new(),
                });
                self.answered(*call, answer.as_ref());
            }
            Event::Enter { call, answer, .. } => {
                if let Some(call) = self.call(*call) {
                    call.inside = true;
                    call.handed_up = false;
                    call.failed.clear();
                }
                self.answered(*call, answer.as_ref());
            }
            Event::Burst(burst) => self.see_burst(burst, &mut breaches),
            Event::Stage { stage, answers, .. } => self.see_stage(*stage, answers),
            Event::Arrive { kept, .. } => self.see_arrival(*kept),
        }
        breaches
    }

    fn see_arrival(&mut self, kept: bool) {
        self.losses.arrived += 1;
        if kept {
            self.ring += 1;
        } else {
            self.losses.full_ring += 1;
        }
    }

    fn call(&mut self, number: u32) -> Option<&mut Call<'s>> {
        self.calls.iter_mut().find(|call| call.number == number)
    }

    fn inside(&self) -> impl Iterator<Item = &Call<'s>> {
        self.calls.iter().filter(|call| call.inside)
    }

    fn see_stage(&mut self, stage: Stage, answers: &[(u32, Answer)]) {
        match stage {
            Stage::Stop => {
                for (call, answer) in answers {
                    self.answered(*call, Some(answer));
                }
                for call in &mut self.calls {
                    call.inside = false;
                }
            }
            Stage::Reset => {
                self.losses.reset +=
                    self.ring + self.popped_count.saturating_sub(self.handed_count);
                self.ring = 0;
                self.popped_count = 0;
                self.handed_count = 0;
                self.popped.clear();
                self.in_order = true;
                self.registers = self.defaults;
            }
            Stage::ReplaySet { key, value } => self.replay = Some((key, value)),
            _ => {}
        }
    }

    fn see_burst(&mut self, burst: &Burst, breaches: &mut Breaches) {
        for (index, made) in burst.acts.iter().enumerate() {
            breaches.deed = Deed::Act(index);
            self.see_act(burst.call, &made.act, breaches);
        }
        breaches.deed = Deed::Crossing;
        if let End::Service {
            service: HAND_UP,
            served: Some(served),
            ..
        } = &burst.end
        {
            self.see_handed_up(
                burst.call,
                served.moved.as_deref().unwrap_or(&[]),
                served.result == 1,
                breaches,
            );
        }
        let is_reply = matches!(burst.end, End::Reply(_));
        if burst.call == 0 && (is_reply || burst.failure.is_some()) {
            if let (Some((key, value)), None) = (self.replay.take(), &burst.failure) {
                breaches.check(13, self.registers[key as usize] == value);
            }
        }
        if let Some(answer) = &burst.answer {
            self.judge_reply(burst.call, answer, breaches);
        }
        self.answered(burst.call, burst.answer.as_ref());
    }

    fn see_act(&mut self, number: u32, act: &Act, breaches: &mut Breaches) {
        match act {
            Act::Load { .. } => {}
            Act::Store { block, words } => {
                let expected = self
                    .inside()
                    .find_map(|call| call.operation.written(*block));
                match expected.map(|expected| expected == &words[..]) {
                    None => breaches.add(1),
                    Some(is_expected) => breaches.check(2, is_expected),
                }
                self.medium.store(*block, words.clone());
            }
            Act::FailedLoad { block } | Act::FailedStore { block } => {
                if let Some(call) = self.call(number) {
                    call.failed.push(*block);
                }
            }
            Act::Sent(frame) => self.see_sent(number, frame, breaches),
            Act::Popped(frame) => {
                self.popped.push_back(frame.clone());
                self.popped_count += 1;
                self.ring = self.ring.saturating_sub(1);
            }
            Act::Played { sample, .. } => self.see_played(number, *sample, breaches),
            Act::Register { key, value } => {
                if self.registers[*key as usize] != *value {
                    let is_set = |call: &Call| call.operation.sets(*key, *value);
                    let asked = self.replay == Some((*key, *value)) || self.inside().any(is_set);
                    breaches.check(12, asked);
                }
                self.registers[*key as usize] = *value;
            }
        }
    }

    fn see_sent(&mut self, number: u32, frame: &Words, breaches: &mut Breaches) {
        let Some(call) = self.call(number) else {
            return breaches.add(5);
        };
        let is_own = matches!(call.operation, Operation::Send { frame: own } if own == frame);
        call.sent += 1;
        let sent = call.sent;
        breaches.check(5, is_own);
        breaches.check(6, sent < 2);
    }

    fn see_played(&mut self, number: u32, sample: u32, breaches: &mut Breaches) {
        if let Some(call) = self.call(number) {
            call.played += 1;
        }
        let mut inside = self.calls.iter_mut().filter(|call| call.inside);
        let is_next = inside.any(|call| match call.operation {
            Operation::Play { samples } => {
                call.heard += 1;
                samples.get(call.heard - 1) == Some(&sample)
            }
            _ => false,
        });
        breaches.check(10, is_next);
    }

    fn see_handed_up(&mut self, number: u32, frame: &[u32], kept: bool, breaches: &mut Breaches) {
        self.in_order = self.in_order
            && self
                .popped
                .pop_front()
                .is_some_and(|next| next[..] == *frame);
        breaches.check(8, self.in_order);
        self.handed_count += 1;
        if kept {
            self.queued += 1;
        } else {
            self.losses.full_queue += 1;
        }
        if let Some(call) = self.call(number) {
            call.handed_up = true;
        }
    }

    /// Judges a reply that was accepted.
    fn judge_reply(&self, number: u32, answer: &Answer, breaches: &mut Breaches) {
        let Some(call) = self.calls.iter().find(|call| call.number == number) else {
            return;
        };
        let operation = call.operation;
        if let Answer::IoError(block) = answer {
            return breaches.check(15, call.failed.contains(block));
        }
        let (clause, holds) = match (operation, answer) {
            (Operation::Write { data, .. }, _) => (3, self.medium_of(operation).eq(data.iter())),
            (Operation::Read { .. }, Answer::Blocks(words)) => {
                (4, self.medium_of(operation).eq(words.iter()))
            }
            (Operation::Send { .. }, _) => (7, call.sent > 0),
            (Operation::Receive, _) => (9, self.ring == 0 || call.handed_up),
            (Operation::Play { samples }, _) => (11, call.heard == samples.len()),
            (Operation::Set { key, value }, _) => (13, self.registers[*key as usize] == *value),
            (Operation::Get { key }, Answer::Value(value)) => {
                (14, self.registers[*key as usize] == *value)
            }
            _ => return,
        };
        breaches.check(clause, holds);
    }

    /// The words of the blocks of a read or write.
    fn medium_of(&self, operation: &Operation) -> impl Iterator<Item = &u32> {
        let blocks = operation.blocks();
        blocks.flat_map(|block| self.medium.block(block as u32))
    }

    /// Counts an answer, and closes its call.
    fn answered(&mut self, number: u32, answer: Option<&Answer>) {
        let Some(answer) = answer else {
            return;
        };
        let Some(index) = self.calls.iter().position(|call| call.number == number) else {
            return;
        };
        let call = self.calls.remove(index);
        match (call.operation, answer) {
            (Operation::Send { .. }, Answer::Done) => {
                self.losses.sends += u64::from(call.sent == 0)
            }
            (Operation::Play { samples }, Answer::Done) => {
                self.losses.samples += samples.len().saturating_sub(call.played) as u64;
            }
            (_, Answer::Frame(_)) => self.losses.received += 1,
            (_, Answer::Busy(_)) => self.losses.busy += 1,
            _ => {}
        }
    }
}
