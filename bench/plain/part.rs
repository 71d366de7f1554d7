//! One part: a driver in its domain, its device, and the kernel's side of it.

use crate::class::{Class, Entry};
use crate::device::Device;
use crate::fault::Fault;
use crate::journal::{Answer, Burst, End, Event, Failure, Released, Served, Stage, Words};
use crate::machine::{run_burst, Bus, Cpu, Crossing};
use crate::memory::{Changes, Memory, CONTEXTS, DATA_START, OBJECTS, OBJECT_WORDS};
use crate::operation::{Operation, BLOCK_WORDS};
use crate::scenario::PartSpec;
use crate::tracker::Tracker;
use std::collections::VecDeque;

/// The context of the shadow's own calls.
const SHADOW: usize = CONTEXTS - 1;

const MOST_BURSTS: u32 = 32;
const QUEUE_FRAMES: usize = 64;
const LONGEST_FRAME: u32 = 64;

/// The word of the kernel's own object that has the count of failures, after the configuration.
const FAILURES_WORD: usize = 4;

/// A reply of this number and i means that block i of a read or write failed.
const BLOCK_FAILED: u32 = 256;

#[derive(Clone, Copy, PartialEq, Eq, Hash)]
enum Mode {
    Boot(Stage),
    Running,
    Recovering(Stage),
    Dead { collected: bool },
}

/// A running call in a driver.
#[derive(Clone, PartialEq, Eq, Hash)]
struct Context {
    cpu: Cpu,
    bursts: u32,
}

/// A call that is not answered yet.
#[derive(Clone, PartialEq, Eq, Hash)]
struct Call<'s> {
    number: u32,
    thread: u8,
    operation: &'s Operation,
    inside: bool,
    attempts: u32,
}

#[derive(Clone, Copy, PartialEq, Eq, Hash)]
pub enum Step {
    Enter { thread: u8 },
    Burst { context: usize },
    Stage,
}

impl Step {
    pub fn is_burst_of(self, context: usize) -> bool {
        matches!(self, Step::Burst { context: own } if own == context)
    }
}

/// What a burst finds, and the faults that may strike it.
pub struct Before {
    pub burst: u32,
    pub call: u32,
    pub cpu: Cpu,
    pub memory: Box<Memory>,
    pub device: Device,
    pub faults: Vec<Fault>,
}

/// What of a part determines its further steps. The number of a call is a name, and open calls are numbered again from
/// 1; the count of its attempts is only recorded; and bursts are counted up to the last one that a fault may strike.
#[derive(PartialEq, Eq, Hash)]
pub struct Snapshot<'s> {
    memory: Changes,
    tracker: Tracker,
    device: Device,
    contexts: Box<[(usize, Context)]>,
    calls: Vec<Call<'s>>,
    record: [u32; 4],
    holder: Option<u8>,
    queue: VecDeque<Words>,
    mode: Mode,
    failures: u32,
    bursts: u32,
}

impl Snapshot<'_> {
    pub fn memory(&self) -> &Changes {
        &self.memory
    }

    pub fn device(&self) -> &Device {
        &self.device
    }

    pub fn record(&self) -> [u32; 4] {
        self.record
    }

    pub fn failures(&self) -> u32 {
        self.failures
    }
}

pub struct Part<'s> {
    spec: &'s PartSpec,
    /// In the order in which they strike: those of one instruction in the order of the scenario.
    faults: Vec<Fault>,
    memory: Box<Memory>,
    tracker: Tracker,
    device: Device,
    contexts: [Option<Context>; CONTEXTS],
    /// The open calls by rising number, and how many calls there were.
    calls: Vec<Call<'s>>,
    called: u32,
    /// The last acknowledged configuration.
    record: [u32; 4],
    /// The thread that has the sound stream.
    holder: Option<u8>,
    queue: VecDeque<Words>,
    mode: Mode,
    failures: u32,
    bursts: u32,
    journal: Vec<Event<'s>>,
    /// The threads that the last step answered, until [`Part::take_answers`] takes them.
    answers: Vec<(u8, Answer)>,
}

impl<'s> Part<'s> {
    pub fn new(spec: &'s PartSpec) -> Part<'s> {
        let mut memory = Memory::new();
        memory.object_mut(0)[..4].copy_from_slice(&spec.class.defaults());
        Part {
            spec,
            faults: in_order(&spec.faults),
            memory: Box::new(memory),
            tracker: Tracker::new(DATA_START + spec.image.data.len() as u32),
            device: Device::new(spec),
            contexts: [const { None }; CONTEXTS],
            calls: Vec::new(),
            called: 0,
            record: spec.class.defaults(),
            holder: None,
            queue: VecDeque::new(),
            mode: Mode::Boot(Stage::Load),
            failures: 0,
            bursts: 0,
            journal: Vec::new(),
            answers: Vec::new(),
        }
    }

    /// The part of which this snapshot was taken over the same base, with an empty journal.
    pub fn restore(spec: &'s PartSpec, base: &Memory, snapshot: &Snapshot<'s>) -> Part<'s> {
        let mut contexts = [const { None }; CONTEXTS];
        for (context, running) in &snapshot.contexts {
            contexts[*context] = Some(running.clone());
        }
        Part {
            spec,
            faults: in_order(&spec.faults),
            memory: Box::new(Memory::with_changes(base, &snapshot.memory)),
            tracker: snapshot.tracker.clone(),
            device: snapshot.device.clone(),
            contexts,
            calls: snapshot.calls.clone(),
            called: snapshot.calls.len() as u32,
            record: snapshot.record,
            holder: snapshot.holder,
            queue: snapshot.queue.clone(),
            mode: snapshot.mode,
            failures: snapshot.failures,
            bursts: snapshot.bursts,
            journal: Vec::new(),
            answers: Vec::new(),
        }
    }

    /// What determines its further steps, with its memory as changes from a base.
    pub fn snapshot(mut self, base: &Memory) -> Snapshot<'s> {
        for (number, call) in (1..).zip(&mut self.calls) {
            call.number = number;
            call.attempts = 0;
        }
        let contexts = self.contexts.into_iter().enumerate();
        let last_struck = self.faults.last().map_or(0, |fault| fault.burst);
        Snapshot {
            memory: self.memory.changes_from(base),
            tracker: self.tracker,
            device: self.device,
            contexts: contexts
                .filter_map(|(context, running)| Some((context, running?)))
                .collect(),
            calls: self.calls,
            record: self.record,
            holder: self.holder,
            queue: self.queue,
            mode: self.mode,
            failures: self.failures,
            bursts: self.bursts.min(last_struck),
        }
    }

    pub fn spec(&self) -> &'s PartSpec {
        self.spec
    }

    pub fn memory(&self) -> &Memory {
        &self.memory
    }

    pub fn device(&self) -> &Device {
        &self.device
    }

    pub fn record(&self) -> [u32; 4] {
        self.record
    }

    pub fn failures(&self) -> u32 {
        self.failures
    }

    pub fn is_given_up(&self) -> bool {
        self.failures > self.spec.limit
    }

    pub fn journal(&self) -> &[Event<'s>] {
        &self.journal
    }

    /// The threads whose calls the last step answered.
    pub fn take_answers(&mut self) -> impl Iterator<Item = (u8, Answer)> + '_ {
        self.answers.drain(..)
    }

    /// The next step of a thread's open call.
    pub fn next_for(&self, thread: u8) -> Option<Step> {
        if self.mode != Mode::Running {
            return None;
        }
        let index = self.calls.iter().position(|call| call.thread == thread)?;
        let call = &self.calls[index];
        if call.inside {
            return Some(Step::Burst {
                context: thread.into(),
            });
        }
        let blocked = self.calls[..index]
            .iter()
            .any(|earlier| earlier.operation.conflicts_with(call.operation));
        (!blocked).then_some(Step::Enter { thread })
    }

    /// The next step of the boot or of a recovery.
    pub fn next_recovery(&self) -> Option<Step> {
        match self.mode {
            Mode::Boot(_) | Mode::Recovering(_) if self.contexts[SHADOW].is_some() => {
                Some(Step::Burst { context: SHADOW })
            }
            Mode::Boot(_) | Mode::Recovering(_) | Mode::Dead { collected: false } => {
                Some(Step::Stage)
            }
            Mode::Running | Mode::Dead { collected: true } => None,
        }
    }

    /// The number of the burst that would be the next.
    pub fn next_burst(&self) -> u32 {
        self.bursts + 1
    }

    /// What the next burst finds, if it is one of this context.
    pub fn before_burst(&self, context: usize) -> Before {
        let running = self.contexts[context].as_ref();
        Before {
            burst: self.next_burst(),
            call: self.call_of(context),
            cpu: running.expect("the context is inside").cpu.clone(),
            memory: self.memory.clone(),
            device: self.device.clone(),
            faults: faults_of(&self.faults, self.next_burst()).to_vec(),
        }
    }

    pub fn take(&mut self, step: Step) {
        let event = match step {
            Step::Enter { thread } => self.enter(thread),
            Step::Burst { context } => self.burst(context),
            Step::Stage => self.stage(),
        };
        self.journal.push(event);
    }

    /// A frame arrives from outside.
    pub fn arrive(&mut self, frame: &Words) {
        let kept = self.device.arrive(frame.clone());
        self.journal.push(Event::Arrive {
            frame: frame.clone(),
            kept,
        });
    }

    /// A thread without an open call asks for an operation.
    pub fn invoke(&mut self, thread: u8, operation: &'s Operation) {
        self.called += 1;
        let answer = operation
            .refusal(self.spec.class, self.spec.blocks)
            .or_else(|| match self.mode {
                Mode::Dead { .. } => Some(Answer::Gone(self.failures)),
                Mode::Boot(_) | Mode::Running => None,
                Mode::Recovering(stage) => self.shadow_answer(thread, operation, stage),
            });
        match &answer {
            Some(answer) => self.answers.push((thread, answer.clone())),
            None => self.calls.push(Call {
                number: self.called,
                thread,
                operation,
                inside: false,
                attempts: 0,
            }),
        }
        self.journal.push(Event::Invoke {
            call: self.called,
            thread,
            operation,
            answer,
        });
    }

    /// What the shadow answers instead of the driver, None if the call is held.
    fn shadow_answer(&mut self, thread: u8, operation: &Operation, stage: Stage) -> Option<Answer> {
        match operation {
            Operation::Get { key } => Some(Answer::Value(self.record[*key as usize])),
            Operation::Send { .. } => Some(Answer::Done),
            Operation::Receive => Some(self.receive()),
            Operation::Play { .. } if self.holder == Some(thread) => Some(Answer::Done),
            Operation::Play { .. } => Some(Answer::NotOpen),
            Operation::Open => Some(Answer::Busy(stage)),
            Operation::Read { .. }
            | Operation::Write { .. }
            | Operation::Set { .. }
            | Operation::Close => None,
        }
    }

    /// Removes the first frame of the queue.
    fn receive(&mut self) -> Answer {
        self.queue.pop_front().map_or(Answer::Empty, Answer::Frame)
    }

    fn enter(&mut self, thread: u8) -> Event<'s> {
        let index = self.index_of(thread);
        let call = &mut self.calls[index];
        call.attempts += 1;
        let (number, operation, attempt) = (call.number, call.operation, call.attempts);
        let answer = match (operation, self.holder) {
            (Operation::Receive, _) => self.queue.pop_front().map(Answer::Frame),
            (Operation::Open, Some(holder)) => Some(Answer::InUse(holder)),
            (Operation::Play { .. } | Operation::Close, holder) if holder != Some(thread) => {
                Some(Answer::NotOpen)
            }
            _ => None,
        };
        match &answer {
            Some(answer) => self.answer(index, answer),
            None => {
                self.calls[index].inside = true;
                self.enter_operation(thread.into(), operation);
            }
        }
        Event::Enter {
            call: number,
            thread,
            attempt,
            answer,
        }
    }

    /// The call that a context serves, 0 for the shadow's own.
    fn call_of(&self, context: usize) -> u32 {
        if context == SHADOW {
            0
        } else {
            self.calls[self.index_of(context as u8)].number
        }
    }

    fn index_of(&self, thread: u8) -> usize {
        self.calls
            .iter()
            .position(|call| call.thread == thread)
            .expect("the thread has an open call")
    }

    fn answer(&mut self, index: usize, answer: &Answer) {
        let call = self.calls.remove(index);
        self.answers.push((call.thread, answer.clone()));
    }

    /// A context begins at the entry of an operation, with its arguments and its buffer.
    fn enter_operation(&mut self, context: usize, operation: &Operation) {
        let cpu = self.enter_plain(context, operation.entry());
        (cpu.registers[1], cpu.registers[2]) = operation.arguments();
        if let Some((words, writable)) = operation.buffer() {
            cpu.registers[3] = Memory::buffer_start(context);
            self.memory.lend(context, words, writable);
            self.tracker.begin_buffer(context, writable);
        }
    }

    fn enter_plain(&mut self, context: usize, entry: Entry) -> &mut Cpu {
        let index = self
            .spec
            .class
            .entries()
            .iter()
            .position(|own| *own == entry)
            .expect("the class has the entry");
        let cpu = Cpu::at_entry(self.spec.image.entries[index], Memory::stack_end(context));
        &mut self.contexts[context]
            .insert(Context { cpu, bursts: 0 })
            .cpu
    }

    fn burst(&mut self, context: usize) -> Event<'s> {
        self.bursts += 1;
        let faults = faults_of(&self.faults, self.bursts);
        let running = self.contexts[context]
            .as_mut()
            .expect("the context is inside");
        running.bursts += 1;
        let is_last = running.bursts == MOST_BURSTS;
        let mut acts = Vec::new();
        let mut bus = Bus {
            memory: &mut self.memory,
            device: &mut self.device,
            acts: &mut acts,
        };
        let (turns, crossing) = run_burst(&mut running.cpu, &mut bus, faults);
        let arguments = (running.cpu.registers[1], running.cpu.registers[2]);
        let mut burst = Burst {
            context,
            call: self.call_of(context),
            burst: self.bursts,
            turns,
            end: End::Trap,
            acts,
            answer: None,
            failure: None,
        };
        match self.cross(context, crossing, arguments, is_last, &mut burst.end) {
            Ok(answer) => burst.answer = answer,
            Err(failure) => {
                self.fail(context);
                burst.failure = Some(failure);
            }
        }
        Event::Burst(burst)
    }

    /// Does what a crossing asks, and notes it as the burst's end. Returns the answer to the context's call, if there
    /// is one now.
    fn cross(
        &mut self,
        context: usize,
        crossing: Crossing,
        (first, second): (u32, u32),
        is_last: bool,
        end: &mut End,
    ) -> Result<Option<Answer>, Failure> {
        match crossing {
            Crossing::Trap(trap) => Err(Failure::Trap(trap)),
            Crossing::Reply(status) => {
                *end = End::Reply(status);
                if context == SHADOW {
                    self.reply_to_shadow(status).map(|()| None)
                } else {
                    self.reply(context, status).map(Some)
                }
            }
            Crossing::Pause => {
                *end = End::Pause;
                expect_more(is_last).map(|()| None)
            }
            Crossing::KernelCall(service) => {
                *end = End::Service {
                    service,
                    first,
                    second,
                    served: None,
                };
                expect_more(is_last)?;
                let served = self
                    .serve(service, first, second)
                    .map_err(|argument| Failure::BadParameter { service, argument })?;
                if let Some(running) = &mut self.contexts[context] {
                    running.cpu.registers[1] = served.result;
                }
                *end = End::Service {
                    service,
                    first,
                    second,
                    served: Some(served),
                };
                Ok(None)
            }
        }
    }

    /// Serves a kernel call, or returns the smallest argument that is wrong, 0 for the service itself.
    fn serve(&mut self, service: u32, first: u32, second: u32) -> Result<Served, u32> {
        let plain = |result| Served {
            result,
            moved: None,
        };
        match service {
            1 if !(1..=2_048).contains(&first) => Err(1),
            1 => Ok(plain(self.tracker.allocate(first).unwrap_or(0))),
            2 if !self.tracker.is_allocated(first) => Err(1),
            2 => {
                self.tracker.free(first);
                Ok(plain(0))
            }
            3 if first != self.spec.class.code() || self.tracker.is_registered() => Err(1),
            3 => {
                self.tracker.set_registered(true);
                Ok(plain(0))
            }
            4 if !(1..OBJECTS).contains(&first) || self.tracker.is_borrowed(first) => Err(1),
            4 => {
                let start = self.tracker.borrow(first);
                if let Some(start) = start {
                    self.memory.copy_out(first, start);
                }
                Ok(plain(start.unwrap_or(0)))
            }
            5 => self.give_back(first),
            6 => self.hand_up(first, second),
            7 | 8 => Ok(plain(0)),
            _ => Err(0),
        }
    }

    /// A driver gives the copy of an object back.
    fn give_back(&mut self, object: u32) -> Result<Served, u32> {
        let start = self.tracker.give_back(object).ok_or(1_u32)?;
        self.memory.copy_back(object, start);
        Ok(Served {
            result: 0,
            moved: Some(self.memory.slice(start, OBJECT_WORDS).into()),
        })
    }

    /// A driver hands a frame up, which is lost if the queue is full.
    fn hand_up(&mut self, start: u32, length: u32) -> Result<Served, u32> {
        if self.spec.class != Class::Net {
            return Err(0);
        }
        let is_length = (1..=LONGEST_FRAME).contains(&length);
        if !Memory::is_drivers(start, if is_length { length } else { 1 }) {
            return Err(1);
        }
        if !is_length {
            return Err(2);
        }
        let frame: Words = self.memory.slice(start, length as usize).into();
        let fits = self.queue.len() < QUEUE_FRAMES;
        if fits {
            self.queue.push_back(frame.clone());
        }
        Ok(Served {
            result: fits.into(),
            moved: Some(frame),
        })
    }

    /// A driver replies to the call of a thread.
    fn reply(&mut self, context: usize, status: u32) -> Result<Answer, Failure> {
        let index = self.index_of(context as u8);
        let (thread, operation) = (self.calls[index].thread, self.calls[index].operation);
        let answer = if status == 0 {
            self.accepted(thread, operation)
        } else {
            let blocks = operation.blocks();
            let failed = status
                .checked_sub(BLOCK_FAILED)
                .map(|index| blocks.start + u64::from(index));
            match failed {
                Some(block) if block < blocks.end => Answer::IoError(block as u32),
                _ => return Err(Failure::BadReply(status)),
            }
        };
        self.leave(context);
        self.answer(index, &answer);
        Ok(answer)
    }

    /// What an application gets by a reply without a fault.
    fn accepted(&mut self, thread: u8, operation: &Operation) -> Answer {
        let buffer = self.memory.buffer(thread.into());
        match operation {
            Operation::Read { count, .. } => {
                Answer::Blocks(buffer[..*count as usize * BLOCK_WORDS].into())
            }
            Operation::Get { .. } => Answer::Value(buffer[0]),
            Operation::Receive => self.receive(),
            Operation::Write { .. } | Operation::Send { .. } | Operation::Play { .. } => {
                Answer::Done
            }
            Operation::Open => {
                self.holder = Some(thread);
                Answer::Done
            }
            Operation::Close => {
                self.holder = None;
                Answer::Done
            }
            Operation::Set { key, value } => {
                self.record[*key as usize] = *value;
                self.memory.object_mut(0)[*key as usize] = *value;
                Answer::Done
            }
        }
    }

    fn leave(&mut self, context: usize) {
        self.contexts[context] = None;
        self.memory.take_back(context);
        self.tracker.end_buffer(context);
    }

    /// A driver replies to the shadow, which continues with the next stage.
    fn reply_to_shadow(&mut self, status: u32) -> Result<(), Failure> {
        let (Mode::Boot(stage) | Mode::Recovering(stage)) = self.mode else {
            unreachable!("the shadow's calls are made in the boot and in recoveries");
        };
        if stage == Stage::Init && (status != 0 || !self.tracker.is_registered()) {
            return Err(Failure::BadInit(status));
        }
        if status != 0 {
            return Err(Failure::BadReply(status));
        }
        self.leave(SHADOW);
        self.go_on(stage);
        Ok(())
    }

    fn fail(&mut self, context: usize) {
        if context == SHADOW {
            self.leave(SHADOW);
        }
        self.failures += 1;
        self.memory.object_mut(0)[FAILURES_WORD] = self.failures;
        self.mode = Mode::Recovering(Stage::Stop);
    }

    /// Makes the stage after the given one the current stage.
    fn go_on(&mut self, stage: Stage) {
        let next = match stage {
            Stage::Stop => Stage::Collect,
            Stage::Collect => Stage::Reset,
            Stage::Reset => Stage::Load,
            Stage::Load => Stage::Init,
            Stage::Init => self.replay_from(0),
            Stage::ReplaySet { key, .. } => self.replay_from(key + 1),
            Stage::ReplayOpen | Stage::Resume => Stage::Resume,
        };
        self.mode = match self.mode {
            Mode::Boot(_) => Mode::Boot(next),
            _ => Mode::Recovering(next),
        };
    }

    /// The first replay from a key on, or what comes after the replays.
    fn replay_from(&self, key: u32) -> Stage {
        let defaults = self.spec.class.defaults();
        let changed = (key..4).find(|key| self.record[*key as usize] != defaults[*key as usize]);
        match changed {
            Some(key) => Stage::ReplaySet {
                key,
                value: self.record[key as usize],
            },
            None if self.holder.is_some() => Stage::ReplayOpen,
            None => Stage::Resume,
        }
    }

    fn stage(&mut self) -> Event<'s> {
        let mut answers = Vec::new();
        let mut released = Vec::new();
        let stage = match self.mode {
            Mode::Boot(stage) | Mode::Recovering(stage) => stage,
            _ => Stage::Collect,
        };
        match stage {
            Stage::Stop => answers = self.stop(),
            Stage::Collect => released = self.collect(),
            Stage::Reset => {
                self.device.reset();
                self.go_on(stage);
            }
            Stage::Load => {
                self.memory.load(&self.spec.image);
                self.go_on(stage);
            }
            Stage::Init => {
                self.enter_plain(SHADOW, Entry::Init);
            }
            Stage::ReplaySet { key, value } => {
                self.enter_operation(SHADOW, &Operation::Set { key, value })
            }
            Stage::ReplayOpen => {
                self.enter_plain(SHADOW, Entry::Open);
            }
            Stage::Resume => self.mode = Mode::Running,
        }
        Event::Stage {
            stage,
            answers,
            released,
        }
    }

    /// Stops the driver. Its calls are answered by the shadow or held, or are all given up.
    fn stop(&mut self) -> Vec<(u32, Answer)> {
        self.contexts = [const { None }; CONTEXTS];
        self.tracker.set_registered(false);
        let gives_up = self.is_given_up();
        let mut answers = Vec::new();
        for mut call in std::mem::take(&mut self.calls) {
            let answer = if gives_up {
                Some(Answer::Gone(self.failures))
            } else {
                self.shadow_answer(call.thread, call.operation, Stage::Stop)
            };
            match answer {
                Some(answer) => {
                    self.answers.push((call.thread, answer.clone()));
                    answers.push((call.number, answer));
                }
                None => {
                    call.inside = false;
                    self.calls.push(call);
                }
            }
        }
        if gives_up {
            self.mode = Mode::Dead { collected: false }
        } else {
            self.go_on(Stage::Stop)
        }
        answers
    }

    fn collect(&mut self) -> Vec<Released> {
        self.memory.take_back_all();
        match self.mode {
            Mode::Dead { .. } => self.mode = Mode::Dead { collected: true },
            _ => self.go_on(Stage::Collect),
        }
        self.tracker.collect()
    }
}

/// The last burst of an attempt must end it.
fn expect_more(is_last: bool) -> Result<(), Failure> {
    if is_last {
        Err(Failure::TooManyCrossings)
    } else {
        Ok(())
    }
}

/// Faults in the order in which they strike.
fn in_order(faults: &[Fault]) -> Vec<Fault> {
    let mut faults = faults.to_vec();
    faults.sort_by_key(|fault| (fault.burst, fault.after));
    faults
}

/// The faults of one burst in a sorted list of faults.
fn faults_of(faults: &[Fault], burst: u32) -> &[Fault] {
    let start = faults.partition_point(|fault| fault.burst < burst);
    let end = faults.partition_point(|fault| fault.burst <= burst);
    &faults[start..end]
}
