//! The record that a part makes of each step.

use crate::machine::MOST_INSTRUCTIONS;
use crate::operation::Operation;
use std::rc::Rc;

pub type Words = Rc<[u32]>;

#[derive(Clone, PartialEq, Eq, Hash)]
pub enum Answer {
    Done,
    Blocks(Words),
    Value(u32),
    Frame(Words),
    Empty,
    Busy(Stage),
    InUse(u8),
    NotOpen,
    BadRange,
    BadLength,
    BadKey,
    BadValue,
    BadClass,
    IoError(u32),
    Gone(u32),
}

#[derive(Clone, Copy, PartialEq, Eq, Hash)]
pub enum Stage {
    Stop,
    Collect,
    Reset,
    Load,
    Init,
    ReplaySet { key: u32, value: u32 },
    ReplayOpen,
    Resume,
}

pub enum Trap {
    BadOpcode,
    BadFetch,
    BadRead(u32),
    ForeignWrite(u32),
    BadPort(u32),
    Hang,
    Explicit,
    Injected,
}

pub enum Failure {
    Trap(Trap),
    BadParameter { service: u32, argument: u32 },
    TooManyCrossings,
    BadReply(u32),
    BadInit(u32),
}

/// An effect of a device that is visible outside.
#[derive(Clone, PartialEq, Eq, Hash)]
pub enum Act {
    Load { block: u32 },
    Store { block: u32, words: Words },
    FailedLoad { block: u32 },
    FailedStore { block: u32 },
    Sent(Words),
    Popped(Words),
    Played { sample: u32, rate: u32, volume: u32 },
    Register { key: u32, value: u32 },
}

/// An act, and the turn of its burst that made it, counted from 1.
pub struct MadeAct {
    pub turn: u32,
    pub act: Act,
}

/// How a burst ended.
pub enum End {
    Service {
        service: u32,
        first: u32,
        second: u32,
        served: Option<Served>,
    },
    Reply(u32),
    Pause,
    Trap,
}

/// A kernel call's result and the words that it moved.
pub struct Served {
    pub result: u32,
    pub moved: Option<Words>,
}

/// What a driver held when it was stopped.
pub enum Released {
    Heap { start: u32, length: u32 },
    Borrow { object: u32, start: u32 },
    Buffer { context: usize, writable: bool },
}

pub struct Burst {
    pub context: usize,
    /// 0 for the shadow's own calls.
    pub call: u32,
    pub burst: u32,
    /// The turns that it took.
    pub turns: u32,
    pub end: End,
    pub acts: Vec<MadeAct>,
    pub answer: Option<Answer>,
    pub failure: Option<Failure>,
}

impl Burst {
    /// The count of turns in its line: a hang has the most that there may be, even if it was injected earlier.
    pub fn reported_turns(&self) -> u32 {
        match self.failure {
            Some(Failure::Trap(Trap::Hang)) => MOST_INSTRUCTIONS,
            _ => self.turns,
        }
    }
}

pub enum Event<'s> {
    Invoke {
        call: u32,
        thread: u8,
        operation: &'s Operation,
        answer: Option<Answer>,
    },
    Enter {
        call: u32,
        thread: u8,
        attempt: u32,
        answer: Option<Answer>,
    },
    Burst(Burst),
    Stage {
        stage: Stage,
        answers: Vec<(u32, Answer)>,
        released: Vec<Released>,
    },
    Arrive {
        frame: Words,
        kept: bool,
    },
}

impl Event<'_> {
    pub fn has_answer(&self) -> bool {
        match self {
            Event::Invoke { answer, .. } | Event::Enter { answer, .. } => answer.is_some(),
            Event::Burst(burst) => burst.answer.is_some(),
            Event::Stage { answers, .. } => !answers.is_empty(),
            Event::Arrive { .. } => false,
        }
    }
}
