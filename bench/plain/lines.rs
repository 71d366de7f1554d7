//! The text of an event, and of what it is made of.

use crate::journal::{Act, Answer, Burst, End, Event, Failure, Released, Stage, Trap};
use crate::mirror::MirrorAnswer;
use crate::operation::Operation;
use std::fmt::{self, Display, Formatter};

/// Words as a list.
pub struct List<'w>(pub &'w [u32]);

impl Display for List<'_> {
    fn fmt(&self, f: &mut Formatter) -> fmt::Result {
        f.write_str("[")?;
        for (index, word) in self.0.iter().enumerate() {
            if index > 0 {
                f.write_str(",")?;
            }
            word.fmt(f)?;
        }
        f.write_str("]")
    }
}

/// An answer after its arrow, if there is one.
struct Arrow<'a>(&'a Option<Answer>);

impl Display for Arrow<'_> {
    fn fmt(&self, f: &mut Formatter) -> fmt::Result {
        match self.0 {
            Some(answer) => write!(f, " -> {answer}"),
            None => Ok(()),
        }
    }
}

impl Display for Event<'_> {
    fn fmt(&self, f: &mut Formatter) -> fmt::Result {
        match self {
            Event::Invoke {
                call,
                thread,
                operation,
                answer,
            } => {
                write!(f, "invoke c{call} t{thread} {operation}{}", Arrow(answer))
            }
            Event::Enter {
                call,
                thread,
                attempt,
                answer,
            } => {
                write!(f, "enter c{call} x{thread} try {attempt}{}", Arrow(answer))
            }
            Event::Burst(burst) => burst.fmt(f),
            Event::Stage {
                stage,
                answers,
                released,
            } => {
                write!(f, "stage {stage}")?;
                for (call, answer) in answers {
                    write!(f, " -> c{call} {answer}")?;
                }
                released.iter().try_for_each(|entry| write!(f, " {entry}"))
            }
            Event::Arrive { frame, kept } => {
                write!(
                    f,
                    "arrive {} {}",
                    List(frame),
                    if *kept { "kept" } else { "lost" }
                )
            }
        }
    }
}

impl Display for Burst {
    fn fmt(&self, f: &mut Formatter) -> fmt::Result {
        let (context, call, burst) = (self.context, self.call, self.burst);
        write!(f, "burst x{context} c{call} b{burst} ")?;
        Outcome(self).fmt(f)
    }
}

/// A burst's line from its count of turns on.
pub struct Outcome<'b>(pub &'b Burst);

impl Display for Outcome<'_> {
    fn fmt(&self, f: &mut Formatter) -> fmt::Result {
        let burst = self.0;
        write!(f, "n{} {}", burst.reported_turns(), burst.end)?;
        for made in &burst.acts {
            write!(f, " | {}", made.act)?;
        }
        write!(f, "{}", Arrow(&burst.answer))?;
        match &burst.failure {
            Some(failure) => write!(f, " ! {failure}"),
            None => Ok(()),
        }
    }
}

impl Display for Operation {
    fn fmt(&self, f: &mut Formatter) -> fmt::Result {
        match self {
            Operation::Read { first, count } => write!(f, "read {first} {count}"),
            Operation::Write { first, data } => write!(f, "write {first} {}", List(data)),
            Operation::Send { frame } => write!(f, "send {}", List(frame)),
            Operation::Receive => f.write_str("recv"),
            Operation::Open => f.write_str("open"),
            Operation::Play { samples } => write!(f, "play {}", List(samples)),
            Operation::Close => f.write_str("close"),
            Operation::Get { key } => write!(f, "get {key}"),
            Operation::Set { key, value } => write!(f, "set {key} {value}"),
        }
    }
}

impl Display for Answer {
    fn fmt(&self, f: &mut Formatter) -> fmt::Result {
        match self {
            Answer::Done => f.write_str("done"),
            Answer::Blocks(words) => write!(f, "data {}", List(words)),
            Answer::Value(value) => write!(f, "value {value}"),
            Answer::Frame(words) => write!(f, "frame {}", List(words)),
            Answer::Empty => f.write_str("empty"),
            Answer::Busy(stage) => write!(f, "busy {stage}"),
            Answer::InUse(holder) => write!(f, "in_use {holder}"),
            Answer::NotOpen => f.write_str("not_open"),
            Answer::BadRange => f.write_str("bad_range"),
            Answer::BadLength => f.write_str("bad_length"),
            Answer::BadKey => f.write_str("bad_key"),
            Answer::BadValue => f.write_str("bad_value"),
            Answer::BadClass => f.write_str("bad_class"),
            Answer::IoError(block) => write!(f, "io_error {block}"),
            Answer::Gone(failures) => write!(f, "gone {failures}"),
        }
    }
}

impl Display for MirrorAnswer {
    fn fmt(&self, f: &mut Formatter) -> fmt::Result {
        match self {
            MirrorAnswer::Answer(answer) => answer.fmt(f),
            MirrorAnswer::BothLost => f.write_str("both_lost"),
        }
    }
}

impl Display for Stage {
    fn fmt(&self, f: &mut Formatter) -> fmt::Result {
        match self {
            Stage::Stop => f.write_str("stop"),
            Stage::Collect => f.write_str("collect"),
            Stage::Reset => f.write_str("reset"),
            Stage::Load => f.write_str("load"),
            Stage::Init => f.write_str("init"),
            Stage::ReplaySet { key, value } => write!(f, "replay_set {key} {value}"),
            Stage::ReplayOpen => f.write_str("replay_open"),
            Stage::Resume => f.write_str("resume"),
        }
    }
}

impl Display for End {
    fn fmt(&self, f: &mut Formatter) -> fmt::Result {
        match self {
            End::Service {
                service,
                first,
                second,
                served,
            } => {
                write!(f, "service {service} {first} {second}")?;
                let Some(served) = served else {
                    return Ok(());
                };
                write!(f, " = {}", served.result)?;
                match &served.moved {
                    Some(words) => write!(f, " {}", List(words)),
                    None => Ok(()),
                }
            }
            End::Reply(status) => write!(f, "reply {status}"),
            End::Pause => f.write_str("pause"),
            End::Trap => f.write_str("trap"),
        }
    }
}

impl Display for Act {
    fn fmt(&self, f: &mut Formatter) -> fmt::Result {
        match self {
            Act::Load { block } => write!(f, "load {block}"),
            Act::Store { block, words } => write!(f, "store {block} {}", List(words)),
            Act::FailedLoad { block } => write!(f, "failed load {block}"),
            Act::FailedStore { block } => write!(f, "failed store {block}"),
            Act::Sent(frame) => write!(f, "sent {}", List(frame)),
            Act::Popped(frame) => write!(f, "popped {}", List(frame)),
            Act::Played {
                sample,
                rate,
                volume,
            } => write!(f, "played {sample} {rate} {volume}"),
            Act::Register { key, value } => write!(f, "register {key} {value}"),
        }
    }
}

impl Display for Released {
    fn fmt(&self, f: &mut Formatter) -> fmt::Result {
        match self {
            Released::Heap { start, length } => write!(f, "heap {start} {length}"),
            Released::Borrow { object, start } => write!(f, "borrow {object} {start}"),
            Released::Buffer { context, writable } => {
                write!(
                    f,
                    "buffer {context} {}",
                    if *writable { "write" } else { "read" }
                )
            }
        }
    }
}

impl Display for Failure {
    fn fmt(&self, f: &mut Formatter) -> fmt::Result {
        match self {
            Failure::Trap(trap) => write!(f, "trap {trap}"),
            Failure::BadParameter { service, argument } => {
                write!(f, "bad_param {service} {argument}")
            }
            Failure::TooManyCrossings => f.write_str("too_many_crossings"),
            Failure::BadReply(status) => write!(f, "bad_reply {status}"),
            Failure::BadInit(status) => write!(f, "bad_init {status}"),
        }
    }
}

impl Display for Trap {
    fn fmt(&self, f: &mut Formatter) -> fmt::Result {
        match self {
            Trap::BadOpcode => f.write_str("bad_opcode"),
            Trap::BadFetch => f.write_str("bad_fetch"),
            Trap::BadRead(address) => write!(f, "bad_read {address}"),
            Trap::ForeignWrite(address) => write!(f, "foreign_write {address}"),
            Trap::BadPort(port) => write!(f, "bad_port {port}"),
            Trap::Hang => f.write_str("hang"),
            Trap::Explicit => f.write_str("explicit"),
            Trap::Injected => f.write_str("injected"),
        }
    }
}
