//! Refused inputs, and the line that says why and where.

use std::fmt::{self, Display, Formatter};

/// What is wrong with an input.
#[derive(Clone, Copy, PartialEq, Eq, Debug)]
pub enum Cause {
    NotJson,
    UnknownKey,
    MissingKey,
    WrongKind,
    NumberRange,
    TooMany,
    BadImage,
    BadAssembler(TextFault),
    BadClass,
    DoubleName,
    BadHeader,
    NotMirror,
    NoSuchBurst,
}

impl Cause {
    fn number_and_name(self) -> (u8, &'static str) {
        match self {
            Cause::NotJson => (1, "not_json"),
            Cause::UnknownKey => (2, "unknown_key"),
            Cause::MissingKey => (3, "missing_key"),
            Cause::WrongKind => (4, "wrong_kind"),
            Cause::NumberRange => (5, "number_range"),
            Cause::TooMany => (6, "too_many"),
            Cause::BadImage => (7, "bad_image"),
            Cause::BadAssembler(_) => (8, "bad_asm"),
            Cause::BadClass => (9, "bad_class"),
            Cause::DoubleName => (10, "double_name"),
            Cause::BadHeader => (12, "bad_header"),
            Cause::NotMirror => (13, "not_mirror"),
            Cause::NoSuchBurst => (14, "no_such_burst"),
        }
    }
}

/// The first fault of an assembler text, and its line, counted from 1.
#[derive(Clone, Copy, PartialEq, Eq, Debug)]
pub struct TextFault {
    pub kind: TextFaultKind,
    pub line: usize,
}

/// The kinds of fault of an assembler text. If a line has several, the first of this list is reported.
#[derive(Clone, Copy, PartialEq, Eq, PartialOrd, Ord, Debug)]
pub enum TextFaultKind {
    BadToken = 1,
    UnknownName,
    WrongOperands,
    NumberRange,
    DoubleLabel,
    MissingLabel,
    TextTooLong,
    DataTooLong,
    MissingEntry,
}

/// A cause, and the path to the value that has it.
#[derive(Debug)]
pub struct Refusal {
    cause: Cause,
    /// Keys and indices, the innermost first: each reader adds its own on the way out.
    steps: Vec<String>,
}

/// What a reader returns. The refusal is boxed, because nearly every value is read without one.
pub type Read<T> = Result<T, Box<Refusal>>;

impl Refusal {
    /// A fault of the value that is being read.
    pub fn here<T>(cause: Cause) -> Read<T> {
        Err(Box::new(Refusal {
            cause,
            steps: Vec::new(),
        }))
    }
}

/// Adds the outer part of a path to a refusal.
pub trait Within {
    /// The same, if it is a refusal then of a value at this key or index.
    fn within(self, step: impl Display) -> Self;
}

impl<T> Within for Read<T> {
    #[inline]
    fn within(self, step: impl Display) -> Read<T> {
        self.map_err(|mut refusal| {
            refusal.steps.push(step.to_string());
            refusal
        })
    }
}

impl Display for Refusal {
    fn fmt(&self, f: &mut Formatter) -> fmt::Result {
        let (number, name) = self.cause.number_and_name();
        write!(f, "fault {number} {name} ")?;
        if let Cause::BadAssembler(fault) = self.cause {
            write!(f, "{} line {} ", fault.kind as u8, fault.line)?;
        }
        let steps: Vec<&str> = self.steps.iter().rev().map(String::as_str).collect();
        write!(f, "/{}", steps.join("/"))
    }
}
