//! What applications ask of a driver.

use crate::class::{Class, Entry};
use crate::journal::{Answer, Words};
use std::ops::Range;

pub const BLOCK_WORDS: usize = 16;

#[derive(Debug, PartialEq, Eq, Hash)]
pub enum Operation {
    Read { first: u32, count: u32 },
    Write { first: u32, data: Words },
    Send { frame: Words },
    Receive,
    Open,
    Play { samples: Words },
    Close,
    Get { key: u32 },
    Set { key: u32, value: u32 },
}

use Operation::*;

impl Operation {
    /// The answer to an operation that no driver sees, because it is not of the class or exceeds a limit.
    pub fn refusal(&self, class: Class, blocks: u32) -> Option<Answer> {
        if self.class().is_some_and(|own| own != class) {
            return Some(Answer::BadClass);
        }
        match self {
            Read { count, .. } if !(1..=8).contains(count) => Some(Answer::BadLength),
            Write { data, .. }
                if !(1..=8).contains(&(data.len() / BLOCK_WORDS))
                    || data.len() % BLOCK_WORDS != 0 =>
            {
                Some(Answer::BadLength)
            }
            Send { frame: words } | Play { samples: words } if !(1..=64).contains(&words.len()) => {
                Some(Answer::BadLength)
            }
            Read { .. } | Write { .. } if self.blocks().end > u64::from(blocks) => {
                Some(Answer::BadRange)
            }
            Get { key } | Set { key, .. } if *key > 3 => Some(Answer::BadKey),
            Set { key, value } if *value > class.maxima()[*key as usize] => Some(Answer::BadValue),
            _ => None,
        }
    }

    /// The class whose operation it is, None if it is of every class.
    fn class(&self) -> Option<Class> {
        match self {
            Read { .. } | Write { .. } => Some(Class::Block),
            Send { .. } | Receive => Some(Class::Net),
            Open | Play { .. } | Close => Some(Class::Sound),
            Get { .. } | Set { .. } => None,
        }
    }

    /// The blocks of a read or write.
    pub fn blocks(&self) -> Range<u64> {
        let (first, count) = match self {
            Read { first, count } => (*first, u64::from(*count)),
            Write { first, data } => (*first, (data.len() / BLOCK_WORDS) as u64),
            _ => (0, 0),
        };
        u64::from(first)..u64::from(first) + count
    }

    /// The words that a write has for a block.
    pub fn written(&self, block: u32) -> Option<&[u32]> {
        match self {
            Write { first, data } => data
                .chunks_exact(BLOCK_WORDS)
                .nth(block.checked_sub(*first)? as usize),
            _ => None,
        }
    }

    /// Whether it sets a register to a value.
    pub fn sets(&self, key: u32, value: u32) -> bool {
        matches!(self, Set { key: own, value: written } if *own == key && *written == value)
    }

    /// Whether two operations of one class must not be in the driver at the same time.
    pub fn conflicts_with(&self, other: &Operation) -> bool {
        match (self, other) {
            (Set { .. }, _) | (_, Set { .. }) => true,
            (Write { .. }, Read { .. } | Write { .. }) | (Read { .. }, Write { .. }) => {
                let (own, others) = (self.blocks(), other.blocks());
                own.start < others.end && others.start < own.end
            }
            (Receive, Receive) => true,
            (Open | Play { .. } | Close, Open | Play { .. } | Close) => true,
            _ => false,
        }
    }

    /// The driver's entry that serves it.
    pub fn entry(&self) -> Entry {
        match self {
            Read { .. } => Entry::Read,
            Write { .. } => Entry::Write,
            Send { .. } => Entry::Send,
            Receive => Entry::Poll,
            Open => Entry::Open,
            Play { .. } => Entry::Play,
            Close => Entry::Close,
            Get { .. } => Entry::Get,
            Set { .. } => Entry::Set,
        }
    }

    /// The contents of the buffer that is lent to the driver, and whether it may write there. None without a buffer.
    pub fn buffer(&self) -> Option<(&[u32], bool)> {
        match self {
            Read { .. } | Get { .. } => Some((&[], true)),
            Write { data: words, .. } | Send { frame: words } | Play { samples: words } => {
                Some((words, false))
            }
            Receive | Open | Close | Set { .. } => None,
        }
    }

    /// Registers 1 and 2 at the entry.
    pub fn arguments(&self) -> (u32, u32) {
        match self {
            Read { first, count } => (*first, *count),
            Write { first, data } => (*first, (data.len() / BLOCK_WORDS) as u32),
            Send { frame: words } | Play { samples: words } => (0, words.len() as u32),
            Get { key } => (*key, 0),
            Set { key, value } => (*key, *value),
            Receive | Open | Close => (0, 0),
        }
    }
}
