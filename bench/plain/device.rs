//! The devices, as their drivers see them.

use crate::class::Class;
use crate::journal::{Act, Words};
use crate::medium::Medium;
use crate::operation::BLOCK_WORDS;
use crate::scenario::PartSpec;
use std::collections::{BTreeMap, VecDeque};

/// The port of register 0.
const FIRST_REGISTER: u32 = 8;

const LONGEST_FRAME: usize = 64;
const RING_FRAMES: usize = 16;

/// The port cannot be written.
pub struct NoSuchPort;

#[derive(Clone, PartialEq, Eq, Hash)]
pub struct Device {
    class: Class,
    registers: [u32; 4],
    kind: Kind,
}

#[derive(Clone, PartialEq, Eq, Hash)]
enum Kind {
    Disk(Disk),
    Net(Box<Net>),
    Sound,
}

#[derive(Clone, PartialEq, Eq, Hash)]
struct Disk {
    blocks: u32,
    medium: Medium,
    /// Of each bad block, how many more commands it takes before it fails.
    good_for: BTreeMap<u32, u32>,
    block: u32,
    buffer: [u32; BLOCK_WORDS],
    position: usize,
    status: u32,
}

#[derive(Clone, PartialEq, Eq, Hash)]
struct Net {
    length: u32,
    buffer: [u32; LONGEST_FRAME],
    position: usize,
    ring: VecDeque<Words>,
    received: usize,
}

impl Device {
    pub fn new(spec: &PartSpec) -> Device {
        let kind = match spec.class {
            Class::Block => Kind::Disk(Disk::new(spec)),
            Class::Net => Kind::Net(Box::new(Net::new())),
            Class::Sound => Kind::Sound,
        };
        Device {
            class: spec.class,
            registers: spec.class.defaults(),
            kind,
        }
    }

    /// The contents of a disk.
    pub fn medium(&self) -> Option<&Medium> {
        match &self.kind {
            Kind::Disk(disk) => Some(&disk.medium),
            _ => None,
        }
    }

    pub fn reset(&mut self) {
        self.registers = self.class.defaults();
        match &mut self.kind {
            Kind::Disk(disk) => disk.reset(),
            Kind::Net(net) => **net = Net::new(),
            Kind::Sound => {}
        }
    }

    /// A frame arrives. It is lost if the ring is full.
    pub fn arrive(&mut self, frame: Words) -> bool {
        match &mut self.kind {
            Kind::Net(net) if net.ring.len() < RING_FRAMES => {
                net.ring.push_back(frame);
                true
            }
            _ => false,
        }
    }

    /// The word at a port, None if it cannot be read.
    pub fn input(&mut self, port: u32) -> Option<u32> {
        match (&mut self.kind, port) {
            (_, FIRST_REGISTER..12) => Some(self.registers[(port - FIRST_REGISTER) as usize]),
            (Kind::Disk(disk), 1) => Some(disk.block),
            (Kind::Disk(disk), 2) => Some(*disk.buffer_word()),
            (Kind::Disk(disk), 3) => Some(disk.status),
            (Kind::Net(net), 1) => Some(net.length),
            (Kind::Net(net), 3) => Some(net.ring.front().map_or(0, |head| head.len() as u32)),
            (Kind::Net(net), 4) => Some(net.next_received()),
            _ => None,
        }
    }

    /// Writes a word to a port, and returns the act that this makes.
    pub fn output(&mut self, port: u32, word: u32) -> Result<Option<Act>, NoSuchPort> {
        match (&mut self.kind, port) {
            (_, FIRST_REGISTER..12) => {
                let key = port - FIRST_REGISTER;
                self.registers[key as usize] = word;
                return Ok(Some(Act::Register { key, value: word }));
            }
            (Kind::Disk(disk), 0) => return Ok(disk.command(word)),
            (Kind::Disk(disk), 1) => {
                disk.block = word;
                disk.position = 0;
            }
            (Kind::Disk(disk), 2) => *disk.buffer_word() = word,
            (Kind::Net(net), 0) => return Ok(net.command(word)),
            (Kind::Net(net), 1) => {
                net.length = word;
                net.buffer = [0; LONGEST_FRAME];
                net.position = 0;
            }
            (Kind::Net(net), 2) => net.add(word),
            (Kind::Sound, 0) => {
                let [rate, volume, ..] = self.registers;
                return Ok(Some(Act::Played {
                    sample: word,
                    rate,
                    volume,
                }));
            }
            _ => return Err(NoSuchPort),
        }
        Ok(None)
    }
}

impl Disk {
    fn new(spec: &PartSpec) -> Disk {
        let mut good_for = BTreeMap::new();
        for bad in &spec.bad {
            let least = good_for.entry(bad.block).or_insert(bad.after);
            *least = bad.after.min(*least);
        }
        Disk {
            blocks: spec.blocks,
            medium: Medium::default(),
            good_for,
            block: 0,
            buffer: [0; BLOCK_WORDS],
            position: 0,
            status: 0,
        }
    }

    fn reset(&mut self) {
        self.block = 0;
        self.buffer = [0; BLOCK_WORDS];
        self.position = 0;
        self.status = 0;
    }

    /// The word at the position, which advances.
    fn buffer_word(&mut self) -> &mut u32 {
        let position = self.position;
        self.position = (position + 1) % BLOCK_WORDS;
        &mut self.buffer[position]
    }

    /// Loads (1) or stores (2) the block that the register names.
    fn command(&mut self, word: u32) -> Option<Act> {
        let block = self.block;
        if !matches!(word, 1 | 2) || block >= self.blocks {
            return None;
        }
        let fails = self.fails(block);
        self.position = 0;
        self.status = u32::from(fails);
        Some(match (fails, word) {
            (false, 1) => {
                self.buffer.copy_from_slice(self.medium.block(block));
                Act::Load { block }
            }
            (false, _) => {
                let words: Words = self.buffer.into();
                self.medium.store(block, words.clone());
                Act::Store { block, words }
            }
            (true, 1) => Act::FailedLoad { block },
            (true, _) => Act::FailedStore { block },
        })
    }

    /// Counts a command to a block, and returns whether that fails.
    fn fails(&mut self, block: u32) -> bool {
        match self.good_for.get_mut(&block) {
            None => false,
            Some(0) => true,
            Some(left) => {
                *left -= 1;
                false
            }
        }
    }
}

impl Net {
    fn new() -> Net {
        Net {
            length: 0,
            buffer: [0; LONGEST_FRAME],
            position: 0,
            ring: VecDeque::new(),
            received: 0,
        }
    }

    /// Sends the buffer (1), or drops the ring's head (2).
    fn command(&mut self, word: u32) -> Option<Act> {
        match word {
            1 if (1..=LONGEST_FRAME).contains(&(self.length as usize)) => {
                Some(Act::Sent(self.buffer[..self.length as usize].into()))
            }
            2 => {
                let head = self.ring.pop_front()?;
                self.received = 0;
                Some(Act::Popped(head))
            }
            _ => None,
        }
    }

    /// Adds a word to what is to be sent.
    fn add(&mut self, word: u32) {
        if let Some(slot) = self.buffer.get_mut(self.position) {
            *slot = word;
            self.position += 1;
        }
    }

    /// The next word of the ring's head, 0 after its end.
    fn next_received(&mut self) -> u32 {
        match self.ring.front().and_then(|head| head.get(self.received)) {
            Some(word) => {
                self.received += 1;
                *word
            }
            None => 0,
        }
    }
}
