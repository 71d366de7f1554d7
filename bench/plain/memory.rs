//! A part's memory: the driver's text, data, stacks and buffers, then the kernel's objects.

use crate::image::Image;

pub const CONTEXTS: usize = 17;
pub const TEXT_WORDS: u32 = 2_048;
pub const DATA_START: u32 = 2_048;
pub const DATA_WORDS: u32 = 2_048;
pub const OBJECT_WORDS: usize = 64;
pub const OBJECTS: u32 = 13;
pub const BUFFER_WORDS: usize = 128;

const WORDS: usize = 8_192;
const STACKS: u32 = 4_096;
const BUFFERS: u32 = 5_184;
const KERNEL: u32 = 7_360;

/// How many words are compared at a time.
const LINE: usize = 64;

/// The differences of a memory from another one.
#[derive(PartialEq, Eq, Hash)]
pub struct Changes {
    words: Box<[ChangedWord]>,
    /// Whether the buffer of a context is lent for writing.
    lent: [bool; CONTEXTS],
}

#[derive(Clone, Copy, PartialEq, Eq, Hash)]
pub struct ChangedWord {
    address: u32,
    word: u32,
}

impl Changes {
    /// The changed words of the kernel's objects, but for the one that is the kernel's own.
    pub fn of_objects(&self) -> &[ChangedWord] {
        let start = Memory::object_start(1);
        let first = self
            .words
            .partition_point(|changed| changed.address < start);
        &self.words[first..]
    }
}

#[derive(Clone)]
pub struct Memory {
    words: [u32; WORDS],
    /// Whether the buffer of a context is lent for writing.
    lent: [bool; CONTEXTS],
}

impl Memory {
    pub fn new() -> Memory {
        let mut memory = Memory {
            words: [0; WORDS],
            lent: [false; CONTEXTS],
        };
        for object in 1..OBJECTS {
            memory.object_mut(object)[0] = object;
        }
        memory
    }

    /// Loads an image, and writes zeros everywhere else but in the kernel's objects.
    pub fn load(&mut self, image: &Image) {
        self.words[..KERNEL as usize].fill(0);
        self.words[..image.text.len()].copy_from_slice(&image.text);
        self.words[DATA_START as usize..][..image.data.len()].copy_from_slice(&image.data);
    }

    /// Its differences from a base.
    pub fn changes_from(&self, base: &Memory) -> Changes {
        let lines = self.words.chunks(LINE).zip(base.words.chunks(LINE));
        let changed = lines
            .enumerate()
            .filter(|(_, (own, others))| own != others)
            .flat_map(|(line, (own, others))| changed_words(line * LINE, own, others));
        Changes {
            words: changed.collect(),
            lent: self.lent,
        }
    }

    /// The memory that differs from a base by these changes.
    pub fn with_changes(base: &Memory, changes: &Changes) -> Memory {
        let mut memory = base.clone();
        memory.lent = changes.lent;
        for ChangedWord { address, word } in &changes.words {
            memory.words[*address as usize] = *word;
        }
        memory
    }

    pub fn fetch(&self, address: u32) -> Option<u32> {
        self.words[..TEXT_WORDS as usize]
            .get(address as usize)
            .copied()
    }

    pub fn read(&self, address: u32) -> Option<u32> {
        self.words.get(address as usize).copied()
    }

    /// Writes a word for the driver, and returns whether the driver may write it.
    pub fn write(&mut self, address: u32, word: u32) -> bool {
        let may = match address {
            DATA_START..BUFFERS => true,
            BUFFERS..KERNEL => self.lent[(address - BUFFERS) as usize / BUFFER_WORDS],
            _ => false,
        };
        if may {
            self.words[address as usize] = word;
        }
        may
    }

    /// Changes a word of the text, and returns whether the address is one of the text.
    pub fn patch(&mut self, address: u32, word: u32) -> bool {
        let is_text = address < TEXT_WORDS;
        if is_text {
            self.words[address as usize] = word;
        }
        is_text
    }

    pub fn stack_end(context: usize) -> u32 {
        STACKS + (context as u32 + 1) * 64
    }

    pub fn buffer_start(context: usize) -> u32 {
        BUFFERS + context as u32 * BUFFER_WORDS as u32
    }

    pub fn buffer(&self, context: usize) -> &[u32] {
        self.slice(Memory::buffer_start(context), BUFFER_WORDS)
    }

    /// Fills a context's buffer with words and then zeros, and lends it.
    pub fn lend(&mut self, context: usize, words: &[u32], writable: bool) {
        let start = Memory::buffer_start(context) as usize;
        let buffer = &mut self.words[start..start + BUFFER_WORDS];
        buffer[..words.len()].copy_from_slice(words);
        buffer[words.len()..].fill(0);
        self.lent[context] = writable;
    }

    pub fn take_back(&mut self, context: usize) {
        self.lent[context] = false;
    }

    pub fn take_back_all(&mut self) {
        self.lent = [false; CONTEXTS];
    }

    pub fn slice(&self, start: u32, length: usize) -> &[u32] {
        &self.words[start as usize..start as usize + length]
    }

    pub fn object(&self, object: u32) -> &[u32] {
        self.slice(Memory::object_start(object), OBJECT_WORDS)
    }

    pub fn object_mut(&mut self, object: u32) -> &mut [u32] {
        let start = Memory::object_start(object) as usize;
        &mut self.words[start..start + OBJECT_WORDS]
    }

    /// Whether an object is as it was at first.
    pub fn is_untouched(&self, object: u32) -> bool {
        let words = self.object(object);
        words[0] == object && words[1..].iter().all(|word| *word == 0)
    }

    /// Gives the driver a copy of an object.
    pub fn copy_out(&mut self, object: u32, start: u32) {
        let from = Memory::object_start(object) as usize;
        self.words
            .copy_within(from..from + OBJECT_WORDS, start as usize);
    }

    /// Takes an object's copy back from the driver.
    pub fn copy_back(&mut self, object: u32, start: u32) {
        let from = start as usize;
        self.words.copy_within(
            from..from + OBJECT_WORDS,
            Memory::object_start(object) as usize,
        );
    }

    /// Whether a driver could write all of a range if everything were lent.
    pub fn is_drivers(start: u32, length: u32) -> bool {
        start >= DATA_START && u64::from(start) + u64::from(length) <= u64::from(KERNEL)
    }

    fn object_start(object: u32) -> u32 {
        KERNEL + object * OBJECT_WORDS as u32
    }
}

/// The words of a line of memory that differ from those of another one.
fn changed_words<'m>(
    start: usize,
    own: &'m [u32],
    others: &'m [u32],
) -> impl Iterator<Item = ChangedWord> + 'm {
    let pairs = own.iter().zip(others).enumerate();
    pairs
        .filter(|(_, (own, other))| own != other)
        .map(move |(index, (word, _))| ChangedWord {
            address: (start + index) as u32,
            word: *word,
        })
}
