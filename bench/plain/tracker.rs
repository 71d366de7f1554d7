//! The kernel's resources that a driver holds.

use crate::journal::Released;
use crate::memory::{CONTEXTS, DATA_START, DATA_WORDS, OBJECTS, OBJECT_WORDS};
use std::collections::BTreeMap;

const HEAP_END: u32 = DATA_START + DATA_WORDS;

/// How many runs of the heap may be taken at once.
const MOST_RUNS: usize = 64;

#[derive(Clone, PartialEq, Eq, Hash)]
pub struct Tracker {
    heap_start: u32,
    /// The runs of the heap that are taken, by their starts.
    runs: BTreeMap<u32, Run>,
    /// The address of each borrowed object's copy.
    borrowed: [Option<u32>; OBJECTS as usize],
    /// The buffers that are lent, and whether for writing.
    buffers: [Option<bool>; CONTEXTS],
    registered: bool,
}

#[derive(Clone, PartialEq, Eq, Hash)]
struct Run {
    length: u32,
    /// Whether it is the copy of an object.
    is_copy: bool,
}

impl Tracker {
    pub fn new(heap_start: u32) -> Tracker {
        Tracker {
            heap_start,
            runs: BTreeMap::new(),
            borrowed: [None; OBJECTS as usize],
            buffers: [None; CONTEXTS],
            registered: false,
        }
    }

    /// Takes the lowest run of free words.
    pub fn allocate(&mut self, length: u32) -> Option<u32> {
        self.take(length, false)
    }

    fn take(&mut self, length: u32, is_copy: bool) -> Option<u32> {
        if self.runs.len() == MOST_RUNS {
            return None;
        }
        let start = self.lowest_gap(length)?;
        self.runs.insert(start, Run { length, is_copy });
        Some(start)
    }

    fn lowest_gap(&self, length: u32) -> Option<u32> {
        let mut start = self.heap_start;
        for (next, run) in &self.runs {
            if next - start >= length {
                return Some(start);
            }
            start = next + run.length;
        }
        (HEAP_END - start >= length).then_some(start)
    }

    pub fn is_allocated(&self, start: u32) -> bool {
        self.runs.get(&start).is_some_and(|run| !run.is_copy)
    }

    pub fn free(&mut self, start: u32) {
        self.runs.remove(&start);
    }

    pub fn is_borrowed(&self, object: u32) -> bool {
        self.borrowed
            .get(object as usize)
            .is_some_and(Option::is_some)
    }

    /// Takes room for the copy of an object.
    pub fn borrow(&mut self, object: u32) -> Option<u32> {
        let start = self.take(OBJECT_WORDS as u32, true);
        self.borrowed[object as usize] = start;
        start
    }

    /// The address of the copy that is given back, None if the object is not borrowed.
    pub fn give_back(&mut self, object: u32) -> Option<u32> {
        let start = self.borrowed.get_mut(object as usize)?.take()?;
        self.runs.remove(&start);
        Some(start)
    }

    pub fn begin_buffer(&mut self, context: usize, writable: bool) {
        self.buffers[context] = Some(writable);
    }

    pub fn end_buffer(&mut self, context: usize) {
        self.buffers[context] = None;
    }

    pub fn is_registered(&self) -> bool {
        self.registered
    }

    pub fn set_registered(&mut self, registered: bool) {
        self.registered = registered;
    }

    /// Takes everything back but the registration.
    pub fn collect(&mut self) -> Vec<Released> {
        let heap = std::mem::take(&mut self.runs)
            .into_iter()
            .filter(|(_, run)| !run.is_copy);
        let borrowed = std::mem::take(&mut self.borrowed).into_iter().enumerate();
        let buffers = std::mem::take(&mut self.buffers).into_iter().enumerate();
        heap.map(|(start, run)| Released::Heap {
            start,
            length: run.length,
        })
        .chain(borrowed.filter_map(|(object, start)| {
            Some(Released::Borrow {
                object: object as u32,
                start: start?,
            })
        }))
        .chain(buffers.filter_map(|(context, writable)| {
            Some(Released::Buffer {
                context,
                writable: writable?,
            })
        }))
        .collect()
    }
}
