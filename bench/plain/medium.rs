//! The contents of a disk.

use crate::journal::Words;
use crate::operation::BLOCK_WORDS;
use std::collections::BTreeMap;

const ZEROS: &[u32] = &[0; BLOCK_WORDS];

/// The blocks of a disk. Only those with a word that is not 0 are held, so equal media are equal values.
#[derive(Clone, Default, PartialEq, Eq, Hash)]
pub struct Medium {
    blocks: BTreeMap<u32, Words>,
}

impl Medium {
    pub fn block(&self, block: u32) -> &[u32] {
        self.blocks.get(&block).map_or(ZEROS, |words| &words[..])
    }

    pub fn store(&mut self, block: u32, words: Words) {
        if words[..] == *ZEROS {
            self.blocks.remove(&block);
        } else {
            self.blocks.insert(block, words);
        }
    }

    /// The blocks that are not all zeros, by rising number.
    pub fn blocks(&self) -> impl Iterator<Item = (u32, &[u32])> {
        self.blocks
            .iter()
            .map(|(block, words)| (*block, &words[..]))
    }
}
