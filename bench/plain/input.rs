//! What is read from standard input.

use crate::refusal::{Cause, Refusal};
use crate::Stop;
use std::fs::File;
use std::io::{self, Read};
use std::os::fd::AsFd;

/// The longest scenario, campaign, image or assembler text.
pub const LONGEST: usize = 1_048_576;

/// The whole input, which has at most this many bytes.
pub fn read(most: usize) -> Result<Vec<u8>, Stop> {
    let input = read_front(most + 1).map_err(|_| Stop::ReadFault)?;
    if input.len() > most {
        Refusal::here(Cause::TooMany)?;
    }
    Ok(input)
}

/// The input up to this many bytes. The library's own standard input takes one that cannot be read for an empty one.
fn read_front(most: usize) -> io::Result<Vec<u8>> {
    let mut input = Vec::new();
    let file = File::from(io::stdin().as_fd().try_clone_to_owned()?);
    file.take(most as u64).read_to_end(&mut input)?;
    Ok(input)
}
