//! What an image has, as text: in assembler, or word by word with the lines that made them.

use crate::assembler::Assembled;
use crate::image::Image;
use crate::instructions::Instruction;
use crate::memory::DATA_START;
use std::io::{self, Write};

/// Writes an image as assembler text.
pub fn write_text(image: &Image, out: &mut impl Write) -> io::Result<()> {
    writeln!(out, ".class {}", image.class.name())?;
    for (entry, address) in image.class.entries().iter().zip(&image.entries) {
        writeln!(out, ".entry {} {address}", entry.name())?;
    }
    for word in &image.text {
        writeln!(out, "{}", Instruction(*word))?;
    }
    if !image.data.is_empty() {
        writeln!(out, ".data")?;
    }
    for word in &image.data {
        writeln!(out, ".word {word}")?;
    }
    Ok(())
}

/// Writes each word of an assembled text with its address and line, then the labels and the entries.
pub fn write_list(assembled: &Assembled, out: &mut impl Write) -> io::Result<()> {
    let image = &assembled.image;
    let text = image.text.iter().zip(&assembled.text_lines);
    for (address, (word, line)) in text.enumerate() {
        writeln!(out, "{address} {word:08x} {line} {}", Instruction(*word))?;
    }
    let data = image.data.iter().zip(&assembled.data_lines);
    for (address, (word, line)) in (DATA_START..).zip(data) {
        writeln!(out, "{address} {word:08x} {line} .word {word}")?;
    }
    for (label, address) in &assembled.labels {
        writeln!(out, "label {label} {address}")?;
    }
    for (entry, address) in image.class.entries().iter().zip(&image.entries) {
        writeln!(out, "entry {} {address}", entry.name())?;
    }
    Ok(())
}
