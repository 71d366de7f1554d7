//! Drivers as images: how they are read from JSON and written to it.

use crate::class::Class;
use crate::fields::{each, items, number, text, Object};
use crate::json::Value;
use crate::memory::{DATA_WORDS, TEXT_WORDS};
use crate::refusal::{Cause, Read, Refusal};
use std::fmt::{self, Display, Formatter};

/// A driver's program.
pub struct Image {
    pub class: Class,
    /// In the order of the class's entries.
    pub entries: Vec<u32>,
    pub text: Vec<u32>,
    pub data: Vec<u32>,
}

pub fn read(value: &Value) -> Read<Image> {
    let fields = Object::with_keys(value, &["class", "data", "entries", "text"])?;
    let class = fields.required("class", read_class)?;
    Ok(Image {
        class,
        data: fields.required("data", |value| read_words(value, DATA_WORDS))?,
        entries: fields.required("entries", |value| read_entries(value, class))?,
        text: fields.required("text", |value| read_words(value, TEXT_WORDS))?,
    })
}

pub fn read_class(value: &Value) -> Read<Class> {
    match Class::from_name(text(value)?) {
        Some(class) => Ok(class),
        None => Refusal::here(Cause::BadClass),
    }
}

fn read_entries(value: &Value, class: Class) -> Read<Vec<u32>> {
    let names: Vec<&str> = class.entries().iter().map(|entry| entry.name()).collect();
    let entries = Object::with_keys(value, &names)?;
    let address = |value| Ok(number(value, 0..=u64::from(TEXT_WORDS) - 1)? as u32);
    names
        .iter()
        .map(|name| entries.required(name, address))
        .collect()
}

fn read_words(value: &Value, most: u32) -> Read<Vec<u32>> {
    each(items(value, most as usize)?, read_hexadecimal)
}

/// A word as eight hexadecimal digits.
fn read_hexadecimal(value: &Value) -> Read<u32> {
    let digits = text(value)?;
    let is_word = digits.len() == 8 && digits.bytes().all(|digit| digit.is_ascii_hexdigit());
    match u32::from_str_radix(digits, 16) {
        Ok(word) if is_word => Ok(word),
        _ => Refusal::here(Cause::BadImage),
    }
}

/// Compact JSON, with the keys in the order of their bytes.
impl Display for Image {
    fn fmt(&self, f: &mut Formatter) -> fmt::Result {
        write!(f, r#"{{"class":"{}","data":["#, self.class.name())?;
        write_words(&self.data, f)?;
        f.write_str(r#"],"entries":{"#)?;
        let names = self.class.entries().iter().map(|entry| entry.name());
        let mut entries: Vec<(&str, &u32)> = names.zip(&self.entries).collect();
        entries.sort_unstable();
        for (index, (name, address)) in entries.into_iter().enumerate() {
            let comma = if index > 0 { "," } else { "" };
            write!(f, r#"{comma}"{name}":{address}"#)?;
        }
        f.write_str(r#"},"text":["#)?;
        write_words(&self.text, f)?;
        f.write_str("]}")
    }
}

fn write_words(words: &[u32], f: &mut Formatter) -> fmt::Result {
    for (index, word) in words.iter().enumerate() {
        let comma = if index > 0 { "," } else { "" };
        write!(f, r#"{comma}"{word:08x}""#)?;
    }
    Ok(())
}
