//! Reads values from JSON: each check that fails is a refusal with the value's path.

use crate::json::Value;
use crate::refusal::{Cause, Read, Refusal, Within};
use std::borrow::Cow;
use std::ops::RangeInclusive;

/// The range of a machine word.
pub const WORD: RangeInclusive<u64> = 0..=u32::MAX as u64;

/// The kinds of an object: the name of each, and the keys that only some kinds have.
pub type Rows = &'static [(&'static str, &'static [&'static str])];

/// The fields of an object. If a key comes twice, the last one counts.
pub struct Object<'v> {
    fields: &'v [(Cow<'v, str>, Value<'v>)],
}

impl<'v> Object<'v> {
    /// An object with any keys.
    pub fn any(value: &'v Value) -> Read<Object<'v>> {
        match value {
            Value::Object(fields) => Ok(Object { fields }),
            _ => Refusal::here(Cause::WrongKind),
        }
    }

    /// An object that has no keys but these.
    pub fn with_keys(value: &'v Value, keys: &[&str]) -> Read<Object<'v>> {
        let object = Object::any(value)?;
        object.expect_keys(&[keys])?;
        Ok(object)
    }

    /// Refuses a key that none of some lists has.
    pub fn expect_keys(&self, lists: &[&[&str]]) -> Read<()> {
        let is_known =
            |(key, _): &(Cow<str>, _)| lists.iter().any(|keys| keys.contains(&key.as_ref()));
        if self.fields.iter().all(is_known) {
            Ok(())
        } else {
            Refusal::here(Cause::UnknownKey)
        }
    }

    /// The name at a key, which decides which keys the object has in addition to it and those of every kind.
    pub fn kind(&self, key: &str, of_every: &[&str], rows: Rows) -> Read<&'static str> {
        let (name, own) = self.required(key, |value| {
            let name = text(value)?;
            match rows.iter().find(|row| row.0 == name) {
                Some(row) => Ok(row),
                None => Refusal::here(Cause::WrongKind),
            }
        })?;
        self.expect_keys(&[&[key], of_every, own])?;
        Ok(name)
    }

    pub fn has(&self, key: &str) -> bool {
        self.get(key).is_some()
    }

    fn get(&self, key: &str) -> Option<&'v Value<'v>> {
        self.fields
            .iter()
            .rfind(|(own, _)| own == key)
            .map(|(_, value)| value)
    }

    /// The value at a key.
    pub fn required<T>(&self, key: &str, read: impl FnOnce(&'v Value<'v>) -> Read<T>) -> Read<T> {
        match self.get(key) {
            Some(value) => read(value).within(key),
            None => Refusal::here(Cause::MissingKey).within(key),
        }
    }

    /// The value at a key, or the default if there is no such key.
    pub fn optional<T: Default>(
        &self,
        key: &str,
        read: impl FnOnce(&'v Value<'v>) -> Read<T>,
    ) -> Read<T> {
        self.get(key)
            .map_or_else(|| Ok(T::default()), |value| read(value).within(key))
    }

    pub fn number(&self, key: &str, range: RangeInclusive<u64>) -> Read<u64> {
        self.required(key, |value| number(value, range))
    }

    pub fn word(&self, key: &str) -> Read<u32> {
        self.required(key, word)
    }
}

pub fn number(value: &Value, range: RangeInclusive<u64>) -> Read<u64> {
    match value {
        Value::Whole(number) if range.contains(number) => Ok(*number),
        Value::Whole(_) => Refusal::here(Cause::NumberRange),
        _ => Refusal::here(Cause::WrongKind),
    }
}

pub fn word(value: &Value) -> Read<u32> {
    Ok(number(value, WORD)? as u32)
}

pub fn text<'v>(value: &'v Value) -> Read<&'v str> {
    match value {
        Value::Text(text) => Ok(text),
        _ => Refusal::here(Cause::WrongKind),
    }
}

pub fn truth(value: &Value) -> Read<bool> {
    match value {
        Value::Bool(truth) => Ok(*truth),
        _ => Refusal::here(Cause::WrongKind),
    }
}

/// A list of at most this length.
pub fn items<'v>(value: &'v Value, most: usize) -> Read<&'v [Value<'v>]> {
    match value {
        Value::List(items) if items.len() <= most => Ok(items),
        Value::List(_) => Refusal::here(Cause::TooMany),
        _ => Refusal::here(Cause::WrongKind),
    }
}

/// A list of at most this length that is not empty.
pub fn some_items<'v>(value: &'v Value, most: usize) -> Read<&'v [Value<'v>]> {
    match items(value, most)? {
        [] => Refusal::here(Cause::NumberRange),
        items => Ok(items),
    }
}

/// Reads each item of a list.
pub fn each<'v, T, C: FromIterator<T>>(
    items: &'v [Value<'v>],
    mut read: impl FnMut(&'v Value<'v>) -> Read<T>,
) -> Read<C> {
    items
        .iter()
        .enumerate()
        .map(|(index, item)| read(item).within(index))
        .collect()
}
