//! A reader of JSON.

use crate::refusal::{Cause, Read, Refusal};
use std::borrow::Cow;

/// How deeply lists and objects may be nested.
const DEEPEST: usize = 127;

pub enum Value<'t> {
    Null,
    Bool(bool),
    /// A whole number that is not negative.
    Whole(u64),
    OtherNumber,
    Text(Cow<'t, str>),
    List(Vec<Value<'t>>),
    Object(Vec<(Cow<'t, str>, Value<'t>)>),
}

/// Reads a text that is one value.
pub fn read(input: &[u8]) -> Read<Value<'_>> {
    match std::str::from_utf8(input).ok().map(parse) {
        Some(Ok(value)) => Ok(value),
        _ => Refusal::here(Cause::NotJson),
    }
}

/// The text is no JSON.
struct NotJson;

fn parse(text: &str) -> Result<Value<'_>, NotJson> {
    let mut parser = Parser { text, offset: 0 };
    let value = parser.value(0)?;
    parser.skip_space();
    match parser.peek() {
        None => Ok(value),
        Some(_) => Err(NotJson),
    }
}

struct Parser<'t> {
    text: &'t str,
    offset: usize,
}

impl<'t> Parser<'t> {
    fn peek(&self) -> Option<u8> {
        self.text.as_bytes().get(self.offset).copied()
    }

    fn skip_space(&mut self) {
        while matches!(self.peek(), Some(b' ' | b'\t' | b'\n' | b'\r')) {
            self.offset += 1;
        }
    }

    /// Steps over a byte if it is the next one.
    fn eat(&mut self, byte: u8) -> bool {
        let there = self.peek() == Some(byte);
        self.offset += usize::from(there);
        there
    }

    fn expect(&mut self, byte: u8) -> Result<(), NotJson> {
        if self.eat(byte) {
            Ok(())
        } else {
            Err(NotJson)
        }
    }

    fn value(&mut self, depth: usize) -> Result<Value<'t>, NotJson> {
        self.skip_space();
        match self.peek() {
            Some(b'{') if depth < DEEPEST => self.object(depth + 1),
            Some(b'[') if depth < DEEPEST => self.list(depth + 1),
            Some(b'"') => Ok(Value::Text(self.string()?)),
            Some(b'n') => self.word("null", Value::Null),
            Some(b't') => self.word("true", Value::Bool(true)),
            Some(b'f') => self.word("false", Value::Bool(false)),
            Some(b'-' | b'0'..=b'9') => self.number(),
            _ => Err(NotJson),
        }
    }

    fn word(&mut self, word: &str, value: Value<'t>) -> Result<Value<'t>, NotJson> {
        if !self.text[self.offset..].starts_with(word) {
            return Err(NotJson);
        }
        self.offset += word.len();
        Ok(value)
    }

    fn list(&mut self, depth: usize) -> Result<Value<'t>, NotJson> {
        self.offset += 1;
        let mut items = Vec::new();
        self.skip_space();
        if self.eat(b']') {
            return Ok(Value::List(items));
        }
        loop {
            items.push(self.value(depth)?);
            self.skip_space();
            if !self.eat(b',') {
                self.expect(b']')?;
                return Ok(Value::List(items));
            }
        }
    }

    fn object(&mut self, depth: usize) -> Result<Value<'t>, NotJson> {
        self.offset += 1;
        let mut fields = Vec::new();
        self.skip_space();
        if self.eat(b'}') {
            return Ok(Value::Object(fields));
        }
        loop {
            self.skip_space();
            let key = self.string()?;
            self.skip_space();
            self.expect(b':')?;
            fields.push((key, self.value(depth)?));
            self.skip_space();
            if !self.eat(b',') {
                self.expect(b'}')?;
                return Ok(Value::Object(fields));
            }
        }
    }

    /// Steps over the next digits, of which there is at least one.
    fn digits(&mut self) -> Result<(), NotJson> {
        let start = self.offset;
        while matches!(self.peek(), Some(b'0'..=b'9')) {
            self.offset += 1;
        }
        if self.offset == start {
            Err(NotJson)
        } else {
            Ok(())
        }
    }

    fn number(&mut self) -> Result<Value<'t>, NotJson> {
        let start = self.offset;
        self.eat(b'-');
        if !self.eat(b'0') {
            self.digits()?;
        }
        if self.eat(b'.') {
            self.digits()?;
        }
        if self.eat(b'e') || self.eat(b'E') {
            let _signed = self.eat(b'+') || self.eat(b'-');
            self.digits()?;
        }
        let text = &self.text[start..self.offset];
        if text.parse::<f64>().is_ok_and(f64::is_infinite) {
            return Err(NotJson);
        }
        Ok(text.parse().map_or(Value::OtherNumber, Value::Whole))
    }

    fn string(&mut self) -> Result<Cow<'t, str>, NotJson> {
        self.expect(b'"')?;
        let start = self.offset;
        self.skip_plain();
        if self.peek() == Some(b'"') {
            self.offset += 1;
            return Ok(Cow::Borrowed(&self.text[start..self.offset - 1]));
        }
        let mut made = self.text[start..self.offset].to_string();
        loop {
            match self.peek() {
                Some(b'"') => {
                    self.offset += 1;
                    return Ok(Cow::Owned(made));
                }
                Some(b'\\') => made.push(self.escape()?),
                _ => return Err(NotJson),
            }
            let start = self.offset;
            self.skip_plain();
            made.push_str(&self.text[start..self.offset]);
        }
    }

    /// Steps over the characters of a string that are not escaped.
    fn skip_plain(&mut self) {
        while self
            .peek()
            .is_some_and(|byte| byte >= b' ' && byte != b'"' && byte != b'\\')
        {
            self.offset += 1;
        }
    }

    fn escape(&mut self) -> Result<char, NotJson> {
        let letter = self.text.as_bytes().get(self.offset + 1).copied();
        let made = match letter {
            Some(b'"') => '"',
            Some(b'\\') => '\\',
            Some(b'/') => '/',
            Some(b'b') => '\u{8}',
            Some(b'f') => '\u{c}',
            Some(b'n') => '\n',
            Some(b'r') => '\r',
            Some(b't') => '\t',
            Some(b'u') => return self.unicode(),
            _ => return Err(NotJson),
        };
        self.offset += 2;
        Ok(made)
    }

    /// A character by its number, or by two numbers if the first is half of a pair.
    fn unicode(&mut self) -> Result<char, NotJson> {
        let mut units = vec![self.unit()?];
        if (0xd800..0xdc00).contains(&units[0]) {
            units.push(self.unit()?);
        }
        String::from_utf16(&units)
            .ok()
            .and_then(|text| text.chars().next())
            .ok_or(NotJson)
    }

    /// `\u` and four hexadecimal digits.
    fn unit(&mut self) -> Result<u16, NotJson> {
        let digits = self
            .text
            .get(self.offset..self.offset + 6)
            .and_then(|text| text.strip_prefix("\\u"));
        let unit = digits
            .filter(|digits| digits.bytes().all(|byte| byte.is_ascii_hexdigit()))
            .and_then(|digits| u16::from_str_radix(digits, 16).ok());
        self.offset += 6;
        unit.ok_or(NotJson)
    }
}
