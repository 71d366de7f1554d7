//! Drivers as assembler text.
//!
//! The first pass reads each line and gives each label its address, the second makes the words.

use crate::class::Class;
use crate::image::Image;
use crate::instructions::{Form, Row};
use crate::memory::{DATA_START, DATA_WORDS, TEXT_WORDS};
use crate::refusal::{TextFault, TextFaultKind};
use crate::tokens::{lines, tokens, Token};
use std::collections::HashMap;

use TextFaultKind::*;

/// The result of assembling a text.
pub struct Assembled<'t> {
    pub image: Image,
    /// The line of each word, counted from 1.
    pub text_lines: Vec<usize>,
    pub data_lines: Vec<usize>,
    /// Each label with its address, in the order of the definitions.
    pub labels: Vec<(&'t str, u32)>,
}

/// Assembles a driver's text, or returns its first error.
pub fn assemble(text: &[u8]) -> Result<Assembled<'_>, TextFault> {
    let mut reading = Reading::default();
    for (index, line) in lines(text).enumerate() {
        reading.line(line, index + 1);
    }
    let mut draft = Draft::new(&reading);
    for line in &reading.lines {
        draft.line(line).map_err(|kind| TextFault {
            kind,
            line: line.number,
        })?;
    }
    draft.finish(&reading)
}

#[derive(Clone, Copy)]
enum Operand<'t> {
    Number(u64),
    Label(&'t str),
}

#[derive(Clone, Copy)]
enum Statement<'t> {
    None,
    Class(Class),
    /// An entry by its index in the class.
    Entry(usize, Operand<'t>),
    Section {
        is_data: bool,
    },
    Word(Operand<'t>),
    /// An instruction but for its immediate.
    Instruction(u32, Operand<'t>),
}

struct Line<'t> {
    number: usize,
    statement: Statement<'t>,
    in_data: bool,
    /// Whether it defines a label that an earlier line defines.
    is_double: bool,
    /// The first error of the line itself.
    fault: Option<TextFaultKind>,
}

/// The first pass.
#[derive(Default)]
struct Reading<'t> {
    class: Option<Class>,
    in_data: bool,
    text_words: u32,
    data_words: u32,
    labels: Vec<(&'t str, u32)>,
    addresses: HashMap<&'t str, u32>,
    /// The lines that are not blank. After a line with an error only the labels of later lines matter.
    lines: Vec<Line<'t>>,
    is_faulty: bool,
    line_count: usize,
}

impl<'t> Reading<'t> {
    fn line(&mut self, line: &'t [u8], number: usize) {
        self.line_count = number;
        let tokens: Vec<Token> = tokens(line).collect();
        let (label, rest) = match tokens.split_first() {
            None => return,
            Some((Token::Definition(label), rest)) => (Some(*label), rest),
            Some(_) => (None, &tokens[..]),
        };
        let in_data = self.in_data;
        let is_register = label.is_some_and(|label| register(label).is_some());
        let is_double = label.is_some_and(|label| !is_register && !self.define(label));
        let statement = statement(rest, self.class, in_data);
        let fault = [
            tokens.contains(&Token::Bad).then_some(BadToken),
            statement.err(),
            is_register.then_some(WrongOperands),
        ];
        let fault = fault.into_iter().flatten().min();
        let statement = statement.unwrap_or(Statement::None);
        if fault.is_none() {
            self.follow(statement);
        }
        if !self.is_faulty {
            self.lines.push(Line {
                number,
                statement,
                in_data,
                is_double,
                fault,
            });
        }
        self.is_faulty |= fault.is_some();
    }

    /// Defines a label, unless it is defined already.
    fn define(&mut self, label: &'t str) -> bool {
        let is_new = !self.addresses.contains_key(label);
        if is_new {
            let address = if self.in_data {
                DATA_START + self.data_words
            } else {
                self.text_words
            };
            self.addresses.insert(label, address);
            self.labels.push((label, address));
        }
        is_new
    }

    fn follow(&mut self, statement: Statement) {
        match statement {
            Statement::None | Statement::Entry(..) => {}
            Statement::Class(class) => self.class = self.class.or(Some(class)),
            Statement::Section { is_data } => self.in_data = is_data,
            Statement::Word(_) if self.in_data => self.data_words += 1,
            Statement::Word(_) | Statement::Instruction(..) => self.text_words += 1,
        }
    }
}

/// What follows the label of a line.
fn statement<'t>(
    tokens: &[Token<'t>],
    class: Option<Class>,
    in_data: bool,
) -> Result<Statement<'t>, TextFaultKind> {
    match tokens.split_first() {
        None => Ok(Statement::None),
        Some((Token::Name(name), operands)) => instruction(name, operands, in_data),
        Some((Token::Directive(name), operands)) => directive(name, operands, class),
        Some(_) => Err(WrongOperands),
    }
}

fn instruction<'t>(
    name: &str,
    operands: &[Token<'t>],
    in_data: bool,
) -> Result<Statement<'t>, TextFaultKind> {
    let row = Row::named(name).ok_or(UnknownName)?;
    if in_data {
        return Err(WrongOperands);
    }
    let none = Operand::Number(0);
    let (a, b, value) = match (row.form, operands) {
        (Form::None, []) => (0, 0, none),
        (Form::A, [a]) => (register_of(a)?, 0, none),
        (Form::Immediate, [value]) => (0, 0, operand(value)?),
        (Form::AImmediate, [a, value]) => (register_of(a)?, 0, operand(value)?),
        (Form::AB, [a, b]) => (register_of(a)?, register_of(b)?, none),
        (Form::ABImmediate, [a, b, value]) => (register_of(a)?, register_of(b)?, operand(value)?),
        _ => return Err(WrongOperands),
    };
    Ok(Statement::Instruction(row.encode(a, b, 0), value))
}

fn directive<'t>(
    name: &str,
    operands: &[Token<'t>],
    class: Option<Class>,
) -> Result<Statement<'t>, TextFaultKind> {
    match (name, operands) {
        ("text", []) => Ok(Statement::Section { is_data: false }),
        ("data", []) => Ok(Statement::Section { is_data: true }),
        ("word", [value]) => Ok(Statement::Word(operand(value)?)),
        // An unknown name is the error even if there are too few or too many operands.
        ("class", [Token::Name(name), rest @ ..]) => {
            let class = Class::from_name(name).ok_or(UnknownName)?;
            expect_none(rest)?;
            Ok(Statement::Class(class))
        }
        ("entry", [Token::Name(name), rest @ ..]) => {
            let entries = class.ok_or(WrongOperands)?.entries();
            let index = entries.iter().position(|entry| entry.name() == *name);
            let index = index.ok_or(UnknownName)?;
            match rest {
                [value] => Ok(Statement::Entry(index, operand(value)?)),
                _ => Err(WrongOperands),
            }
        }
        _ => Err(WrongOperands),
    }
}

fn expect_none(operands: &[Token]) -> Result<(), TextFaultKind> {
    if operands.is_empty() {
        Ok(())
    } else {
        Err(WrongOperands)
    }
}

fn register(name: &str) -> Option<u32> {
    match name.strip_prefix('r')?.as_bytes() {
        [digit @ b'0'..=b'9'] => Some(u32::from(digit - b'0')),
        [b'1', digit @ b'0'..=b'5'] => Some(10 + u32::from(digit - b'0')),
        _ => None,
    }
}

fn register_of(token: &Token) -> Result<u32, TextFaultKind> {
    match token {
        Token::Name(name) => register(name).ok_or(WrongOperands),
        _ => Err(WrongOperands),
    }
}

/// A number or a label.
fn operand<'t>(token: &Token<'t>) -> Result<Operand<'t>, TextFaultKind> {
    match token {
        Token::Number(number) => Ok(Operand::Number(*number)),
        Token::Name(name) if register(name).is_none() => Ok(Operand::Label(name)),
        _ => Err(WrongOperands),
    }
}

/// The second pass.
struct Draft<'r, 't> {
    addresses: &'r HashMap<&'t str, u32>,
    class: Option<Class>,
    entries: Vec<Option<u32>>,
    text: Section,
    data: Section,
}

#[derive(Default)]
struct Section {
    words: Vec<u32>,
    lines: Vec<usize>,
}

impl<'r, 't> Draft<'r, 't> {
    fn new(reading: &'r Reading<'t>) -> Draft<'r, 't> {
        Draft {
            addresses: &reading.addresses,
            class: None,
            entries: Vec::new(),
            text: Section::default(),
            data: Section::default(),
        }
    }

    /// Adds a line, or returns the first of its errors.
    fn line(&mut self, line: &Line) -> Result<(), TextFaultKind> {
        let taken = match line.statement {
            Statement::None | Statement::Section { .. } => Ok(()),
            Statement::Class(class) => self.set_class(class),
            Statement::Entry(index, value) => self.set_entry(index, value),
            Statement::Word(value) => self.add(line, 0, value, u32::MAX.into()),
            Statement::Instruction(base, value) => self.add(line, base, value, u16::MAX.into()),
        };
        let double = line.is_double.then_some(DoubleLabel);
        let faults = [line.fault, taken.err(), double];
        faults.into_iter().flatten().min().map_or(Ok(()), Err)
    }

    fn set_class(&mut self, class: Class) -> Result<(), TextFaultKind> {
        if self.class.is_some() {
            return Err(DoubleLabel);
        }
        self.class = Some(class);
        self.entries = vec![None; class.entries().len()];
        Ok(())
    }

    fn set_entry(&mut self, index: usize, value: Operand) -> Result<(), TextFaultKind> {
        let address = self.resolve(value, u64::from(TEXT_WORDS) - 1);
        let double = self.entries[index].is_some().then_some(DoubleLabel);
        match [address.err(), double].into_iter().flatten().min() {
            Some(fault) => Err(fault),
            None => {
                self.entries[index] = address.ok();
                Ok(())
            }
        }
    }

    fn add(
        &mut self,
        line: &Line,
        base: u32,
        value: Operand,
        greatest: u64,
    ) -> Result<(), TextFaultKind> {
        let value = self.resolve(value, greatest)?;
        let (section, most, fault) = if line.in_data {
            (&mut self.data, DATA_WORDS, DataTooLong)
        } else {
            (&mut self.text, TEXT_WORDS, TextTooLong)
        };
        if section.words.len() as u32 == most {
            return Err(fault);
        }
        section.words.push(base | value);
        section.lines.push(line.number);
        Ok(())
    }

    fn resolve(&self, value: Operand, greatest: u64) -> Result<u32, TextFaultKind> {
        let value = match value {
            Operand::Number(number) => number,
            Operand::Label(label) => u64::from(*self.addresses.get(label).ok_or(MissingLabel)?),
        };
        if value <= greatest {
            Ok(value as u32)
        } else {
            Err(NumberRange)
        }
    }

    fn finish(self, reading: &Reading<'t>) -> Result<Assembled<'t>, TextFault> {
        let missing = TextFault {
            kind: MissingEntry,
            line: reading.line_count + 1,
        };
        let class = self.class.ok_or(missing)?;
        let entries: Option<Vec<u32>> = self.entries.into_iter().collect();
        Ok(Assembled {
            image: Image {
                class,
                entries: entries.ok_or(missing)?,
                text: self.text.words,
                data: self.data.words,
            },
            text_lines: self.text.lines,
            data_lines: self.data.lines,
            labels: reading.labels.clone(),
        })
    }
}
