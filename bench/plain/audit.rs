//! Audits: whether a printed report is one of a scenario's.
//!
//! A new part takes the steps that the report's lines name, in whatever order they come. Each line is compared with the
//! one that its step makes, and the lines after the events with those that follow from the journals.

use crate::contract::{judge, Verdict};
use crate::input;
use crate::journal::{Answer, Words};
use crate::one_order::{self, Mark};
use crate::operation::Operation;
use crate::part::{Part, Step};
use crate::refusal::{Cause, Read, Refusal};
use crate::report::{write_ends, write_head, write_last, write_threads};
use crate::scenario::{Scenario, ThreadSpec};
use crate::simulation::{Heard, Run};
use crate::subcommand::decimal;
use std::collections::VecDeque;
use std::fmt::Write as _;
use std::slice::Iter;
use std::vec::IntoIter;

/// The longest input.
pub const LONGEST: usize = 16_777_216;

/// The most digits of the scenario's length.
const MOST_DIGITS: usize = 8;

/// The scenario and the report of an input, whose first line is the scenario's length.
pub fn split(input: &[u8]) -> Read<(&[u8], &[u8])> {
    let Some((length, rest)) = read_head(input) else {
        return Refusal::here(Cause::BadHeader);
    };
    if length > input::LONGEST {
        return Refusal::here(Cause::TooMany);
    }
    Ok(rest.split_at(length))
}

/// The scenario's length, and at least as many bytes after it.
fn read_head(input: &[u8]) -> Option<(usize, &[u8])> {
    let end = input
        .iter()
        .take(MOST_DIGITS + 1)
        .position(|byte| *byte == b'\n')?;
    let digits = std::str::from_utf8(&input[..end]).ok()?;
    let length = decimal(digits, 0..=u32::MAX)? as usize;
    let rest = &input[end + 1..];
    (length <= rest.len()).then_some((length, rest))
}

/// The number of the first line that does not fit, None if all do and none is missing.
pub fn first_wrong(scenario: &Scenario, report: &[u8]) -> Option<u64> {
    let mut lines = Lines {
        rest: report,
        number: 1,
    };
    match check(scenario, &mut lines) {
        Err(NoFit) => Some(lines.number),
        Ok(marks) => one_order::first_out(scenario, &marks),
    }
}

/// The next line does not fit.
pub struct NoFit;

/// The remaining lines of a report.
struct Lines<'r> {
    rest: &'r [u8],
    /// The number of the next line.
    number: u64,
}

impl<'r> Lines<'r> {
    /// The next line without its line feed. A rest that has none is no line.
    fn peek(&self) -> Option<&'r [u8]> {
        let end = self.rest.iter().position(|byte| *byte == b'\n')?;
        Some(&self.rest[..end])
    }

    /// Steps over the next line, which is this one.
    fn expect(&mut self, line: &[u8]) -> Result<(), NoFit> {
        if self.peek() != Some(line) {
            return Err(NoFit);
        }
        self.rest = &self.rest[line.len() + 1..];
        self.number += 1;
        Ok(())
    }

    /// Steps over the next lines, which are those of a text.
    fn expect_all(&mut self, text: &[u8]) -> Result<(), NoFit> {
        let mut lines = text.split(|byte| *byte == b'\n');
        // What comes after the last line feed is no line.
        lines.next_back();
        lines.try_for_each(|line| self.expect(line))
    }
}

/// Goes through a report, and returns what each part's events did to the threads.
fn check(scenario: &Scenario, lines: &mut Lines) -> Result<Vec<Vec<Mark>>, NoFit> {
    let mut sections = Vec::new();
    let mut verdicts = Vec::new();
    for index in 0..scenario.parts.len() {
        let mut section = Section::new(scenario, index);
        verdicts.push(section.check(lines)?);
        sections.push(section);
    }
    let answers = answers_of(scenario, &mut sections);
    let mut heard = Heard::default();
    let mut parts = Vec::new();
    let mut marks = Vec::new();
    for section in sections {
        for event in section.part.journal() {
            heard.hear(event);
        }
        parts.push(section.part);
        marks.push(section.marks);
    }
    let run = Run {
        scenario,
        parts,
        verdicts,
        answers,
        heard,
    };
    let last = text(|out| {
        write_threads(scenario, &run.answers, out)?;
        write_last(&run.heard, run.status(), out)
    });
    lines.expect_all(&last)?;
    if lines.rest.is_empty() {
        Ok(marks)
    } else {
        Err(NoFit)
    }
}

/// The answers of each thread, in the order of its script.
fn answers_of(scenario: &Scenario, sections: &mut [Section]) -> Vec<Vec<(usize, Answer)>> {
    let mut answer_of = |thread: usize, part: usize| {
        let answer = sections[part].scripts[thread].answers.pop_front();
        (part, answer.expect("every operation is answered"))
    };
    let threads = scenario.threads.iter().enumerate();
    threads
        .map(|(thread, spec)| {
            let parts = spec.operations.iter().map(|(part, _)| *part);
            parts.map(|part| answer_of(thread, part)).collect()
        })
        .collect()
}

/// What is written.
fn text(write: impl FnOnce(&mut Vec<u8>) -> std::io::Result<()>) -> Vec<u8> {
    let mut out = Vec::new();
    write(&mut out).expect("memory takes all that is written");
    out
}

/// A thread's operations on one part.
struct Script<'s> {
    /// Those that are not invoked yet.
    operations: IntoIter<&'s Operation>,
    is_waiting: bool,
    answers: VecDeque<Answer>,
}

/// A part, and how far its events have come.
struct Section<'s> {
    index: usize,
    part: Part<'s>,
    scripts: Vec<Script<'s>>,
    /// Those that have not arrived yet.
    frames: Iter<'s, Words>,
    marks: Vec<Mark>,
}

impl<'s> Section<'s> {
    fn new(scenario: &'s Scenario, index: usize) -> Section<'s> {
        let spec = &scenario.parts[index];
        let script = |thread: &'s ThreadSpec| Script {
            operations: thread.operations_on(index).into_iter(),
            is_waiting: false,
            answers: VecDeque::new(),
        };
        Section {
            index,
            part: Part::new(spec),
            scripts: scenario.threads.iter().map(script).collect(),
            frames: spec.arrivals.iter(),
            marks: Vec::new(),
        }
    }

    /// Goes through the part's lines, and returns what its journal shows.
    fn check(&mut self, lines: &mut Lines) -> Result<Verdict, NoFit> {
        let head = text(|out| write_head(self.index, self.part.spec(), out));
        lines.expect_all(&head)?;
        let mut made = String::new();
        while let Some(line) = lines.peek().filter(|line| begins_with_digit(line)) {
            let thread = self.follow(line)?;
            let number = self.part.journal().len();
            let event = self.part.journal().last().ok_or(NoFit)?;
            made.clear();
            write!(made, "{number} {event}").expect("memory takes all that is written");
            let number = lines.number;
            lines.expect(made.as_bytes())?;
            self.note(number, thread);
        }
        if !self.is_over() {
            return Err(NoFit);
        }
        let verdict = judge(self.part.spec(), self.part.journal());
        let ends = text(|out| write_ends(&self.part, &verdict, out));
        lines.expect_all(&ends)?;
        Ok(verdict)
    }

    /// Takes the step that a line names, if it is enabled. Returns the thread if it is an invocation.
    fn follow(&mut self, line: &[u8]) -> Result<Option<u8>, NoFit> {
        let line = std::str::from_utf8(line).map_err(|_| NoFit)?;
        let words: Vec<&str> = line.splitn(5, ' ').collect();
        let part = &mut self.part;
        let step = match words[..] {
            [_, "invoke", _, thread, ..] => return self.invoke(numbered(thread, 't')?).map(Some),
            [_, "arrive", ..] => {
                part.arrive(self.frames.next().ok_or(NoFit)?);
                return Ok(None);
            }
            [_, "enter", _, context, ..] => {
                let step = part.next_for(numbered(context, 'x')?);
                step.filter(|step| matches!(step, Step::Enter { .. }))
            }
            [_, "burst", context, ..] => {
                let context = numbered(context, 'x')?;
                let step = part.next_for(context).or_else(|| part.next_recovery());
                step.filter(|step| step.is_burst_of(context.into()))
            }
            [_, "stage", ..] => {
                let step = part.next_recovery();
                step.filter(|step| matches!(step, Step::Stage))
            }
            _ => None,
        };
        part.take(step.ok_or(NoFit)?);
        Ok(None)
    }

    /// Invokes a thread's next operation on this part.
    fn invoke(&mut self, thread: u8) -> Result<u8, NoFit> {
        let script = self.scripts.get_mut(usize::from(thread)).ok_or(NoFit)?;
        if script.is_waiting {
            return Err(NoFit);
        }
        let operation = script.operations.next().ok_or(NoFit)?;
        script.is_waiting = true;
        self.part.invoke(thread, operation);
        Ok(thread)
    }

    /// Notes what the last event, at this line, did to the threads.
    fn note(&mut self, line: u64, invoked: Option<u8>) {
        let mut answered = Vec::new();
        for (thread, answer) in self.part.take_answers() {
            let script = &mut self.scripts[usize::from(thread)];
            script.is_waiting = false;
            script.answers.push_back(answer);
            answered.push(thread);
        }
        if invoked.is_some() || !answered.is_empty() {
            self.marks.push(Mark {
                line,
                invoked,
                answered,
            });
        }
    }

    /// Whether no step is left, every operation is answered and every frame has arrived.
    fn is_over(&self) -> bool {
        let is_done = |script: &Script| !script.is_waiting && script.operations.len() == 0;
        self.part.next_recovery().is_none()
            && self.scripts.iter().all(is_done)
            && self.frames.len() == 0
    }
}

fn begins_with_digit(line: &[u8]) -> bool {
    line.first().is_some_and(u8::is_ascii_digit)
}

/// The number of a thread or a context after its letter.
fn numbered(word: &str, letter: char) -> Result<u8, NoFit> {
    let digits = word.strip_prefix(letter).ok_or(NoFit)?;
    decimal(digits, 0..=16)
        .map(|number| number as u8)
        .ok_or(NoFit)
}
