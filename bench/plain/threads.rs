//! Runs by threads: each thread of the scenario is a separate thread, and so is each part. A thread passes its
//! operations to the parts one by one and waits for each answer. So the order of a part's steps depends on when its
//! calls come.

use crate::contract::judge;
use crate::journal::Words;
use crate::json::Value;
use crate::operation::Operation;
use crate::part::Part;
use crate::report::{write_last, write_part, write_threads};
use crate::scenario::{self, Scenario, ThreadSpec};
use crate::simulation::Heard;
use crate::Stop;
use std::collections::VecDeque;
use std::io::Write;
use std::panic::resume_unwind;
use std::slice::Iter;
use std::sync::mpsc::{channel, Receiver, Sender};
use std::thread::{Builder, Scope, ScopedJoinHandle};
use std::vec::IntoIter;

/// What a part is asked for, with the sender that hears when it is done.
enum Request {
    /// A thread's next operation on the part.
    Call { thread: u8, done: Sender<()> },
    /// The next frame.
    Arrival { done: Sender<()> },
}

/// What is left of a part after its run, as text: the words of a journal are counted without atomics, so it stays with
/// its thread.
struct Section {
    lines: Vec<u8>,
    /// Of each thread, the answers to its operations on this part.
    answers: Vec<VecDeque<String>>,
    heard: Heard,
    is_broken: bool,
    is_given_up: bool,
}

/// Runs a scenario, which was read from this value, writes its report and returns its status.
pub fn write(value: &Value, scenario: &Scenario, out: &mut impl Write) -> Result<u8, Stop> {
    let mut sections = run(value, scenario)?;
    for section in &sections {
        out.write_all(&section.lines)?;
    }
    let answers: Vec<Vec<(usize, String)>> = scenario
        .threads
        .iter()
        .enumerate()
        .map(|(thread, spec)| {
            let parts = spec.operations.iter().map(|(part, _)| *part);
            parts
                .map(|part| (part, next_answer(&mut sections[part], thread)))
                .collect()
        })
        .collect();
    write_threads(scenario, &answers, out)?;
    let mut heard = Heard::default();
    sections
        .iter()
        .for_each(|section| heard.add(&section.heard));
    let status = if sections.iter().any(|section| section.is_broken) {
        7
    } else {
        u8::from(sections.iter().any(|section| section.is_given_up))
    };
    write_last(&heard, status, out)?;
    Ok(status)
}

fn next_answer(section: &mut Section, thread: usize) -> String {
    let answer = section.answers[thread].pop_front();
    answer.expect("every operation is answered")
}

/// Starts all threads and waits for their ends. There is no memory left if one of them does not start.
fn run(value: &Value, scenario: &Scenario) -> Result<Vec<Section>, Stop> {
    std::thread::scope(|scope| {
        let mut parts = Vec::new();
        let mut owners = Vec::new();
        for index in 0..scenario.parts.len() {
            let (sender, requests) = channel();
            parts.push(sender);
            owners.push(start(scope, move || own(value, index, &requests))?);
        }
        for (thread, spec) in scenario.threads.iter().enumerate() {
            let operations = spec.operations.iter();
            let script = operations.map(|(part, _)| parts[*part].clone()).collect();
            start(scope, move || call(thread as u8, script))?;
        }
        for (spec, part) in scenario.parts.iter().zip(parts) {
            let count = spec.arrivals.len();
            if count > 0 {
                start(scope, move || arrive(count, &part))?;
            }
        }
        let join = |owner: ScopedJoinHandle<'_, Section>| owner.join();
        let sections: std::thread::Result<_> = owners.into_iter().map(join).collect();
        sections.map_err(|panic| resume_unwind(panic))
    })
}

fn start<'scope, T: Send + 'scope>(
    scope: &'scope Scope<'scope, '_>,
    work: impl FnOnce() -> T + Send + 'scope,
) -> Result<ScopedJoinHandle<'scope, T>, Stop> {
    let started = Builder::new().spawn_scoped(scope, work);
    started.map_err(|_| Stop::NoMemory)
}

/// The work of a thread of the scenario: one call after the other, each at its part.
fn call(thread: u8, script: Vec<Sender<Request>>) {
    for part in script {
        let (done, heard) = channel();
        // A part that is gone has panicked, which its join reports.
        if part.send(Request::Call { thread, done }).is_err() || heard.recv().is_err() {
            return;
        }
    }
}

/// The work of a part's network: one frame after the other.
fn arrive(count: usize, part: &Sender<Request>) {
    for _ in 0..count {
        let (done, heard) = channel();
        if part.send(Request::Arrival { done }).is_err() || heard.recv().is_err() {
            return;
        }
    }
}

/// The work of a part: its steps, and what it is asked for between them, until no thread is left that may ask.
fn own(value: &Value, index: usize, requests: &Receiver<Request>) -> Section {
    let scenario = scenario::read(value).expect("the scenario was read before");
    let mut owner = Owner::new(&scenario, index);
    loop {
        let request = requests.try_recv().ok();
        let is_asked = request.is_some();
        request.into_iter().for_each(|request| owner.serve(request));
        if !owner.step() && !is_asked {
            match requests.recv() {
                Ok(request) => owner.serve(request),
                Err(_) => return owner.section(index),
            }
        }
    }
}

struct Owner<'s> {
    part: Part<'s>,
    /// Of each thread, the operations on this part that are to come.
    scripts: Vec<IntoIter<&'s Operation>>,
    frames: Iter<'s, Words>,
    /// Who waits for the answer to each thread's call.
    waiting: Vec<Option<Sender<()>>>,
    answers: Vec<VecDeque<String>>,
}

impl<'s> Owner<'s> {
    fn new(scenario: &'s Scenario, index: usize) -> Owner<'s> {
        let spec = &scenario.parts[index];
        let script = |thread: &'s ThreadSpec| thread.operations_on(index).into_iter();
        Owner {
            part: Part::new(spec),
            scripts: scenario.threads.iter().map(script).collect(),
            frames: spec.arrivals.iter(),
            waiting: scenario.threads.iter().map(|_| None).collect(),
            answers: vec![VecDeque::new(); scenario.threads.len()],
        }
    }

    fn serve(&mut self, request: Request) {
        match request {
            Request::Call { thread, done } => {
                let index = usize::from(thread);
                let operation = self.scripts[index].next();
                self.waiting[index] = Some(done);
                self.part
                    .invoke(thread, operation.expect("the script has an operation"));
                self.hand_out();
            }
            Request::Arrival { done } => {
                self.part
                    .arrive(self.frames.next().expect("there is a frame"));
                report_done(done);
            }
        }
    }

    /// Takes a step of the part, and returns whether there was one.
    fn step(&mut self) -> bool {
        let threads = 0..self.scripts.len() as u8;
        let of_threads = threads.map(|thread| self.part.next_for(thread));
        let mut steps = std::iter::once(self.part.next_recovery()).chain(of_threads);
        let step = steps.find_map(|step| step);
        let has_step = step.is_some();
        if let Some(step) = step {
            self.part.take(step);
            self.hand_out();
        }
        has_step
    }

    /// The threads get the answers of the last step.
    fn hand_out(&mut self) {
        for (thread, answer) in self.part.take_answers() {
            let index = usize::from(thread);
            self.answers[index].push_back(answer.to_string());
            self.waiting[index].take().into_iter().for_each(report_done);
        }
    }

    fn section(self, index: usize) -> Section {
        let verdict = judge(self.part.spec(), self.part.journal());
        let mut lines = Vec::new();
        write_part(index, &self.part, &verdict, &mut lines).expect("memory takes all lines");
        let mut heard = Heard::default();
        let events = self.part.journal().iter();
        events.for_each(|event| heard.hear(event));
        Section {
            lines,
            answers: self.answers,
            heard,
            is_broken: verdict.broken.is_some(),
            is_given_up: self.part.is_given_up(),
        }
    }
}

fn report_done(done: Sender<()>) {
    // A thread that no longer waits has panicked.
    let _heard = done.send(());
}
