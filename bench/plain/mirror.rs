//! Mirrors: one plain disk on two parts, which outlives a part that is given up.

use crate::class::Class;
use crate::contract::{judge, Verdict};
use crate::journal::Answer;
use crate::operation::Operation;
use crate::part::Part;
use crate::scenario::Scenario;
use crate::simulation::{Heard, Run};

/// What the mirror answers its thread.
pub enum MirrorAnswer {
    /// What a side, or the check of the operation, answers.
    Answer(Answer),
    BothLost,
}

/// The mirror's run. `run` has no answers of threads: the mirror's are in `answers`.
pub struct Mirrored<'s> {
    pub run: Run<'s>,
    pub answers: Vec<MirrorAnswer>,
}

/// A part of the mirror, and whether it is still asked.
struct Side<'s> {
    part: Part<'s>,
    present: bool,
}

/// Whether a mirror serves a scenario: two disks of one size, and at most one thread, which reads and writes part 0.
pub fn serves(scenario: &Scenario) -> bool {
    let [left, right] = scenario.parts.as_slice() else {
        return false;
    };
    let mut operations = scenario
        .threads
        .iter()
        .flat_map(|thread| &thread.operations);
    left.class == Class::Block
        && right.class == Class::Block
        && left.blocks == right.blocks
        && scenario.threads.len() <= 1
        && operations.all(|(part, operation)| {
            *part == 0 && matches!(operation, Operation::Read { .. } | Operation::Write { .. })
        })
}

/// Serves the operations of a scenario that a mirror serves, one after the other. Then both parts take the steps that
/// they have left.
pub fn simulate(scenario: &Scenario) -> Mirrored<'_> {
    let new_side = |spec| Side {
        part: Part::new(spec),
        present: true,
    };
    let mut sides: Vec<Side> = scenario.parts.iter().map(new_side).collect();
    let operations = scenario
        .threads
        .iter()
        .flat_map(|thread| &thread.operations);
    let answers = operations
        .map(|(_, operation)| serve(&mut sides, operation))
        .collect();
    let parts: Vec<Part> = sides.into_iter().map(Side::settled).collect();
    let mut heard = Heard::default();
    for event in parts.iter().flat_map(|part| part.journal()) {
        heard.hear(event);
    }
    Mirrored {
        run: Run {
            scenario,
            verdicts: parts.iter().map(judged).collect(),
            parts,
            answers: Vec::new(),
            heard,
        },
        answers,
    }
}

fn judged(part: &Part) -> Verdict {
    judge(part.spec(), part.journal())
}

/// 7 if a driver broke its class's contract, else 1 if both sides were lost, else 0.
pub fn status(mirrored: &Mirrored) -> u8 {
    match mirrored.run.status() {
        7 => 7,
        _ => u8::from(
            mirrored
                .answers
                .iter()
                .any(|answer| matches!(answer, MirrorAnswer::BothLost)),
        ),
    }
}

fn serve<'s>(sides: &mut [Side<'s>], operation: &'s Operation) -> MirrorAnswer {
    let spec = sides[0].part.spec();
    if let Some(refusal) = operation.refusal(spec.class, spec.blocks) {
        return MirrorAnswer::Answer(refusal);
    }
    match operation {
        Operation::Read { .. } => read(sides, operation),
        _ => write(sides, operation),
    }
}

/// Asks one side after the other until one has the blocks.
fn read<'s>(sides: &mut [Side<'s>], operation: &'s Operation) -> MirrorAnswer {
    let mut failed = None;
    for side in sides.iter_mut().filter(|side| side.present) {
        match side.ask(operation) {
            answer @ Answer::Blocks(_) => return MirrorAnswer::Answer(answer),
            answer @ Answer::IoError(_) => failed = failed.or(Some(answer)),
            _ => side.present = false,
        }
    }
    failed.map_or(MirrorAnswer::BothLost, MirrorAnswer::Answer)
}

/// Asks both sides. Those that did it stay; if none did, the first whose medium failed stays.
fn write<'s>(sides: &mut [Side<'s>], operation: &'s Operation) -> MirrorAnswer {
    let answers: Vec<Option<Answer>> = sides
        .iter_mut()
        .map(|side| side.present.then(|| side.ask(operation)))
        .collect();
    let done = |answer: &Option<Answer>| matches!(answer, Some(Answer::Done));
    if answers.iter().any(done) {
        for (side, answer) in sides.iter_mut().zip(&answers) {
            side.present = done(answer);
        }
        return MirrorAnswer::Answer(Answer::Done);
    }
    let failed = answers
        .iter()
        .position(|answer| matches!(answer, Some(Answer::IoError(_))));
    for (index, side) in sides.iter_mut().enumerate() {
        side.present = failed == Some(index);
    }
    let answer = failed.and_then(|index| answers.into_iter().nth(index).flatten());
    answer.map_or(MirrorAnswer::BothLost, MirrorAnswer::Answer)
}

impl<'s> Side<'s> {
    /// The answer to a call of thread 0. Takes the part's steps until there is one.
    fn ask(&mut self, operation: &'s Operation) -> Answer {
        self.part.invoke(0, operation);
        loop {
            if let Some((_, answer)) = self.part.take_answers().next() {
                return answer;
            }
            self.step();
        }
    }

    /// Takes the next step, and returns whether there was one.
    fn step(&mut self) -> bool {
        let next = self.part.next_recovery().or_else(|| self.part.next_for(0));
        let has_step = next.is_some();
        if let Some(step) = next {
            self.part.take(step);
        }
        has_step
    }

    /// The part after its last step.
    fn settled(mut self) -> Part<'s> {
        while self.step() {}
        self.part
    }
}
