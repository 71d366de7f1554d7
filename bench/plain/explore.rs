//! Every order of the steps of a scenario: the outcomes that some order has, and an order for each.
//!
//! Runs are followed level by level: those of one step, those of two, and so on. Runs of one length that all continue
//! alike are one state. The states of a level are in the order of their least picks, and their successors are made in
//! the order of the actors. So the first run that leads to a state or to an outcome is the one with the least picks.
//! The rows are those of the proved program; it holds fewer states as one, since it does not number open calls again.
//!
//! A state is held as a whole, and a step copies the one part that it changes. All other parts and threads are shared
//! with the state before it, and equal ones by all states of the last two levels. Of older levels only the actors are
//! held. On one processor 65,536 states of examples/link-loses.json take 1.6 seconds and 21 MB, and 21,970 states
//! of four threads with two operations on a disk 1.0 second and 13 MB. Copying a part takes about a third of the time
//! of another simulation by the state's picks, in runs of 30 to 70 steps.

use crate::journal::Answer;
use crate::lines::List;
use crate::pool::Pool;
use crate::scenario::Scenario;
use crate::state::{Choice, Frame, Outcome, PartOutcome, PartState, State, ThreadState};
use std::collections::HashSet;
use std::io::{self, Write};

/// How many states are held in all.
const MOST_STATES: usize = 65_536;

/// Not every order was followed.
const CUT_STATUS: u8 = 9;

/// Writes a row for each outcome and the line that counts them, and returns the status.
pub fn write(scenario: &Scenario, out: &mut impl Write) -> io::Result<u8> {
    let mut search = Search::new(scenario);
    search.follow_all();
    for (index, row) in search.rows.iter().enumerate() {
        search.write_row(index + 1, row, out)?;
    }
    let front = if search.is_cut { "front " } else { "" };
    let (states, outcomes) = (search.arrivals.len(), search.rows.len());
    let count = |status| {
        search
            .rows
            .iter()
            .filter(|row| row.status == status)
            .count()
    };
    let (kept, given_up, broken) = (count(0), count(1), count(7));
    writeln!(
        out,
        "explored {front}{states} states {outcomes} outcomes kept {kept} given_up {given_up} broken {broken}"
    )?;
    Ok(match (broken, search.is_cut) {
        (1.., _) => 7,
        (0, true) => CUT_STATUS,
        (0, false) => u8::from(given_up > 0),
    })
}

/// How a state was reached first: from which state, by its number, and by whose step.
struct Arrival {
    before: usize,
    actor: u32,
}

/// A state of the last level, and its number among all states.
struct Reached<'s> {
    number: usize,
    state: State<'s>,
}

/// The run to an end, if no run before it has its outcome.
struct Row {
    /// The state at its end.
    number: usize,
    status: u8,
    failures: u64,
    gone: usize,
    lost: u64,
}

/// There are more states than may be held.
struct TooMany;

struct Search<'s> {
    scenario: &'s Scenario,
    frames: Vec<Frame<'s>>,
    parts: Pool<PartState<'s>>,
    threads: Pool<ThreadState>,
    /// Of each state. That of the first one, to which no step leads, is not used.
    arrivals: Vec<Arrival>,
    outcomes: HashSet<Outcome>,
    rows: Vec<Row>,
    is_cut: bool,
}

/// A level while it is made.
#[derive(Default)]
struct Level<'s> {
    states: HashSet<State<'s>>,
    reached: Vec<Reached<'s>>,
}

impl<'s> Search<'s> {
    fn new(scenario: &'s Scenario) -> Search<'s> {
        let threads = scenario.threads.len();
        let frame = |spec| Frame::new(spec, threads);
        Search {
            scenario,
            frames: scenario.parts.iter().map(frame).collect(),
            parts: Pool::new(),
            threads: Pool::new(),
            arrivals: Vec::new(),
            outcomes: HashSet::new(),
            rows: Vec::new(),
            is_cut: false,
        }
    }

    /// Follows the runs until all have ended or too many states would have to be held.
    fn follow_all(&mut self) {
        let mut level = Level::default();
        let first = self.first_state();
        let start = Arrival {
            before: 0,
            actor: 0,
        };
        let mut held = self.hold(first, start, &mut level);
        while held.is_ok() && !level.reached.is_empty() {
            let last = std::mem::take(&mut level).reached;
            held = last
                .iter()
                .try_for_each(|reached| self.follow(reached, &mut level));
            drop(last);
            self.parts.sweep();
            self.threads.sweep();
        }
        self.is_cut = held.is_err();
    }

    fn first_state(&mut self) -> State<'s> {
        let parts = self.frames.iter().map(Frame::first_state);
        let threads = self.scenario.threads.iter().map(|_| ThreadState::default());
        State {
            parts: parts.map(|part| self.parts.share(part)).collect(),
            threads: threads.map(|thread| self.threads.share(thread)).collect(),
        }
    }

    /// Adds the successors of a state to the next level. One that has none is an end.
    fn follow(&mut self, reached: &Reached<'s>, level: &mut Level<'s>) -> Result<(), TooMany> {
        let choices = reached.state.choices(self.scenario);
        for choice in &choices {
            let state = self.state_after(&reached.state, choice);
            let arrival = Arrival {
                before: reached.number,
                actor: choice.actor,
            };
            self.hold(state, arrival, level)?;
        }
        Ok(())
    }

    fn state_after(&mut self, before: &State<'s>, choice: &Choice<'s>) -> State<'s> {
        let frame = &self.frames[choice.part];
        let (part, answers) = frame.state_after(&before.parts[choice.part], choice.action);
        let mut state = before.clone();
        state.parts[choice.part] = self.parts.share(part);
        if let Some(thread) = choice.action.invoking_thread() {
            let waiting = before.threads[thread].waiting_for(choice.part);
            state.threads[thread] = self.threads.share(waiting);
        }
        for (thread, answer) in answers {
            let thread = usize::from(thread);
            let answered = state.threads[thread].answered(answer);
            state.threads[thread] = self.threads.share(answered);
        }
        state
    }

    /// Holds a state, if no state of its level is equal to it.
    fn hold(
        &mut self,
        state: State<'s>,
        arrival: Arrival,
        level: &mut Level<'s>,
    ) -> Result<(), TooMany> {
        if level.states.contains(&state) {
            return Ok(());
        }
        let number = self.arrivals.len();
        if number == MOST_STATES {
            return Err(TooMany);
        }
        self.arrivals.push(arrival);
        if state.choices(self.scenario).is_empty() {
            self.end(number, Outcome::of(&state));
        }
        level.states.insert(state.clone());
        level.reached.push(Reached { number, state });
        Ok(())
    }

    /// A run ends here. It has a row if its outcome is new.
    fn end(&mut self, number: usize, outcome: Outcome) {
        if !self.outcomes.contains(&outcome) {
            self.rows.push(Row::new(self.scenario, number, &outcome));
            self.outcomes.insert(outcome);
        }
    }

    fn write_row(&self, number: usize, row: &Row, out: &mut impl Write) -> io::Result<()> {
        let picks = self.picks_to(row.number);
        let Row {
            status,
            failures,
            gone,
            lost,
            ..
        } = row;
        // Each step is an event.
        let events = picks.len();
        writeln!(
            out,
            "{number} status {status} events {events} failures {failures} gone {gone} lost {lost} picks {}",
            List(&picks)
        )
    }

    /// The actors of the steps that led to a state first.
    fn picks_to(&self, mut number: usize) -> Vec<u32> {
        let mut picks = Vec::new();
        while number > 0 {
            let Arrival { before, actor } = self.arrivals[number];
            picks.push(actor);
            number = before;
        }
        picks.reverse();
        picks
    }
}

impl Row {
    fn new(scenario: &Scenario, number: usize, outcome: &Outcome) -> Row {
        let parts = &outcome.parts;
        let mut limits = scenario.parts.iter().map(|spec| spec.limit).zip(parts);
        let status = if parts.iter().any(|part| part.broken.is_some()) {
            7
        } else {
            u8::from(limits.any(|(limit, part)| part.failures > limit))
        };
        let lost = |part: &PartOutcome| part.losses.sends + part.losses.samples + part.losses.busy;
        let answers = outcome.answers.iter().flatten();
        Row {
            number,
            status,
            failures: parts.iter().map(|part| u64::from(part.failures)).sum(),
            gone: answers
                .filter(|answer| matches!(answer, Answer::Gone(_)))
                .count(),
            lost: parts.iter().map(lost).sum(),
        }
    }
}
