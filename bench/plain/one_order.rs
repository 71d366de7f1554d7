//! Whether the parts' journals are together one run: whether their events can be put into one order in which each
//! thread invokes an operation only after the answer to the one before it, on whatever part.

use crate::scenario::Scenario;

/// What an event did to the threads.
pub struct Mark {
    /// The event's line in the report.
    pub line: u64,
    /// The thread whose operation it invoked.
    pub invoked: Option<u8>,
    /// The threads whose operations it answered.
    pub answered: Vec<u8>,
}

/// A thread on its way through its script.
#[derive(Clone, Default)]
struct Thread {
    invoked: usize,
    is_waiting: bool,
}

/// The line of the first event that no order reaches, None if there is one order of all events. The marks are those of
/// each part's journal.
pub fn first_out(scenario: &Scenario, marks: &[Vec<Mark>]) -> Option<u64> {
    let mut threads = vec![Thread::default(); scenario.threads.len()];
    let mut parts: Vec<_> = marks.iter().map(|marks| marks.iter().peekable()).collect();
    let mut goes_on = true;
    while goes_on {
        goes_on = false;
        for (part, marks) in parts.iter_mut().enumerate() {
            while let Some(mark) = marks.next_if(|mark| is_due(scenario, &threads, part, mark)) {
                take(&mut threads, mark);
                goes_on = true;
            }
        }
    }
    parts
        .iter_mut()
        .find_map(|marks| marks.peek().map(|mark| mark.line))
}

/// Whether an event may come next: if it invokes an operation, the thread waits for nothing and its script has one of
/// this part next.
fn is_due(scenario: &Scenario, threads: &[Thread], part: usize, mark: &Mark) -> bool {
    let Some(thread) = mark.invoked.map(usize::from) else {
        return true;
    };
    let Thread {
        invoked,
        is_waiting,
    } = threads[thread];
    let next = scenario.threads[thread].operations.get(invoked);
    !is_waiting && next.is_some_and(|(own, _)| *own == part)
}

fn take(threads: &mut [Thread], mark: &Mark) {
    if let Some(thread) = mark.invoked {
        threads[usize::from(thread)].invoked += 1;
        threads[usize::from(thread)].is_waiting = true;
    }
    for thread in &mark.answered {
        threads[usize::from(*thread)].is_waiting = false;
    }
}
