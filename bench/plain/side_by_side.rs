//! Work that is done concurrently, and whose results are taken in order.

use std::collections::VecDeque;
use std::io;
use std::sync::mpsc::{channel, Receiver, Sender};
use std::sync::Mutex;
use std::thread::{self, Builder};

/// How many items a worker takes at a time, and how many such batches there are at most for each worker at a time.
const BATCH: usize = 16;
const MOST_BATCHES: usize = 4;

/// Items, and where their results go.
struct Job<T, R> {
    items: Vec<T>,
    results: Sender<Vec<R>>,
}

/// Has workers make a result of each of `count` items, and takes the results in the order of the items while more are
/// made. Each worker is made on its own thread. There are as many as processors, but not more than there is work for.
pub fn work<T, R, W>(
    mut items: impl Iterator<Item = T>,
    count: usize,
    new_worker: impl Fn() -> W + Sync,
    mut take: impl FnMut(R) -> io::Result<()>,
) -> io::Result<()>
where
    T: Send,
    R: Send,
    W: FnMut(T) -> R,
{
    let processors = thread::available_parallelism().map_or(1, usize::from);
    let workers = processors.min(count.div_ceil(BATCH));
    let (jobs, waiting) = channel();
    let waiting = Mutex::new(waiting);
    thread::scope(|scope| {
        let worker = || serve(&waiting, new_worker());
        let start = |_: &usize| Builder::new().spawn_scoped(scope, worker).is_ok();
        // If some cannot be started, the others do their work, or this thread does.
        let started = if workers > 1 {
            (0..workers).filter(start).count()
        } else {
            0
        };
        if started == 0 {
            items.map(new_worker()).try_for_each(take)
        } else {
            hand_out(&mut items, jobs, MOST_BATCHES * started, &mut take)
        }
    })
}

/// A worker's work: one job after the other, until there are no more.
fn serve<T, R>(jobs: &Mutex<Receiver<Job<T, R>>>, mut worker: impl FnMut(T) -> R) {
    loop {
        let next = jobs.lock().map(|jobs| jobs.recv());
        let Ok(Ok(job)) = next else {
            return;
        };
        let results = job.items.into_iter().map(&mut worker).collect();
        if job.results.send(results).is_err() {
            return;
        }
    }
}

/// Hands the items out and takes their results, of at most this many batches at a time.
fn hand_out<T, R>(
    items: &mut impl Iterator<Item = T>,
    jobs: Sender<Job<T, R>>,
    most: usize,
    take: &mut impl FnMut(R) -> io::Result<()>,
) -> io::Result<()> {
    let mut waited_for: VecDeque<Receiver<Vec<R>>> = VecDeque::new();
    loop {
        let batch: Vec<T> = items.by_ref().take(BATCH).collect();
        let is_last = batch.is_empty();
        if !is_last {
            let (results, receiver) = channel();
            let job = Job {
                items: batch,
                results,
            };
            assert!(jobs.send(job).is_ok(), "the workers' queue is there");
            waited_for.push_back(receiver);
        }
        while waited_for.len() >= if is_last { 1 } else { most } {
            let first = waited_for.pop_front().and_then(|first| first.recv().ok());
            let results = first.expect("a worker works until there are no more jobs");
            results.into_iter().try_for_each(&mut *take)?;
        }
        if is_last {
            return Ok(());
        }
    }
}
