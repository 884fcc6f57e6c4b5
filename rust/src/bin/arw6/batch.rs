//! Many items at once on threads, their outcomes in the order given.

use arw6::Buffers;
use std::collections::BTreeMap;
use std::io::Result;
use std::sync::atomic::{AtomicUsize, Ordering};
use std::sync::mpsc::{channel, Receiver, RecvTimeoutError, Sender};
use std::sync::{Mutex, PoisonError, RwLock};
use std::thread::Builder;
use std::time::Duration;

/// What one item came to.
#[derive(Default)]
pub struct Outcome {
    /// For standard output.
    pub out: String,
    /// Lines for standard error.
    pub notes: Vec<String>,
    /// Something was refused, unreadable or not written, or is not OK.
    pub bad: bool,
    /// Some record is broken.
    pub damaged: bool,
    /// Lines of a list that are not OK.
    pub wrong: usize,
    /// Memory could not be had; with the items beside it done, it may be.
    pub short_of_memory: bool,
}

/// How long to wait for an outcome before the progress is shown again.
const TICK: Duration = Duration::from_millis(200);

/// What the threads share.
struct Shared<'a, T, F> {
    items: &'a [T],
    work: &'a F,
    next: AtomicUsize,
    /// Buffers that no thread uses at the moment.
    idle: Mutex<Vec<Buffers>>,
    /// Read by each thread at work; written by one that must be the only one.
    room: RwLock<()>,
}

/// Does the work for each item, and hands the outcomes on in the order of the items. Between them
/// `tick` is told how many are done. Ends early where an outcome cannot be handed on.
pub fn run<T: Sync, F: Fn(&T, &mut Buffers) -> Outcome + Sync>(
    items: &[T],
    threads: usize,
    work: &F,
    tell: impl FnMut(Outcome) -> Result<()>,
    tick: impl FnMut(usize),
) -> Result<()> {
    let (next, idle, room) = (AtomicUsize::new(0), Mutex::new(Vec::new()), RwLock::new(()));
    let shared = Shared { items, work, next, idle, room };
    let shared = &shared;
    std::thread::scope(|scope| {
        let (sender, receiver) = channel();
        let mut started = 0;
        for _ in 0..threads.min(items.len()) {
            let sender = sender.clone();
            let thread = Builder::new().spawn_scoped(scope, move || shared.serve(&sender));
            if thread.is_err() {
                break;
            }
            started += 1;
        }
        if started == 0 {
            shared.serve(&sender);
        }
        drop(sender);
        hand_on(receiver, tell, tick)
    })
}

impl<T: Sync, F: Fn(&T, &mut Buffers) -> Outcome + Sync> Shared<'_, T, F> {
    /// Takes item after item until none is left, or nobody wants an outcome.
    fn serve(&self, sender: &Sender<(usize, Outcome)>) {
        while let Some((i, item)) = self.take() {
            if sender.send((i, self.outcome(item))).is_err() {
                return;
            }
        }
    }

    fn take(&self) -> Option<(usize, &T)> {
        let i = self.next.fetch_add(1, Ordering::Relaxed);
        self.items.get(i).map(|item| (i, item))
    }

    /// The outcome of an item; one that is short of memory is tried again with nothing beside it.
    fn outcome(&self, item: &T) -> Outcome {
        let beside = self.room.read().unwrap_or_else(PoisonError::into_inner);
        let mut buffers = self.idle().pop().unwrap_or_default();
        let outcome = (self.work)(item, &mut buffers);
        self.idle().push(buffers);
        drop(beside);
        if !outcome.short_of_memory {
            return outcome;
        }
        let _alone = self.room.write().unwrap_or_else(PoisonError::into_inner);
        self.idle().clear();
        (self.work)(item, &mut Buffers::default())
    }

    fn idle(&self) -> std::sync::MutexGuard<'_, Vec<Buffers>> {
        self.idle.lock().unwrap_or_else(PoisonError::into_inner)
    }
}

/// Hands the outcomes on in order, as they come.
fn hand_on(
    receiver: Receiver<(usize, Outcome)>,
    mut tell: impl FnMut(Outcome) -> Result<()>,
    mut tick: impl FnMut(usize),
) -> Result<()> {
    let (mut turn, mut done) = (0, 0);
    let mut waiting = BTreeMap::new();
    loop {
        match receiver.recv_timeout(TICK) {
            Ok((i, outcome)) => {
                waiting.insert(i, outcome);
                done += 1;
            }
            Err(RecvTimeoutError::Timeout) => {}
            Err(RecvTimeoutError::Disconnected) => return Ok(()),
        }
        while let Some(outcome) = waiting.remove(&turn) {
            tell(outcome)?;
            turn += 1;
        }
        tick(done);
    }
}

#[cfg(test)]
mod tests {
    use super::*;
    use std::io::{Error, ErrorKind};

    fn said(number: &usize) -> Outcome {
        Outcome { out: number.to_string(), ..Outcome::default() }
    }

    #[test]
    fn in_the_order_given() {
        let items: Vec<usize> = (0..500).collect();
        for threads in [1, 2, 7, 1000] {
            let mut told = Vec::new();
            let slow = |number: &usize, _: &mut Buffers| {
                std::thread::sleep(Duration::from_micros((*number as u64 * 7919) % 300));
                said(number)
            };
            let tell = |outcome: Outcome| {
                told.push(outcome.out);
                Ok(())
            };
            run(&items, threads, &slow, tell, |_| {}).unwrap();
            assert!(told.iter().map(|text| text.parse::<usize>().unwrap()).eq(0..500));
        }
    }

    #[test]
    fn ends_where_nothing_can_be_told() {
        let items: Vec<usize> = (0..10_000).collect();
        let begun = AtomicUsize::new(0);
        let work = |number: &usize, _: &mut Buffers| {
            begun.fetch_add(1, Ordering::Relaxed);
            std::thread::sleep(Duration::from_micros(50));
            said(number)
        };
        let tell = |_| Err(Error::from(ErrorKind::BrokenPipe));
        assert!(run(&items, 4, &work, tell, |_| {}).is_err());
        assert!(begun.into_inner() < 10_000);
    }

    /// An item that is short of memory has a second try, and then no other is at work.
    #[test]
    fn short_of_memory_alone() {
        let items: Vec<usize> = (0..200).collect();
        let (at_work, tried) = (AtomicUsize::new(0), Mutex::new(Vec::new()));
        let work = |number: &usize, _: &mut Buffers| {
            let before = at_work.fetch_add(1, Ordering::SeqCst);
            let again = tried.lock().unwrap().contains(number);
            tried.lock().unwrap().push(*number);
            std::thread::sleep(Duration::from_micros(200));
            let after = at_work.fetch_sub(1, Ordering::SeqCst);
            assert!(!again || (before, after) == (0, 1));
            Outcome { short_of_memory: *number % 20 == 3 && !again, ..said(number) }
        };
        let mut told = 0;
        let tell = |outcome: Outcome| {
            told += !outcome.short_of_memory as usize;
            Ok(())
        };
        run(&items, 4, &work, tell, |_| {}).unwrap();
        assert_eq!((told, tried.into_inner().unwrap().len()), (200, 210));
    }
}
