//! A bounded queue of texts behind a lock: a `VecDeque`, and a durable copy of it, which is a ring of lines. `docs/TABLE_WORDS.md` has the
//! layout of its lines.

use crate::work::thread_time;
use std::collections::VecDeque;
use std::sync::atomic::{AtomicBool, AtomicU64, Ordering};
use std::sync::{Barrier, Mutex};
use std::thread;
use std::time::{Duration, Instant};

/// A text's length, and its bytes packed.
pub type Item = [u64; 8];

// words of the header, which is line 0
const HEAD: usize = 1;
const COUNT: usize = 2;

/// A queue and its durable copy.
///
/// The copy is made in place, so a crash while it is made would leave it torn. It shows what durable words cost at least.
pub struct Queue {
    items: VecDeque<Item>,
    head: usize,
    most: usize,
    durable: Vec<AtomicU64>,
}

impl Queue {
    /// The empty queue of so many lines.
    pub fn new(lines: usize) -> Queue {
        let durable: Vec<_> = (0..8 * lines).map(|_| AtomicU64::new(0)).collect();
        durable[0].store(16, Ordering::SeqCst);
        Queue { items: VecDeque::with_capacity(lines - 1), head: 0, most: lines - 1, durable }
    }

    /// Whether there was a place for the item, which is the last now.
    pub fn push(&mut self, item: Item) -> bool {
        if self.items.len() == self.most {
            return false;
        }
        let place = (self.head + self.items.len()) % self.most;
        self.items.push_back(item);
        for (word, value) in item.into_iter().enumerate() {
            self.durable[8 * (place + 1) + word].store(value, Ordering::Relaxed);
        }
        self.persist();
        true
    }

    /// The item at the front, which is gone now.
    pub fn pop(&mut self) -> Option<Item> {
        let item = self.items.pop_front()?;
        self.head = (self.head + 1) % self.most;
        self.durable[HEAD].store(self.head as u64, Ordering::Relaxed);
        self.persist();
        Some(item)
    }

    // Stores the count in the copy. The exchange stands for the fence behind the words.
    fn persist(&self) {
        self.durable[COUNT].swap(self.items.len() as u64, Ordering::SeqCst);
    }

    /// The items that the copy has, in order.
    pub fn kept(&self) -> Vec<Item> {
        let word = |at: usize| self.durable[at].load(Ordering::SeqCst);
        let place = |i: u64| (word(HEAD) + i) as usize % self.most;
        (0..word(COUNT)).map(|i| [0, 1, 2, 3, 4, 5, 6, 7].map(|j| word(8 * (place(i) + 1) + j))).collect()
    }
}

/// Who calls, and for how long.
pub struct Callers {
    pub producers: usize,
    pub consumers: usize,
    pub ms: u64,
}

/// Calls that moved an item and calls that found the queue full or empty, and nanoseconds of processor time and of wall time, each the sum
/// over threads. The queue has 1,023 places, half of which are taken at the beginning.
pub fn run(callers: &Callers) -> [u64; 4] {
    const TEXT: Item = [32, 0x6161_6161_6161_6161, 0x6161_6161_6161_6161, 0x6161_6161_6161_6161, 0x6161_6161_6161_6161, 0, 0, 0];
    let mut queue = Queue::new(1024);
    (0..511).for_each(|_| assert!(queue.push(TEXT)));
    let queue = Mutex::new(queue);
    let count = callers.producers + callers.consumers;
    let (start, stop) = (Barrier::new(count + 1), AtomicBool::new(false));
    let one = |is_producer: bool| {
        let (mut moved, mut refused) = (0, 0);
        start.wait();
        let (begun, used) = (Instant::now(), thread_time());
        while !stop.load(Ordering::Relaxed) {
            let done = if is_producer { queue.lock().unwrap().push(TEXT) } else { queue.lock().unwrap().pop().is_some() };
            if done {
                moved += 1;
            } else {
                refused += 1;
            }
        }
        [moved, refused, thread_time() - used, begun.elapsed().as_nanos() as u64]
    };
    thread::scope(|scope| {
        let one = &one;
        let threads: Vec<_> = (0..count).map(|caller| scope.spawn(move || one(caller < callers.producers))).collect();
        start.wait();
        thread::sleep(Duration::from_millis(callers.ms));
        stop.store(true, Ordering::Relaxed);
        let tallies = threads.into_iter().map(|thread| thread.join().unwrap());
        tallies.fold([0; 4], |sum, more| [0, 1, 2, 3].map(|i| sum[i] + more[i]))
    })
}
