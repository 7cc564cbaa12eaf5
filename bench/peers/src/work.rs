//! What the threads do: gets and puts of documents of 32 bytes, at keys of 16 bytes, which all are there.

use crate::region::Region;
use std::collections::BTreeMap;
use std::hint::black_box;
use std::sync::atomic::{AtomicBool, Ordering::Relaxed};
use std::sync::{Barrier, Mutex, RwLock};
use std::thread;
use std::time::{Duration, Instant};

pub type Map = BTreeMap<Vec<u8>, Vec<u8>>;

// Puts a document in a map, in the memory of the old one where there is one.
fn put(map: &mut Map, key: &[u8], document: &[u8]) {
    if let Some(old) = map.get_mut(key) {
        old.clear();
        old.extend_from_slice(document);
    } else {
        map.insert(key.to_vec(), document.to_vec());
    }
}

/// The words of a run.
pub struct Run {
    pub form: String,
    pub threads: usize,
    pub lines: u64,
    pub keys: u64,
    pub reads: u64,
    pub ms: u64,
}

// A caller's put of a document at a key, and a get, which writes the document.
type Put<'a> = dyn Fn(usize, &[u8], &[u8]) + Sync + 'a;
type Get<'a> = dyn Fn(&[u8], &mut Vec<u8>) + Sync + 'a;

/// Updates, reads, and nanoseconds of processor time and of wall time, each the sum over threads.
pub type Tally = [u64; 4];

/// Fills a form and runs it. It gives `None` where no form has that name.
pub fn run(run: &Run) -> Option<Tally> {
    let mut map = Map::new();
    let mut region = Region::new(run.lines);
    for i in 0..run.keys {
        // not in order
        let key = key(i * 7919 % run.keys);
        put(&mut map, &key, &[b'a'; 32]);
        region.update(0, &key, Some(&[b'a'; 32]));
    }
    match run.form.as_str() {
        "btree_mutex" => {
            let map = Mutex::new(map);
            let get = |key: &[u8], into: &mut Vec<u8>| into.extend_from_slice(&map.lock().unwrap()[key]);
            Some(all(run, &|_, key, document| put(&mut map.lock().unwrap(), key, document), &get))
        }
        "btree_rwlock" => {
            let map = RwLock::new(map);
            let get = |key: &[u8], into: &mut Vec<u8>| into.extend_from_slice(&map.read().unwrap()[key]);
            Some(all(run, &|_, key, document| put(&mut map.write().unwrap(), key, document), &get))
        }
        "region_mutex" => {
            let region = Mutex::new(region);
            let update = |caller, key: &[u8], document: &[u8]| {
                region.lock().unwrap().update(caller, key, Some(document));
            };
            Some(all(run, &update, &|key, into| assert!(region.lock().unwrap().get(key, into))))
        }
        _ => None,
    }
}

fn key(number: u64) -> Vec<u8> {
    format!("document{number:08}").into_bytes()
}

// Lets all threads call for the time of the run.
fn all(run: &Run, put: &Put, get: &Get) -> Tally {
    let (start, stop) = (Barrier::new(run.threads + 1), AtomicBool::new(false));
    let (start, stop) = (&start, &stop);
    thread::scope(|scope| {
        let spawned = |caller| scope.spawn(move || one(run, (caller, put, get), start, stop));
        let threads: Vec<_> = (0..run.threads).map(spawned).collect();
        start.wait();
        thread::sleep(Duration::from_millis(run.ms));
        stop.store(true, Relaxed);
        let tallies = threads.into_iter().map(|thread| thread.join().unwrap());
        tallies.fold([0; 4], |sum, more| [0, 1, 2, 3].map(|i| sum[i] + more[i]))
    })
}

// Calls until it is to stop.
fn one(run: &Run, (caller, put, get): (usize, &Put, &Get), start: &Barrier, stop: &AtomicBool) -> Tally {
    let keys: Vec<_> = (0..run.keys).map(key).collect();
    let mut random = Random::new(caller as u64 + 1);
    let mut document = [0; 32];
    let mut seen = Vec::new();
    let (mut updates, mut reads) = (0, 0);
    start.wait();
    let (begun, used) = (Instant::now(), thread_time());
    while !stop.load(Relaxed) {
        let key = &keys[random.below(run.keys) as usize];
        if random.below(100) < run.reads {
            seen.clear();
            get(key, &mut seen);
            black_box(&seen);
            reads += 1;
        } else {
            for word in document.chunks_exact_mut(8) {
                word.copy_from_slice(&(random.next() & 0x0f0f_0f0f_0f0f_0f0f | 0x6060_6060_6060_6060).to_le_bytes());
            }
            put(caller, key, &document);
            updates += 1;
        }
    }
    [updates, reads, thread_time() - used, begun.elapsed().as_nanos() as u64]
}

/// Numbers that repeat late.
pub struct Random(u64);

impl Random {
    pub fn new(seed: u64) -> Random {
        Random(seed.wrapping_mul(0x9e37_79b9_7f4a_7c15) | 1)
    }

    pub fn next(&mut self) -> u64 {
        self.0 ^= self.0 << 13;
        self.0 ^= self.0 >> 7;
        self.0 ^= self.0 << 17;
        self.0
    }

    pub fn below(&mut self, bound: u64) -> u64 {
        ((self.next() >> 32) * bound) >> 32
    }
}

#[repr(C)]
struct Time {
    seconds: i64,
    nanoseconds: i64,
}

unsafe extern "C" {
    fn clock_gettime(clock: i32, time: *mut Time) -> i32;
}

// Nanoseconds of the processor that the calling thread has used, on Linux with 64 bits.
pub fn thread_time() -> u64 {
    const THREAD_CPUTIME: i32 = 3;
    let mut time = Time { seconds: 0, nanoseconds: 0 };
    // SAFETY: it writes one `timespec`, which has this form there.
    let status = unsafe { clock_gettime(THREAD_CPUTIME, &mut time) };
    assert_eq!(status, 0, "a thread has no clock");
    time.seconds as u64 * 1_000_000_000 + time.nanoseconds as u64
}
