//! A session by its pointer, which is tried again until it has an answer.

use crate::raw::{self, Handle, Words};
use crate::Error;
use std::ffi::c_void;
use std::ptr;
use std::thread;
use std::time::{Duration, Instant};

/// The tries of one call.
const TRIES: u64 = 16;

/// For how long a call is begun again while others are in the way.
pub const PATIENCE: Duration = Duration::from_secs(1);

/// How patient a call has been: since when it is refused.
struct Patience(Option<Instant>);

impl Patience {
    /// After a refusal: yields, and says whether another try is to be made.
    fn goes_on(&mut self) -> bool {
        let since = *self.0.get_or_insert_with(Instant::now);
        thread::yield_now();
        since.elapsed() < PATIENCE
    }
}

/// How sessions of a store or of a queue are opened.
pub type Open = unsafe extern "C" fn(u64, *mut *mut c_void, usize) -> i32;

/// How they are recovered.
pub type Recover = unsafe extern "C" fn(*const u64, usize, *mut *mut c_void, usize) -> i32;

/// What closing a session did.
pub enum Ended {
    Others,
    Closed(Pointer),
    Not(Pointer, Error),
}

/// A pointer to a session, or to a closed store, which no other value has.
pub struct Pointer(*mut c_void);

// The library proves that what the pointer leads to may go to another thread; one call at a time has it, since a call takes it by `&mut`.
unsafe impl Send for Pointer {}

impl Pointer {
    /// Sessions of a store or a queue in the given number of lines.
    pub fn open(open: Open, lines: u64, count: usize) -> Result<Vec<Pointer>, Error> {
        Pointer::made(count, |slots| unsafe { open(lines, slots, count) })
    }

    /// Sessions of the store or the queue that words say.
    pub fn recover(recover: Recover, words: &[u64], count: usize) -> Result<Vec<Pointer>, Error> {
        Pointer::made(count, |slots| unsafe { recover(words.as_ptr(), words.len(), slots, count) })
    }

    /// As many sessions as a call puts into the slots.
    pub fn made(count: usize, make: impl FnOnce(*mut *mut c_void) -> i32) -> Result<Vec<Pointer>, Error> {
        if count > 8 {
            return Err(Error::BadSize);
        }
        let mut slots = [ptr::null_mut(); 8];
        match make(slots.as_mut_ptr()) {
            raw::DONE => Ok(slots[..count].iter().map(|at| Pointer(*at)).collect()),
            status => Err(Error::of(status)),
        }
    }

    /// The place that tells another session what this one has seen.
    pub fn place(&mut self) -> u64 {
        let mut place = 0;
        unsafe { raw::githoppu_place_of(Handle(self.0), &mut place, &mut self.0) };
        place
    }

    /// Has the session see a place: whether that is there.
    pub fn catch_up(&mut self, place: u64) -> Result<bool, Error> {
        match unsafe { raw::githoppu_see_place(Handle(self.0), place, &mut self.0) } {
            raw::DONE => Ok(true),
            raw::BEHIND => Ok(false),
            status => Err(Error::of(status)),
        }
    }

    /// Closes a session, and tries again while others are in the way.
    pub fn close(mut self) -> Ended {
        let mut patience = Patience(None);
        let status = loop {
            let status = unsafe { raw::githoppu_close(Handle(self.0), &mut self.0) };
            if status != raw::AGAIN || !patience.goes_on() {
                break status;
            }
        };
        match status {
            raw::DONE => Ended::Closed(self),
            raw::OTHERS => Ended::Others,
            status => Ended::Not(self, Error::of(status)),
        }
    }

    /// What a crash leaves of a closed store, by choice.
    pub fn image(&mut self, choice: u64) -> Result<Vec<u64>, Error> {
        let mut words = Vec::new();
        let mut needed = 0;
        for _ in 0..2 {
            words.resize(needed as usize, 0);
            let status = unsafe { raw::githoppu_image(Handle(self.0), choice, words.as_mut_ptr(), words.len(), &mut needed, &mut self.0) };
            match status {
                raw::DONE => return Ok(words),
                raw::BAD_SIZE => (),
                status => return Err(Error::of(status)),
            }
        }
        Err(Error::BadSize)
    }

    /// An image of the store of a session while others go on. It is tried again while they are in the way.
    pub fn checkpoint(&mut self) -> Result<Vec<u64>, Error> {
        let mut words = Vec::new();
        let mut needed = 0;
        let mut patience = Patience(None);
        loop {
            let status = unsafe { raw::githoppu_checkpoint(Handle(self.0), words.as_mut_ptr(), words.len(), &mut needed, &mut self.0) };
            match status {
                raw::DONE => return Ok(words),
                raw::BAD_SIZE => words.resize(needed as usize, 0),
                raw::AGAIN if patience.goes_on() => (),
                status => return Err(Error::of(status)),
            }
        }
    }

    /// Does an operation, and tries again until it is answered. A reply of kind 0 says that the words were no operation.
    pub fn ask(&mut self, op: &Words) -> Result<Words, Error> {
        let mut reply = [0; 144];
        let mut patience = Patience(None);
        let mut status = loop {
            let status = unsafe { raw::githoppu_call(Handle(self.0), op, &mut reply, TRIES, &mut self.0) };
            if status != raw::AGAIN && status != raw::FULL || !patience.goes_on() {
                break status;
            }
        };
        // it is in the log: it will be answered, and nothing else can be asked before
        while status == raw::PENDING {
            thread::yield_now();
            status = unsafe { raw::githoppu_finish(Handle(self.0), &mut reply, TRIES, &mut self.0) };
        }
        match status {
            raw::DONE if reply[0] == 0 => Err(Error::Malformed),
            raw::DONE => Ok(reply),
            status => Err(Error::of(status)),
        }
    }
}

impl Drop for Pointer {
    fn drop(&mut self) {
        // where it was closed, there is nothing left of it here
        if !self.0.is_null() {
            unsafe { raw::githoppu_drop(Handle(self.0)) }
        }
    }
}
