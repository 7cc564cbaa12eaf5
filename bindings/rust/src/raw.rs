//! The library's functions, as `include/githoppu.h` declares them.

use std::ffi::c_void;

/// A session, or a closed store, as an argument.
#[repr(C)]
#[derive(Clone, Copy)]
pub struct Handle(pub *mut c_void);

pub type Words = [u64; 144];

pub const DONE: i32 = 0;
pub const PENDING: i32 = 1;
pub const AGAIN: i32 = 2;
pub const FULL: i32 = 3;
pub const WORN: i32 = 4;
pub const STOPPED: i32 = 5;
pub const OUT_OF_TURN: i32 = 6;
pub const BAD_SIZE: i32 = 7;
pub const NO_MEMORY: i32 = 8;
pub const OTHERS: i32 = 11;
pub const LOST: i32 = 12;
pub const NOT_AN_IMAGE: i32 = 13;
pub const OTHER_KIND: i32 = 14;
pub const IMAGE_SIZE: i32 = 15;
pub const IMAGE_ROOT: i32 = 16;
pub const IMAGE_VERSION: i32 = 17;
pub const IMAGE_PLACE: i32 = 18;
pub const IMAGE_BODY: i32 = 19;
pub const IMAGE_NUMBERS: i32 = 20;
pub const BEHIND: i32 = 23;
pub const BAD_PROGRAM: i32 = 25;

extern "C" {
    pub fn githoppu_open(lines: u64, sessions: *mut *mut c_void, count: usize) -> i32;
    pub fn githoppu_open_queue(lines: u64, sessions: *mut *mut c_void, count: usize) -> i32;
    pub fn githoppu_call(session: Handle, op: *const Words, reply: *mut Words, tries: u64, out: *mut *mut c_void) -> i32;
    pub fn githoppu_finish(session: Handle, reply: *mut Words, tries: u64, out: *mut *mut c_void) -> i32;
    pub fn githoppu_place_of(session: Handle, place: *mut u64, out: *mut *mut c_void) -> i32;
    pub fn githoppu_see_place(session: Handle, place: u64, out: *mut *mut c_void) -> i32;
    pub fn githoppu_close(session: Handle, out: *mut *mut c_void) -> i32;
    pub fn githoppu_image(closed: Handle, choice: u64, words: *mut u64, count: usize, needed: *mut u64, out: *mut *mut c_void) -> i32;
    pub fn githoppu_checkpoint(session: Handle, words: *mut u64, count: usize, needed: *mut u64, out: *mut *mut c_void) -> i32;
    pub fn githoppu_recover(words: *const u64, words_count: usize, sessions: *mut *mut c_void, count: usize) -> i32;
    pub fn githoppu_recover_queue(words: *const u64, words_count: usize, sessions: *mut *mut c_void, count: usize) -> i32;
    pub fn githoppu_outcome(words: *const u64, words_count: usize, session: u64, number: *mut u64, reply: *mut Words) -> i32;
    pub fn githoppu_open_program(
        program: *const u64,
        words: usize,
        instructions: u64,
        fuel: u64,
        lines: u64,
        sessions: *mut *mut c_void,
        count: usize,
    ) -> i32;
    pub fn githoppu_recover_program(
        program: *const u64,
        words: usize,
        instructions: u64,
        fuel: u64,
        before: u64,
        image: *const u64,
        image_words: usize,
        sessions: *mut *mut c_void,
        count: usize,
    ) -> i32;
    pub fn githoppu_program_fault(program: *const u64, words: usize, instructions: u64, fault: *mut u64, at: *mut u64) -> i32;
    pub fn githoppu_program_fingerprint(program: *const u64, words: usize, instructions: u64, fuel: u64, fingerprint: *mut u64) -> i32;
    pub fn githoppu_version() -> u64;
    pub fn githoppu_drop(session: Handle);
}

/// A million times the first number of the library's version, a thousand times the second, and the third.
pub fn library_version() -> u64 {
    unsafe { githoppu_version() }
}

/// The number of a session's last update and its reply, as the words of an image say, or the status with which the words are refused.
pub fn outcome_of(words: &[u64], session: u64) -> Result<(u64, Words), i32> {
    let mut number = 0;
    let mut reply = [0; 144];
    match unsafe { githoppu_outcome(words.as_ptr(), words.len(), session, &mut number, &mut reply) } {
        DONE => Ok((number, reply)),
        status => Err(status),
    }
}

/// The fingerprint of a program with its fuel, or the status with which it is refused.
pub fn program_fingerprint(words: &[u64], instructions: u64, fuel: u64) -> Result<u64, i32> {
    let mut fingerprint = 0;
    match unsafe { githoppu_program_fingerprint(words.as_ptr(), words.len(), instructions, fuel, &mut fingerprint) } {
        DONE => Ok(fingerprint),
        status => Err(status),
    }
}

/// Why words are no program, and the number of the instruction, or another status.
pub fn program_fault(words: &[u64], instructions: u64) -> Result<(u64, u64), i32> {
    let (mut fault, mut at) = (0, 0);
    match unsafe { githoppu_program_fault(words.as_ptr(), words.len(), instructions, &mut fault, &mut at) } {
        BAD_PROGRAM => Ok((fault, at)),
        status => Err(status),
    }
}
