//! What a user would take instead of the service: one store behind a lock.
//!
//!     peers run --form FORM --threads T --lines L --keys K --reads P --ms M
//!     peers queue --producers P --consumers C --ms M
//!     peers copy --lines L --times N [--pause MS]
//!     peers selftest
//!
//! The forms: `btree_mutex` and `btree_rwlock`, a `BTreeMap` under a lock of std, not durable; `region_mutex`, the words of one region
//! under a mutex, of which each changed word is also stored to a durable copy. P of 100 calls get a document, the others put one. `queue` is
//! a `VecDeque` of at most 1,023 texts under a mutex, with a durable copy, into which producers push and from which consumers pop. `copy` is
//! the plain copy of as many atomic words as a region of L lines has, N times, with MS milliseconds before each: the nanoseconds of the
//! quickest and of all.

mod check;
mod queue;
mod region;
mod work;

use queue::Callers;
use std::env;
use std::process::ExitCode;
use std::time::Duration;
use work::{Run, run};

const USAGE: &str = "usage: peers run --form btree_mutex|btree_rwlock|region_mutex --threads T --lines L --keys K --reads P --ms M
       peers queue --producers P --consumers C --ms M
       peers copy --lines L --times N [--pause MS]
       peers selftest
T is 1 to 8, and so is the sum of P and C, L 64 to 16384, P at most 100, and 3K is below L.";

fn main() -> ExitCode {
    let words: Vec<_> = env::args().skip(1).collect();
    if words == ["selftest"] {
        check::selftest(20_000);
        return ExitCode::SUCCESS;
    }
    if let Some(callers) = queue_asked(&words) {
        let [moved, refused, cpu, wall] = queue::run(&callers);
        println!("moved {moved} refused {refused} cpu {cpu} wall {wall}");
        return ExitCode::SUCCESS;
    }
    if let Some((lines, times, pause)) = copy_asked(&words) {
        let (least, all) = region::copies(lines, times, pause);
        println!("copies {times} least {least} all {all}");
        return ExitCode::SUCCESS;
    }
    let tally = asked(&words).and_then(|asked| run(&asked));
    let Some(tally) = tally else {
        eprintln!("{USAGE}");
        return ExitCode::from(2);
    };
    let [updates, reads, cpu, wall] = tally;
    println!("updates {updates} reads {reads} cpu {cpu} wall {wall}");
    ExitCode::SUCCESS
}

// The word behind a name.
fn named<'a>(words: &'a [String], name: &str) -> Option<&'a str> {
    words.chunks(2).find(|pair| pair[0] == name).map(|pair| pair[1].as_str())
}

// The number behind a name, where it is in these bounds.
fn number_of(words: &[String], name: &str, least: u64, most: u64) -> Option<u64> {
    named(words, name)?.parse().ok().filter(|n| (least..=most).contains(n))
}

// The run on a queue that the words ask for.
fn queue_asked(words: &[String]) -> Option<Callers> {
    let (first, rest) = words.split_first()?;
    if first != "queue" || rest.len() != 6 {
        return None;
    }
    let producers = number_of(rest, "--producers", 0, 8)? as usize;
    let consumers = number_of(rest, "--consumers", 0, 8)? as usize;
    let ms = number_of(rest, "--ms", 1, 60_000)?;
    (1..=8).contains(&(producers + consumers)).then_some(Callers { producers, consumers, ms })
}

// The lines and the times of the copies that the words ask for, and the pause before each.
fn copy_asked(words: &[String]) -> Option<(u64, u64, Duration)> {
    let (first, rest) = words.split_first()?;
    if first != "copy" || (rest.len() != 4 && rest.len() != 6) {
        return None;
    }
    let pause = if rest.len() == 6 { number_of(rest, "--pause", 1, 60_000)? } else { 0 };
    Some((number_of(rest, "--lines", 64, 16384)?, number_of(rest, "--times", 1, 1_000_000)?, Duration::from_millis(pause)))
}

// The run that the words ask for.
fn asked(words: &[String]) -> Option<Run> {
    let (first, rest) = words.split_first()?;
    if first != "run" || rest.len() != 12 {
        return None;
    }
    let word = |name: &str| named(rest, name);
    let number = |name: &str, least: u64, most: u64| number_of(rest, name, least, most);
    let lines = number("--lines", 64, 16384)?;
    Some(Run {
        form: word("--form")?.to_string(),
        threads: number("--threads", 1, 8)? as usize,
        lines,
        keys: number("--keys", 1, (lines - 1) / 3)?,
        reads: number("--reads", 0, 100)?,
        ms: number("--ms", 1, 60_000)?,
    })
}
