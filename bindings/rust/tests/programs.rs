//! Objects of programs: what words are refused, what a run answers, threads, images and files.

mod patiently;

use githoppu::{Closing, Error, Fault, FaultKind, FileError, Program, ProgramFault, ProgramSession, Refusal, Reply, Store};
use patiently::patiently;
use std::thread;

/// `tools/program` wrote these words of a counter: ADD adds a word to the first one of the state, GET reads it, and LOOP stores 99 and never ends.
const WORDS: [u64; 16] = [
    0x1479, 0x6000b0415, 0x500060415, 0x2000000b7, 0x200070455, 0x3479, 0x81179, 0x410f, 0x137b, 0x3179, 0x127b, 0x1000000b7, 0x95, 0x63000001b7, 0x137b,
    0xffff0005,
];
const ADD: u64 = 2;
const GET: u64 = 5;
const LOOP: u64 = 6;
const FUEL: u64 = 1000;
const THREADS: usize = 4;
const ADDS: u64 = 5_000;

const fn goes_to_a_thread<T: Send>() {}

const _: () = goes_to_a_thread::<ProgramSession>();

fn counter() -> Program {
    Program::of(&WORDS, 16, FUEL).unwrap()
}

fn value(session: &mut ProgramSession) -> u64 {
    session.run(GET, &[]).unwrap().words[0]
}

#[test]
fn what_is_no_program_is_told() {
    let fault = |words: &[u64], instructions, fuel| Program::of(words, instructions, fuel).unwrap_err();
    let is = |refusal, instruction| ProgramFault { refusal, instruction };
    let first = |word: u64| fault(&[word, 0x95], 2, FUEL);
    assert_eq!(fault(&[], 0, FUEL), is(Refusal::Length, 0));
    assert_eq!(fault(&WORDS, 17, FUEL), is(Refusal::Length, 0));
    assert_eq!(fault(&WORDS, 16, (1 << 20) + 1), is(Refusal::Fuel, 0));
    assert_eq!(first(0xff), is(Refusal::Opcode, 0));
    assert_eq!(first(0x10b7), is(Refusal::Unused, 0));
    assert_eq!(first(0xab7), is(Refusal::Register, 0));
    assert_eq!(first(0x10005), is(Refusal::Target, 0));
    assert_eq!(fault(&[0x95, 0xb7], 2, FUEL), is(Refusal::End, 1));
    assert_eq!(first(0x100000085), is(Refusal::Helper, 0));
    assert_eq!(first(0x1018), is(Refusal::Map, 0));
    assert_eq!(first(0xdb), is(Refusal::Atomic, 0));
    assert_eq!(first(0x20), is(Refusal::Packet, 0));
    assert_eq!(fault(&[0x95, 0xb7], 2, FUEL).to_string(), "instruction 1: the last instruction goes on behind the end");
    assert_eq!(counter().open(63, 1).err(), Some(Error::BadSize));
    assert_eq!(counter().open(64, 9).err(), Some(Error::BadSize));
}

#[test]
fn a_run_returns_or_changes_nothing() {
    let mut s = counter().open(64, 2).unwrap();
    let ran = s[0].update(1, &[5]).unwrap();
    assert_eq!((ran.value, ran.words[0], ran.words[1]), (1, 5, 0));
    assert_eq!(s[1].read(2, &[]).unwrap().words[0], 5);
    let fault = s[1].run(LOOP, &[]).unwrap_err();
    assert_eq!(fault, Error::Fault(Fault { kind: FaultKind::Fuel, instruction: 15, address: 0 }));
    assert_eq!(fault.to_string(), "instruction 15: more instructions than an operation may take");
    assert_eq!(value(&mut s[0]), 5);
    assert_eq!(s[0].run(8, &[1; 143]).unwrap().value, 2);
    assert_eq!(s[0].run(8, &[1; 144]), Err(Error::TooLong));
    // a place goes to another session
    let place = s[0].place();
    assert_eq!(s[1].catch_up(place), Ok(true));
    assert_eq!(s[1].catch_up(place + 1), Ok(false));
}

#[test]
fn threads_count_and_an_image_keeps_it() {
    let program = counter();
    let sessions = program.open(64, THREADS).unwrap();
    let threads: Vec<_> = sessions
        .into_iter()
        .map(|mut session| {
            thread::spawn(move || {
                for _ in 0..ADDS {
                    patiently(|| session.run(ADD, &[1])).unwrap();
                }
                session
            })
        })
        .collect();
    let mut sessions: Vec<_> = threads.into_iter().map(|thread| thread.join().unwrap()).collect();
    assert_eq!(value(&mut sessions[0]), THREADS as u64 * ADDS);
    assert_eq!(sessions[1].run(LOOP, &[]).map_err(|_| ()), Err(()));
    let mut closed = None;
    for session in sessions {
        match session.close() {
            Closing::Others => (),
            Closing::Closed(last) => closed = Some(last),
            Closing::Not(_, error) => panic!("{error}"),
        }
    }
    let mut closed = closed.unwrap();
    for choice in 0..3 {
        let image = closed.image(choice).unwrap();
        let outcome = image.outcome(1).unwrap().unwrap();
        assert_eq!(outcome.number, ADDS + 1);
        assert!(matches!(outcome.reply, Reply::Fault(Fault { kind: FaultKind::Fuel, .. })));
        assert!(matches!(image.outcome(0).unwrap().unwrap().reply, Reply::Ran(ran) if ran.value == 1));
        assert_eq!(value(&mut program.recover(None, &image, 3).unwrap()[2]), THREADS as u64 * ADDS);
    }
}

#[test]
fn another_program_is_refused_and_one_that_was_before_is_taken_over() {
    let (program, later) = (counter(), Program::of(&WORDS, 16, FUEL + 1).unwrap());
    assert_ne!(program.fingerprint(), later.fingerprint());
    let mut session = program.open(64, 1).unwrap().pop().unwrap();
    session.run(ADD, &[41]).unwrap();
    let image = session.checkpoint().unwrap();
    assert_eq!(later.recover(None, &image, 1).err(), Some(Error::ImageVersion));
    assert_eq!(value(&mut later.recover(Some(&program), &image, 1).unwrap()[0]), 41);
    assert_eq!(Store::recover(&image, 1).err(), Some(Error::OtherKind));
    let mut store = Store::open(64, 1).unwrap().pop().unwrap();
    assert_eq!(program.recover(None, &store.checkpoint().unwrap(), 1).err(), Some(Error::OtherKind));
    assert_eq!(program.recover(None, &image[..image.len() - 1], 1).err(), Some(Error::ImageSize));
    assert_eq!(program.recover(None, &image[..7], 1).err(), Some(Error::NotAnImage));
    let path = std::env::temp_dir().join(format!("githoppu-program-{}", std::process::id()));
    session.save(&path).unwrap();
    assert_eq!(value(&mut program.load(None, &path, 2).unwrap()[1]), 41);
    assert!(matches!(later.load(None, &path, 1), Err(FileError::Refused(Error::ImageVersion))));
    std::fs::remove_file(&path).unwrap();
}
