//! Data structures of one's own in C: objects whose operations are runs of a program of BPF words.

use crate::raw;
use crate::session::Pointer;
use crate::{Closing, Error, FileError, Image};
use std::fmt;
use std::path::Path;

/// How many words a request has at most.
const REQUEST: usize = 144;

/// How many words a reply has beside what the function returned.
const REPLY: usize = 136;

/// Why words are no program.
#[derive(Clone, Copy, Debug, PartialEq, Eq)]
pub enum Refusal {
    /// There are no instructions, more than 65,536, or more than there are words.
    Length,
    /// An operation that is not known.
    Opcode,
    /// A field that the instruction does not use is not zero.
    Unused,
    /// A register above 10, or one above 9 that is written.
    Register,
    /// A jump or a call that leads to no instruction.
    Target,
    /// The last instruction goes on behind the end.
    End,
    /// A call of a helper, or by an address in a register.
    Helper,
    /// An address of a map.
    Map,
    /// An atomic operation.
    Atomic,
    /// An access to a packet.
    Packet,
    /// The fuel is above 2^20.
    Fuel,
    /// There was no memory to look at the words.
    Memory,
    /// A refusal that this version does not know.
    Unknown(u64),
}

impl Refusal {
    fn of(number: u64) -> Refusal {
        match number {
            1 => Refusal::Length,
            2 => Refusal::Opcode,
            3 => Refusal::Unused,
            4 => Refusal::Register,
            5 => Refusal::Target,
            6 => Refusal::End,
            7 => Refusal::Helper,
            8 => Refusal::Map,
            9 => Refusal::Atomic,
            10 => Refusal::Packet,
            other => Refusal::Unknown(other),
        }
    }
}

impl fmt::Display for Refusal {
    fn fmt(&self, f: &mut fmt::Formatter<'_>) -> fmt::Result {
        f.write_str(match self {
            Refusal::Length => "it has no instructions, more than 65,536, or more than there are words",
            Refusal::Opcode => "an operation that is not known",
            Refusal::Unused => "a field that the instruction does not use is not zero",
            Refusal::Register => "a register that there is none of, or a write of register 10",
            Refusal::Target => "a jump or a call that leads to no instruction",
            Refusal::End => "the last instruction goes on behind the end",
            Refusal::Helper => "a call of a helper, or by an address in a register",
            Refusal::Map => "an address of a map",
            Refusal::Atomic => "an atomic operation",
            Refusal::Packet => "an access to a packet",
            Refusal::Fuel => "the fuel is above 2^20",
            Refusal::Memory => "no memory",
            Refusal::Unknown(number) => return write!(f, "refusal {number}"),
        })
    }
}

/// Why words are no program, and the number of the first instruction at fault.
#[derive(Clone, Copy, Debug, PartialEq, Eq)]
pub struct ProgramFault {
    pub refusal: Refusal,
    pub instruction: u64,
}

impl fmt::Display for ProgramFault {
    fn fmt(&self, f: &mut fmt::Formatter<'_>) -> fmt::Result {
        match self.refusal {
            Refusal::Length | Refusal::Fuel | Refusal::Memory => self.refusal.fmt(f),
            refusal => write!(f, "instruction {}: {refusal}", self.instruction),
        }
    }
}

impl std::error::Error for ProgramFault {}

/// A data structure in C, which `tools/program FILE.c -o FILE.rs` made a program of BPF words.
///
/// ```
/// use githoppu::Program;
/// // it returns 7, whatever the request
/// let mut sessions = Program::of(&[0x7000000b7, 0x95], 2, 100)?.open(64, 2)?;
/// assert_eq!(sessions[1].update(1, &[])?.value, 7);
/// let fault = Program::of(&[0xb7, 0xff], 2, 100).unwrap_err();
/// assert_eq!(fault.to_string(), "instruction 1: an operation that is not known");
/// # Ok::<(), Box<dyn std::error::Error>>(())
/// ```
#[derive(Clone, Debug, PartialEq, Eq)]
pub struct Program {
    words: Vec<u64>,
    instructions: u64,
    fuel: u64,
    fingerprint: u64,
}

impl Program {
    /// The program of words: the first `instructions` of them are instructions, the others constants. An operation takes at most `fuel` instructions, itself at
    /// most 2^20.
    pub fn of(words: &[u64], instructions: u64, fuel: u64) -> Result<Program, ProgramFault> {
        let fault = |refusal, instruction| Err(ProgramFault { refusal, instruction });
        match raw::program_fingerprint(words, instructions, fuel) {
            Ok(fingerprint) => Ok(Program { words: words.to_vec(), instructions, fuel, fingerprint }),
            Err(raw::BAD_SIZE) => fault(Refusal::Fuel, 0),
            Err(raw::NO_MEMORY) => fault(Refusal::Memory, 0),
            Err(_) => match raw::program_fault(words, instructions) {
                Ok((number, instruction)) => fault(Refusal::of(number), instruction),
                Err(_) => fault(Refusal::Memory, 0),
            },
        }
    }

    /// The fingerprint of the words and of the fuel: the version of its images.
    pub fn fingerprint(&self) -> u64 {
        self.fingerprint
    }

    /// The given number of sessions, 1 to 8, of a new object in 64 to 16,384 lines of 64 bytes, of which the first is the library's and the others are zeros.
    pub fn open(&self, lines: u64, sessions: usize) -> Result<Vec<ProgramSession>, Error> {
        Pointer::made(sessions, |slots| unsafe {
            raw::githoppu_open_program(self.words.as_ptr(), self.words.len(), self.instructions, self.fuel, lines, slots, sessions)
        })
        .map(as_sessions)
    }

    /// Sessions of the object that the words of an image say. The image is of this program, or of `before`: then the program is run once, to bring the state
    /// into its own form.
    pub fn recover(&self, before: Option<&Program>, image: &[u64], sessions: usize) -> Result<Vec<ProgramSession>, Error> {
        let old = before.map_or(0, Program::fingerprint);
        Pointer::made(sessions, |slots| unsafe {
            let (words, count) = (self.words.as_ptr(), self.words.len());
            raw::githoppu_recover_program(words, count, self.instructions, self.fuel, old, image.as_ptr(), image.len(), slots, sessions)
        })
        .map(as_sessions)
    }

    /// Sessions of the object in a file that was saved, from here or from C, as `recover` takes it up.
    pub fn load(&self, before: Option<&Program>, path: impl AsRef<Path>, sessions: usize) -> Result<Vec<ProgramSession>, FileError> {
        Ok(self.recover(before, &Image::load(path)?, sessions)?)
    }
}

fn as_sessions(pointers: Vec<Pointer>) -> Vec<ProgramSession> {
    pointers.into_iter().map(ProgramSession).collect()
}

/// What a run ended with that did not return. It changed nothing.
#[derive(Clone, Copy, Debug, PartialEq, Eq)]
pub enum FaultKind {
    /// An address that is no place to load from or store to.
    Address,
    /// An address that is no multiple of the bytes that are loaded or stored.
    Alignment,
    /// A store to the state in an operation that only reads.
    StoreInRead,
    /// More than 256 stores to the state.
    Stores,
    /// More instructions than an operation may take.
    Fuel,
    /// More than 7 calls within one another.
    Depth,
    /// No instruction is there: no program that was validated ends so.
    Instruction,
    /// A fault that this version does not know.
    Unknown(u64),
}

/// A fault of a run: which, in which instruction, and at which address.
#[derive(Clone, Copy, Debug, PartialEq, Eq)]
pub struct Fault {
    pub kind: FaultKind,
    pub instruction: u64,
    pub address: u64,
}

impl Fault {
    fn of(reply: &raw::Words) -> Fault {
        let kind = match reply[0] {
            2 => FaultKind::Address,
            3 => FaultKind::Alignment,
            4 => FaultKind::StoreInRead,
            5 => FaultKind::Stores,
            6 => FaultKind::Fuel,
            7 => FaultKind::Depth,
            8 => FaultKind::Instruction,
            other => FaultKind::Unknown(other),
        };
        Fault { kind, instruction: reply[1], address: reply[2] }
    }
}

impl fmt::Display for Fault {
    fn fmt(&self, f: &mut fmt::Formatter<'_>) -> fmt::Result {
        let at = self.instruction;
        match self.kind {
            FaultKind::Address => write!(f, "instruction {at}: {:#x} is no place to load from or store to", self.address),
            FaultKind::Alignment => write!(f, "instruction {at}: {:#x} is no multiple of the bytes that are loaded or stored", self.address),
            FaultKind::StoreInRead => write!(f, "instruction {at}: a store to the state in an operation that only reads"),
            FaultKind::Stores => write!(f, "instruction {at}: more than 256 stores to the state"),
            FaultKind::Fuel => write!(f, "instruction {at}: more instructions than an operation may take"),
            FaultKind::Depth => write!(f, "instruction {at}: more than 7 calls within one another"),
            FaultKind::Instruction => write!(f, "instruction {at}: no instruction is there"),
            FaultKind::Unknown(number) => write!(f, "instruction {at}: fault {number}"),
        }
    }
}

/// What a run returned: the function's value, and the words of its reply.
#[derive(Clone, Debug, PartialEq, Eq)]
pub struct Ran {
    pub value: u64,
    pub words: [u64; REPLY],
}

impl Ran {
    /// What the words of a reply say, as of an outcome.
    pub(crate) fn of(reply: &raw::Words) -> Result<Ran, Fault> {
        match reply[0] {
            1 => Ok(Ran { value: reply[1], words: std::array::from_fn(|i| reply[8 + i]) }),
            _ => Err(Fault::of(reply)),
        }
    }
}

/// A session of an object of a program.
pub struct ProgramSession(Pointer);

impl ProgramSession {
    /// Runs the update of this number, `GITHOPPU_UPDATE(number)` in C, with these words behind it in the request, 143 at most; the others are zeros.
    pub fn update(&mut self, number: u64, words: &[u64]) -> Result<Ran, Error> {
        self.run(number << 1, words)
    }

    /// Runs the operation that only reads, `GITHOPPU_READ(number)` in C. It goes beside the log.
    pub fn read(&mut self, number: u64, words: &[u64]) -> Result<Ran, Error> {
        self.run(number << 1 | 1, words)
    }

    /// Runs the operation whose request begins with this word, as the constants of the module that `tools/program` wrote are: it only reads where it is odd.
    pub fn run(&mut self, operation: u64, words: &[u64]) -> Result<Ran, Error> {
        if words.len() >= REQUEST {
            return Err(Error::TooLong);
        }
        let mut request = [0; REQUEST];
        request[0] = operation;
        request[1..1 + words.len()].copy_from_slice(words);
        Ran::of(&self.0.ask(&request)?).map_err(Error::Fault)
    }

    /// The place that tells another session what this one has seen: behind the operation that it was answered last, or the greatest place that it
    /// caught up with; 0 before. It is a number, and goes to other threads by any channel.
    pub fn place(&mut self) -> u64 {
        self.0.place()
    }

    /// Has this session see a place that another one told: from `true` on its answers stand at or above the place. `false`: the current place is below
    /// it, so no session of this one's object was answered at it.
    pub fn catch_up(&mut self, place: u64) -> Result<bool, Error> {
        self.0.catch_up(place)
    }

    /// An image of the running object while its other sessions go on, of one replica: of one moment, with every update that was answered before. Nobody is
    /// waited for.
    pub fn checkpoint(&mut self) -> Result<Image, Error> {
        self.0.checkpoint().map(Image::from)
    }

    /// Saves such an image, as `Closed::save` does of a closed object.
    pub fn save(&mut self, path: impl AsRef<Path>) -> Result<(), FileError> {
        self.checkpoint()?.save(path)
    }

    /// Closes the session. The one of an object that is closed last closes the object.
    pub fn close(self) -> Closing<ProgramSession> {
        Closing::of(self.0.close(), ProgramSession)
    }
}
