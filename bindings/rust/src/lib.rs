//! A document store, a bounded queue, and data structures of one's own in C, which 1 to 8 sessions share, from Rust: safe types over the library's functions.
//!
//! A session is `Send` and not `Sync`: it can move to a thread, and one call at a time uses it. Calls try again while other sessions are in the way;
//! they take no lock. Dropping the last session drops the store. Closing the last one gives the closed store, of which an image can be taken or saved to a
//! file, and from an image it is opened again.
//!
//! Nothing is durable by itself: persistent memory is simulated in RAM, and the data end with the process unless the store was saved, closed or running, or is
//! one on a disk (module `disk`, by the feature of that name).
//!
//! If a thread is stopped for good inside a writing call, each other session can make at most 16 more updates, and after that updates answer
//! [`Error::Busy`] after [`PATIENCE`]; reads go on.
//!
//! ```
//! let mut sessions = githoppu::Store::open(64, 2)?;
//! let mut other = sessions.pop().unwrap();
//! let seller = std::thread::spawn(move || other.add("sold", 2));
//! sessions[0].add("sold", 1)?;
//! seller.join().unwrap()?;
//! assert_eq!(sessions[0].get("sold")?, Some("3".to_string()));
//!
//! let mut last = githoppu::Store::open(64, 1)?.pop().unwrap();
//! last.add("sold", 4)?;
//! let githoppu::Closing::Closed(mut closed) = last.close() else { panic!() };
//! let image = closed.image(0)?;
//! assert_eq!(image.outcome(0)?.unwrap().number, 1);
//! let mut again = githoppu::Store::recover(&image, 2)?;
//! assert_eq!(again[1].get("sold")?, Some("4".to_string()));
//! # Ok::<(), githoppu::Error>(())
//! ```

#[cfg(feature = "disk")]
pub mod disk;
mod file;
mod outcome;
mod program;
mod raw;
mod session;
mod words;

pub use file::FileError;
pub use outcome::{Outcome, Reply};
pub use program::{Fault, FaultKind, Program, ProgramFault, ProgramSession, Ran, Refusal};
pub use session::PATIENCE;
use session::{Ended, Pointer};
use std::fmt;
use std::ops::{Deref, DerefMut};
use std::path::Path;
use words::{document_in, document_op, key_in, queue_op, text_in};

/// The version of this crate.
pub const VERSION: &str = env!("CARGO_PKG_VERSION");

/// The version of the library that is linked, as `VERSION` is of this crate.
pub fn library_version() -> String {
    let version = raw::library_version();
    format!("{}.{}.{}", version / 1_000_000, version / 1000 % 1000, version % 1000)
}

/// Why there is no answer. Nothing is changed by a call that ends with one.
#[derive(Clone, Copy, Debug, PartialEq, Eq)]
pub enum Error {
    /// The lines are not 64 to 16,384, the sessions not 1 to 8, or a session's number not 0 to 7.
    BadSize,
    /// There is no memory.
    NoMemory,
    /// A key above 64 bytes, a document above 1,024, or a text above 56.
    TooLong,
    /// A key is 1 to 64 visible ASCII characters, a document 1 to 1,024 bytes of which none is a control character, and a text of a queue 1 to 56
    /// visible ASCII characters. Nothing is changed, but the operation counts as an update of the session (`Image::outcome`).
    Malformed,
    /// Other sessions were in the way for longer than `PATIENCE`, or, of an opening, the new sessions' queue did not take its first entry, which no run is
    /// known to answer. So it is for good where a thread is stopped inside a writing call and this session has made 16 updates since.
    Busy,
    /// The store has had 2^40 operations, and takes no more.
    Worn,
    /// The session has reached its limit of steps. Sessions here have none.
    Stopped,
    /// The document is no UTF-8; `get_bytes` gives it.
    NoText,
    /// The session is to be closed again, and takes no other call.
    OutOfTurn,
    /// A closing: it was the last, and did not find all that were closed before. It keeps those that it found. No run of the library is known to answer it.
    Lost,
    /// An operation of a program ended by a fault. Nothing is changed, but an update counts as one of the session (`Image::outcome`).
    Fault(Fault),
    /// A recovery: the words are not an image.
    NotAnImage,
    /// The image is of another kind than is asked for: of a store, of a queue, or of an object of a program.
    OtherKind,
    /// The image has not as many words as its format, sessions and lines make.
    ImageSize,
    /// The root's place is above 2^40.
    ImageRoot,
    /// The object's version is not known, or the image is of another program.
    ImageVersion,
    /// The place in the replica that the root names is not the root's.
    ImagePlace,
    /// A result in that replica is no reply of such an object, or its documents or texts are none that the library writes.
    ImageBody,
    /// A result there has a number above the place.
    ImageNumbers,
    /// An answer that this version does not know.
    Unknown(i32),
}

impl Error {
    fn of(status: i32) -> Error {
        match status {
            raw::AGAIN | raw::FULL => Error::Busy,
            raw::WORN => Error::Worn,
            raw::STOPPED => Error::Stopped,
            raw::OUT_OF_TURN => Error::OutOfTurn,
            raw::BAD_SIZE => Error::BadSize,
            raw::NO_MEMORY => Error::NoMemory,
            raw::LOST => Error::Lost,
            raw::NOT_AN_IMAGE => Error::NotAnImage,
            raw::OTHER_KIND => Error::OtherKind,
            raw::IMAGE_SIZE => Error::ImageSize,
            raw::IMAGE_ROOT => Error::ImageRoot,
            raw::IMAGE_VERSION => Error::ImageVersion,
            raw::IMAGE_PLACE => Error::ImagePlace,
            raw::IMAGE_BODY => Error::ImageBody,
            raw::IMAGE_NUMBERS => Error::ImageNumbers,
            other => Error::Unknown(other),
        }
    }
}

impl fmt::Display for Error {
    fn fmt(&self, f: &mut fmt::Formatter<'_>) -> fmt::Result {
        match self {
            Error::BadSize => f.write_str("the lines are not 64 to 16384, or the sessions not 1 to 8"),
            Error::NoMemory => f.write_str("no memory"),
            Error::TooLong => f.write_str("a key, a document or a text is too long"),
            Error::Malformed => f.write_str("a key, a document or a text is empty or has a byte that it must not have"),
            Error::Busy => f.write_str("others were in the way"),
            Error::Worn => f.write_str("the store takes no further operation"),
            Error::Stopped => f.write_str("the session makes no further step"),
            Error::NoText => f.write_str("the document is no text"),
            Error::OutOfTurn => f.write_str("the session is to be closed again"),
            Error::Lost => f.write_str("the last session did not find all that were closed before"),
            Error::Fault(fault) => fault.fmt(f),
            Error::NotAnImage => f.write_str("the words are not an image"),
            Error::OtherKind => f.write_str("the image is of another kind of object"),
            Error::ImageSize => f.write_str("the image has another number of words"),
            Error::ImageRoot => f.write_str("the root's place is above 2^40"),
            Error::ImageVersion => f.write_str("the object's version is not known, or it is of another program"),
            Error::ImagePlace => f.write_str("the replica's place is not the root's"),
            Error::ImageBody => f.write_str("the replica is none that the library writes"),
            Error::ImageNumbers => f.write_str("a result has a number above the place"),
            Error::Unknown(status) => write!(f, "the library answered {status}"),
        }
    }
}

impl std::error::Error for Error {}

/// What a put did.
#[derive(Clone, Copy, Debug, PartialEq, Eq)]
pub enum Put {
    New,
    Replaced,
    /// Not enough lines are free; nothing is changed.
    NoRoom,
}

/// What an addition did.
#[derive(Clone, Copy, Debug, PartialEq, Eq)]
pub enum Add {
    /// The sum, which is the key's document now.
    Sum(i64),
    /// The document is no whole number; nothing is changed.
    NotNumber,
    /// The sum does not fit a signed 64-bit number; nothing is changed.
    Overflow,
    /// Not enough lines are free; nothing is changed.
    NoRoom,
}

/// What closing a session did.
pub enum Closing<S> {
    /// The session is closed, and other sessions of the store are not. Where one was dropped this is every other session's answer.
    Others,
    /// It was the last, and this is what it left.
    Closed(Closed),
    /// It is not closed. After `NoMemory` or `Lost` it takes no other call than a further closing.
    Not(S, Error),
}

impl<S> Closing<S> {
    fn of(ended: Ended, session: fn(Pointer) -> S) -> Closing<S> {
        match ended {
            Ended::Others => Closing::Others,
            Ended::Closed(pointer) => Closing::Closed(Closed(pointer)),
            Ended::Not(pointer, error) => Closing::Not(session(pointer), error),
        }
    }
}

/// A closed store or queue.
pub struct Closed(Pointer);

impl Closed {
    /// What a crash (a power failure) at the moment of closing leaves of it: by choice 0 the durable value of each word, by choice 1 the value that was
    /// stored last, and by every other choice a made-up number in each word that was not yet durable. Each holds every acknowledged update. The same
    /// choice gives the same words.
    pub fn image(&mut self, choice: u64) -> Result<Image, Error> {
        self.0.image(choice).map(Image)
    }

    /// Saves what its image by choice 0 has, in an image of one replica, to a file: to a new one, which is synced and renamed to the path, and the folder is
    /// synced. A symbolic link is followed, and the rights of the file that is replaced are kept.
    pub fn save(&mut self, path: impl AsRef<Path>) -> Result<(), FileError> {
        self.image(0)?.one_replica().save(path)
    }
}

/// The words of an image: of all replicas, which is format 1, or of one, which is format 2. Any words can be made one; what is none is refused where it is
/// recovered.
#[derive(Clone, Debug, PartialEq, Eq)]
pub struct Image(Vec<u64>);

impl Image {
    /// What became of the last update of a session, 0 to 7: which it was, and its reply, or `None` where it had none. After a crash this tells
    /// whether an update that was not acknowledged took effect.
    pub fn outcome(&self, session: usize) -> Result<Option<Outcome>, Error> {
        let kind = self.0.get(2).copied().unwrap_or(0);
        let (number, reply) = raw::outcome_of(&self.0, session as u64).map_err(Error::of)?;
        Ok((number > 0).then(|| Outcome { number, reply: outcome::reply_in(kind, &reply) }))
    }

    /// Of the image of a closed store the replica that its root names, which is the one that recovery reads, as an image of format 2.
    fn one_replica(mut self) -> Image {
        let replicas = 2 * self.0[3] as usize;
        let region = (self.0.len() - 8) / replicas;
        let start = 8 + region * (self.0[5] % replicas as u64) as usize;
        self.0.copy_within(start..start + region, 8);
        self.0.truncate(8 + region);
        self.0[1] = 2;
        self
    }

    /// Saves it as it is to a file, as `Closed::save` does.
    pub fn save(&self, path: impl AsRef<Path>) -> Result<(), FileError> {
        file::save(path.as_ref(), &self.0)
    }

    /// The image in a file that was saved, from here or from C. That its words are an image is not looked at here.
    pub fn load(path: impl AsRef<Path>) -> Result<Image, FileError> {
        file::load(path.as_ref()).map(Image)
    }

    /// Its words.
    pub fn into_words(self) -> Vec<u64> {
        self.0
    }
}

impl From<Vec<u64>> for Image {
    fn from(words: Vec<u64>) -> Image {
        Image(words)
    }
}

impl Deref for Image {
    type Target = [u64];

    fn deref(&self) -> &[u64] {
        &self.0
    }
}

impl DerefMut for Image {
    fn deref_mut(&mut self) -> &mut [u64] {
        &mut self.0
    }
}

/// A document store, which lives as long as one of its sessions.
pub struct Store;

impl Store {
    /// The given number of sessions, 1 to 8, of an empty store in 64 to 16,384 lines of 64 bytes. A document takes one line, and one for each 56 bytes of its
    /// key and of its text; the first line is the store's own.
    pub fn open(lines: u64, sessions: usize) -> Result<Vec<Session>, Error> {
        let pointers = Pointer::open(raw::githoppu_open, lines, sessions)?;
        Ok(pointers.into_iter().map(Session).collect())
    }

    /// Sessions of the store that the words of an image say.
    pub fn recover(words: &[u64], sessions: usize) -> Result<Vec<Session>, Error> {
        let pointers = Pointer::recover(raw::githoppu_recover, words, sessions)?;
        Ok(pointers.into_iter().map(Session).collect())
    }

    /// Sessions of the store in a file that was saved, from here or from C.
    pub fn load(path: impl AsRef<Path>, sessions: usize) -> Result<Vec<Session>, FileError> {
        Ok(Store::recover(&Image::load(path)?, sessions)?)
    }
}

/// A session of a document store.
pub struct Session(Pointer);

impl Session {
    /// Puts a document at a key: 1 to 1,024 bytes without a control character at 1 to 64 visible ASCII characters.
    pub fn put(&mut self, key: &str, document: &str) -> Result<Put, Error> {
        let reply = self.0.ask(&document_op(1, key, document.as_bytes(), 0)?)?;
        match reply[0] {
            1 => Ok(Put::New),
            2 => Ok(Put::Replaced),
            9 => Ok(Put::NoRoom),
            other => Err(Error::Unknown(other as i32)),
        }
    }

    /// Deletes the document of a key: whether there was one.
    pub fn del(&mut self, key: &str) -> Result<bool, Error> {
        let reply = self.0.ask(&document_op(2, key, &[], 0)?)?;
        Ok(reply[0] == 3)
    }

    /// Adds to the number that is the document of a key, and is 0 where there is none.
    pub fn add(&mut self, key: &str, amount: i64) -> Result<Add, Error> {
        let reply = self.0.ask(&document_op(3, key, &[], amount)?)?;
        match reply[0] {
            6 => Ok(Add::Sum(reply[3] as i64)),
            7 => Ok(Add::NotNumber),
            8 => Ok(Add::Overflow),
            9 => Ok(Add::NoRoom),
            other => Err(Error::Unknown(other as i32)),
        }
    }

    /// The document of a key, as bytes.
    pub fn get_bytes(&mut self, key: &str) -> Result<Option<Vec<u8>>, Error> {
        let reply = self.0.ask(&document_op(4, key, &[], 0)?)?;
        Ok((reply[0] == 5).then(|| document_in(&reply)))
    }

    /// The document of a key.
    pub fn get(&mut self, key: &str) -> Result<Option<String>, Error> {
        match self.get_bytes(key)? {
            Some(bytes) => String::from_utf8(bytes).map(Some).map_err(|_| Error::NoText),
            None => Ok(None),
        }
    }

    /// The least key above one, or above none where that is "".
    pub fn next(&mut self, above: &str) -> Result<Option<String>, Error> {
        let reply = self.0.ask(&document_op(5, above, &[], 0)?)?;
        Ok((reply[0] == 10).then(|| String::from_utf8_lossy(&key_in(&reply)).into_owned()))
    }

    /// How many documents there are.
    pub fn count(&mut self) -> Result<u64, Error> {
        Ok(self.0.ask(&document_op(6, "", &[], 0)?)?[3])
    }

    /// The place that tells another session what this one has seen: behind the operation that it was answered last, or the greatest place that it
    /// caught up with; 0 before. It is a number, and goes to other threads by any channel.
    pub fn place(&mut self) -> u64 {
        self.0.place()
    }

    /// Has this session see a place that another one told: from `true` on its answers stand at or above the place. `false`: the current place is below
    /// it, so no session of this one's store was answered at it.
    pub fn catch_up(&mut self, place: u64) -> Result<bool, Error> {
        self.0.catch_up(place)
    }

    /// An image of the running store while its other sessions go on, of one replica: of one moment, with every update that was answered before. Nobody is
    /// waited for.
    pub fn checkpoint(&mut self) -> Result<Image, Error> {
        self.0.checkpoint().map(Image)
    }

    /// Saves such an image, as `Closed::save` does of a closed store.
    pub fn save(&mut self, path: impl AsRef<Path>) -> Result<(), FileError> {
        self.checkpoint()?.save(path)
    }

    /// Closes the session. The one of a store that is closed last closes the store.
    pub fn close(self) -> Closing<Session> {
        Closing::of(self.0.close(), Session)
    }
}

/// What a put at a revision did.
#[derive(Clone, Copy, Debug, PartialEq, Eq)]
pub enum PutIf {
    /// The document is put, and this is its revision.
    Set(u64),
    /// The key has this other revision, 0 where it is missing; nothing is changed.
    Stale(u64),
    /// Not enough lines are free; nothing is changed.
    NoRoom,
}

impl Session {
    /// Puts a document at a key where the key has this revision, 0 where it is missing.
    pub fn put_if(&mut self, key: &str, document: &str, revision: u64) -> Result<PutIf, Error> {
        let reply = self.0.ask(&document_op(7, key, document.as_bytes(), revision as i64)?)?;
        match reply[0] {
            12 => Ok(PutIf::Set(reply[3])),
            13 => Ok(PutIf::Stale(reply[3])),
            9 => Ok(PutIf::NoRoom),
            other => Err(Error::Unknown(other as i32)),
        }
    }

    /// The revision of a key, where it is there.
    pub fn revision(&mut self, key: &str) -> Result<Option<u64>, Error> {
        let reply = self.0.ask(&document_op(8, key, &[], 0)?)?;
        match reply[0] {
            14 => Ok(Some(reply[3])),
            4 => Ok(None),
            other => Err(Error::Unknown(other as i32)),
        }
    }
}

/// A bounded queue of texts, which lives as long as one of its sessions.
pub struct Queue;

impl Queue {
    /// The given number of sessions, 1 to 8, of an empty queue in 64 to 16,384 lines of 64 bytes, each of which but the first holds a text.
    pub fn open(lines: u64, sessions: usize) -> Result<Vec<QueueSession>, Error> {
        let pointers = Pointer::open(raw::githoppu_open_queue, lines, sessions)?;
        Ok(pointers.into_iter().map(QueueSession).collect())
    }

    /// Sessions of the queue that the words of an image say.
    pub fn recover(words: &[u64], sessions: usize) -> Result<Vec<QueueSession>, Error> {
        let pointers = Pointer::recover(raw::githoppu_recover_queue, words, sessions)?;
        Ok(pointers.into_iter().map(QueueSession).collect())
    }

    /// Sessions of the queue in a file that was saved, from here or from C.
    pub fn load(path: impl AsRef<Path>, sessions: usize) -> Result<Vec<QueueSession>, FileError> {
        Ok(Queue::recover(&Image::load(path)?, sessions)?)
    }
}

/// A session of a queue.
pub struct QueueSession(Pointer);

impl QueueSession {
    /// Puts a text of 1 to 56 visible ASCII characters after the last one: whether there was room.
    pub fn push(&mut self, text: &str) -> Result<bool, Error> {
        Ok(self.0.ask(&queue_op(1, text)?)?[0] == 1)
    }

    /// Takes the text at the front.
    pub fn pop(&mut self) -> Result<Option<String>, Error> {
        self.front(2)
    }

    /// The text at the front.
    pub fn peek(&mut self) -> Result<Option<String>, Error> {
        self.front(3)
    }

    /// How many texts there are.
    pub fn len(&mut self) -> Result<u64, Error> {
        Ok(self.0.ask(&queue_op(4, "")?)?[1])
    }

    /// Whether there is none.
    pub fn is_empty(&mut self) -> Result<bool, Error> {
        Ok(self.len()? == 0)
    }

    /// The place that tells another session what this one has seen: behind the operation that it was answered last, or the greatest place that it
    /// caught up with; 0 before. It is a number, and goes to other threads by any channel.
    pub fn place(&mut self) -> u64 {
        self.0.place()
    }

    /// Has this session see a place that another one told: from `true` on its answers stand at or above the place. `false`: the current place is below
    /// it, so no session of this one's queue was answered at it.
    pub fn catch_up(&mut self, place: u64) -> Result<bool, Error> {
        self.0.catch_up(place)
    }

    /// An image of the running queue while its other sessions go on, of one replica: of one moment, with every update that was answered before. Nobody is
    /// waited for.
    pub fn checkpoint(&mut self) -> Result<Image, Error> {
        self.0.checkpoint().map(Image)
    }

    /// Saves such an image, as `Closed::save` does of a closed queue.
    pub fn save(&mut self, path: impl AsRef<Path>) -> Result<(), FileError> {
        self.checkpoint()?.save(path)
    }

    /// Closes the session. The one of a queue that is closed last closes the queue.
    pub fn close(self) -> Closing<QueueSession> {
        Closing::of(self.0.close(), QueueSession)
    }

    fn front(&mut self, kind: u64) -> Result<Option<String>, Error> {
        let reply = self.0.ask(&queue_op(kind, "")?)?;
        Ok((reply[0] == 3).then(|| String::from_utf8_lossy(&text_in(&reply)).into_owned()))
    }
}
