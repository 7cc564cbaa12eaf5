//! A store on a disk (the feature `disk`): a document store or a queue in RAM, whose updates are in a database of SQLite before they are answered. It is
//! `githoppu_store.h`, which says what is kept and how, with types; its files are C's.
//!
//! Stores are `Send` and `Sync`: any threads share one by reference. A client, 0 to 63, is whoever wants to know what became of its own last update: one thread
//! at a time uses its number.
//!
//! ```
//! use githoppu::disk::{Options, Store};
//!
//! let folder = std::env::temp_dir().join(format!("githoppu.{}", std::process::id()));
//! std::fs::create_dir_all(&folder)?;
//! let path = folder.join("shop");
//! let store = Store::open(&path, Options { lines: Some(256), ..Options::default() })?;
//! std::thread::scope(|scope| {
//!     for client in 0..4 {
//!         let store = &store;
//!         scope.spawn(move || store.add(client, "sold", 1));
//!     }
//! });
//! store.close()?;
//!
//! let store = Store::open(&path, Options::default())?;
//! assert_eq!(store.get("sold")?, Some("4".to_string()));
//! assert_eq!(store.outcome(3)?.map(|last| last.number), Some(1));
//! # drop(store);
//! # std::fs::remove_dir_all(&folder)?;
//! # Ok::<(), Box<dyn std::error::Error>>(())
//! ```

use crate::outcome::{reply_in, Outcome, Reply};
use crate::raw::Words;
use crate::words::{document_in, document_op, key_in, queue_op};
use crate::{Add, Error, Put, PutIf};
use std::ffi::{c_char, c_int, c_uint, c_void, CStr, CString};
use std::fmt;
use std::os::unix::ffi::OsStrExt;
use std::path::{Path, PathBuf};
use std::ptr;
use std::time::Duration;

/// How many clients a store tells apart.
pub const CLIENTS: u32 = 64;

/// When an update is answered.
#[derive(Clone, Copy, Debug, Default, PartialEq, Eq)]
pub enum Durability {
    /// When it is on the disk.
    #[default]
    Full,
    /// When it is in a file of the system: the death of the process does not take it away, a power failure may.
    Normal,
}

/// How a store is opened.
#[derive(Clone, Debug)]
pub struct Options {
    /// 64 to 16,384 lines of 64 bytes. `None`: those that the file has, and 16,384 of a new store.
    pub lines: Option<u64>,
    /// How many reads are made at once: 1 to 7, each for one region of memory more.
    pub readers: u32,
    /// When an update is answered.
    pub sync: Durability,
    /// How long a leader waits at most for the clients that were answered last and are not back yet, so that more updates share a sync, in whole
    /// microseconds. 300 are worth it from four clients on.
    pub gather: Duration,
    /// A checkpoint is made after this number of updates.
    pub checkpoint_every: u64,
    /// A file that was saved (`Session::save`), with whose state a new store begins. Of a store that is there it is not looked at.
    pub saved: Option<PathBuf>,
    /// Whether a store has to be there: a missing file is then refused, and not made.
    pub existing: bool,
}

impl Default for Options {
    /// The lines of the file, 3 readers, `Durability::Full`, no gathering, a checkpoint after 100,000 updates.
    fn default() -> Options {
        Options { lines: None, readers: 3, sync: Durability::Full, gather: Duration::ZERO, checkpoint_every: 100_000, saved: None, existing: false }
    }
}

/// Why there is no answer. The text says which call of which path failed, in the words of SQLite and of the system.
#[derive(Clone, Debug, PartialEq, Eq)]
pub enum StoreError {
    /// An opening: another process has the file open, or this one has already.
    Busy(String),
    /// An opening: the file cannot be opened or made.
    NotOpened(String),
    /// An opening: the file is no store, or of an unknown version. It is as it was.
    Format(String),
    /// An opening: the file is of another object, or of another number of lines.
    Other(String),
    /// An opening: the file in `Options::saved` is not taken.
    NotSaved(String),
    /// A row, an image or a page of the file is changed or missing.
    Damaged(String),
    /// The disk is full, say: nothing is changed, and it may be tried again.
    NotWritten(String),
    /// Writing or syncing failed. Whether the update is there is not known before the store is opened again; until then it is read-only.
    Failed(String),
    /// An earlier call failed: nothing is changed. Reads go on; drop the store and open it again.
    ReadOnly(String),
    /// The process is a fork of the one that opened the store: nothing is done.
    Forked,
    /// A client's number is above 63: nothing is changed.
    NoClient,
    /// What the store in RAM says of the call itself, as `TooLong`.
    Refused(Error),
}

impl From<Error> for StoreError {
    fn from(error: Error) -> StoreError {
        StoreError::Refused(error)
    }
}

impl fmt::Display for StoreError {
    fn fmt(&self, f: &mut fmt::Formatter<'_>) -> fmt::Result {
        match self {
            StoreError::Busy(why) => write!(f, "another process has the file open, or this one has already: {why}"),
            StoreError::NotOpened(why) => write!(f, "the file cannot be opened or made: {why}"),
            StoreError::Format(why) => write!(f, "the file is no store, or of an unknown version: {why}"),
            StoreError::Other(why) => write!(f, "the file is of another object or another number of lines: {why}"),
            StoreError::NotSaved(why) => write!(f, "the saved file is not taken: {why}"),
            StoreError::Damaged(why) => write!(f, "the file is damaged: {why}"),
            StoreError::NotWritten(why) => write!(f, "nothing was written or changed: {why}"),
            StoreError::Failed(why) => write!(f, "writing or syncing failed: {why}"),
            StoreError::ReadOnly(why) => write!(f, "the store is read-only since a failure: {why}"),
            StoreError::Forked => f.write_str("the process is a fork of the one that opened the store"),
            StoreError::NoClient => f.write_str("the number of the client is above 63"),
            StoreError::Refused(error) => write!(f, "{error}"),
        }
    }
}

impl std::error::Error for StoreError {}

/* ---- The functions of githoppu_store.h. ---- */

const MALFORMED: c_int = 24;
const FILES: std::ops::RangeInclusive<c_int> = 32..=44;
const BUSY: c_int = 64;
const NOT_OPENED: c_int = 65;
const FORMAT: c_int = 66;
const OTHER: c_int = 67;
const DAMAGED: c_int = 68;
const NOT_WRITTEN: c_int = 69;
const FAILED: c_int = 70;
const READ_ONLY: c_int = 71;
const FORKED: c_int = 72;
const NO_CLIENT: c_int = 73;

#[repr(C)]
struct RawOptions {
    object: *const c_void,
    saved: *const c_char,
    lines: u64,
    checkpoint_every: u64,
    readers: c_uint,
    gather_us: c_uint,
    sync: c_int,
    existing: c_int,
}

/// What a `githoppu_store_object` is, C alone looks at.
#[repr(C)]
struct Object([u8; 0]);

extern "C" {
    static githoppu_store_documents: Object;
    static githoppu_store_queue: Object;
    fn githoppu_store_open(path: *const c_char, options: *const RawOptions, store: *mut *mut c_void) -> c_int;
    fn githoppu_store_close(store: *mut c_void) -> c_int;
    fn githoppu_store_why(store: *mut c_void, into: *mut c_char, room: usize) -> usize;
    fn githoppu_store_call(store: *mut c_void, client: c_uint, op: *const Words, reply: *mut Words) -> c_int;
    fn githoppu_store_submit(store: *mut c_void, client: c_uint, op: *const Words, update: *mut *mut c_void) -> c_int;
    fn githoppu_store_wait(store: *mut c_void, update: *mut c_void, reply: *mut Words) -> c_int;
    fn githoppu_store_sync(store: *mut c_void) -> c_int;
    fn githoppu_store_checkpoint(store: *mut c_void) -> c_int;
    fn githoppu_store_copy(store: *mut c_void, path: *const c_char) -> c_int;
    fn githoppu_store_outcome(store: *mut c_void, client: c_uint, number: *mut u64, reply: *mut Words) -> c_int;
    fn githoppu_store_place(store: *mut c_void) -> u64;
}

/// Which object a file keeps: its number is that of an image.
#[derive(Clone, Copy)]
enum Kind {
    Documents = 1,
    Queue = 2,
}

/// An open store of whatever object.
struct Inner {
    at: *mut c_void,
    kind: Kind,
}

// Any threads may make any calls at once (githoppu_store.h); the closing takes the store by value, so all others have returned.
unsafe impl Send for Inner {}
unsafe impl Sync for Inner {}

fn path_in_c(path: &Path) -> Result<CString, StoreError> {
    CString::new(path.as_os_str().as_bytes()).map_err(|_| StoreError::NotOpened(format!("{}: a byte of the path is 0", path.display())))
}

/// What went wrong with a store, in C's words.
fn why(at: *mut c_void) -> String {
    let mut line = [0; 1024];
    unsafe { githoppu_store_why(at, line.as_mut_ptr(), line.len()) };
    unsafe { CStr::from_ptr(line.as_ptr()) }.to_string_lossy().into_owned()
}

fn error_of(at: *mut c_void, status: c_int) -> StoreError {
    match status {
        BUSY => StoreError::Busy(why(at)),
        NOT_OPENED => StoreError::NotOpened(why(at)),
        FORMAT => StoreError::Format(why(at)),
        OTHER => StoreError::Other(why(at)),
        DAMAGED => StoreError::Damaged(why(at)),
        NOT_WRITTEN => StoreError::NotWritten(why(at)),
        FAILED => StoreError::Failed(why(at)),
        READ_ONLY => StoreError::ReadOnly(why(at)),
        FORKED => StoreError::Forked,
        NO_CLIENT => StoreError::NoClient,
        MALFORMED => StoreError::Refused(Error::Malformed),
        status if FILES.contains(&status) => StoreError::NotSaved(why(at)),
        status => StoreError::Refused(Error::of(status)),
    }
}

impl Inner {
    fn open(kind: Kind, path: &Path, options: &Options) -> Result<Inner, StoreError> {
        let path = path_in_c(path)?;
        let saved = options.saved.as_deref().map(path_in_c).transpose()?;
        #[allow(unused_unsafe)] // older compilers ask for it
        let object: *const Object = match kind {
            Kind::Documents => unsafe { ptr::addr_of!(githoppu_store_documents) },
            Kind::Queue => unsafe { ptr::addr_of!(githoppu_store_queue) },
        };
        let raw = RawOptions {
            object: object.cast(),
            saved: saved.as_ref().map_or(ptr::null(), |path| path.as_ptr()),
            lines: options.lines.unwrap_or(0),
            checkpoint_every: options.checkpoint_every,
            readers: options.readers,
            gather_us: c_uint::try_from(options.gather.as_micros()).unwrap_or(c_uint::MAX),
            sync: options.sync as c_int,
            existing: c_int::from(options.existing),
        };
        let mut at = ptr::null_mut();
        let status = unsafe { githoppu_store_open(path.as_ptr(), &raw, &mut at) };
        if at.is_null() {
            return Err(StoreError::Refused(Error::NoMemory));
        }
        let inner = Inner { at, kind };
        inner.done(status)?;
        Ok(inner)
    }

    fn done(&self, status: c_int) -> Result<(), StoreError> {
        match status {
            0 => Ok(()),
            status => Err(error_of(self.at, status)),
        }
    }

    fn call(&self, client: u32, op: &Words) -> Result<Words, StoreError> {
        let mut reply = [0; 144];
        self.done(unsafe { githoppu_store_call(self.at, client, op, &mut reply) })?;
        Ok(reply)
    }

    /// A read. A malformed one would count as an update of a client, so it is not passed on.
    fn look(&self, op: &Words, is_formed: bool) -> Result<Words, StoreError> {
        if !is_formed {
            return Err(StoreError::Refused(Error::Malformed));
        }
        self.call(0, op)
    }

    fn submit(&self, client: u32, op: &Words) -> Result<Pending<'_>, StoreError> {
        let mut update = ptr::null_mut();
        self.done(unsafe { githoppu_store_submit(self.at, client, op, &mut update) })?;
        Ok(Pending { store: self, update })
    }

    fn outcome(&self, client: u32) -> Result<Option<Outcome>, StoreError> {
        let (mut number, mut reply) = (0, [0; 144]);
        self.done(unsafe { githoppu_store_outcome(self.at, client, &mut number, &mut reply) })?;
        Ok((number > 0).then(|| Outcome { number, reply: reply_in(self.kind as u64, &reply) }))
    }

    fn copy(&self, path: &Path) -> Result<(), StoreError> {
        let path = path_in_c(path)?;
        self.done(unsafe { githoppu_store_copy(self.at, path.as_ptr()) })
    }

    fn close(mut self) -> Result<(), StoreError> {
        let at = std::mem::replace(&mut self.at, ptr::null_mut());
        match unsafe { githoppu_store_close(at) } {
            0 => Ok(()),
            FORKED => Err(StoreError::Forked),
            READ_ONLY => Err(StoreError::ReadOnly("it is closed".to_string())),
            NOT_WRITTEN => Err(StoreError::NotWritten("it is closed".to_string())),
            _ => Err(StoreError::Failed("it is closed".to_string())),
        }
    }
}

impl Drop for Inner {
    fn drop(&mut self) {
        // what was answered is kept, whatever this answers
        unsafe { githoppu_store_close(self.at) };
    }
}

/// An update that was submitted. It is waited for where it is dropped, too.
#[must_use = "an update is done when it is waited for"]
pub struct Pending<'a> {
    store: &'a Inner,
    update: *mut c_void,
}

impl Pending<'_> {
    /// Waits until it is answered.
    pub fn wait(mut self) -> Result<Reply, StoreError> {
        let mut reply = [0; 144];
        let update = std::mem::replace(&mut self.update, ptr::null_mut());
        self.store.done(unsafe { githoppu_store_wait(self.store.at, update, &mut reply) })?;
        Ok(reply_in(self.store.kind as u64, &reply))
    }
}

impl Drop for Pending<'_> {
    fn drop(&mut self) {
        if !self.update.is_null() {
            let mut reply = [0; 144];
            unsafe { githoppu_store_wait(self.store.at, self.update, &mut reply) };
        }
    }
}

/// An update of a document store, to be submitted.
#[derive(Clone, Copy, Debug)]
pub enum Update<'a> {
    Put { key: &'a str, document: &'a str },
    PutIf { key: &'a str, document: &'a str, revision: u64 },
    Del { key: &'a str },
    Add { key: &'a str, amount: i64 },
}

impl Update<'_> {
    fn words(&self) -> Result<Words, Error> {
        match *self {
            Update::Put { key, document } => document_op(1, key, document.as_bytes(), 0),
            Update::PutIf { key, document, revision } => document_op(7, key, document.as_bytes(), revision as i64),
            Update::Del { key } => document_op(2, key, &[], 0),
            Update::Add { key, amount } => document_op(3, key, &[], amount),
        }
    }
}

fn is_visible(key: &str) -> bool {
    key.bytes().all(|byte| byte.is_ascii_graphic())
}

/// What both kinds of stores do.
macro_rules! shared_calls {
    ($store:ty) => {
        impl $store {
            /// Any operation by its 144 words, and the words of its reply. A client's number says whose update it is.
            pub fn call(&self, client: u32, op: &[u64; 144]) -> Result<[u64; 144], StoreError> {
                self.0.call(client, op)
            }

            /// Writes what was submitted, and syncs: from then on a power failure takes away no update that was answered before, also with
            /// `Durability::Normal`.
            pub fn sync(&self) -> Result<(), StoreError> {
                self.0.done(unsafe { githoppu_store_sync(self.0.at) })
            }

            /// Puts an image of the store into the file and deletes the log below it, which makes the next opening short.
            pub fn checkpoint(&self) -> Result<(), StoreError> {
                self.0.done(unsafe { githoppu_store_checkpoint(self.0.at) })
            }

            /// A backup of the running store in a new file, which can be opened as a store.
            pub fn copy(&self, path: impl AsRef<Path>) -> Result<(), StoreError> {
                self.0.copy(path.as_ref())
            }

            /// How many updates of a client took effect, over all runs, and the reply to the last of them; `None` where there was none. After a crash it tells
            /// whether the last one is there.
            pub fn outcome(&self, client: u32) -> Result<Option<Outcome>, StoreError> {
                self.0.outcome(client)
            }

            /// How many updates the store has had. It means the same after the store was opened again.
            pub fn place(&self) -> u64 {
                unsafe { githoppu_store_place(self.0.at) }
            }

            /// Closes the store: what was submitted is written, and SQLite's own log goes into the file. An error loses nothing that was answered with
            /// `Durability::Full`.
            pub fn close(self) -> Result<(), StoreError> {
                self.0.close()
            }
        }
    };
}

/// A document store on a disk.
pub struct Store(Inner);

shared_calls!(Store);

impl Store {
    /// Opens the store in a file, which is made where there is none.
    pub fn open(path: impl AsRef<Path>, options: Options) -> Result<Store, StoreError> {
        Inner::open(Kind::Documents, path.as_ref(), &options).map(Store)
    }

    /// Puts a document at a key.
    pub fn put(&self, client: u32, key: &str, document: &str) -> Result<Put, StoreError> {
        let reply = self.0.call(client, &document_op(1, key, document.as_bytes(), 0)?)?;
        match reply[0] {
            1 => Ok(Put::New),
            2 => Ok(Put::Replaced),
            9 => Ok(Put::NoRoom),
            other => Err(Error::Unknown(other as i32).into()),
        }
    }

    /// Puts a document at a key where the key has this revision, 0 where it is missing.
    pub fn put_if(&self, client: u32, key: &str, document: &str, revision: u64) -> Result<PutIf, StoreError> {
        let reply = self.0.call(client, &document_op(7, key, document.as_bytes(), revision as i64)?)?;
        match reply[0] {
            12 => Ok(PutIf::Set(reply[3])),
            13 => Ok(PutIf::Stale(reply[3])),
            9 => Ok(PutIf::NoRoom),
            other => Err(Error::Unknown(other as i32).into()),
        }
    }

    /// Deletes the document of a key: whether there was one.
    pub fn del(&self, client: u32, key: &str) -> Result<bool, StoreError> {
        Ok(self.0.call(client, &document_op(2, key, &[], 0)?)?[0] == 3)
    }

    /// Adds to the number that is the document of a key, and is 0 where there is none.
    pub fn add(&self, client: u32, key: &str, amount: i64) -> Result<Add, StoreError> {
        let reply = self.0.call(client, &document_op(3, key, &[], amount)?)?;
        match reply[0] {
            6 => Ok(Add::Sum(reply[3] as i64)),
            7 => Ok(Add::NotNumber),
            8 => Ok(Add::Overflow),
            9 => Ok(Add::NoRoom),
            other => Err(Error::Unknown(other as i32).into()),
        }
    }

    /// Submits an update: it is written with others, in one sync, when anybody next makes an update, waits or syncs.
    pub fn submit(&self, client: u32, update: Update<'_>) -> Result<Pending<'_>, StoreError> {
        self.0.submit(client, &update.words()?)
    }

    /// The document of a key, as bytes.
    pub fn get_bytes(&self, key: &str) -> Result<Option<Vec<u8>>, StoreError> {
        let reply = self.0.look(&document_op(4, key, &[], 0)?, !key.is_empty() && is_visible(key))?;
        Ok((reply[0] == 5).then(|| document_in(&reply)))
    }

    /// The document of a key.
    pub fn get(&self, key: &str) -> Result<Option<String>, StoreError> {
        let Some(bytes) = self.get_bytes(key)? else { return Ok(None) };
        String::from_utf8(bytes).map(Some).map_err(|_| Error::NoText.into())
    }

    /// The revision of a key, where it is there.
    pub fn revision(&self, key: &str) -> Result<Option<u64>, StoreError> {
        let reply = self.0.look(&document_op(8, key, &[], 0)?, !key.is_empty() && is_visible(key))?;
        Ok((reply[0] == 14).then(|| reply[3]))
    }

    /// The least key above one, or above none where that is "".
    pub fn next(&self, above: &str) -> Result<Option<String>, StoreError> {
        let reply = self.0.look(&document_op(5, above, &[], 0)?, is_visible(above))?;
        Ok((reply[0] == 10).then(|| String::from_utf8_lossy(&key_in(&reply)).into_owned()))
    }

    /// How many documents there are.
    pub fn count(&self) -> Result<u64, StoreError> {
        Ok(self.0.look(&document_op(6, "", &[], 0)?, true)?[3])
    }
}

/// A bounded queue of texts on a disk.
pub struct Queue(Inner);

shared_calls!(Queue);

impl Queue {
    /// Opens the queue in a file, which is made where there is none.
    pub fn open(path: impl AsRef<Path>, options: Options) -> Result<Queue, StoreError> {
        Inner::open(Kind::Queue, path.as_ref(), &options).map(Queue)
    }

    fn text_of(words: &Words) -> Option<String> {
        match reply_in(Kind::Queue as u64, words) {
            Reply::Text(text) => Some(text),
            _ => None,
        }
    }

    /// Puts a text after the last one: whether there was room.
    pub fn push(&self, client: u32, text: &str) -> Result<bool, StoreError> {
        Ok(self.0.call(client, &queue_op(1, text)?)?[0] == 1)
    }

    /// Takes the text at the front, where there is one.
    pub fn pop(&self, client: u32) -> Result<Option<String>, StoreError> {
        Ok(Queue::text_of(&self.0.call(client, &queue_op(2, "")?)?))
    }

    /// Submits a push: it is written with others, in one sync, when anybody next makes an update, waits or syncs.
    pub fn submit_push(&self, client: u32, text: &str) -> Result<Pending<'_>, StoreError> {
        self.0.submit(client, &queue_op(1, text)?)
    }

    /// The text at the front, where there is one.
    pub fn peek(&self) -> Result<Option<String>, StoreError> {
        Ok(Queue::text_of(&self.0.look(&queue_op(3, "")?, true)?))
    }

    /// How many texts there are.
    pub fn len(&self) -> Result<u64, StoreError> {
        Ok(self.0.look(&queue_op(4, "")?, true)?[1])
    }

    /// Whether there is none.
    pub fn is_empty(&self) -> Result<bool, StoreError> {
        Ok(self.len()? == 0)
    }
}
