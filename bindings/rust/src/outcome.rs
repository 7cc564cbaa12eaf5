//! What became of a session's last update.

use crate::program::{Fault, Ran};
use crate::raw::Words;
use crate::words::text_in;

/// The last update of a session that took effect.
#[derive(Clone, Debug, PartialEq, Eq)]
pub struct Outcome {
    /// Its number among the session's updates of all runs since the store was opened empty, from 1 on. Reads are not counted; malformed operations, which
    /// are answered `Error::Malformed`, are.
    pub number: u64,
    /// The reply to it.
    pub reply: Reply,
}

/// The reply to an update of a document store, of a queue or of an object of a program.
#[derive(Clone, Debug, PartialEq, Eq)]
pub enum Reply {
    /// The operation was malformed; nothing was changed.
    Malformed,
    /// A put: the key had no document.
    New,
    /// A put: the key had one.
    Replaced,
    /// A deletion: the key had a document.
    Deleted,
    /// A deletion: the key had none.
    Absent,
    /// An addition: the sum.
    Sum(i64),
    /// An addition: the document is no whole number.
    NotNumber,
    /// An addition: the sum does not fit.
    Overflow,
    /// A put or an addition: not enough lines were free.
    NoRoom,
    /// A put at a revision: the new revision.
    Set(u64),
    /// A put at a revision: the other revision that the key had.
    Stale(u64),
    /// A push: there was room.
    Pushed,
    /// A push: there was none.
    Full,
    /// A pop: the text.
    Text(String),
    /// A pop: there was no text.
    Empty,
    /// An update of a program: it returned.
    Ran(Box<Ran>),
    /// An update of a program: it ended by a fault.
    Fault(Fault),
    /// A reply that an update does not have, as that of a read.
    Other(Vec<u64>),
}

/// The reply that words have, of an object of this kind: 1 of documents, 2 of a queue, 3 of a program.
pub fn reply_in(kind: u64, words: &Words) -> Reply {
    match (kind, words[0]) {
        (3, _) => Ran::of(words).map_or_else(Reply::Fault, |ran| Reply::Ran(Box::new(ran))),
        (_, 0) => Reply::Malformed,
        (1, 1) => Reply::New,
        (1, 2) => Reply::Replaced,
        (1, 3) => Reply::Deleted,
        (1, 4) => Reply::Absent,
        (1, 6) => Reply::Sum(words[3] as i64),
        (1, 7) => Reply::NotNumber,
        (1, 8) => Reply::Overflow,
        (1, 9) => Reply::NoRoom,
        (1, 12) => Reply::Set(words[3]),
        (1, 13) => Reply::Stale(words[3]),
        (2, 1) => Reply::Pushed,
        (2, 2) => Reply::Full,
        (2, 3) => Reply::Text(String::from_utf8_lossy(&text_in(words)).into_owned()),
        (2, 4) => Reply::Empty,
        _ => Reply::Other(words.to_vec()),
    }
}
