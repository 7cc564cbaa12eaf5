//! Operations and replies as words: texts are packed eight bytes to a word, the first in the lowest bits.

use crate::raw::Words;
use crate::Error;

/// The words of an operation of documents.
pub fn document_op(kind: u64, key: &str, document: &[u8], number: i64) -> Result<Words, Error> {
    if key.len() > 64 || document.len() > 1024 {
        return Err(Error::TooLong);
    }
    let mut words = [0; 144];
    words[0] = kind;
    words[1] = key.len() as u64;
    words[2] = document.len() as u64;
    words[3] = number as u64;
    pack(&mut words[8..16], key.as_bytes());
    pack(&mut words[16..], document);
    Ok(words)
}

/// The words of an operation of a queue.
pub fn queue_op(kind: u64, text: &str) -> Result<Words, Error> {
    if text.len() > 56 {
        return Err(Error::TooLong);
    }
    let mut words = [0; 144];
    words[0] = kind;
    words[1] = text.len() as u64;
    pack(&mut words[2..9], text.as_bytes());
    Ok(words)
}

pub fn key_in(reply: &Words) -> Vec<u8> {
    unpack(&reply[8..16], reply[1])
}

pub fn document_in(reply: &Words) -> Vec<u8> {
    unpack(&reply[16..], reply[2])
}

pub fn text_in(reply: &Words) -> Vec<u8> {
    unpack(&reply[2..9], reply[1])
}

fn pack(words: &mut [u64], bytes: &[u8]) {
    for (i, byte) in bytes.iter().enumerate() {
        words[i / 8] |= u64::from(*byte) << (8 * (i % 8));
    }
}

fn unpack(words: &[u64], length: u64) -> Vec<u8> {
    let length = (length as usize).min(8 * words.len());
    (0..length).map(|i| (words[i / 8] >> (8 * (i % 8))) as u8).collect()
}
