//! The words of one region, with the document store in its object part, and a durable copy of them. `docs/TABLE_WORDS.md` has the layout.

use std::cmp::Ordering;
use std::hint::black_box;
use std::sync::atomic::{AtomicU64, Ordering as Order};
use std::thread::sleep;
use std::time::{Duration, Instant};

/// The first word of the object part, whose lines have 8 words each.
const OBJECT: usize = 1168;

// words of the header, which is line 0
pub const ROOT: usize = 1;
const GIVEN_BACK: usize = 2;
const NEVER_GIVEN: usize = 3;
const GIVEN_BACK_COUNT: usize = 4;
pub const PAIRS: usize = 5;

// words of a node, where a child stands at its side and the length of a text behind its first line; and the first word of a block
pub const LEFT: usize = 0;
pub const RIGHT: usize = 1;
pub const HEIGHT: usize = 2;
pub const KEY: usize = 3;
pub const DOCUMENT: usize = 5;
const NEXT: usize = 0;

/// Replies to updates, with their numbers as words.
#[derive(Clone, Copy, Debug, PartialEq)]
pub enum Answer {
    New = 1,
    Replaced = 2,
    Deleted = 3,
    Absent = 4,
    NoRoom = 9,
}

/// A region and its durable copy, with the positions of the words that changed since the copy was the same.
///
/// The copy is made in place, so a crash while it is made would leave it torn. It shows what durable words cost at least.
pub struct Region {
    lines: u64,
    pub words: Vec<u64>,
    pub durable: Vec<AtomicU64>,
    changed: Vec<usize>,
}

impl Region {
    /// An empty store of so many lines.
    pub fn new(lines: u64) -> Region {
        let length = OBJECT + 8 * lines as usize;
        let durable = (0..length).map(|_| AtomicU64::new(0)).collect();
        let mut region = Region { lines, words: vec![0; length], durable, changed: Vec::new() };
        region.set(0, 0, 1);
        region.set(0, NEVER_GIVEN, 1);
        region.persist();
        region
    }

    /// The full step of a caller's put, or of a deletion where there is no document, made durable: the object's step, the number and
    /// the reply in the caller's slot, whose other words are 0 as they were, and the place.
    pub fn update(&mut self, caller: usize, key: &[u8], document: Option<&[u8]>) -> Answer {
        let answer = match document {
            Some(document) => self.put(key, document),
            None => self.delete(key),
        };
        let slot = 8 + 145 * caller;
        self.store(slot, self.words[slot] + 1);
        self.store(slot + 1, answer as u64);
        self.store(0, self.words[0] + 1);
        self.persist();
        answer
    }

    /// Writes a key's document behind what is there, and tells whether it has one.
    pub fn get(&self, key: &[u8], into: &mut Vec<u8>) -> bool {
        let node = self.find(key);
        if node != 0 {
            self.read_text(node, DOCUMENT, into);
        }
        node != 0
    }

    /// Writes a text of a node behind what is there.
    pub fn read_text(&self, node: u64, text: usize, into: &mut Vec<u8>) {
        let end = into.len() + self.word(node, text + 1) as usize;
        let mut line = self.word(node, text);
        while line != 0 {
            (1..8).for_each(|i| into.extend_from_slice(&self.word(line, i).to_le_bytes()));
            line = self.word(line, NEXT);
        }
        into.truncate(end);
    }

    /// A word of a line of the object part.
    pub fn word(&self, line: u64, word: usize) -> u64 {
        self.words[OBJECT + 8 * line as usize + word]
    }

    fn set(&mut self, line: u64, word: usize, value: u64) {
        self.store(OBJECT + 8 * line as usize + word, value);
    }

    fn store(&mut self, position: usize, value: u64) {
        if self.words[position] != value {
            self.words[position] = value;
            self.changed.push(position);
        }
    }

    // Stores the changed words in the durable copy. The exchange stands for the fence behind them.
    fn persist(&mut self) {
        for position in self.changed.drain(..) {
            self.durable[position].store(self.words[position], Order::Relaxed);
        }
        self.durable[0].swap(self.words[0], Order::SeqCst);
    }

    fn room(&self) -> u64 {
        self.lines - self.word(0, NEVER_GIVEN) + self.word(0, GIVEN_BACK_COUNT)
    }

    fn take(&mut self) -> u64 {
        let line = self.word(0, GIVEN_BACK);
        if line == 0 {
            let line = self.word(0, NEVER_GIVEN);
            self.set(0, NEVER_GIVEN, line + 1);
            return line;
        }
        self.set(0, GIVEN_BACK, self.word(line, NEXT));
        self.set(0, GIVEN_BACK_COUNT, self.word(0, GIVEN_BACK_COUNT) - 1);
        line
    }

    fn give(&mut self, line: u64) {
        self.set(line, NEXT, self.word(0, GIVEN_BACK));
        self.set(0, GIVEN_BACK, line);
        self.set(0, GIVEN_BACK_COUNT, self.word(0, GIVEN_BACK_COUNT) + 1);
    }

    fn give_text(&mut self, node: u64, text: usize) {
        let mut line = self.word(node, text);
        while line != 0 {
            let next = self.word(line, NEXT);
            self.give(line);
            line = next;
        }
    }

    fn write_text(&mut self, node: u64, text: usize, bytes: &[u8]) {
        let mut first = 0;
        for part in bytes.chunks(56).rev() {
            let line = self.take();
            self.set(line, NEXT, first);
            self.fill(line, part);
            first = line;
        }
        self.set(node, text, first);
        self.set(node, text + 1, bytes.len() as u64);
    }

    fn fill(&mut self, line: u64, bytes: &[u8]) {
        (0..7).for_each(|i| self.set(line, 1 + i, packed(bytes, i)));
    }

    // The side of a node on which a key stands. Keys have no zero bytes, so both go on only where a word's last byte is none.
    fn side(&self, key: &[u8], node: u64) -> Option<usize> {
        let mut line = self.word(node, KEY);
        for i in 0..8 {
            if i == 7 {
                line = self.word(line, NEXT);
            }
            let word = if line == 0 { 0 } else { self.word(line, 1 + i % 7) };
            match packed(key, i).swap_bytes().cmp(&word.swap_bytes()) {
                Ordering::Less => return Some(LEFT),
                Ordering::Greater => return Some(RIGHT),
                Ordering::Equal if word >> 56 == 0 => return None,
                Ordering::Equal => {}
            }
        }
        None
    }

    fn find(&self, key: &[u8]) -> u64 {
        let mut node = self.word(0, ROOT);
        while node != 0 {
            let Some(side) = self.side(key, node) else { break };
            node = self.word(node, side);
        }
        node
    }

    fn height(&self, node: u64) -> u64 {
        if node == 0 { 0 } else { self.word(node, HEIGHT) }
    }

    fn measure(&mut self, node: u64) -> u64 {
        let [left, right] = [LEFT, RIGHT].map(|side| self.height(self.word(node, side)));
        self.set(node, HEIGHT, 1 + left.max(right));
        node
    }

    // The child on a side becomes the parent.
    fn rotate(&mut self, node: u64, side: usize) -> u64 {
        let child = self.word(node, side);
        self.set(node, side, self.word(child, 1 - side));
        self.set(child, 1 - side, node);
        self.measure(node);
        self.measure(child)
    }

    // The root of a tree after a child was put at a side, by which that side grew or shrank by one at most.
    fn with_child(&mut self, node: u64, side: usize, child: u64) -> u64 {
        self.set(node, side, child);
        for side in [LEFT, RIGHT] {
            let child = self.word(node, side);
            if self.height(child) > self.height(self.word(node, 1 - side)) + 1 {
                if self.height(self.word(child, 1 - side)) > self.height(self.word(child, side)) {
                    let top = self.rotate(child, 1 - side);
                    self.set(node, side, top);
                }
                return self.rotate(node, side);
            }
        }
        self.measure(node)
    }

    // The root of a tree with a new node for a key that is not there.
    fn with(&mut self, root: u64, key: &[u8], node: u64) -> u64 {
        if root == 0 {
            return node;
        }
        let side = self.side(key, root).unwrap_or(RIGHT);
        let child = self.with(self.word(root, side), key, node);
        self.with_child(root, side, child)
    }

    // The root of a tree without the node of a key that is there.
    fn without(&mut self, root: u64, key: &[u8]) -> u64 {
        if let Some(side) = self.side(key, root) {
            let child = self.without(self.word(root, side), key);
            return self.with_child(root, side, child);
        }
        let (left, right) = (self.word(root, LEFT), self.word(root, RIGHT));
        if left == 0 || right == 0 {
            return left + right;
        }
        let (next, rest) = self.without_least(right);
        self.set(next, LEFT, left);
        self.with_child(next, RIGHT, rest)
    }

    // The node of a tree's least key, and the root of the others.
    fn without_least(&mut self, root: u64) -> (u64, u64) {
        let left = self.word(root, LEFT);
        if left == 0 {
            return (root, self.word(root, RIGHT));
        }
        let (least, rest) = self.without_least(left);
        (least, self.with_child(root, LEFT, rest))
    }

    fn put(&mut self, key: &[u8], document: &[u8]) -> Answer {
        let node = self.find(key);
        let new = document.len().div_ceil(56) as u64;
        if node == 0 {
            if 1 + key.len().div_ceil(56) as u64 + new > self.room() {
                return Answer::NoRoom;
            }
            let node = self.take();
            [0, 0, 1, 0, 0, 0, 0, 0].into_iter().enumerate().for_each(|(word, value)| self.set(node, word, value));
            self.write_text(node, KEY, key);
            self.write_text(node, DOCUMENT, document);
            let root = self.with(self.word(0, ROOT), key, node);
            self.set(0, ROOT, root);
            self.set(0, PAIRS, self.word(0, PAIRS) + 1);
            return Answer::New;
        }
        let old = self.word(node, DOCUMENT + 1).div_ceil(56);
        if new > old + self.room() {
            return Answer::NoRoom;
        }
        if new == old {
            let mut line = self.word(node, DOCUMENT);
            for part in document.chunks(56) {
                self.fill(line, part);
                line = self.word(line, NEXT);
            }
            self.set(node, DOCUMENT + 1, document.len() as u64);
        } else {
            self.give_text(node, DOCUMENT);
            self.write_text(node, DOCUMENT, document);
        }
        Answer::Replaced
    }

    fn delete(&mut self, key: &[u8]) -> Answer {
        let node = self.find(key);
        if node == 0 {
            return Answer::Absent;
        }
        let root = self.without(self.word(0, ROOT), key);
        self.set(0, ROOT, root);
        self.set(0, PAIRS, self.word(0, PAIRS) - 1);
        self.give_text(node, DOCUMENT);
        self.give_text(node, KEY);
        self.give(node);
        Answer::Deleted
    }
}

// Word i of packed bytes.
fn packed(bytes: &[u8], i: usize) -> u64 {
    let rest = bytes.get(8 * i..).unwrap_or(&[]);
    match rest.first_chunk() {
        Some(eight) => u64::from_le_bytes(*eight),
        None => rest.iter().rev().fold(0, |word, byte| word << 8 | u64::from(*byte)),
    }
}

/// Copies all words of a region the given number of times, with a pause before each. Gives the nanoseconds of the quickest copy, and of all.
pub fn copies(lines: u64, times: u64, pause: Duration) -> (u128, u128) {
    let region = Region::new(lines);
    let mut into = vec![0; region.durable.len()];
    let (mut least, mut all) = (u128::MAX, 0);
    for _ in 0..times {
        if !pause.is_zero() {
            sleep(pause);
        }
        let begun = Instant::now();
        for (word, of) in into.iter_mut().zip(&region.durable) {
            *word = of.load(Order::SeqCst);
        }
        black_box(&mut into);
        let took = begun.elapsed().as_nanos();
        least = least.min(took);
        all += took;
    }
    (least, all)
}
