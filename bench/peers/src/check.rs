//! The store of a region against a map: each reply, each document, the durable copy, the tree.

use crate::queue::Queue;
use crate::region::{Answer, DOCUMENT, HEIGHT, KEY, LEFT, PAIRS, RIGHT, ROOT, Region};
use crate::work::{Map, Random};
use std::collections::VecDeque;
use std::sync::atomic::Ordering::SeqCst;

/// Does so many operations, half of them in a store that is often full. It panics where region and map differ.
pub fn selftest(count: u64) {
    check_queue(count);
    for (lines, keys) in [(64, 24), (4096, 900)] {
        let (mut region, mut map) = (Region::new(lines), Map::new());
        let mut random = Random::new(lines);
        let (mut updates, mut full) = (0, 0);
        for i in 1..=count / 2 {
            let number = random.below(keys);
            // every third key goes on in a second block
            let key = format!("{number:0width$}", width = [4, 16, 60][number as usize % 3]).into_bytes();
            let most = [60, 300][i as usize % 2];
            let document: Vec<_> = (0..=random.below(most)).map(|_| b'a' + random.below(26) as u8).collect();
            let (kind, caller) = (random.below(10), random.below(8) as usize);
            updates += u64::from(kind < 8);
            if kind < 5 {
                let mut next = map.clone();
                let mut wanted = if next.insert(key.clone(), document.clone()).is_some() { Answer::Replaced } else { Answer::New };
                if lines_of(&next) <= lines {
                    map = next;
                } else {
                    wanted = Answer::NoRoom;
                    full += 1;
                }
                assert_eq!(region.update(caller, &key, Some(&document)), wanted, "put {i}");
            } else if kind < 8 {
                let wanted = if map.remove(&key).is_some() { Answer::Deleted } else { Answer::Absent };
                assert_eq!(region.update(caller, &key, None), wanted, "deletion {i}");
            } else {
                let mut got = Vec::new();
                assert_eq!(region.get(&key, &mut got).then_some(&got), map.get(&key), "get {i}");
            }
            assert_eq!(region.words[0], updates, "the place after {i}");
            if i % 8 == 0 || i + 100 > count / 2 {
                let mut pairs = Vec::new();
                check_tree(&region, region.word(0, ROOT), &mut pairs);
                assert!(pairs.len() as u64 == region.word(0, PAIRS) && pairs.into_iter().eq(map.clone()), "the pairs after {i}");
                assert!(region.durable.iter().map(|word| word.load(SeqCst)).eq(region.words.iter().copied()), "the copy after {i}");
            }
        }
        println!("{lines} lines: {} operations, {full} without room, {} documents at the end", count / 2, map.len());
    }
}

// The lines that all pairs take, and the header.
fn lines_of(map: &Map) -> u64 {
    map.iter().fold(1, |sum, (key, document)| sum + 1 + (key.len().div_ceil(56) + document.len().div_ceil(56)) as u64)
}

// The height of a tree that is balanced, whose pairs go behind the others in order.
fn check_tree(region: &Region, node: u64, pairs: &mut Vec<(Vec<u8>, Vec<u8>)>) -> u64 {
    if node == 0 {
        return 0;
    }
    let left = check_tree(region, region.word(node, LEFT), pairs);
    let (mut key, mut document) = (Vec::new(), Vec::new());
    region.read_text(node, KEY, &mut key);
    region.read_text(node, DOCUMENT, &mut document);
    pairs.push((key, document));
    let right = check_tree(region, region.word(node, RIGHT), pairs);
    assert!(left.abs_diff(right) <= 1 && region.word(node, HEIGHT) == 1 + left.max(right), "the heights at line {node}");
    1 + left.max(right)
}

// A queue of three places against a list: each answer, and the durable copy.
fn check_queue(count: u64) {
    let (mut queue, mut list) = (Queue::new(4), VecDeque::new());
    let mut random = Random::new(1);
    for i in 1..=count {
        if random.below(2) == 0 {
            let is_room = list.len() < 3;
            assert_eq!(queue.push([i; 8]), is_room, "push {i}");
            list.extend(is_room.then_some([i; 8]));
        } else {
            assert_eq!(queue.pop(), list.pop_front(), "pop {i}");
        }
        assert!(queue.kept().iter().eq(&list), "the copy after {i}");
    }
    println!("4 lines: {count} pushes and pops");
}
