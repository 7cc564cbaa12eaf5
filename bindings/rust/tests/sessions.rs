//! What each operation answers, wrong use, and threads.

mod patiently;

use githoppu::{Add, Closed, Closing, Error, Put, Queue, QueueSession, Session, Store};
use patiently::patiently;
use std::thread;

const THREADS: usize = 4;
const ADDS: i64 = 20_000;
const TEXTS: usize = 5_000;

const fn goes_to_a_thread<T: Send>() {}

const _: () = goes_to_a_thread::<Session>();
const _: () = goes_to_a_thread::<QueueSession>();
const _: () = goes_to_a_thread::<Closed>();

#[test]
fn sizes_are_refused() {
    for (lines, count) in [(63, 1), (16_385, 1), (64, 0), (64, 9), (u64::MAX, 8)] {
        assert_eq!(Store::open(lines, count).err(), Some(Error::BadSize));
        assert_eq!(Queue::open(lines, count).err(), Some(Error::BadSize));
    }
}

#[test]
fn documents_are_kept() {
    let mut s = Store::open(64, 1).unwrap().pop().unwrap();
    assert_eq!(s.get("fruit"), Ok(None));
    assert_eq!(s.put("fruit", "\"apple\""), Ok(Put::New));
    assert_eq!(s.put("fruit", "\"pear\""), Ok(Put::Replaced));
    assert_eq!(s.get("fruit"), Ok(Some("\"pear\"".to_string())));
    assert_eq!(s.add("fruit", 1), Ok(Add::NotNumber));
    assert_eq!(s.add("sold", i64::MAX), Ok(Add::Sum(i64::MAX)));
    assert_eq!(s.add("sold", 1), Ok(Add::Overflow));
    assert_eq!(s.add("sold", -5), Ok(Add::Sum(i64::MAX - 5)));
    assert_eq!(s.next(""), Ok(Some("fruit".to_string())));
    assert_eq!(s.next("fruit"), Ok(Some("sold".to_string())));
    assert_eq!(s.next("sold"), Ok(None));
    assert_eq!(s.count(), Ok(2));
    assert_eq!(s.del("fruit"), Ok(true));
    assert_eq!(s.del("fruit"), Ok(false));
    let long = "x".repeat(1024);
    assert_eq!(s.put("a", &long), Ok(Put::New));
    assert_eq!(s.put("b", &long), Ok(Put::New));
    assert_eq!(s.put("c", &long), Ok(Put::NoRoom));
    assert_eq!(s.put("", "1"), Err(Error::Malformed));
    assert_eq!(s.put("a key", "1"), Err(Error::Malformed));
    assert_eq!(s.put("key", "\n"), Err(Error::Malformed));
    assert_eq!(s.get(&"k".repeat(65)), Err(Error::TooLong));
    assert_eq!(s.put("key", &"x".repeat(1025)), Err(Error::TooLong));
    assert_eq!(s.put("umlaut", "ü"), Ok(Put::New));
    assert_eq!(s.get("umlaut"), Ok(Some("ü".to_string())));
}

#[test]
fn a_revision_is_compared() {
    use githoppu::PutIf;
    let mut s = Store::open(64, 1).unwrap().pop().unwrap();
    assert_eq!(s.revision("fruit"), Ok(None));
    assert_eq!(s.put_if("fruit", "1", 7), Ok(PutIf::Stale(0)));
    assert_eq!(s.put_if("fruit", "1", 0), Ok(PutIf::Set(1)));
    assert_eq!(s.put("fruit", "2"), Ok(Put::Replaced));
    assert_eq!(s.put_if("fruit", "3", 1), Ok(PutIf::Stale(2)));
    assert_eq!(s.put_if("fruit", "3", 2), Ok(PutIf::Set(3)));
    assert_eq!(s.revision("fruit"), Ok(Some(3)));
    assert_eq!(s.get("fruit"), Ok(Some("3".to_string())));
}

#[test]
fn a_queue_is_first_in_first_out() {
    let mut s = Queue::open(64, 2).unwrap();
    assert_eq!(s[0].pop(), Ok(None));
    assert_eq!(s[0].peek(), Ok(None));
    for i in 0..64 {
        assert_eq!(s[i % 2].push(&format!("text-{i}")), Ok(i < 63));
    }
    assert_eq!(s[1].len(), Ok(63));
    assert_eq!(s[1].peek(), Ok(Some("text-0".to_string())));
    assert_eq!(s[0].pop(), Ok(Some("text-0".to_string())));
    assert_eq!(s[1].pop(), Ok(Some("text-1".to_string())));
    assert_eq!(s[0].push(""), Err(Error::Malformed));
    assert_eq!(s[0].push(&"t".repeat(57)), Err(Error::TooLong));
    assert_eq!(s[0].push(&"t".repeat(56)), Ok(true));
}

fn add_and_read(session: &mut Session) {
    let mut last = 0;
    for i in 1..=ADDS {
        assert!(matches!(patiently(|| session.add("sold", 1)), Ok(Add::Sum(_))));
        let found: i64 = patiently(|| session.get("sold")).unwrap().unwrap().parse().unwrap();
        assert!(found > last && found >= i && found <= THREADS as i64 * ADDS);
        last = found;
    }
}

#[test]
fn four_threads_add() {
    let mut sessions = Store::open(64, THREADS).unwrap();
    thread::scope(|scope| {
        for session in &mut sessions {
            scope.spawn(move || add_and_read(session));
        }
    });
    assert_eq!(sessions[0].get("sold"), Ok(Some((THREADS as i64 * ADDS).to_string())));
}

#[test]
fn four_threads_queue() {
    let mut sessions = Queue::open(64, THREADS).unwrap();
    let (producers, consumers) = sessions.split_at_mut(THREADS / 2);
    let mut arrived: Vec<String> = thread::scope(|scope| {
        for (i, session) in producers.iter_mut().enumerate() {
            scope.spawn(move || {
                for k in 0..TEXTS {
                    while !patiently(|| session.push(&format!("{i}:{k}"))).unwrap() {}
                }
            });
        }
        let takers: Vec<_> = consumers
            .iter_mut()
            .map(|session| {
                scope.spawn(move || {
                    let mut texts = Vec::new();
                    while texts.len() < TEXTS {
                        texts.extend(patiently(|| session.pop()).unwrap());
                    }
                    texts
                })
            })
            .collect();
        takers.into_iter().flat_map(|taker| taker.join().unwrap()).collect()
    });
    arrived.sort();
    let mut sent: Vec<String> = (0..THREADS / 2).flat_map(|i| (0..TEXTS).map(move |k| format!("{i}:{k}"))).collect();
    sent.sort();
    assert_eq!(arrived, sent);
}

/// The closed store of sessions that are closed by threads of their own.
fn closed_by_threads(sessions: Vec<Session>) -> Closed {
    let closings: Vec<_> = thread::scope(|scope| {
        let threads: Vec<_> = sessions
            .into_iter()
            .map(|mut session| {
                scope.spawn(move || {
                    assert!(matches!(patiently(|| session.add("sold", 1)), Ok(Add::Sum(_))));
                    session.close()
                })
            })
            .collect();
        threads.into_iter().map(|thread| thread.join().unwrap()).collect()
    });
    let mut closed = closings.into_iter().filter_map(|closing| match closing {
        Closing::Closed(closed) => Some(closed),
        Closing::Others => None,
        _ => panic!("a session is not closed"),
    });
    let last = closed.next().expect("one is the last");
    assert!(closed.next().is_none());
    last
}

#[test]
fn what_is_closed_is_recovered() {
    for choice in 0..20 {
        let mut sessions = Store::open(64, THREADS).unwrap();
        assert_eq!(sessions[1].put("fruit", "\"apple\""), Ok(Put::New));
        assert_eq!(sessions[2].put("fruit", "\"pear\""), Ok(Put::Replaced));
        let words = closed_by_threads(sessions).image(choice).unwrap();
        let mut again = Store::recover(&words, 2).unwrap();
        assert_eq!(again[0].get("fruit"), Ok(Some("\"pear\"".to_string())));
        assert_eq!(again[0].revision("fruit"), Ok(Some(2)));
        assert_eq!(again[1].get("sold"), Ok(Some(THREADS.to_string())));
    }
}

#[test]
fn each_refusal_has_its_error() {
    let words = closed_by_threads(Store::open(64, 2).unwrap()).image(0).unwrap();
    let region = 8 + 8 * (146 + 64) * (words[5] % 4) as usize;
    let turned = [
        (0, 1, Error::NotAnImage),
        (2, 3, Error::OtherKind),
        (3, 1, Error::ImageSize),
        (5, 1 << 63, Error::ImageRoot),
        (region + 1168, 128, Error::ImageVersion),
        (region, 64, Error::ImagePlace),
        (region + 3, 1, Error::ImageBody),
        (region + 8, 1 << 41, Error::ImageNumbers),
    ];
    for (at, bits, error) in turned {
        let mut words = words.clone();
        words[at] ^= bits;
        assert_eq!(Store::recover(&words, 1).err(), Some(error));
    }
    assert_eq!(Store::recover(&words[1..], 1).err(), Some(Error::NotAnImage));
    assert_eq!(Store::recover(&words[..words.len() - 1], 1).err(), Some(Error::ImageSize));
    assert_eq!(Store::recover(&[], 1).err(), Some(Error::NotAnImage));
    assert_eq!(Store::recover(&words, 0).err(), Some(Error::BadSize));
    assert_eq!(Store::recover(&words, 9).err(), Some(Error::BadSize));
    assert_eq!(Queue::recover(&words, 1).err(), Some(Error::OtherKind));
}

#[test]
fn a_queue_keeps_its_order() {
    let mut sessions = Queue::open(64, 2).unwrap();
    for i in 0..20 {
        assert_eq!(sessions[i % 2].push(&format!("text-{i}")), Ok(true));
    }
    assert_eq!(sessions[1].pop(), Ok(Some("text-0".to_string())));
    let first = sessions.pop().unwrap();
    assert!(matches!(first.close(), Closing::Others));
    let Closing::Closed(mut closed) = sessions.pop().unwrap().close() else {
        panic!("the last session closes the queue");
    };
    let mut again = Queue::recover(&closed.image(5).unwrap(), 3).unwrap();
    for i in 1..20 {
        assert_eq!(again[i % 3].pop(), Ok(Some(format!("text-{i}"))));
    }
    assert_eq!(again[0].pop(), Ok(None));
}

#[test]
fn a_session_catches_up_with_another() {
    let mut sessions = Store::open(64, 2).unwrap();
    let mut reader = sessions.pop().unwrap();
    let mut writer = sessions.pop().unwrap();
    assert_eq!((writer.place(), reader.place()), (0, 0));
    assert_eq!(reader.catch_up(1), Ok(false));
    let (send, receive) = std::sync::mpsc::channel();
    let written = thread::spawn(move || {
        for _ in 0..10_000 {
            patiently(|| writer.add("sold", 1)).unwrap();
            send.send(writer.place()).unwrap();
        }
    });
    for (i, place) in receive.iter().enumerate() {
        assert_eq!(reader.catch_up(place), Ok(true));
        assert!(reader.place() >= place);
        let sold: usize = patiently(|| reader.get("sold")).unwrap().unwrap().parse().unwrap();
        assert!(sold > i);
        assert!(reader.place() >= place);
    }
    written.join().unwrap();
    assert_eq!(reader.get("sold"), Ok(Some("10000".to_string())));
}

#[test]
fn a_store_with_a_dropped_session_is_not_closed() {
    let mut sessions = Store::open(64, 3).unwrap();
    drop(sessions.pop());
    for session in sessions {
        assert!(matches!(session.close(), Closing::Others));
    }
}
