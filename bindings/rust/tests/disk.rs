//! Stores on a disk from Rust: each call and what it answers, openings that are refused, and threads that share a store. What a disk keeps through kills and
//! power failures is tried in C, whose source this is (`bindings/c/disk`).

use githoppu::disk::{Durability, Options, Queue, Store, StoreError, Update};
use githoppu::{Add, Error, Put, PutIf, Reply};
use std::fs;
use std::path::PathBuf;
use std::thread;
use std::time::Duration;

/// A folder of a test's own, which goes with it.
struct Folder(PathBuf);

impl Folder {
    fn new(name: &str) -> Folder {
        let path = std::env::temp_dir().join(format!("githoppu.disk.{}.{name}", std::process::id()));
        fs::create_dir_all(&path).unwrap();
        Folder(path)
    }

    fn at(&self, name: &str) -> PathBuf {
        self.0.join(name)
    }
}

impl Drop for Folder {
    fn drop(&mut self) {
        let _ = fs::remove_dir_all(&self.0);
    }
}

fn small() -> Options {
    Options { lines: Some(128), ..Options::default() }
}

const fn is_shared<T: Send + Sync>() {}

#[test]
fn stores_are_shared_by_threads() {
    const { is_shared::<Store>() };
    const { is_shared::<Queue>() };
    let folder = Folder::new("threads");
    let options = Options { gather: Duration::from_micros(200), checkpoint_every: 100, readers: 2, ..small() };
    let store = Store::open(folder.at("shop"), options).unwrap();
    thread::scope(|scope| {
        for client in 0..12 {
            let store = &store;
            scope.spawn(move || {
                for _ in 0..25 {
                    assert!(matches!(store.add(client, "sold", 1), Ok(Add::Sum(_))));
                    assert!(store.get("sold").unwrap().is_some());
                }
            });
        }
    });
    assert_eq!(store.place(), 300);
    store.close().unwrap();
    let store = Store::open(folder.at("shop"), Options { existing: true, ..Options::default() }).unwrap();
    assert_eq!(store.get("sold").unwrap().as_deref(), Some("300"));
    assert!((0..12).all(|client| store.outcome(client).unwrap().unwrap().number == 25));
    assert_eq!(store.outcome(12).unwrap(), None);
}

#[test]
fn each_call_answers() {
    let folder = Folder::new("calls");
    let path = folder.at("shop");
    let store = Store::open(&path, small()).unwrap();
    assert_eq!(store.put(0, "a", "apple"), Ok(Put::New));
    assert_eq!(store.put(0, "a", "apricot"), Ok(Put::Replaced));
    let revision = store.revision("a").unwrap().unwrap();
    assert_eq!(store.put_if(1, "a", "avocado", revision), Ok(PutIf::Set(revision + 1)));
    assert_eq!(store.put_if(1, "a", "almond", revision), Ok(PutIf::Stale(revision + 1)));
    assert_eq!(store.add(2, "b", i64::MIN), Ok(Add::Sum(i64::MIN)));
    assert_eq!(store.add(2, "b", -1), Ok(Add::Overflow));
    assert_eq!(store.add(2, "a", 1), Ok(Add::NotNumber));
    assert_eq!((store.next(""), store.next("a"), store.next("b")), (Ok(Some("a".into())), Ok(Some("b".into())), Ok(None)));
    assert_eq!((store.count(), store.get_bytes("a"), store.get("none")), (Ok(2), Ok(Some(b"avocado".to_vec())), Ok(None)));
    assert_eq!((store.del(3, "b"), store.del(3, "b")), (Ok(true), Ok(false)));
    assert_eq!(store.outcome(3).unwrap().unwrap().reply, Reply::Absent);
    // what is malformed or too long
    assert_eq!(store.get(""), Err(StoreError::Refused(Error::Malformed)));
    assert_eq!(store.next("a b"), Err(StoreError::Refused(Error::Malformed)));
    assert_eq!(store.put(0, "a", ""), Err(StoreError::Refused(Error::Malformed)));
    assert_eq!(store.put(0, &"k".repeat(65), "x"), Err(StoreError::Refused(Error::TooLong)));
    assert_eq!((store.put(64, "a", "x"), store.outcome(64).err()), (Err(StoreError::NoClient), Some(StoreError::NoClient)));
    // many updates in one sync, waited for in another order, or not at all
    let mut waiting: Vec<_> = (0..20).map(|_| store.submit(4, Update::Add { key: "sold", amount: 1 }).unwrap()).collect();
    drop(waiting.pop());
    for (at, update) in waiting.into_iter().enumerate().rev() {
        assert_eq!(update.wait(), Ok(Reply::Sum(at as i64 + 1)));
    }
    assert_eq!(store.submit(4, Update::Put { key: "c", document: "cherry" }).unwrap().wait(), Ok(Reply::New));
    assert_eq!(store.submit(4, Update::PutIf { key: "c", document: "citron", revision: 9_999 }).unwrap().wait().map(|_| ()), Ok(()));
    assert_eq!(store.submit(4, Update::Del { key: "c" }).unwrap().wait(), Ok(Reply::Deleted));
    // any operation by its words: here a get
    let mut op = [0; 144];
    (op[0], op[1], op[8]) = (4, 1, u64::from(b'a'));
    assert_eq!(store.call(0, &op).unwrap()[2], 7);
    store.sync().unwrap();
    store.checkpoint().unwrap();
    store.copy(folder.at("copy")).unwrap();
    assert!(matches!(store.copy(folder.at("copy")), Err(StoreError::NotWritten(why)) if why.contains("copy")));
    let place = store.place();
    store.close().unwrap();
    for path in [path, folder.at("copy")] {
        let store = Store::open(path, Options { sync: Durability::Normal, ..Options::default() }).unwrap();
        assert_eq!((store.place(), store.get("sold")), (place, Ok(Some("20".into()))));
    }
}

#[test]
fn a_queue_is_kept() {
    let folder = Folder::new("queue");
    let queue = Queue::open(folder.at("jobs"), small()).unwrap();
    assert_eq!((queue.push(0, "first"), queue.push(0, "second")), (Ok(true), Ok(true)));
    assert_eq!(queue.submit_push(1, "third").unwrap().wait(), Ok(Reply::Pushed));
    assert_eq!((queue.peek(), queue.len(), queue.is_empty()), (Ok(Some("first".into())), Ok(3), Ok(false)));
    assert_eq!(queue.pop(2), Ok(Some("first".into())));
    drop(queue);
    let queue = Queue::open(folder.at("jobs"), Options::default()).unwrap();
    assert_eq!((queue.pop(2), queue.pop(2), queue.pop(2)), (Ok(Some("second".into())), Ok(Some("third".into())), Ok(None)));
    assert_eq!(queue.outcome(1).unwrap().unwrap().reply, Reply::Pushed);
    drop(queue);
    assert!(matches!(Store::open(folder.at("jobs"), Options::default()), Err(StoreError::Other(_))));
}

#[test]
fn openings_are_refused() {
    let folder = Folder::new("refused");
    let path = folder.at("shop");
    let open = |options: Options| Store::open(&path, options).map(|_| ());
    assert!(matches!(open(Options { existing: true, ..small() }), Err(StoreError::NotOpened(_))));
    assert_eq!(open(Options { lines: Some(63), ..small() }), Err(StoreError::Refused(Error::BadSize)));
    let store = Store::open(&path, small()).unwrap();
    assert!(matches!(open(small()), Err(StoreError::Busy(why)) if why.contains("locked")));
    drop(store);
    assert!(matches!(open(Options { lines: Some(256), ..small() }), Err(StoreError::Other(why)) if why.contains("128 lines")));
    assert!(matches!(Store::open(&folder.0, small()), Err(StoreError::NotOpened(_))));
    assert!(matches!(Store::open("a\0b", small()), Err(StoreError::NotOpened(_))));
    fs::write(&path, "a text that is no database, and is longer than the head of one is ".repeat(20)).unwrap();
    let error = open(small()).unwrap_err();
    assert!(matches!(&error, StoreError::Format(_)) && error.to_string().contains("shop"));
}

#[test]
fn a_saved_store_is_taken_over() {
    let folder = Folder::new("saved");
    let mut sessions = githoppu::Store::open(64, 2).unwrap();
    sessions[1].add("sold", 5).unwrap();
    sessions[0].save(folder.at("saved")).unwrap();
    let options = || Options { saved: Some(folder.at("saved")), ..Options::default() };
    let store = Store::open(folder.at("shop"), options()).unwrap();
    assert_eq!((store.get("sold"), store.place()), (Ok(Some("5".into())), 1));
    assert_eq!(store.outcome(1).unwrap().unwrap().reply, Reply::Sum(5));
    drop(store);
    fs::remove_file(folder.at("shop")).unwrap();
    fs::write(folder.at("saved"), "nothing that was saved").unwrap();
    assert!(matches!(Store::open(folder.at("shop"), options()), Err(StoreError::NotSaved(_))));
}
