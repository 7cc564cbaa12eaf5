//! Images in files, and what became of updates.

use githoppu::{Add, Closed, Closing, Error, FileError, Image, Outcome, Put, Queue, Reply, Store};
use std::ffi::CString;
use std::fs::{self, File};
use std::io;
use std::os::fd::AsRawFd;
use std::os::unix::ffi::OsStrExt;
use std::os::unix::fs::{chown, symlink, FileTypeExt, MetadataExt, PermissionsExt};
use std::path::{Path, PathBuf};
use std::thread;

/// A folder of a test's own, which is empty.
fn folder(name: &str) -> PathBuf {
    let path = PathBuf::from(env!("CARGO_TARGET_TMPDIR")).join(name);
    let _ = fs::remove_dir_all(&path);
    fs::create_dir_all(&path).unwrap();
    path
}

fn closed_store(sold: i64) -> Closed {
    let mut sessions = Store::open(64, 2).unwrap();
    assert_eq!(sessions[1].add("sold", sold), Ok(Add::Sum(sold)));
    last_closed(sessions.into_iter().map(|session| session.close()))
}

fn last_closed<S>(closings: impl Iterator<Item = Closing<S>>) -> Closed {
    match closings.last() {
        Some(Closing::Closed(closed)) => closed,
        _ => panic!("the last session closes the store"),
    }
}

fn sold_in(path: &Path) -> Option<String> {
    Store::load(path, 1).unwrap()[0].get("sold").unwrap()
}

/// The files of a folder that a save has made and not renamed.
fn new_files(folder: &Path) -> usize {
    fs::read_dir(folder).unwrap().filter(|entry| entry.as_ref().unwrap().file_name().to_string_lossy().ends_with(".new")).count()
}

#[test]
fn bytes_are_those_of_c() {
    let folder = folder("bytes");
    let path = folder.join("file");
    let wanted: [u8; 64] = [
        103, 105, 116, 104, 102, 105, 108, 101, 1, 0, 0, 0, 0, 0, 0, 0, 3, 0, 0, 0, 0, 0, 0, 0, 0xAD, 0x3A, 0x75, 0x4F, 0, 0, 0, 0, 1, 0, 0, 0, 0, 0,
        0, 0, 255, 255, 255, 255, 255, 255, 255, 255, 0xEF, 0xCD, 0xAB, 0x89, 0x67, 0x45, 0x23, 1, 0x3A, 0xB1, 0x56, 0xB0, 0, 0, 0, 0,
    ];
    let image = Image::from(vec![1, u64::MAX, 0x0123_4567_89AB_CDEF]);
    image.save(&path).unwrap();
    assert_eq!(fs::read(&path).unwrap(), wanted);
    assert_eq!(Image::load(&path).unwrap(), image);
    // another format is named, where its head is whole: the checksum of this head was made by another program
    let mut other = wanted;
    other[8] = 2;
    other[24..28].copy_from_slice(&[0x5E, 0x5A, 0x8D, 0x5C]);
    fs::write(&path, other).unwrap();
    assert!(matches!(Image::load(&path), Err(FileError::Format)));
}

#[test]
fn a_store_and_a_queue_are_saved_and_loaded() {
    let folder = folder("round");
    let path = folder.join("store");
    closed_store(41).save(&path).unwrap();
    assert_eq!(sold_in(&path), Some("41".to_string()));
    closed_store(42).save(&path).unwrap();
    assert_eq!(sold_in(&path), Some("42".to_string()));
    assert_eq!(new_files(&folder), 0);
    assert!(matches!(Queue::load(&path, 1), Err(FileError::Refused(Error::OtherKind))));
    assert!(matches!(Store::load(&path, 9), Err(FileError::Refused(Error::BadSize))));
    let mut sessions = Queue::open(64, 2).unwrap();
    assert_eq!(sessions[0].push("one"), Ok(true));
    assert_eq!(sessions[1].push("two"), Ok(true));
    let path = folder.join("queue");
    last_closed(sessions.into_iter().map(|session| session.close())).save(&path).unwrap();
    assert_eq!(Queue::load(&path, 1).unwrap()[0].pop(), Ok(Some("one".to_string())));
}

/// A closed store is saved as the replica that its image by choice 0 names, and a running one as its checkpoint; a file with the whole image is loaded too.
#[test]
fn files_have_one_replica() {
    let folder = folder("formats");
    let path = folder.join("store");
    let region = 8 * (146 + 64);
    let mut closed = closed_store(41);
    let whole = closed.image(0).unwrap();
    assert_eq!((whole[1], whole.len()), (1, 8 + 2 * 2 * region));
    whole.save(&path).unwrap();
    assert_eq!(sold_in(&path), Some("41".to_string()));
    closed.save(&path).unwrap();
    assert_eq!(sold_in(&path), Some("41".to_string()));
    let one = Image::load(&path).unwrap();
    assert_eq!((one[1], one.len()), (2, 8 + region));
    for session in 0..8 {
        assert_eq!(one.outcome(session), whole.outcome(session));
    }
    let mut sessions = Store::recover(&one, 3).unwrap();
    let taken = sessions[2].checkpoint().unwrap();
    assert_eq!((taken[1], taken[3], &taken[8..]), (2, 3, &one[8..]));
    sessions[0].save(&path).unwrap();
    assert_eq!(Image::load(&path).unwrap(), taken);
    assert_eq!(Store::recover(&taken[..8 + region - 1], 1).err(), Some(Error::ImageSize));
}

/// The files that the C tests left, where they ran.
#[test]
fn files_of_c_are_read() {
    let files = PathBuf::from(env!("CARGO_MANIFEST_DIR")).join("../c/out/files");
    if !files.join("saved.store").is_file() {
        println!("no files of the C tests");
        return;
    }
    let (store, queue) = (files.join("saved.store"), files.join("saved.queue"));
    assert_eq!(sold_in(&store), Some("42".to_string()));
    assert_eq!(Queue::load(&queue, 2).unwrap()[1].pop(), Ok(Some("one".to_string())));
    // and saved again they have the same bytes
    let again = folder("of_c").join("again");
    for path in [store, queue] {
        Image::load(&path).unwrap().save(&again).unwrap();
        assert_eq!(fs::read(&again).unwrap(), fs::read(&path).unwrap());
    }
}

#[test]
fn each_byte_changed_and_each_length_is_named() {
    let folder = folder("changed");
    let path = folder.join("file");
    let image = Image::from((0..20u64).map(|at| at.wrapping_mul(0x9E37_79B9_7F4A_7C15)).collect::<Vec<_>>());
    image.save(&path).unwrap();
    let bytes = fs::read(&path).unwrap();
    for at in 0..bytes.len() {
        let mut changed = bytes.clone();
        changed[at] ^= 1 << (at % 8);
        fs::write(&path, &changed).unwrap();
        assert!(matches!(Image::load(&path), Err(FileError::Changed)), "byte {at}");
        fs::write(&path, &bytes[..at]).unwrap();
        match Image::load(&path) {
            Err(FileError::Empty) => assert_eq!(at, 0),
            Err(FileError::Length) => assert_ne!(at, 0),
            other => panic!("length {at}: {other:?}"),
        }
    }
    for more in [1, 8, 40] {
        fs::write(&path, [&bytes[..], &bytes[..more]].concat()).unwrap();
        assert!(matches!(Image::load(&path), Err(FileError::Length)));
    }
    fs::write(&path, "a text").unwrap();
    assert!(matches!(Image::load(&path), Err(FileError::Foreign)));
    fs::write(&path, [0; 400]).unwrap();
    assert!(matches!(Image::load(&path), Err(FileError::Foreign)));
    fs::write(&path, &bytes).unwrap();
    assert_eq!(Image::load(&path).unwrap(), image);
}

#[test]
fn faults_of_the_system_are_told() {
    let folder = folder("faults");
    let mut closed = closed_store(1);
    let missing = folder.join("no folder").join("file");
    assert!(matches!(closed.save(&missing), Err(FileError::NotMade(why)) if why.kind() == io::ErrorKind::NotFound));
    assert!(matches!(Store::load(&missing, 1), Err(FileError::NotOpened(why)) if why.kind() == io::ErrorKind::NotFound));
    assert!(matches!(Store::load(&folder, 1), Err(FileError::NotOpened(_))));
    let taken = folder.join("taken");
    fs::create_dir(&taken).unwrap();
    assert!(matches!(closed.save(&taken), Err(FileError::NotRegular)));
    assert!(matches!(closed.save(folder.join("new/")), Err(FileError::NotRegular)));
    assert!(matches!(closed.save(""), Err(FileError::NotMade(why)) if why.kind() == io::ErrorKind::NotFound));
    assert_eq!(new_files(&folder), 0);
    // nothing is made of a fault, and the store is still there
    closed.save(folder.join("file")).unwrap();
    assert_eq!(sold_in(&folder.join("file")), Some("1".to_string()));
}

extern "C" {
    fn mkfifo(path: *const std::ffi::c_char, mode: u32) -> i32;
    fn flock(file: i32, how: i32) -> i32;
    fn geteuid() -> u32;
}

fn set_mode(path: &Path, mode: u32) {
    fs::set_permissions(path, fs::Permissions::from_mode(mode)).unwrap();
}

#[test]
fn a_save_keeps_the_rights_of_the_file() {
    let path = folder("rights").join("file");
    for mode in [0o600, 0o640, 0o444, 0o400, 0o666, 0o755] {
        closed_store(1).save(&path).unwrap();
        set_mode(&path, mode);
        closed_store(2).save(&path).unwrap();
        assert_eq!(fs::metadata(&path).unwrap().mode(), 0o100_000 | mode);
        set_mode(&path, 0o600);
        assert_eq!(sold_in(&path), Some("2".to_string()));
    }
    if unsafe { geteuid() } == 0 {
        chown(&path, Some(1234), Some(5678)).unwrap();
        set_mode(&path, 0o640);
        closed_store(3).save(&path).unwrap();
        let about = fs::metadata(&path).unwrap();
        assert_eq!((about.uid(), about.gid(), about.mode()), (1234, 5678, 0o100_640));
    }
}

#[test]
fn a_link_is_followed() {
    let folder = folder("links");
    let room = folder.join("room");
    fs::create_dir(&room).unwrap();
    let file = room.join("file");
    let [one, two, lost, ring] = ["one", "two", "lost", "ring"].map(|name| folder.join(name));
    closed_store(1).save(&file).unwrap();
    symlink("room/file", &one).unwrap();
    symlink(&one, &two).unwrap();
    symlink("room/new", &lost).unwrap();
    symlink("ring", &ring).unwrap();
    closed_store(2).save(&one).unwrap();
    assert_eq!(sold_in(&file), Some("2".to_string()));
    closed_store(3).save(&two).unwrap();
    assert_eq!(sold_in(&file), Some("3".to_string()));
    closed_store(4).save(&lost).unwrap();
    assert_eq!(sold_in(&room.join("new")), Some("4".to_string()));
    assert!(matches!(closed_store(5).save(&ring), Err(FileError::NotMade(_))));
    for link in [&one, &two, &lost, &ring] {
        assert!(fs::symlink_metadata(link).unwrap().is_symlink());
    }
    assert_eq!((new_files(&folder), new_files(&room)), (0, 0));
}

#[test]
fn a_pipe_is_left() {
    let folder = folder("pipe");
    let path = folder.join("pipe");
    let name = CString::new(path.as_os_str().as_bytes()).unwrap();
    assert_eq!(unsafe { mkfifo(name.as_ptr(), 0o644) }, 0);
    symlink("pipe", folder.join("link")).unwrap();
    for at in ["pipe", "link"] {
        assert!(matches!(closed_store(1).save(folder.join(at)), Err(FileError::NotRegular)));
        // and a load of it comes back
        assert!(matches!(Store::load(folder.join(at), 1), Err(FileError::NotOpened(_))));
    }
    assert!(fs::symlink_metadata(&path).unwrap().file_type().is_fifo());
    assert_eq!(new_files(&folder), 0);
}

#[test]
fn what_is_left_is_removed() {
    let folder = folder("left");
    let path = folder.join("n".repeat(255));
    let left = folder.join(".githoppu.0.new");
    fs::write(&left, "half").unwrap();
    closed_store(1).save(&path).unwrap();
    assert_eq!((new_files(&folder), sold_in(&path)), (0, Some("1".to_string())));
    // one that is locked is another process's
    let other = File::create(&left).unwrap();
    assert_eq!(unsafe { flock(other.as_raw_fd(), 2) }, 0);
    fs::write(folder.join(".githoppu.1.new"), "half").unwrap();
    closed_store(2).save(&path).unwrap();
    assert_eq!((new_files(&folder), left.exists()), (1, true));
    drop(other);
    closed_store(3).save(&path).unwrap();
    assert_eq!((new_files(&folder), sold_in(&path)), (0, Some("3".to_string())));
}

#[test]
fn threads_save_at_once() {
    let folder = folder("at_once");
    let path = folder.join("file");
    thread::scope(|scope| {
        for number in 0..4 {
            let path = &path;
            scope.spawn(move || {
                for _ in 0..40 {
                    closed_store(number).save(path).unwrap();
                    assert!(sold_in(path).is_some());
                }
            });
        }
    });
    assert_eq!(new_files(&folder), 0);
}

#[test]
fn outcomes_are_told() {
    let mut sessions = Store::open(64, 3).unwrap();
    assert_eq!(sessions[0].put("fruit", "1"), Ok(Put::New));
    assert_eq!(sessions[0].get("fruit"), Ok(Some("1".to_string())));
    assert_eq!(sessions[0].add("fruit", 4), Ok(Add::Sum(5)));
    assert_eq!(sessions[1].put("", "1"), Err(Error::Malformed));
    let mut closed = last_closed(sessions.into_iter().map(|session| session.close()));
    let mut image = closed.image(1).unwrap();
    assert_eq!(image.outcome(0), Ok(Some(Outcome { number: 2, reply: Reply::Sum(5) })));
    assert_eq!(image.outcome(1), Ok(Some(Outcome { number: 1, reply: Reply::Malformed })));
    assert_eq!(image.outcome(2), Ok(None));
    assert_eq!(image.outcome(7), Ok(None));
    assert_eq!(image.outcome(8), Err(Error::BadSize));
    assert_eq!(Image::from(vec![]).outcome(0), Err(Error::NotAnImage));
    image[2] = 4;
    assert_eq!(image.outcome(0), Err(Error::NotAnImage));
    let mut sessions = Queue::open(64, 2).unwrap();
    assert_eq!(sessions[0].push("text"), Ok(true));
    assert_eq!(sessions[1].peek(), Ok(Some("text".to_string())));
    assert_eq!(sessions[1].pop(), Ok(Some("text".to_string())));
    assert_eq!(sessions[1].pop(), Ok(None));
    let image = last_closed(sessions.into_iter().map(|session| session.close())).image(0).unwrap();
    assert_eq!(image.outcome(0), Ok(Some(Outcome { number: 1, reply: Reply::Pushed })));
    assert_eq!(image.outcome(1), Ok(Some(Outcome { number: 2, reply: Reply::Empty })));
    assert_eq!(Queue::recover(&image, 1).unwrap()[0].push("more"), Ok(true));
}

#[test]
fn the_versions_are_one() {
    assert_eq!(githoppu::library_version(), githoppu::VERSION);
}
