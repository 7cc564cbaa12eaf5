//! Images in files: the same files as those of `include/githoppu_file.h`, which has their format and what a save replaces, keeps and removes.

use crate::Error;
use std::fmt;
use std::fs::{self, File, Metadata, OpenOptions, Permissions};
use std::io::{self, Read, Write};
use std::os::fd::AsRawFd;
use std::os::unix::fs::{fchown, MetadataExt, OpenOptionsExt, PermissionsExt};
use std::path::{Path, PathBuf};

const NAME: &[u8; 8] = b"githfile";
const FORMAT: u64 = 1;
const HEAD: usize = 32;

/// Why a file is not saved or not loaded. After a fault of a save other than `FolderNotSynced` the path is as it was.
#[derive(Debug)]
pub enum FileError {
    /// A load: the file cannot be opened, or it is no regular file.
    NotOpened(io::Error),
    /// A load: reading failed.
    NotRead(io::Error),
    /// A load: the file has no bytes.
    Empty,
    /// A load: no save of githoppu wrote the file.
    Foreign,
    /// A load: the file is shorter or longer than it was saved.
    Length,
    /// A load: a byte of the file was changed: the checksum is another.
    Changed,
    /// A load: a save of another version wrote the file, in a format that this one does not know.
    Format,
    /// A save: the path is a folder, a device, a pipe or a socket, and is left as it is.
    NotRegular,
    /// A save: the new file cannot be made in the folder of the path.
    NotMade(io::Error),
    /// A save: writing failed, as on a full disk.
    NotWritten(io::Error),
    /// A save: the new file cannot be synced.
    NotSynced(io::Error),
    /// A save: the new file cannot be renamed to the path.
    NotRenamed(io::Error),
    /// A save: the path has the new file, and its folder cannot be synced: after a crash of the machine the path may have the old file.
    FolderNotSynced(io::Error),
    /// What the library answered: of a load that the image is refused, of a save that there is none.
    Refused(Error),
}

impl From<Error> for FileError {
    fn from(error: Error) -> FileError {
        FileError::Refused(error)
    }
}

impl fmt::Display for FileError {
    fn fmt(&self, f: &mut fmt::Formatter<'_>) -> fmt::Result {
        match self {
            FileError::NotOpened(why) => write!(f, "the file cannot be opened: {why}"),
            FileError::NotRead(why) => write!(f, "the file cannot be read: {why}"),
            FileError::Empty => f.write_str("the file is empty"),
            FileError::Foreign => f.write_str("the file was not saved by githoppu"),
            FileError::Length => f.write_str("the file is shorter or longer than it was saved"),
            FileError::Changed => f.write_str("a byte of the file was changed since it was saved"),
            FileError::Format => f.write_str("the file has a format that this version does not know"),
            FileError::NotRegular => f.write_str("the path is a folder, a device, a pipe or a socket"),
            FileError::NotMade(why) => write!(f, "the new file cannot be made: {why}"),
            FileError::NotWritten(why) => write!(f, "the new file cannot be written: {why}"),
            FileError::NotSynced(why) => write!(f, "the new file cannot be synced: {why}"),
            FileError::NotRenamed(why) => write!(f, "the new file cannot be renamed: {why}"),
            FileError::FolderNotSynced(why) => write!(f, "the folder of the new file cannot be synced: {why}"),
            FileError::Refused(error) => write!(f, "{error}"),
        }
    }
}

impl std::error::Error for FileError {
    fn source(&self) -> Option<&(dyn std::error::Error + 'static)> {
        match self {
            FileError::NotOpened(why)
            | FileError::NotRead(why)
            | FileError::NotMade(why)
            | FileError::NotWritten(why)
            | FileError::NotSynced(why)
            | FileError::NotRenamed(why)
            | FileError::FolderNotSynced(why) => Some(why),
            FileError::Refused(error) => Some(error),
            FileError::Empty | FileError::Foreign | FileError::Length | FileError::Changed | FileError::Format | FileError::NotRegular => None,
        }
    }
}

/// CRC-32C, by a table.
const fn table() -> [u32; 256] {
    let mut table = [0; 256];
    let mut i = 0;
    while i < 256 {
        let mut value = i as u32;
        let mut bit = 0;
        while bit < 8 {
            value = if value & 1 == 1 { (value >> 1) ^ 0x82F6_3B78 } else { value >> 1 };
            bit += 1;
        }
        table[i] = value;
        i += 1;
    }
    table
}

static TABLE: [u32; 256] = table();

fn checksum<'a>(bytes: impl IntoIterator<Item = &'a u8>) -> u64 {
    let end = bytes.into_iter().fold(!0u32, |state, byte| TABLE[((state ^ u32::from(*byte)) & 255) as usize] ^ (state >> 8));
    u64::from(!end)
}

fn word_at(bytes: &[u8], at: usize) -> u64 {
    u64::from_le_bytes(bytes[at..at + 8].try_into().expect("eight bytes"))
}

/// The bytes of the file of an image.
fn bytes_of(words: &[u64]) -> Vec<u8> {
    let mut bytes = Vec::with_capacity(HEAD + 8 * words.len() + 8);
    bytes.extend_from_slice(NAME);
    bytes.extend_from_slice(&FORMAT.to_le_bytes());
    bytes.extend_from_slice(&(words.len() as u64).to_le_bytes());
    let head = checksum(&bytes);
    bytes.extend_from_slice(&head.to_le_bytes());
    words.iter().for_each(|word| bytes.extend_from_slice(&word.to_le_bytes()));
    let sum = checksum(&bytes);
    bytes.extend_from_slice(&sum.to_le_bytes());
    bytes
}

/// The words of an image, from the bytes of its file. A file whose name alone was changed is `Changed`, since the head's checksum is right.
fn words_of(bytes: &[u8]) -> Result<Vec<u64>, FileError> {
    let named = bytes.iter().zip(NAME).all(|(byte, letter)| byte == letter);
    if bytes.is_empty() {
        return Err(FileError::Empty);
    }
    if bytes.len() < HEAD + 8 {
        return Err(if named { FileError::Length } else { FileError::Foreign });
    }
    if checksum(NAME.iter().chain(&bytes[8..24])) != word_at(bytes, 24) {
        return Err(if named { FileError::Changed } else { FileError::Foreign });
    }
    if !named {
        return Err(FileError::Changed);
    }
    if word_at(bytes, 8) != FORMAT {
        return Err(FileError::Format);
    }
    let end = bytes.len() - 8;
    if bytes.len() % 8 != 0 || ((end - HEAD) / 8) as u64 != word_at(bytes, 16) {
        return Err(FileError::Length);
    }
    if checksum(&bytes[..end]) != word_at(bytes, end) {
        return Err(FileError::Changed);
    }
    Ok((HEAD..end).step_by(8).map(|at| word_at(bytes, at)).collect())
}

/// The most symbolic links that a save follows, the names that are looked at for what ended processes left, and the most new files of one folder at once.
const LINKS: usize = 40;
const LEFT: usize = 64;
const NEW_FILES: usize = 1000;

/// Flags of `open` of the system's: no wait for the other end of a pipe, and no symbolic link.
const O_NONBLOCK: i32 = if cfg!(any(target_os = "linux", target_os = "android")) { 0o4000 } else { 4 };
const O_NOFOLLOW: i32 = if cfg!(any(target_os = "linux", target_os = "android")) { 0o400000 } else { 0x100 };

const LOCK_EX: i32 = 2;
const LOCK_NB: i32 = 4;

extern "C" {
    fn flock(file: i32, how: i32) -> i32;
}

/// Locks a file that nobody has locked, until it is closed.
fn lock(file: &File) -> io::Result<()> {
    match unsafe { flock(file.as_raw_fd(), LOCK_EX | LOCK_NB) } {
        0 => Ok(()),
        _ => Err(io::Error::last_os_error()),
    }
}

/// The path behind all symbolic links at a path.
fn behind_links(path: &Path) -> io::Result<PathBuf> {
    let mut here = path.to_path_buf();
    for _ in 0..LINKS {
        match fs::read_link(&here) {
            Ok(target) => here = here.parent().unwrap_or(Path::new("")).join(target),
            Err(why) if matches!(why.kind(), io::ErrorKind::InvalidInput | io::ErrorKind::NotFound) => return Ok(here),
            Err(why) => return Err(why),
        }
    }
    Err(io::Error::other("too many symbolic links"))
}

/// Where a save goes to: the path behind all links, its folder, and the file that is replaced, where there is one.
struct Target {
    path: PathBuf,
    folder: PathBuf,
    old: Option<Metadata>,
}

impl Target {
    fn of(path: &Path) -> Result<Target, FileError> {
        // a path that ends with a slash is a folder's
        if path.as_os_str().as_encoded_bytes().ends_with(b"/") {
            return Err(FileError::NotRegular);
        }
        let path = behind_links(path).map_err(FileError::NotMade)?;
        let folder = match path.parent() {
            Some(folder) if !folder.as_os_str().is_empty() => folder.to_path_buf(),
            _ => PathBuf::from("."),
        };
        match fs::symlink_metadata(&path) {
            Ok(old) if old.is_file() => Ok(Target { path, folder, old: Some(old) }),
            Ok(_) => Err(FileError::NotRegular),
            Err(why) if why.kind() == io::ErrorKind::NotFound && path.file_name().is_some() => Ok(Target { path, folder, old: None }),
            Err(why) => Err(FileError::NotMade(why)),
        }
    }

    /// The name of a new file.
    fn new_name(&self, at: usize) -> PathBuf {
        self.folder.join(format!(".githoppu.{at}.new"))
    }

    /// A new file, which is locked, and its name.
    fn new_file(&self) -> io::Result<(PathBuf, File)> {
        (0..LEFT).for_each(|at| remove_left(&self.new_name(at)));
        let mode = if self.old.is_some() { 0o600 } else { 0o666 };
        for at in 0..NEW_FILES {
            let name = self.new_name(at);
            let file = match OpenOptions::new().write(true).create_new(true).mode(mode).open(&name) {
                Ok(file) => file,
                Err(why) if why.kind() == io::ErrorKind::AlreadyExists => continue,
                Err(why) => return Err(why),
            };
            // another save can take it for one that was left, until it is locked; where the system locks no files, none is removed
            let is_taken = lock(&file).is_err_and(|why| why.kind() == io::ErrorKind::WouldBlock);
            if !is_taken && is_named(&file, &name) {
                return Ok((name, file));
            }
        }
        Err(io::ErrorKind::AlreadyExists.into())
    }

    /// Gives the new file the rights of the one that it replaces. Who may not give it the group gives that no more than others have.
    fn keep_rights(&self, file: &File) -> io::Result<()> {
        let Some(old) = &self.old else { return Ok(()) };
        let now = file.metadata()?;
        let is_another = now.uid() != old.uid() || now.gid() != old.gid();
        let is_owned = !is_another || fchown(file, Some(old.uid()), Some(old.gid())).is_ok();
        let has_group = is_owned || now.gid() == old.gid() || fchown(file, None, Some(old.gid())).is_ok();
        let mut mode = old.mode() & 0o777;
        if !has_group {
            mode = mode & 0o707 | (mode & 0o7) << 3;
        }
        match now.mode() & 0o777 == mode {
            true => Ok(()),
            false => file.set_permissions(Permissions::from_mode(mode)),
        }
    }

    /// Writes a new file, syncs it, and renames it to the path. It stays open for its lock until then.
    fn replace(&self, bytes: &[u8], name: &Path, file: &mut File) -> Result<(), FileError> {
        file.write_all(bytes).and_then(|()| self.keep_rights(file)).map_err(FileError::NotWritten)?;
        file.sync_all().map_err(FileError::NotSynced)?;
        fs::rename(name, &self.path).map_err(FileError::NotRenamed)
    }
}

/// Whether a name is that of this file, a regular one.
fn is_named(file: &File, name: &Path) -> bool {
    match (file.metadata(), fs::symlink_metadata(name)) {
        (Ok(about), Ok(named)) => about.is_file() && about.dev() == named.dev() && about.ino() == named.ino(),
        _ => false,
    }
}

/// Removes the new file of this name, where an ended process left it: nobody locks it. Who removes or renames a new file has it locked, so no other one
/// can take its name in between.
fn remove_left(name: &Path) {
    let mut how = OpenOptions::new();
    how.read(true).custom_flags(O_NOFOLLOW | O_NONBLOCK);
    let file = match how.clone().write(true).open(name) {
        Err(why) if why.kind() == io::ErrorKind::PermissionDenied => how.open(name),
        other => other,
    };
    if let Ok(file) = file {
        if lock(&file).is_ok() && is_named(&file, name) {
            // it stays for a later save where it cannot be removed
            let _ = fs::remove_file(name);
        }
    }
}

/// Writes the words of an image to a new file, syncs it, renames it to the path, and syncs the folder.
pub fn save(path: &Path, words: &[u64]) -> Result<(), FileError> {
    let target = Target::of(path)?;
    // a folder that cannot be opened cannot be synced in the end either
    let folder = File::open(&target.folder).map_err(FileError::NotMade)?;
    let bytes = bytes_of(words);
    let (name, mut file) = target.new_file().map_err(FileError::NotMade)?;
    let replaced = target.replace(&bytes, &name, &mut file);
    if replaced.is_err() {
        // what is wrong is told; that the new file stays is not worth another fault
        let _ = fs::remove_file(&name);
    }
    replaced?;
    folder.sync_all().map_err(FileError::FolderNotSynced)
}

/// The words of the image in a file.
pub fn load(path: &Path) -> Result<Vec<u64>, FileError> {
    // a pipe without a writer would hold up the opening
    let mut file = OpenOptions::new().read(true).custom_flags(O_NONBLOCK).open(path).map_err(FileError::NotOpened)?;
    let about = file.metadata().map_err(FileError::NotOpened)?;
    if !about.is_file() {
        return Err(FileError::NotOpened(io::Error::new(io::ErrorKind::InvalidInput, "it is no regular file")));
    }
    let mut bytes = Vec::new();
    file.read_to_end(&mut bytes).map_err(FileError::NotRead)?;
    words_of(&bytes)
}
