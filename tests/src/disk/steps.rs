//! Steps of a test: what is done to files, what is asked of them, and calls of a store with what
//! they answer.

use super::blocks::are_blocks;
use osm_disk::disk_store::DiskStore;
use osm_runs::options::FollowOptions;
use osm_runs::progress::Progress;
use osm_model::filter::Filter;
use osm_round::kept::{Sizes, follow_kept};
use osm_store::store::{Store, StoreError};
use std::alloc::Global;
use std::fs::{self, Files};

/// What `WriteInParts` writes, and most other writes.
pub const NEW: &[u8] = b"newer";

/// A call that is done.
pub const DONE: Result<(), StoreError> = Ok(());

/// A call that is refused because of the device.
pub const REFUSED: Result<(), StoreError> = Err(StoreError::Device);

// Every save is a small one.
const SMALL: Sizes = Sizes {
    small: 8_388_608,
    most: 4_194_304,
};

/// What a read gives: the bytes, or None if there is no such file.
pub type Given<'a> = Result<Option<&'a [u8]>, StoreError>;

/// A step, about the path that is its first part.
#[derive(Clone, Copy)]
pub enum Step<'a> {
    /// Not through the store.
    Disk(&'a str, Disk<'a>),
    /// A read by the store.
    Read(&'a str, Read, Given<'a>),
    /// Whether the store finds something there.
    Asks(&'a str, Result<bool, StoreError>),
    /// Another call of the store. One that is about no path says `""`.
    Call(&'a str, Call<'a>, Result<(), StoreError>),
    /// The file is read in blocks of each size, from places across it and past its end.
    Blocks(&'a str),
    /// A follower of the folder that keeps its save there prints that text.
    Follow(&'a str, &'a [u8]),
}

/// What is done to the disk, or has to be so there.
#[derive(Clone, Copy)]
pub enum Disk<'a> {
    /// A file is written.
    Put(&'a [u8]),
    /// A folder is made.
    Folder,
    /// A link with that text is made.
    Link(&'a str),
    /// A link is made whose text is the path of that name in the folder.
    LinkInto(&'a str),
    /// It is the folder in which the links 1 to 41 are made: the first leads to `end`, and each
    /// other one to the one before it.
    Links,
    /// A file or a link is removed.
    Remove,
    /// It takes the place of the file of that name in the folder.
    Rename(&'a str),
    /// It is a file with those bytes.
    Holds(&'a [u8]),
    /// Something is there.
    Present,
    /// Nothing is there.
    Absent,
    /// It is a link.
    IsLink,
}

/// A read by the store.
#[derive(Clone, Copy)]
pub enum Read {
    /// All bytes, at most so many.
    Whole(u64),
    /// So many of the first bytes.
    Prefix(u64),
    /// From that place on, so many bytes.
    Block(u64, u64),
}

/// A call of the store.
#[derive(Clone, Copy)]
pub enum Call<'a> {
    Write(&'a [u8]),
    /// Writes `NEW` in two parts.
    WriteInParts,
    Begin,
    Append(&'a [u8]),
    Commit,
    Abandon,
    SetAlone,
}

impl Step<'_> {
    fn path(&self) -> &str {
        match self {
            Step::Disk(path, _) | Step::Read(path, _, _) | Step::Asks(path, _) => path,
            Step::Call(path, _, _) | Step::Blocks(path) | Step::Follow(path, _) => path,
        }
    }

    fn is_refused_by_the_device(&self) -> bool {
        match self {
            Step::Read(_, _, given) => *given == Err(StoreError::Device),
            Step::Asks(_, found) => *found == Err(StoreError::Device),
            Step::Call(_, _, answer) => *answer == REFUSED,
            _ => false,
        }
    }
}

/// Whether the step, over a path below the folder, goes as it says, and the store counts a failure
/// if it is refused because of the device, and otherwise none.
pub fn goes<R: Files + AllocGlobal, S: Files>(
    rt: &R,
    store: &mut DiskStore<S>,
    folder: &str,
    step: Step<'_>,
) -> bool {
    let Ok(path) = format!(in rt.alloc(); "{folder}{}", step.path()) else {
        return false;
    };
    let failures = store.failures();
    let is_right = is_right(rt, store, (folder, path.as_str()), step);
    let counted = u64::from(step.is_refused_by_the_device());
    is_right && store.failures() == failures.saturating_add(counted)
}

fn is_right<R: Files + AllocGlobal, S: Files>(
    rt: &R,
    store: &mut DiskStore<S>,
    (folder, path): (&str, &str),
    step: Step<'_>,
) -> bool {
    let alloc = rt.alloc();
    match step {
        Step::Disk(_, disk) => is_so(rt, folder, path, disk),
        Step::Read(_, read, given) => is_read(alloc, store, (path, read), given),
        Step::Asks(_, found) => store.is_there(path) == found,
        Step::Call(_, call, answer) => answer_of(alloc, store, path, call) == answer,
        Step::Blocks(_) => are_blocks(alloc, store, path),
        Step::Follow(_, text) => is_followed(alloc, store, (folder, path), text),
    }
}

// Whether it is done or is so on the disk.
fn is_so<R: Files + AllocGlobal>(rt: &R, folder: &str, path: &str, disk: Disk<'_>) -> bool {
    match disk {
        Disk::Put(bytes) => fs::write(rt, path, bytes).is_ok(),
        Disk::Folder => rt.create_dir(path).is_ok(),
        Disk::Link(text) => rt.symlink(text, path).is_ok(),
        Disk::LinkInto(name) => is_linked_into(rt, folder, name, path),
        Disk::Links => are_linked(rt, folder),
        Disk::Remove => rt.remove_file(path).is_ok(),
        Disk::Rename(name) => is_renamed(rt, path, folder, name),
        _ => is_found(rt, path, disk),
    }
}

// Whether it is so on the disk.
fn is_found<R: Files + AllocGlobal>(rt: &R, path: &str, disk: Disk<'_>) -> bool {
    match disk {
        Disk::Holds(bytes) => holds(rt, path, bytes),
        Disk::Present => rt.symlink_metadata(path).is_ok(),
        Disk::Absent => rt.symlink_metadata(path).is_err(),
        Disk::IsLink => is_link(rt, path),
        _ => false,
    }
}

fn holds<R: Files + AllocGlobal>(rt: &R, path: &str, bytes: &[u8]) -> bool {
    match fs::read(rt, path) {
        Ok(found) => found.as_slice() == bytes,
        Err(_) => false,
    }
}

fn is_link<R: Files>(files: &R, path: &str) -> bool {
    match files.symlink_metadata(path) {
        Ok(found) => found.is_symlink(),
        Err(_) => false,
    }
}

fn is_renamed<R: Files + AllocGlobal>(rt: &R, path: &str, folder: &str, name: &str) -> bool {
    match format!(in rt.alloc(); "{folder}{name}") {
        Ok(new) => rt.rename(path, new.as_str()).is_ok(),
        Err(_) => false,
    }
}

fn is_linked_into<R: Files + AllocGlobal>(rt: &R, folder: &str, name: &str, path: &str) -> bool {
    match format!(in rt.alloc(); "{folder}{name}") {
        Ok(text) => rt.symlink(text.as_str(), path).is_ok(),
        Err(_) => false,
    }
}

// Whether the links 1 to 41 are made.
fn are_linked<R: Files + AllocGlobal>(rt: &R, folder: &str) -> bool {
    for number in 1..=41u32 {
        if !is_linked(rt, folder, number) {
            return false;
        }
    }
    true
}

// Whether a link of that number is made, to `end` or to the link before it.
fn is_linked<R: Files + AllocGlobal>(rt: &R, folder: &str, number: u32) -> bool {
    let Ok(link) = format!(in rt.alloc(); "{folder}{number}") else {
        return false;
    };
    if number <= 1 {
        return rt.symlink("end", link.as_str()).is_ok();
    }
    match format!(in rt.alloc(); "{}", number - 1) {
        Ok(text) => rt.symlink(text.as_str(), link.as_str()).is_ok(),
        Err(_) => false,
    }
}

/// Whether a read by the store gives that.
pub fn is_read<S: Files>(
    alloc: Global,
    store: &mut DiskStore<S>,
    (path, read): (&str, Read),
    given: Given<'_>,
) -> bool {
    let found = match read {
        Read::Whole(limit) => store.read(alloc, path, limit),
        Read::Prefix(most) => store.read_prefix(alloc, path, most),
        Read::Block(from, most) => store.read_at(alloc, path, from, most),
    };
    match found {
        Ok(Some(bytes)) => given == Ok(Some(bytes.as_slice())),
        Ok(None) => given == Ok(None),
        Err(error) => given == Err(error),
    }
}

fn answer_of<S: Files>(
    alloc: Global,
    store: &mut DiskStore<S>,
    path: &str,
    call: Call<'_>,
) -> Result<(), StoreError> {
    match call {
        Call::Write(bytes) => store.write(alloc, path, bytes),
        Call::WriteInParts => write_in_parts(alloc, store, path),
        Call::Begin => store.begin(alloc, path),
        Call::Append(bytes) => store.append(bytes),
        Call::Commit => store.commit(),
        Call::Abandon => {
            store.abandon();
            Ok(())
        }
        Call::SetAlone => {
            store.set_alone();
            Ok(())
        }
    }
}

fn write_in_parts<S: Files>(
    alloc: Global,
    store: &mut DiskStore<S>,
    path: &str,
) -> Result<(), StoreError> {
    store.begin(alloc, path)?;
    store.append(b"new")?;
    store.append(b"er")?;
    store.commit()
}

fn is_followed<S: Files>(
    alloc: Global,
    store: &mut DiskStore<S>,
    (folder, save): (&str, &str),
    text: &[u8],
) -> bool {
    let options = FollowOptions::new(Filter::all(alloc));
    match follow_kept(alloc, store, folder, save, &options, &SMALL) {
        Ok(Progress::Whole(report)) => report.text() == text,
        Ok(Progress::Part { .. } | Progress::Before(_, _)) | Err(_) => false,
    }
}
