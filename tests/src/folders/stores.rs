//! Tests of the store in memory, and of a store that stops, as tables of calls and their answers.

use osm_store::memory_store::MemoryStore;
use osm_store::stopping_store::StoppingStore;
use osm_store::store::{Store, StoreError};
use std::alloc::Global;

// What a read gives: the bytes, or None if there is no such file.
type Given = Result<Option<&'static [u8]>, StoreError>;

// A call of a store about the file of that name, and its answer.
#[derive(Clone, Copy)]
enum Call {
    // Of all bytes, at most so many.
    Read(&'static str, u64, Given),
    // Of so many of the first bytes.
    Prefix(&'static str, u64, Given),
    IsThere(&'static str, Result<bool, StoreError>),
    Write(&'static str, &'static [u8], Result<(), StoreError>),
}

// The calls of a store in memory after `b` was removed.
const HELD: &[Call] = &[
    Call::IsThere("a", Ok(true)),
    Call::IsThere("b", Ok(false)),
    Call::Prefix("a", 0, Ok(Some(b""))),
    Call::Prefix("a", 2, Ok(Some(b"th"))),
    Call::Prefix("a", 5, Ok(Some(b"three"))),
    Call::Prefix("a", u64::MAX, Ok(Some(b"three"))),
    Call::Prefix("c", 2, Ok(None)),
    Call::Read("a", 5, Ok(Some(b"three"))),
    Call::Read("a", 4, Err(StoreError::TooLarge)),
    Call::Read("b", 4, Ok(None)),
    Call::Write("b", b"four", Ok(())),
];

// The calls of a store that stops after the first four of them.
const STOPPED: &[Call] = &[
    Call::Read("a", 3, Ok(Some(b"one"))),
    Call::Prefix("a", 2, Ok(Some(b"on"))),
    Call::IsThere("a", Ok(true)),
    Call::Write("a", b"two", Ok(())),
    Call::Write("a", b"three", Err(StoreError::Device)),
    Call::Read("a", 3, Err(StoreError::Device)),
    Call::Prefix("a", 2, Err(StoreError::Device)),
    Call::IsThere("a", Err(StoreError::Device)),
];

// Whether the call is answered so.
fn goes<S: Store>(alloc: Global, store: &mut S, call: Call) -> bool {
    let (found, given) = match call {
        Call::Read(name, limit, given) => (store.read(alloc, name, limit), given),
        Call::Prefix(name, most, given) => (store.read_prefix(alloc, name, most), given),
        Call::IsThere(name, answer) => return store.is_there(name) == answer,
        Call::Write(name, bytes, answer) => return store.write(alloc, name, bytes) == answer,
    };
    match found {
        Ok(Some(bytes)) => given == Ok(Some(bytes.as_slice())),
        Ok(None) => given == Ok(None),
        Err(error) => given == Err(error),
    }
}

fn all_go<S: Store>(alloc: Global, store: &mut S, calls: &[Call]) -> bool {
    for call in calls {
        if !goes(alloc, store, *call) {
            return false;
        }
    }
    true
}

fn is_file(store: &MemoryStore, name: &str, bytes: &[u8]) -> bool {
    store.get(name) == Some(bytes)
}

// Whether a store holds what was put, and no longer what was removed.
fn holds_what_was_put(alloc: Global) -> bool {
    let mut store = MemoryStore::new(alloc);
    let is_first = store.put(alloc, "a", b"one").is_ok() && store.put(alloc, "b", b"two").is_ok();
    let is_put = is_first && store.put(alloc, "a", b"three").is_ok();
    store.remove("b");
    store.remove("c");
    let is_left = is_put && is_file(&store, "a", b"three") && store.get("b").is_none();
    is_left && all_go(alloc, &mut store, HELD) && is_file(&store, "b", b"four")
}

#[test]
fn a_store_in_memory_holds_what_was_put(rt: HostRuntime) {
    assert!(rt; holds_what_was_put(rt.alloc()));
}

fn stops_after_four_calls(alloc: Global) -> bool {
    let mut store = MemoryStore::new(alloc);
    let is_put = store.put(alloc, "a", b"one").is_ok();
    let mut stopping = StoppingStore::new(store, 4);
    let is_passing = is_put && all_go(alloc, &mut stopping, STOPPED);
    is_passing && is_file(&stopping.into_inner(), "a", b"two")
}

#[test]
fn a_stopping_store_passes_on_so_many_calls(rt: HostRuntime) {
    assert!(rt; stops_after_four_calls(rt.alloc()));
}
