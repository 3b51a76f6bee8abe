//! A small save is checked and merged, also over a store whose calls fail.

use osm_merge::check::check_save;
use osm_merge::fault::MergeFault;
use osm_merge::merge::merge_save;
use osm_model::change::Change;
use osm_model::kind::{Key, Kind};
use osm_model::memory::WantOfMemory;
use osm_net::lists::NetLists;
use osm_opl::lines::read_line;
use osm_save::head::Head;
use osm_store::memory_store::MemoryStore;
use osm_store::stopping_store::StoppingStore;
use osm_store::store::Store;
use std::alloc::Global;

/// A save.
pub const BEFORE: &[u8] = b"osmrepl-save 3\nbase 0\nkinds nwr\nkeys 0\n\
    sequence 1\ntime 2024-01-01T00:00:00Z\nobjects 3\n\
    n1 v1 dV c7 t2024-01-01T00:00:00Z i5 uann T x1 y2\n\
    n3 v1 dV c7 t2024-01-01T00:00:00Z i5 uann T x1 y2\n\
    w2 v1 dV c7 t2024-01-01T00:00:00Z i5 uann T Nn1\n\
    users 2\n5 2\n9 1\nchangesets 1\n7 3\nend\n";

/// The same after changes: node 1 is gone, node 2 and relation 9 are new, way 2 is another.
pub const AFTER: &[u8] = b"osmrepl-save 3\nbase 0\nkinds nwr\nkeys 0\n\
    sequence 2\ntime 2024-01-01T00:01:00Z\nobjects 4\n\
    n2 v1 dV c8 t2024-01-01T00:01:00Z i6 ubob T x1 y2\n\
    n3 v1 dV c7 t2024-01-01T00:00:00Z i5 uann T x1 y2\n\
    w2 v2 dV c8 t2024-01-01T00:01:00Z i6 ubob T Nn2,n3\n\
    r9 v1 dV c8 t2024-01-01T00:01:00Z i6 ubob T Mn2@\n\
    users 3\n5 2\n6 3\n9 2\nchangesets 2\n7 3\n8 4\nend\n";

const NEW: &[&[u8]] = &[
    b"n2 v1 dV c8 t2024-01-01T00:01:00Z i6 ubob T x1 y2",
    b"w2 v2 dV c8 t2024-01-01T00:01:00Z i6 ubob T Nn2,n3",
    b"r9 v1 dV c8 t2024-01-01T00:01:00Z i6 ubob T Mn2@",
];

const HEAD: Head = Head {
    number: 2,
    base: 0,
    time: Some(1_704_067_260),
};

/// Adds what is left of the object of a line.
pub fn is_added(alloc: Global, line: &[u8], entries: &mut Vec<(Key, Option<Change>)>) -> bool {
    match read_line(alloc, line) {
        Ok(change) => entries.push((change.key(), Some(change))).is_ok(),
        Err(_) => false,
    }
}

/// What is left of the objects that changed.
pub fn changed_objects(alloc: Global) -> Result<Vec<(Key, Option<Change>)>, WantOfMemory> {
    let mut entries = Vec::new(alloc);
    let gone = Key {
        kind: Kind::Node,
        id: 1,
    };
    entries.push((gone, None))?;
    for line in NEW {
        if !is_added(alloc, *line, &mut entries) {
            return Err(WantOfMemory);
        }
    }
    Ok(entries)
}

/// What changed, and the edits.
pub fn changes(alloc: Global) -> Result<NetLists, WantOfMemory> {
    let mut lists = NetLists::new(alloc);
    lists.objects = changed_objects(alloc)?;
    lists.users.extend_from_slice(&[(6, 3), (9, 1)])?;
    lists.changesets.push((8, 4))?;
    Ok(lists)
}

// Merges the save of a store with what changed.
fn merged<S: Store>(alloc: Global, store: &mut S) -> Result<(), MergeFault> {
    merge_save(alloc, store, "save", HEAD, &changes(alloc)?)
}

/// A store with that text as its save.
pub fn store_of(alloc: Global, text: &[u8]) -> MemoryStore {
    let mut store = MemoryStore::new(alloc);
    let _ = store.put(alloc, "save", text);
    store
}

fn holds(store: &MemoryStore, text: &[u8]) -> bool {
    store.get("save") == Some(text)
}

// Whether the save is merged, and what is left can be checked.
fn is_merged(alloc: Global) -> bool {
    let mut store = store_of(alloc, BEFORE);
    if merged(alloc, &mut store).is_err() || !holds(&store, AFTER) {
        return false;
    }
    match check_save(alloc, &mut store, "save") {
        Ok(checked) => checked.head == HEAD && checked.totals.objects == 4,
        Err(_) => false,
    }
}

#[test]
fn a_save_is_merged(rt: HostRuntime) {
    assert!(rt; is_merged(rt.alloc()));
}

fn is_of_device(fault: MergeFault) -> bool {
    fault == MergeFault::ReadFault || fault == MergeFault::WriteFault
}

// Whether a merge that can make so many calls does all or nothing. None if it did all.
fn stops_whole(alloc: Global, calls: u64) -> Option<bool> {
    let mut store = StoppingStore::new(store_of(alloc, BEFORE), calls);
    match merged(alloc, &mut store) {
        Ok(()) => None,
        Err(fault) => Some(is_of_device(fault) && holds(&store.into_inner(), BEFORE)),
    }
}

#[test]
fn a_merge_that_fails_at_a_call_changes_nothing(rt: HostRuntime) {
    let alloc = rt.alloc();
    assert!(rt; stops_whole(alloc, 0) == Some(true));
    assert!(rt; stops_whole(alloc, 1) == Some(true));
    assert!(rt; stops_whole(alloc, 3) == Some(true));
    assert!(rt; stops_whole(alloc, 5) == Some(true));
    assert!(rt; stops_whole(alloc, 100).is_none());
}

// Whether a cut save is refused as bad, and stays.
fn is_refused(alloc: Global, length: usize) -> bool {
    let Some(text) = BEFORE.get(..length) else {
        return false;
    };
    let mut store = store_of(alloc, text);
    match merged(alloc, &mut store) {
        Err(MergeFault::BadSave { line: _ }) => holds(&store, text),
        _ => false,
    }
}

#[test]
fn a_cut_save_is_refused(rt: HostRuntime) {
    for length in 0..BEFORE.len() {
        assert!(rt; is_refused(rt.alloc(), length), "{length}");
    }
}

#[test]
fn a_save_that_is_not_there_is_none(rt: HostRuntime) {
    let mut store = MemoryStore::new(rt.alloc());
    assert!(rt; merged(rt.alloc(), &mut store) == Err(MergeFault::NoSave));
}
