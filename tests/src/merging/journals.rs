//! A save whose journal has changes is followed, shown and merged. Other runs over a save and its
//! journal are in `sweep/journals`.

use osm_runs::options::FollowOptions;
use osm_model::filter::Filter;
use osm_model::memory::WantOfMemory;
use osm_printing::kept::show_kept;
use osm_round::kept::{Sizes, follow_kept};
use osm_store::memory_store::MemoryStore;
use std::alloc::Global;

const STATE_2: &[u8] = b"sequenceNumber=2\ntimestamp=2024-01-01T00\\:01\\:00Z\n";

const STATE_3: &[u8] = b"sequenceNumber=3\ntimestamp=2024-01-01T00\\:02\\:00Z\n";

const SAVE_1: &[u8] = b"osmrepl-save 2\nbase 0\nsequence 1\ntime 2024-01-01T00:00:00Z\nobjects 2\n\
    n1 v1 dV c7 t2024-01-01T00:00:00Z i5 uann T x1 y2\n\
    w2 v1 dV c7 t2024-01-01T00:00:00Z i5 uann T Nn1\n\
    users 1\n5 2\nchangesets 1\n7 2\nend\n";

const NODE: &[u8] = b"n1 v2 dV c8 t2024-01-01T00:01:00Z i6 ubob T x1 y3\n";

const NO_WAY: &[u8] = b"w2 v2 dD c9 t2024-01-01T00:02:00Z i6 ubob T N\n";

// The node moved, by the journal alone.
const SHOWN_2: &[u8] = b"number 2\ntime 2024-01-01T00:01:00Z\nobjects 2\n\
    n1 v2 dV c8 t2024-01-01T00:01:00Z i6 ubob T x1 y3\n\
    w2 v1 dV c7 t2024-01-01T00:00:00Z i5 uann T Nn1\n\
    users 2\n5 2\n6 1\nchangesets 2\n7 2\n8 1\nheld 0\n";

// Then the way was deleted.
const SHOWN_3: &[u8] = b"number 3\ntime 2024-01-01T00:02:00Z\nobjects 1\n\
    n1 v2 dV c8 t2024-01-01T00:01:00Z i6 ubob T x1 y3\n\
    users 2\n5 2\n6 2\nchangesets 3\n7 2\n8 1\n9 1\nheld 0\n";

const SAVE_3: &[u8] = b"osmrepl-save 3\nbase 0\nkinds nwr\nkeys 0\n\
    sequence 3\ntime 2024-01-01T00:02:00Z\nobjects 1\n\
    n1 v2 dV c8 t2024-01-01T00:01:00Z i6 ubob T x1 y3\n\
    users 2\n5 2\n6 2\nchangesets 3\n7 2\n8 1\n9 1\nend\n";

// Every save is a large one, and a journal may have so many bytes.
const LARGE: Sizes = Sizes {
    small: 0,
    most: 1000,
};

// Every save is a large one, and no journal is short enough.
const FULL: Sizes = Sizes { small: 0, most: 10 };

// A save at 1 in a folder of two sequences.
fn two_sequences(alloc: Global) -> Result<MemoryStore, WantOfMemory> {
    let mut store = MemoryStore::new(alloc);
    store.put(alloc, "save", SAVE_1)?;
    store.put(alloc, "dir/state.txt", STATE_2)?;
    store.put(alloc, "dir/000/000/002.state.txt", STATE_2)?;
    store.put(alloc, "dir/000/000/002.opl", NODE)?;
    Ok(store)
}

// A third one after them.
fn publish_third(alloc: Global, store: &mut MemoryStore) -> Result<(), WantOfMemory> {
    store.put(alloc, "dir/state.txt", STATE_3)?;
    store.put(alloc, "dir/000/000/003.state.txt", STATE_3)?;
    store.put(alloc, "dir/000/000/003.opl", NO_WAY)
}

// Whether that is what the two files are shown as.
fn is_shown(alloc: Global, store: &mut MemoryStore, text: &[u8]) -> bool {
    let mut printed = Vec::new(alloc);
    let shown = show_kept(alloc, store, "save", &mut printed);
    shown == Ok(()) && printed.as_slice() == text
}

// Follows the folder with a journal, and then with a merge, and shows what is kept after each.
fn follows_and_merges(alloc: Global) -> Result<bool, WantOfMemory> {
    let options = FollowOptions::new(Filter::all(alloc));
    let mut store = two_sequences(alloc)?;
    let first = follow_kept(alloc, &mut store, "dir", "save", &options, &LARGE);
    if first.is_err() || store.get("save") != Some(SAVE_1) {
        return Ok(false);
    }
    if !is_shown(alloc, &mut store, SHOWN_2) {
        return Ok(false);
    }
    publish_third(alloc, &mut store)?;
    let second = follow_kept(alloc, &mut store, "dir", "save", &options, &FULL);
    Ok(second.is_ok() && store.get("save") == Some(SAVE_3) && is_shown(alloc, &mut store, SHOWN_3))
}

#[test]
fn the_changes_of_a_journal_are_shown_and_merged(rt: HostRuntime) {
    assert!(rt; follows_and_merges(rt.alloc()) == Ok(true));
}
