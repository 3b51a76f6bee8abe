//! A save of several blocks is merged.

use super::merge::is_added;
use osm_merge::merge::merge_save;
use osm_model::memory::WantOfMemory;
use osm_net::lists::NetLists;
use osm_save::head::Head;
use osm_store::memory_store::MemoryStore;
use std::alloc::{AllocError, Global};

const NODES: u32 = 50_000;

// The object that changes, in the second block.
const CHANGED: u32 = 30_000;

// A save of as many nodes, of which one has another version.
fn save_of(alloc: Global, sequence: u32, version: u32, edits: u32) -> Result<String, AllocError> {
    let mut text = format!(in alloc;
        "osmrepl-save 3\nbase 0\nkinds n\nkeys 0\n\
        sequence {sequence}\ntime 2024-01-01T00:00:00Z\nobjects {NODES}\n"
    )?;
    for id in 0..NODES {
        push_node(
            alloc,
            id,
            if id == CHANGED { version } else { 1 },
            &mut text,
        )?;
    }
    text.push_str(format!(in alloc;
        "users 1\n5 {edits}\nchangesets 1\n7 {edits}\nend\n"
    )?.as_str())?;
    Ok(text)
}

/// The lines of a save's lists of as many nodes, and of one edit each.
pub fn nodes_and_counts(alloc: Global, count: u32) -> Result<String, AllocError> {
    let mut text = format!(in alloc; "objects {count}\n")?;
    for id in 0..count {
        push_node(alloc, id, 1, &mut text)?;
    }
    text.push_str(format!(in alloc; "users 1\n5 {count}\nchangesets 1\n7 {count}\n")?.as_str())?;
    Ok(text)
}

fn push_node(alloc: Global, id: u32, version: u32, text: &mut String) -> Result<(), AllocError> {
    let line = node(alloc, id, version)?;
    text.push_str(line.as_str())?;
    text.push('\n')
}

fn node(alloc: Global, id: u32, version: u32) -> Result<String, AllocError> {
    format!(in alloc; "n{id} v{version} dV c7 t2024-01-01T00:00:00Z i5 uann T x1 y2")
}

// Whether one object of many is another after a merge, and all else is as it was.
fn is_merged(alloc: Global) -> Result<bool, WantOfMemory> {
    let mut store = MemoryStore::new(alloc);
    store.put(alloc, "save", save_of(alloc, 1, 1, NODES)?.as_bytes())?;
    let mut lists = NetLists::new(alloc);
    let is_there = is_added(
        alloc,
        node(alloc, CHANGED, 2)?.as_bytes(),
        &mut lists.objects,
    );
    lists.users.push((5, 1))?;
    lists.changesets.push((7, 1))?;
    let head = Head {
        number: 2,
        base: 0,
        time: Some(1_704_067_200),
    };
    let result = merge_save(alloc, &mut store, "save", head, &lists);
    let after = save_of(alloc, 2, 2, NODES + 1)?;
    Ok(is_there && result.is_ok() && store.get("save") == Some(after.as_bytes()))
}

#[test]
fn a_save_of_three_blocks_is_merged(rt: HostRuntime) {
    assert!(rt; is_merged(rt.alloc()) == Ok(true));
}
