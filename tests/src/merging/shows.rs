//! Saves of several blocks are shown.

use super::large::nodes_and_counts;
use osm_runs::fault::{FileName, RunFault};
use osm_model::memory::WantOfMemory;
use osm_printing::show::show_in_blocks;
use osm_store::memory_store::MemoryStore;
use osm_store::stopping_store::StoppingStore;
use std::alloc::{AllocError, Global};
use std::io;
use std::io::Write;

const FIRST: &str = "osmrepl-save 2\nbase 1\nsequence 2\ntime 2024-01-01T00:00:00Z\n";

const SHOWN_FIRST: &str = "number 2\nbase 1\ntime 2024-01-01T00:00:00Z\n";

// As many nodes as a save of nearly three blocks of a MiB has.
const NODES: u32 = 50_000;

// A text before the lists, and one after them.
fn text_of(alloc: Global, first: &str, last: &str) -> Result<String, AllocError> {
    let mut text = String::new(alloc);
    text.push_str(first)?;
    text.push_str(nodes_and_counts(alloc, NODES)?.as_str())?;
    text.push_str(last)?;
    Ok(text)
}

fn store_of(alloc: Global, last: &str) -> Result<MemoryStore, WantOfMemory> {
    let mut store = MemoryStore::new(alloc);
    store.put(alloc, "save", text_of(alloc, FIRST, last)?.as_bytes())?;
    Ok(store)
}

// Whether all of the save is printed.
fn is_shown(alloc: Global) -> Result<bool, WantOfMemory> {
    let mut store = store_of(alloc, "end\n")?;
    let mut printed = Vec::new(alloc);
    let result = show_in_blocks(alloc, &mut store, "save", &mut printed);
    let wanted = text_of(alloc, SHOWN_FIRST, "held 0\n")?;
    Ok(result == Ok(()) && printed.as_slice() == wanted.as_bytes())
}

#[test]
fn a_save_of_three_blocks_is_shown(rt: HostRuntime) {
    assert!(rt; is_shown(rt.alloc()) == Ok(true));
}

// Whether a save with that last line is refused as that fault, and nothing is printed.
fn is_refused(alloc: Global, last: &str, fault: RunFault) -> Result<bool, WantOfMemory> {
    let mut store = store_of(alloc, last)?;
    let mut printed = Vec::new(alloc);
    let result = show_in_blocks(alloc, &mut store, "save", &mut printed);
    Ok(result == Err(fault) && printed.is_empty())
}

#[test]
fn a_faulty_last_line_is_refused_before_anything_is_printed(rt: HostRuntime) {
    for (last, line) in [
        ("", 50_010),
        ("end", 50_010),
        ("ende\n", 50_010),
        ("end\n\n", 50_011),
    ] {
        assert!(rt;
            is_refused(rt.alloc(), last, RunFault::BadSave(line)) == Ok(true),
            "{last:?}"
        );
    }
}

// How much is printed over a store that stops after that many calls, if it is the beginning of what
// is wanted, and the fault.
fn stopped_after(alloc: Global, calls: u64) -> Result<(Option<RunFault>, usize), WantOfMemory> {
    let mut stopping = StoppingStore::new(store_of(alloc, "end\n")?, calls);
    let mut printed = Vec::new(alloc);
    let result = show_in_blocks(alloc, &mut stopping, "save", &mut printed);
    let wanted = text_of(alloc, SHOWN_FIRST, "held 0\n")?;
    if !wanted.as_bytes().starts_with(printed.as_slice()) {
        return Ok((None, 0));
    }
    Ok((result.err(), printed.len()))
}

#[test]
fn each_store_call_of_a_show_failing_in_turn(rt: HostRuntime) {
    let fault = Some(RunFault::ReadFault(FileName::Save));
    for (calls, count) in [
        (0, 0),
        (14, 0),
        (15, 0),
        (16, 42),
        (17, 1_048_614),
        (18, 2_097_186),
        (19, 2_688_983),
    ] {
        assert!(rt;
            stopped_after(rt.alloc(), calls) == Ok((fault, count)),
            "{calls}"
        );
    }
}

// A writer that takes `room` bytes, and then none.
#[derive(Drop)]
struct Full {
    room: usize,
    taken: usize,
}

impl Write for Full {
    fn write(&mut self, bytes: &[u8]) -> io::Result<usize> {
        let count = bytes.len().min(self.room);
        self.room -= count;
        self.taken = self.taken.saturating_add(count);
        Ok(count)
    }

    fn flush(&mut self) -> io::Result<()> {
        Ok(())
    }
}

// Whether a writer with that much room is filled, and then a fault.
fn is_full(alloc: Global, room: usize) -> Result<bool, WantOfMemory> {
    let mut store = store_of(alloc, "end\n")?;
    let mut full = Full { room, taken: 0 };
    let result = show_in_blocks(alloc, &mut store, "save", &mut full);
    let fault = RunFault::WriteFault(FileName::Output);
    Ok(result == Err(fault) && full.taken == room)
}

#[test]
fn a_full_writer_is_a_fault(rt: HostRuntime) {
    for room in [0, 10, 42, 1_000, 1_048_614, 2_688_983] {
        assert!(rt; is_full(rt.alloc(), room) == Ok(true), "{room}");
    }
}
