//! Tests of a journal that gets one more batch, of the net changes of its batches, and of its name.

use super::files::{BROKEN, JOURNAL, START, store_of};
use osm_journal::batch::Batch;
use osm_kept::ends::read_ends;
use osm_kept::fault::KeptFault;
use osm_kept::found::Ends;
use osm_kept::names::journal_name;
use osm_kept::net::net_of;
use osm_kept::next::next_journal;
use std::alloc::Global;

// A first batch without changes after the start.
const FIRST: &[u8] = b"osmrepl-journal 1\nosmrepl-save 3\nbase 0\nkinds nwr\nkeys 0\nsequence 0\n\
    time none\nobjects 0\nsequence 1\ntime 2024-01-01T00:00:00Z\nbatches 1\n\
    batch 1 2024-01-01T00:00:00Z 8\n\xff\xe0\x04o5c2\xfe\nend\n";

// The times of the two batches.
const MONDAY: u32 = 1_704_067_200;

const TUESDAY: u32 = 1_704_153_600;

// The text of the journal at the start with one more batch without changes; none if it would be
// longer.
fn next_of(alloc: Global, journal: Option<&[u8]>, time: u32, most: u64) -> Option<Vec<u8>> {
    let mut store = store_of(alloc, Some(START), journal)?;
    let Ok(Ends { kept, journal }) = read_ends(alloc, &mut store, "save", "save.journal") else {
        return None;
    };
    let reach = kept?;
    if reach.head.number > 9 || time == 0 {
        return None;
    }
    let batch = Batch {
        number: reach.head.number + 1,
        time,
        bytes: b"\xff\xe0\x04o5c2\xfe",
    };
    next_journal(alloc, &reach, &journal, &[batch], most).ok()?
}

fn is_next(alloc: Global, journal: Option<&[u8]>, time: u32, most: u64, text: &[u8]) -> bool {
    match next_of(alloc, journal, time, most) {
        Some(next) => next.as_slice() == text,
        None => false,
    }
}

#[test]
fn a_batch_is_appended_to_a_journal_or_begins_one(rt: HostRuntime) {
    let alloc = rt.alloc();
    assert!(rt; is_next(alloc, None, MONDAY, 1000, FIRST));
    assert!(rt; is_next(alloc, Some(b""), MONDAY, 1000, FIRST));
    assert!(rt; is_next(alloc, Some(FIRST), TUESDAY, 1000, JOURNAL));
}

#[test]
fn a_journal_has_at_most_so_many_bytes(rt: HostRuntime) {
    let alloc = rt.alloc();
    let most = FIRST.len() as u64;
    assert!(rt; is_next(alloc, None, MONDAY, most, FIRST));
    assert!(rt; next_of(alloc, None, MONDAY, most.saturating_sub(1)).is_none());
    assert!(rt; next_of(alloc, None, MONDAY, 7).is_none());
}

// Why the batches of the journal at the start aren't taken; none if they are.
fn fault_of(alloc: Global, journal: &[u8]) -> Option<KeptFault> {
    let mut store = store_of(alloc, Some(START), Some(journal))?;
    let Ok(Ends { kept, journal }) = read_ends(alloc, &mut store, "save", "save.journal") else {
        return None;
    };
    let reach = kept?;
    net_of(alloc, &reach, &journal).err()
}

#[test]
fn batches_are_taken_up_to_a_broken_one(rt: HostRuntime) {
    let alloc = rt.alloc();
    assert!(rt; fault_of(alloc, JOURNAL).is_none());
    assert!(rt; fault_of(alloc, BROKEN) == Some(KeptFault::BadJournal(13)));
}

fn is_named(alloc: Global, save: &str, journal: &str) -> bool {
    match journal_name(alloc, save) {
        Ok(name) => name.as_str() == journal,
        Err(_) => false,
    }
}

#[test]
fn a_journal_is_named_after_its_save(rt: HostRuntime) {
    assert!(rt; is_named(rt.alloc(), "planet/SAVE", "planet/SAVE.journal"));
}
