//! Tests of lags over a save and its journal, as a table: what a lag prints, or why it prints
//! nothing.

use osm_runs::fault::{FileName, RunFault};
use osm_publishing::lag::lag_run;
use osm_runs::options::Layout;
use osm_store::memory_store::MemoryStore;
use osm_store::stopping_store::StoppingStore;
use std::alloc::Global;

const TOP: &[u8] = b"sequenceNumber=4\ntimestamp=2024-01-04T00\\:00\\:00Z\n";

// A follower at the start, and one at sequences 1 and 3.
const START: &[u8] = b"osmrepl-save 3\nbase 0\nkinds nwr\nkeys 0\nsequence 0\ntime none\n\
    objects 0\nusers 0\nchangesets 0\nend\n";

const FIRST: &[u8] = b"osmrepl-save 3\nbase 0\nkinds nwr\nkeys 0\nsequence 1\n\
    time 2024-01-01T00:00:00Z\nobjects 0\nusers 0\nchangesets 0\nend\n";

const THIRD: &[u8] = b"osmrepl-save 3\nbase 0\nkinds nwr\nkeys 0\nsequence 3\n\
    time 2024-01-03T00:00:00Z\nobjects 0\nusers 0\nchangesets 0\nend\n";

// Two batches after the one at the start. The bytes of the second are no change file.
const JOURNAL: &[u8] = b"osmrepl-journal 1\nosmrepl-save 3\nbase 0\nkinds nwr\nkeys 0\nsequence 0\n\
    time none\nobjects 0\nsequence 2\ntime 2024-01-02T00:00:00Z\nbatches 2\n\
    batch 1 2024-01-01T00:00:00Z 8\n\xff\xe0\x04o5c2\xfe\n\
    batch 2 2024-01-02T00:00:00Z 3\no5c\nend\n";

const FOUR: &str = "behind 4\nseconds none\n";

const TWO: &str = "behind 2\nseconds 172800\n";

const ONE: &str = "behind 1\nseconds 86400\n";

// A save and its journal, and the lines that are printed, or why none are.
const LAGS: &[(Option<&[u8]>, Option<&[u8]>, Result<&str, RunFault>)] = &[
    (None, None, Ok(FOUR)),
    (None, Some(b""), Ok(FOUR)),
    (Some(START), None, Ok(FOUR)),
    (Some(START), Some(b""), Ok(FOUR)),
    (Some(START), Some(JOURNAL), Ok(TWO)),
    (Some(THIRD), Some(JOURNAL), Ok(ONE)),
    (None, Some(b"x\n"), Err(RunFault::BadJournal(1))),
    (Some(START), Some(b"x\n"), Err(RunFault::BadJournal(1))),
    (Some(b"x\n"), Some(JOURNAL), Err(RunFault::BadSave(1))),
];

// A store with these two files and a folder; none if memory was refused.
fn store_of(alloc: Global, save: Option<&[u8]>, journal: Option<&[u8]>) -> Option<MemoryStore> {
    let mut store = MemoryStore::new(alloc);
    store.put(alloc, "dir/state.txt", TOP).ok()?;
    if let Some(bytes) = save {
        store.put(alloc, "save", bytes).ok()?;
    }
    if let Some(bytes) = journal {
        store.put(alloc, "save.journal", bytes).ok()?;
    }
    Some(store)
}

// Whether that is the answer if the store makes so many calls.
fn is_answered(
    alloc: Global,
    save: Option<&[u8]>,
    journal: Option<&[u8]>,
    calls: u64,
    answer: Result<&str, RunFault>,
) -> bool {
    let Some(store) = store_of(alloc, save, journal) else {
        return false;
    };
    let mut stopping = StoppingStore::new(store, calls);
    match (
        lag_run(alloc, &mut stopping, "dir", "save", Layout::Lines),
        answer,
    ) {
        (Ok(report), Ok(text)) => report.text() == text.as_bytes(),
        (Err(fault), Err(expected)) => fault == expected,
        _ => false,
    }
}

#[test]
fn a_lag_is_that_of_the_save_and_its_journal(rt: HostRuntime) {
    for (save, journal, answer) in LAGS {
        assert!(rt; is_answered(rt.alloc(), *save, *journal, 3, *answer));
    }
}

#[test]
fn the_journal_is_read_before_the_save_and_the_newest_state_last(rt: HostRuntime) {
    let files = [FileName::Journal, FileName::Save, FileName::Top];
    for calls in 0..3 {
        let fault = RunFault::ReadFault(files[calls as usize]);
        assert!(rt; is_answered(rt.alloc(), Some(START), Some(JOURNAL), calls, Err(fault)));
    }
}

// Both files are read again before a journal is called one of another save.
#[test]
fn a_journal_of_another_save_that_ends_above_is_refused(rt: HostRuntime) {
    let alloc = rt.alloc();
    for save in [None, Some(FIRST)] {
        let other = Err(RunFault::OtherJournal(2));
        assert!(rt; is_answered(alloc, save, Some(JOURNAL), 4, other));
        let failed = Err(RunFault::ReadFault(FileName::Save));
        assert!(rt; is_answered(alloc, save, Some(JOURNAL), 3, failed));
    }
}
