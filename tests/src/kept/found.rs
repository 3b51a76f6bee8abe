//! Tests of what is found in a save and its journal, as a table, and of the texts of faults.

use super::files::{BROKEN, CUT, JOURNAL, START, THIRD, name_of, store_of};
use osm_kept::ends::read_ends;
use osm_kept::fault::KeptFault;
use osm_kept::found::Ends;
use osm_kept::net::net_of;
use osm_store::memory_store::MemoryStore;
use osm_store::stopping_store::StoppingStore;
use std::alloc::Global;

// What is found: the number that the files come to, none if there is no save, and what the file of
// the journal is; or a fault.
type Answer = Result<(Option<u32>, &'static str), KeptFault>;

const FOUND: &[(Option<&[u8]>, Option<&[u8]>, Answer)] = &[
    (None, None, Ok((None, "nothing"))),
    (Some(START), None, Ok((Some(0), "nothing"))),
    (Some(START), Some(b""), Ok((Some(0), "nothing"))),
    (Some(START), Some(JOURNAL), Ok((Some(2), "counts"))),
    (Some(THIRD), Some(JOURNAL), Ok((Some(3), "of another"))),
    (None, Some(JOURNAL), Err(KeptFault::OtherJournal(2))),
    (Some(START), Some(BROKEN), Err(KeptFault::BadJournal(13))),
    (Some(THIRD), Some(BROKEN), Ok((Some(3), "of another"))),
    (Some(START), Some(CUT), Err(KeptFault::BadJournal(13))),
    (Some(THIRD), Some(CUT), Err(KeptFault::BadJournal(13))),
    (Some(b"osmrepl-save 4\n"), None, Err(KeptFault::BadSave(1))),
];

// What two files keep that reach so far, once the batches were taken.
fn taken(alloc: Global, ends: &Ends) -> Answer {
    let Some(reach) = &ends.kept else {
        return Ok((None, name_of(&ends.journal)));
    };
    match net_of(alloc, reach, &ends.journal) {
        Ok(_net) => Ok((Some(reach.head.number), name_of(&ends.journal))),
        Err(fault) => Err(fault),
    }
}

// What is found if the store makes so many calls.
fn answer_of(alloc: Global, store: MemoryStore, calls: u64) -> Answer {
    let mut stopping = StoppingStore::new(store, calls);
    match read_ends(alloc, &mut stopping, "save", "save.journal") {
        Ok(ends) => taken(alloc, &ends),
        Err(fault) => Err(fault),
    }
}

fn is_answered(
    alloc: Global,
    save: Option<&[u8]>,
    journal: Option<&[u8]>,
    calls: u64,
    answer: Answer,
) -> bool {
    match store_of(alloc, save, journal) {
        Some(store) => answer_of(alloc, store, calls) == answer,
        None => false,
    }
}

#[test]
fn a_journal_counts_beside_its_own_save_alone(rt: HostRuntime) {
    for (save, journal, answer) in FOUND {
        assert!(rt; is_answered(rt.alloc(), *save, *journal, 2, *answer));
    }
}

#[test]
fn the_journal_is_read_first(rt: HostRuntime) {
    let alloc = rt.alloc();
    let save = Some(START);
    let journal = Some(JOURNAL);
    assert!(rt; is_answered(alloc, save, journal, 0, Err(KeptFault::JournalFailed)));
    assert!(rt; is_answered(alloc, save, journal, 1, Err(KeptFault::SaveFailed)));
}

fn is_shown(alloc: Global, fault: KeptFault, text: &str) -> bool {
    match format!(in alloc; "{fault}") {
        Ok(shown) => shown.as_str() == text,
        Err(_) => false,
    }
}

#[test]
fn faults_are_shown_with_their_file(rt: HostRuntime) {
    let alloc = rt.alloc();
    assert!(rt; is_shown(alloc, KeptFault::JournalFailed, "journal: read failed"));
    assert!(rt; is_shown(alloc, KeptFault::JournalTooLarge, "journal: too large"));
    assert!(rt; is_shown(alloc, KeptFault::BadJournal(12), "journal: line 12"));
    assert!(rt; is_shown(alloc, KeptFault::SaveFailed, "save: read failed"));
    assert!(rt; is_shown(alloc, KeptFault::BadSave(3), "save: line 3"));
    assert!(rt; is_shown(alloc, KeptFault::Changed, "save: changed while it was read"));
    let other = "journal: of another save, at 144";
    assert!(rt; is_shown(alloc, KeptFault::OtherJournal(144), other));
    assert!(rt; is_shown(alloc, KeptFault::WantOfMemory, "out of memory"));
}
