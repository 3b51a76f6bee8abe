//! Tests of the number that a save and its journal reach, and of the head there, as tables.

use super::files::{BROKEN, CUT, FIRST, JOURNAL, SECOND, START, THIRD, name_of, store_of};
use osm_kept::ends::{read_ends, read_ends_unlocked};
use osm_kept::fault::KeptFault;
use osm_kept::found::Ends;
use osm_kept::heads::read_heads;
use osm_store::stopping_store::StoppingStore;
use std::alloc::Global;

// How far they reach: the number that the files come to, none if there is no save, and what the
// file of the journal is; or a fault.
type Answer = Result<(Option<u32>, &'static str), KeptFault>;

const ENDS: &[(Option<&[u8]>, Option<&[u8]>, Answer)] = &[
    (None, None, Ok((None, "nothing"))),
    (Some(START), None, Ok((Some(0), "nothing"))),
    (Some(START), Some(b""), Ok((Some(0), "nothing"))),
    (Some(START), Some(JOURNAL), Ok((Some(2), "counts"))),
    (Some(THIRD), Some(JOURNAL), Ok((Some(3), "of another"))),
    (Some(SECOND), Some(JOURNAL), Ok((Some(2), "of another"))),
    (Some(FIRST), Some(JOURNAL), Err(KeptFault::OtherJournal(2))),
    (None, Some(JOURNAL), Err(KeptFault::OtherJournal(2))),
    (Some(START), Some(BROKEN), Ok((Some(2), "counts"))),
    (Some(START), Some(CUT), Err(KeptFault::BadJournal(13))),
    (None, Some(CUT), Err(KeptFault::BadJournal(13))),
    (Some(b"osmrepl-save 4\n"), None, Err(KeptFault::BadSave(1))),
];

// The number of the head; or a fault.
type Number = Result<Option<u32>, KeptFault>;

const HEADS: &[(Option<&[u8]>, Option<&[u8]>, Number)] = &[
    (None, None, Ok(None)),
    (Some(START), None, Ok(Some(0))),
    (Some(START), Some(b""), Ok(Some(0))),
    (Some(START), Some(JOURNAL), Ok(Some(2))),
    (Some(THIRD), Some(JOURNAL), Ok(Some(3))),
    (Some(SECOND), Some(JOURNAL), Ok(Some(2))),
    (Some(FIRST), Some(JOURNAL), Err(KeptFault::OtherJournal(2))),
    (Some(FIRST), Some(CUT), Ok(Some(1))),
    (None, Some(JOURNAL), Err(KeptFault::OtherJournal(2))),
    (None, Some(b""), Ok(None)),
    (Some(START), Some(BROKEN), Ok(Some(2))),
    (Some(START), Some(CUT), Ok(Some(1))),
    (
        Some(START),
        Some(b"osmrepl-journal 1\nosmrepl-save 3\n"),
        Err(KeptFault::BadJournal(3)),
    ),
    (
        None,
        Some(b"osmrepl-journal 2\n"),
        Err(KeptFault::BadJournal(1)),
    ),
    (Some(b"osmrepl-save 4\n"), None, Err(KeptFault::BadSave(1))),
];

fn answer_of(ends: &Ends) -> (Option<u32>, &'static str) {
    match &ends.kept {
        Some(reach) => (Some(reach.head.number), name_of(&ends.journal)),
        None => (None, name_of(&ends.journal)),
    }
}

fn are_ends(found: Result<Ends, KeptFault>, answer: Answer) -> bool {
    match found {
        Ok(ends) => Ok(answer_of(&ends)) == answer,
        Err(fault) => Err(fault) == answer,
    }
}

// Whoever lets no other run write the files, and whoever does, is answered the same.
fn has_ends(alloc: Global, save: Option<&[u8]>, journal: Option<&[u8]>, answer: Answer) -> bool {
    let Some(mut store) = store_of(alloc, save, journal) else {
        return false;
    };
    let locked = read_ends(alloc, &mut store, "save", "save.journal");
    let unlocked = read_ends_unlocked(alloc, &mut store, "save", "save.journal");
    are_ends(locked, answer) && are_ends(unlocked, answer)
}

// What is answered if the store makes so many calls.
fn ends_within(alloc: Global, save: &[u8], calls: u64) -> Result<(), KeptFault> {
    let Some(store) = store_of(alloc, Some(save), Some(JOURNAL)) else {
        return Err(KeptFault::WantOfMemory);
    };
    let mut stopping = StoppingStore::new(store, calls);
    match read_ends_unlocked(alloc, &mut stopping, "save", "save.journal") {
        Ok(_ends) => Ok(()),
        Err(fault) => Err(fault),
    }
}

fn head_within(alloc: Global, save: &[u8], calls: u64) -> Result<(), KeptFault> {
    let Some(store) = store_of(alloc, Some(save), Some(JOURNAL)) else {
        return Err(KeptFault::WantOfMemory);
    };
    let mut stopping = StoppingStore::new(store, calls);
    match read_heads(alloc, &mut stopping, "save", "save.journal") {
        Ok(_head) => Ok(()),
        Err(fault) => Err(fault),
    }
}

fn has_head(alloc: Global, save: Option<&[u8]>, journal: Option<&[u8]>, number: Number) -> bool {
    let Some(mut store) = store_of(alloc, save, journal) else {
        return false;
    };
    match read_heads(alloc, &mut store, "save", "save.journal") {
        Ok(Some(head)) => Ok(Some(head.number)) == number,
        Ok(None) => Ok(None) == number,
        Err(fault) => Err(fault) == number,
    }
}

#[test]
fn the_ends_are_read_without_the_bytes_of_batches(rt: HostRuntime) {
    for (save, journal, answer) in ENDS {
        assert!(rt; has_ends(rt.alloc(), *save, *journal, *answer));
    }
}

#[test]
fn the_head_is_read_of_first_lines_alone(rt: HostRuntime) {
    for (save, journal, number) in HEADS {
        assert!(rt; has_head(rt.alloc(), *save, *journal, *number));
    }
}

// Both files are read again before a journal is called one of another save.
#[test]
fn a_journal_is_of_another_save_only_if_it_is_so_twice(rt: HostRuntime) {
    let alloc = rt.alloc();
    for (calls, fault) in [
        (0, KeptFault::JournalFailed),
        (1, KeptFault::SaveFailed),
        (2, KeptFault::JournalFailed),
        (3, KeptFault::SaveFailed),
        (4, KeptFault::OtherJournal(2)),
    ] {
        assert!(rt; ends_within(alloc, FIRST, calls) == Err(fault));
        assert!(rt; head_within(alloc, FIRST, calls) == Err(fault));
    }
    assert!(rt; ends_within(alloc, START, 2) == Ok(()));
    assert!(rt; head_within(alloc, START, 2) == Ok(()));
}
