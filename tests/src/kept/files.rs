//! Files that tests read: saves and journals.

use osm_kept::found::JournalFile;
use osm_store::memory_store::MemoryStore;
use std::alloc::Global;

// A follower at the start, and one at sequences 1, 2 and 3.
pub(super) const START: &[u8] =
    b"osmrepl-save 3\nbase 0\nkinds nwr\nkeys 0\nsequence 0\ntime none\n\
    objects 0\nusers 0\nchangesets 0\nend\n";

pub(super) const FIRST: &[u8] = b"osmrepl-save 3\nbase 0\nkinds nwr\nkeys 0\nsequence 1\n\
    time 2024-01-01T00:00:00Z\nobjects 0\nusers 0\nchangesets 0\nend\n";

pub(super) const SECOND: &[u8] = b"osmrepl-save 3\nbase 0\nkinds nwr\nkeys 0\nsequence 2\n\
    time 2024-01-02T00:00:00Z\nobjects 0\nusers 0\nchangesets 0\nend\n";

pub(super) const THIRD: &[u8] = b"osmrepl-save 3\nbase 0\nkinds nwr\nkeys 0\nsequence 3\n\
    time 2024-01-03T00:00:00Z\nobjects 0\nusers 0\nchangesets 0\nend\n";

// Two batches without changes after the one at the start.
pub(super) const JOURNAL: &[u8] =
    b"osmrepl-journal 1\nosmrepl-save 3\nbase 0\nkinds nwr\nkeys 0\nsequence 0\n\
    time none\nobjects 0\nsequence 2\ntime 2024-01-02T00:00:00Z\nbatches 2\n\
    batch 1 2024-01-01T00:00:00Z 8\n\xff\xe0\x04o5c2\xfe\n\
    batch 2 2024-01-02T00:00:00Z 8\n\xff\xe0\x04o5c2\xfe\nend\n";

// The same with a second batch whose bytes are no change file, and without its last line.
pub(super) const BROKEN: &[u8] =
    b"osmrepl-journal 1\nosmrepl-save 3\nbase 0\nkinds nwr\nkeys 0\nsequence 0\n\
    time none\nobjects 0\nsequence 2\ntime 2024-01-02T00:00:00Z\nbatches 2\n\
    batch 1 2024-01-01T00:00:00Z 8\n\xff\xe0\x04o5c2\xfe\n\
    batch 2 2024-01-02T00:00:00Z 3\no5c\nend\n";

pub(super) const CUT: &[u8] =
    b"osmrepl-journal 1\nosmrepl-save 3\nbase 0\nkinds nwr\nkeys 0\nsequence 0\n\
    time none\nobjects 0\nsequence 1\ntime 2024-01-02T00:00:00Z\nbatches 1\n\
    batch 1 2024-01-02T00:00:00Z 8\n\xff\xe0\x04o5c2\xfe\n";

// What the file of a journal is, in a word.
pub(super) fn name_of(journal: &JournalFile) -> &'static str {
    match journal {
        JournalFile::Nothing => "nothing",
        JournalFile::OfAnother => "of another",
        JournalFile::Counts(_) => "counts",
    }
}

// A store with these two files; none if memory was refused.
pub(super) fn store_of(
    alloc: Global,
    save: Option<&[u8]>,
    journal: Option<&[u8]>,
) -> Option<MemoryStore> {
    let mut store = MemoryStore::new(alloc);
    if let Some(bytes) = save {
        store.put(alloc, "save", bytes).ok()?;
    }
    if let Some(bytes) = journal {
        store.put(alloc, "save.journal", bytes).ok()?;
    }
    Some(store)
}
