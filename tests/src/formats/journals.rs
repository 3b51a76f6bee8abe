//! Tests of journals: read and written again, cut anywhere, and with one part that is wrong.

use super::shown::is_shown;
use osm_journal::journal::{JournalError, read_journal, write_journal};
use std::alloc::Global;

// Three batches after sequence 7. Each part is a line and, for a batch, its bytes.
const PARTS: [&[u8]; 16] = [
    b"osmrepl-journal 1\n",
    b"osmrepl-save 3\n",
    b"base 5\n",
    b"kinds nw\n",
    b"keys 1\n",
    b"highway\n",
    b"sequence 7\n",
    b"time 2024-01-01T00:00:00Z\n",
    b"objects 12\n",
    b"sequence 10\n",
    b"time 2024-01-03T00:00:00Z\n",
    b"batches 3\n",
    b"batch 8 2024-01-02T00:00:00Z 5\na\nend\n",
    b"batch 9 2024-01-01T00:00:00Z 0\n\n",
    b"batch 10 2024-01-03T00:00:00Z 3\n\x00\n\n\n",
    b"end\n",
];

// One batch after a save of version 1 that has nothing, and of version 2.
const SHORT: [&[u8]; 2] = [
    b"osmrepl-journal 1\nosmrepl-save 1\nsequence 0\ntime none\nobjects 0\n\
      sequence 1\ntime 2024-01-01T00:00:00Z\nbatches 1\n\
      batch 1 2024-01-01T00:00:00Z 3\nn1\n\nend\n",
    b"osmrepl-journal 1\nosmrepl-save 2\nbase 3\nsequence 4\ntime 2024-01-01T00:00:00Z\nobjects 9\n\
      sequence 5\ntime 2106-02-07T06:28:15Z\nbatches 1\n\
      batch 5 2106-02-07T06:28:15Z 0\n\nend\n",
];

// The text with another part at this place.
fn text_with(alloc: Global, place: usize, other: &[u8]) -> Option<Vec<u8>> {
    let mut text = Vec::new(alloc);
    for (index, part) in PARTS.iter().enumerate() {
        text.extend_from_slice(if index == place { other } else { part })
            .ok()?;
    }
    Some(text)
}

// Three batches.
fn whole_text(alloc: Global) -> Option<Vec<u8>> {
    text_with(alloc, PARTS.len(), b"")
}

fn is_written_again(alloc: Global, text: &[u8]) -> bool {
    let Ok(journal) = read_journal(alloc, text) else {
        return false;
    };
    match write_journal(alloc, &journal) {
        Ok(again) => again.as_slice() == text,
        Err(_) => false,
    }
}

#[test]
fn a_journal_is_written_as_it_was_read(rt: HostRuntime) {
    for text in SHORT {
        assert!(rt; is_written_again(rt.alloc(), text));
    }
    let text = whole_text(rt.alloc()).expect(&rt, "out of memory");
    assert!(rt; is_written_again(rt.alloc(), text.as_slice()));
}

// Whether the batches that the text has are these.
fn has_batches(alloc: Global, text: &[u8], batches: &[(u32, u32, &[u8])]) -> bool {
    let Ok(journal) = read_journal(alloc, text) else {
        return false;
    };
    let same = journal.batches.iter().zip(batches).all(|(batch, (number, time, bytes))| {
        batch.number == *number && batch.time == *time && batch.bytes == *bytes
    });
    same && journal.batches.len() == batches.len() && journal.objects == 12
}

#[test]
fn a_batch_may_have_any_bytes(rt: HostRuntime) {
    let batches: [(u32, u32, &[u8]); 3] = [
        (8, 1_704_153_600, b"a\nend"),
        (9, 1_704_067_200, b""),
        (10, 1_704_240_000, b"\x00\n\n"),
    ];
    let text = whole_text(rt.alloc()).expect(&rt, "out of memory");
    assert!(rt; has_batches(rt.alloc(), text.as_slice(), &batches));
}

// Why the bytes before this place are no journal.
fn refusal(alloc: Global, text: &[u8], end: usize) -> Option<JournalError> {
    read_journal(alloc, text.get(..end)?).err()
}

#[test]
fn a_cut_journal_is_refused_at_the_part_that_is_cut(rt: HostRuntime) {
    let text = whole_text(rt.alloc()).expect(&rt, "out of memory");
    let mut start: usize = 0;
    let mut line = 1;
    for part in PARTS {
        for length in 0..part.len() {
            let end = start.saturating_add(length);
            let refused = refusal(rt.alloc(), text.as_slice(), end);
            assert!(rt; refused == Some(JournalError::BadLine(line)), "{end}");
        }
        start = start.saturating_add(part.len());
        line = 1u64.saturating_add(line);
    }
}

// The place of a part, another part, and the line that is wrong then.
const WRONG: [(usize, &[u8], u64); 24] = [
    (0, b"osmrepl-journal 2\n", 1),
    (1, b"osmrepl-save 4\n", 2),
    (2, b"kinds nw\n", 3),
    (7, b"objects 12\n", 8),
    (8, b"objects 012\n", 9),
    (8, b"", 9),
    (9, b"sequence 7\n", 10),
    (9, b"sequence 1000000000\n", 10),
    (9, b"sequence 11\n", 12),
    (10, b"time none\n", 11),
    (10, b"time 2024-01-02T00:00:00Z\n", 15),
    (11, b"batches 0\n", 12),
    (11, b"batches 2\n", 12),
    (11, b"batches 4\n", 12),
    (12, b"batch 7 2024-01-02T00:00:00Z 5\na\nend\n", 13),
    (12, b"batch 08 2024-01-02T00:00:00Z 5\na\nend\n", 13),
    (12, b"batch 8 1970-01-01T00:00:00Z 5\na\nend\n", 13),
    (12, b"batch 8 2024-01-02T00:00:00Z 4\na\nend\n", 13),
    (12, b"batch 8 2024-01-02T00:00:00Z 67108865\na\nend\n", 13),
    (13, b"batch 10 2024-01-01T00:00:00Z 0\n\n", 14),
    (14, b"batch 10 2024-01-03T00:00:00Z 8\n\x00\n\n\n", 15),
    (15, b"batch 11 2024-01-03T00:00:00Z 0\n\nend\n", 16),
    (15, b"end\n\n", 17),
    (15, b"end\nend\n", 17),
];

// Why the text with another part is no journal.
fn refusal_with(alloc: Global, place: usize, other: &[u8]) -> Option<JournalError> {
    let text = text_with(alloc, place, other)?;
    read_journal(alloc, text.as_slice()).err()
}

#[test]
fn a_wrong_part_is_refused_at_its_line(rt: HostRuntime) {
    for (place, other, line) in WRONG {
        let refused = refusal_with(rt.alloc(), place, other);
        assert!(rt;
            refused == Some(JournalError::BadLine(line)),
            "{place} {line}"
        );
    }
}

#[test]
fn the_refusals_of_a_journal_are_shown(rt: HostRuntime) {
    let alloc = rt.alloc();
    assert!(rt; is_shown(alloc, &JournalError::BadLine(3), "journal: line 3"));
    assert!(rt; is_shown(alloc, &JournalError::WantOfMemory, "out of memory"));
}
