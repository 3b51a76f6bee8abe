//! Audits of folders that are whole, and of folders that are falsified in one way each.

use osm_audit::audit::{Audit, audit_run};
use osm_audit::finding::{Cause, Finding, Found};
use osm_runs::fault::{FileName, RunFault};
use osm_model::form::Why;
use osm_model::memory::WantOfMemory;
use osm_state::paths::Suffix;
use osm_state::state_text::StateError;
use osm_store::memory_store::MemoryStore;
use osm_store::stopping_store::StoppingStore;
use osm_store::store::Store;
use std::alloc::Global;

pub type File<'a> = (&'a str, &'a [u8]);

const NODE: &[u8] = b"n1 v1 dV c7 t2024-01-01T00:00:00Z i5 uann T x1 y2\n";

const OTHER_NODE: &[u8] = b"n1 v2 dV c7 t2024-01-01T00:00:00Z i5 uann T x1 y2\n";

// The same as an o5c file (OSM wiki, O5m).
const NODE_O5C: &[u8] =
    b"\xff\xe0\x04o5c2\x10\x17\x02\x01\x80\x82\x90\xd9\x0c\x0e\x00\x05\x00ann\x00\
      \x80\xda\xc4\x09\x80\xb4\x89\x13\xfe";

const STATE_1: &[u8] = b"sequenceNumber=1\ntimestamp=2024-01-01T00\\:00\\:00Z\n";

const STATE_2: &[u8] = b"sequenceNumber=2\ntimestamp=2024-01-01T00\\:01\\:00Z\n";

// The time of the first number's state.
const STATE_2_EARLY: &[u8] = b"sequenceNumber=2\ntimestamp=2023-12-31T23\\:59\\:59Z\n";

const STATE_3: &[u8] = b"sequenceNumber=3\ntimestamp=2024-01-01T00\\:01\\:00Z\n";

// Another time than that of the third number's state.
const STATE_3_LATE: &[u8] = b"sequenceNumber=3\ntimestamp=2024-01-01T00\\:02\\:00Z\n";

const STATE_0: &[u8] = b"sequenceNumber=0\ntimestamp=2024-01-01T00\\:00\\:00Z\n";

/// A folder of three numbers: with both forms, with the o5c file alone, and with the OPL file
/// alone.
pub const WHOLE: [File<'static>; 8] = [
    ("dir/000/000/001.state.txt", STATE_1),
    ("dir/000/000/001.o5c", NODE_O5C),
    ("dir/000/000/001.opl", NODE),
    ("dir/000/000/002.state.txt", STATE_2),
    ("dir/000/000/002.o5c", NODE_O5C),
    ("dir/000/000/003.state.txt", STATE_3),
    ("dir/000/000/003.opl", NODE),
    ("dir/state.txt", STATE_3),
];

/// A store that holds those files.
pub fn store_with(alloc: Global, files: &[File<'_>]) -> Result<MemoryStore, WantOfMemory> {
    let mut store = MemoryStore::new(alloc);
    for (name, bytes) in files {
        store.put(alloc, *name, *bytes)?;
    }
    Ok(store)
}

// Whether the audit has that range and those findings.
fn is_audit(audit: &Audit, range: (u32, u32), findings: &[Found]) -> bool {
    (audit.from(), audit.to()) == range && audit.findings() == findings
}

// Whether that is found over a store that takes exactly so many calls.
fn is_found(
    alloc: Global,
    store: MemoryStore,
    calls: u64,
    asked: (Option<u32>, Option<u32>),
    range: (u32, u32),
    findings: &[Found],
) -> bool {
    let mut stopping = StoppingStore::new(store, calls);
    match audit_run(alloc, &mut stopping, "dir", asked.0, asked.1) {
        Ok(audit) => is_audit(&audit, range, findings) && stopping.calls() == 0,
        Err(_) => false,
    }
}

// Whether an audit over a store that takes so many calls is refused with that fault.
fn is_refused(
    alloc: Global,
    files: &[File<'_>],
    calls: u64,
    asked: (Option<u32>, Option<u32>),
    fault: RunFault,
) -> bool {
    let Ok(store) = store_with(alloc, files) else {
        return false;
    };
    let mut stopping = StoppingStore::new(store, calls);
    match audit_run(alloc, &mut stopping, "dir", asked.0, asked.1) {
        Ok(_) => false,
        Err(found) => found == fault && stopping.calls() == 0,
    }
}

#[test]
fn a_whole_folder_has_no_findings(rt: HostRuntime) {
    for (asked, range, calls) in [
        ((None, None), (1, 3), 10),
        ((Some(2), None), (2, 3), 7),
        ((None, Some(2)), (1, 2), 7),
        ((Some(3), Some(3)), (3, 3), 4),
    ] {
        let found = match store_with(rt.alloc(), &WHOLE) {
            Ok(store) => is_found(rt.alloc(), store, calls, asked, range, &[]),
            Err(_) => false,
        };
        assert!(rt; found, "{}", range.0);
    }
}

#[test]
fn a_folder_at_0_has_an_empty_range(rt: HostRuntime) {
    let found = match store_with(rt.alloc(), &[("dir/state.txt", STATE_0)]) {
        Ok(store) => is_found(rt.alloc(), store, 1, (None, None), (1, 0), &[]),
        Err(_) => false,
    };
    assert!(rt; found);
}

fn finding(number: u32, suffix: Suffix, cause: Cause) -> Finding {
    Finding {
        number,
        file: FileName::Sequence(number, suffix),
        cause,
    }
}

// The whole folder with one file replaced, or removed.
fn falsified(alloc: Global, name: &str, bytes: Option<&[u8]>) -> Result<MemoryStore, WantOfMemory> {
    let mut store = store_with(alloc, &WHOLE)?;
    match bytes {
        Some(bytes) => store.put(alloc, name, bytes)?,
        None => store.remove(name),
    }
    Ok(store)
}

// Whether the whole folder with that file has exactly that finding.
fn is_caught(alloc: Global, name: &str, bytes: Option<&[u8]>, found: Finding) -> bool {
    match falsified(alloc, name, bytes) {
        Ok(store) => is_found(alloc, store, 10, (None, None), (1, 3), &[Found::File(found)]),
        Err(_) => false,
    }
}

#[test]
fn each_falsified_file_is_found(rt: HostRuntime) {
    for (name, bytes, found) in [
        (
            "dir/000/000/002.state.txt",
            None,
            finding(2, Suffix::State, Cause::Absent),
        ),
        (
            "dir/000/000/002.state.txt",
            Some(b"sequenceNumber=2\n".as_slice()),
            finding(2, Suffix::State, Cause::BadState(StateError::MissingTime)),
        ),
        (
            "dir/000/000/002.state.txt",
            Some(STATE_1),
            finding(2, Suffix::State, Cause::Mismatch),
        ),
        (
            "dir/000/000/002.state.txt",
            Some(STATE_2_EARLY),
            finding(2, Suffix::State, Cause::TimeBack),
        ),
        (
            "dir/000/000/002.o5c",
            None,
            finding(2, Suffix::O5c, Cause::Absent),
        ),
        (
            "dir/000/000/001.opl",
            Some(OTHER_NODE),
            finding(1, Suffix::Opl, Cause::Differs),
        ),
        (
            "dir/000/000/001.opl",
            Some(b"".as_slice()),
            finding(1, Suffix::Opl, Cause::Differs),
        ),
        (
            "dir/000/000/003.opl",
            Some(b"x1\n".as_slice()),
            finding(3, Suffix::Opl, Cause::BadChange(1, Why::BadKind)),
        ),
        (
            "dir/000/000/001.o5c",
            Some(b"".as_slice()),
            finding(1, Suffix::O5c, Cause::BadChange(0, Why::BadHeader)),
        ),
        (
            "dir/state.txt",
            Some(STATE_3_LATE),
            Finding {
                number: 3,
                file: FileName::Top,
                cause: Cause::Differs,
            },
        ),
    ] {
        assert!(rt; is_caught(rt.alloc(), name, bytes, found), "{name}");
    }
}

// Whether the whole folder without the files of some numbers has exactly those findings.
fn is_lost(
    alloc: Global,
    names: &[&str],
    asked: (Option<u32>, Option<u32>),
    range: (u32, u32),
    findings: &[Found],
) -> bool {
    let Ok(mut store) = store_with(alloc, &WHOLE) else {
        return false;
    };
    for name in names {
        store.remove(*name);
    }
    let calls = 1 + 3 * (range.1 as u64 + 1).saturating_sub(range.0 as u64);
    is_found(alloc, store, calls, asked, range, findings)
}

#[test]
fn numbers_without_a_file_are_found_as_ranges(rt: HostRuntime) {
    let first = ["dir/000/000/001.state.txt", "dir/000/000/001.o5c", "dir/000/000/001.opl"];
    let second = ["dir/000/000/002.state.txt", "dir/000/000/002.o5c"];
    let third = ["dir/000/000/003.state.txt", "dir/000/000/003.opl"];
    let alloc = rt.alloc();
    let all = (None, None);
    assert!(rt; is_lost(alloc, &second, all, (1, 3), &[Found::Numbers(2, 2)]));
    assert!(rt; is_lost(alloc, &third, all, (1, 3), &[Found::Numbers(3, 3)]));
    let state = Found::File(finding(1, Suffix::State, Cause::Absent));
    let o5c = Found::File(finding(1, Suffix::O5c, Cause::Absent));
    assert!(rt; is_lost(alloc, &first[..1], all, (1, 3), &[state]));
    assert!(rt; is_lost(alloc, &first[1..], all, (1, 3), &[o5c]));
    assert!(rt; is_lost(alloc, &first, (None, Some(1)), (1, 1), &[Found::Numbers(1, 1)]));
    assert!(rt; is_lost(alloc, &[], (Some(3), Some(9)), (3, 9), &[Found::Numbers(4, 9)]));
    assert!(rt; is_lost(alloc, &second, (None, Some(5)), (1, 5),
        &[Found::Numbers(2, 2), Found::Numbers(4, 5)]));
    assert!(rt; is_lost(alloc, &third, (None, Some(5)), (1, 5), &[Found::Numbers(3, 5)]));
}

#[test]
fn a_range_that_is_none_is_refused_before_anything_is_read(rt: HostRuntime) {
    for asked in [
        (Some(3), Some(2)),
        (Some(0), Some(2)),
        (None, Some(0)),
        (None, Some(1_000_000_000)),
    ] {
        assert!(rt; is_refused(rt.alloc(), &WHOLE, 0, asked, RunFault::BadRange));
    }
    assert!(rt; is_refused(rt.alloc(), &WHOLE, 1, (Some(4), None), RunFault::BadRange));
}

#[test]
fn the_newest_state_is_needed_only_if_it_says_where_to_end(rt: HostRuntime) {
    let absent = RunFault::Absent(FileName::Top);
    assert!(rt; is_refused(rt.alloc(), &[], 1, (None, None), absent));
    let bad = RunFault::BadState(FileName::Top, StateError::MissingSequence);
    let files = [("dir/state.txt", b"".as_slice())];
    assert!(rt; is_refused(rt.alloc(), &files, 1, (None, None), bad));
    for bytes in [None, Some(b"".as_slice()), Some(STATE_2_EARLY)] {
        let found = match falsified(rt.alloc(), "dir/state.txt", bytes) {
            Ok(store) => is_found(rt.alloc(), store, 10, (None, Some(3)), (1, 3), &[]),
            Err(_) => false,
        };
        assert!(rt; found);
    }
}

#[test]
fn each_store_call_failing_in_turn(rt: HostRuntime) {
    for (calls, file) in [
        (0, FileName::Top),
        (1, FileName::Sequence(1, Suffix::State)),
        (2, FileName::Sequence(1, Suffix::O5c)),
        (3, FileName::Sequence(1, Suffix::Opl)),
        (9, FileName::Sequence(3, Suffix::Opl)),
    ] {
        let fault = RunFault::ReadFault(file);
        assert!(rt;
            is_refused(rt.alloc(), &WHOLE, calls, (None, None), fault),
            "{calls}"
        );
    }
}
