//! Tests of the replies to operations, and of the files after them.

use osm_runs::fault::{FileName, RunFault};
use osm_runs::filters::filter_of;
use osm_model::batch::Batch;
use osm_model::filter::Filter;
use osm_operations::operation::{Operation, Reply};
use osm_operations::world::{Outcome, Setup, run, run_with};
use osm_round::kept::Sizes;
use osm_state::paths::Suffix;
use osm_store::memory_store::MemoryStore;
use std::alloc::Global;
use std::test::Fail;

// 2024-01-01T00:00:00Z
const TIME: u32 = 1_704_067_200;

// The replies to the operations below.
const REPLIES: [&str; 14] = [
    "published 1\n",
    "published 2\n",
    "published 3\n",
    "lost",
    "not there",
    "applied 1..1\nmissing 2\nnumber 1\n",
    "back",
    "refused",
    "refused",
    "applied 2..2\napplied 3..3\nnumber 3\n",
    "published 4\n",
    "applied 4..4\nnumber 4\n",
    "number 4\n",
    "refused",
];

const STATE: Suffix = Suffix::State;

// Every save is a small one, so no journal is written.
const SETUP: Setup<'static> = Setup {
    dir: "dir",
    save: "save",
    changes: "changes",
    extract: "extract.o5m",
    sizes: Sizes {
        small: 1_000_000,
        most: 700,
    },
};

// Every save is a large one, and a journal has room for a few empty sequences.
const JOURNALS: Setup<'static> = Setup {
    sizes: Sizes {
        small: 0,
        most: 400,
    },
    ..SETUP
};

// It has room for one empty sequence.
const SHORT_JOURNALS: Setup<'static> = Setup {
    sizes: Sizes {
        small: 0,
        most: 200,
    },
    ..SETUP
};

// Publishes an empty sequence at that minute.
fn publish(alloc: Global, minute: u32) -> Operation {
    Operation::Publish {
        changes: Batch::new(alloc),
        time: TIME + minute % 60 * 60,
        calls: None,
    }
}

fn killed_publish(alloc: Global, minute: u32, calls: u64) -> Operation {
    Operation::Publish {
        changes: Batch::new(alloc),
        time: TIME + minute % 60 * 60,
        calls: Some(calls),
    }
}

// Three sequences, the second of which is lost for a while; then runs that are killed early, and
// runs that are killed after their last write.
fn operations(alloc: Global) -> Result<Vec<Operation>, Fail> {
    let mut list = Vec::new(alloc);
    for operation in [
        publish(alloc, 0),
        publish(alloc, 1),
        publish(alloc, 2),
        Operation::Lose {
            number: 2,
            suffix: STATE,
        },
        Operation::Lose {
            number: 2,
            suffix: STATE,
        },
        Operation::Follow { calls: None },
        Operation::PutBack {
            number: 2,
            suffix: STATE,
        },
        Operation::Follow { calls: Some(2) },
        killed_publish(alloc, 3, 5),
        Operation::Follow { calls: None },
        killed_publish(alloc, 3, 6),
        Operation::Follow { calls: Some(13) },
        Operation::Follow { calls: Some(6) },
        publish(alloc, 0),
    ] {
        list.push(operation)?;
    }
    Ok(list)
}

fn text_of(reply: &Reply) -> &[u8] {
    match reply {
        Reply::Published(report)
        | Reply::Followed(report)
        | Reply::Exported(report)
        | Reply::Begun(report)
        | Reply::FollowedPart { report, count: _ }
        | Reply::FollowedBefore { report, fault: _ } => report.text(),
        Reply::Refused(_) => b"refused",
        Reply::CutOff { fault: _, back: _ } => b"cut off",
        Reply::CutShort(_) => b"cut short",
        Reply::Lost => b"lost",
        Reply::IsBack => b"back",
        Reply::NotThere => b"not there",
    }
}

// What a list of operations comes to in a new store.
fn outcome_of(alloc: Global, list: Vec<Operation>) -> Result<Outcome, Fail> {
    let outcome = run(alloc, MemoryStore::new(alloc), &SETUP, list)?;
    Ok(outcome)
}

fn are_replies(outcome: &Outcome, texts: &[&str]) -> bool {
    if outcome.replies.len() != texts.len() {
        return false;
    }
    for (reply, text) in outcome.replies.iter().zip(texts) {
        if text_of(reply) != text.as_bytes() {
            return false;
        }
    }
    true
}

fn is_file(outcome: &Outcome, name: &str, bytes: &[u8]) -> bool {
    match outcome.store.get(name) {
        None => false,
        Some(found) => found == bytes,
    }
}

#[test]
fn losses_and_kills_leave_each_number_reported_once(rt: HostRuntime) -> Result<(), Fail> {
    let alloc = rt.alloc();
    let outcome = outcome_of(alloc, operations(alloc)?)?;
    assert!(rt; are_replies(&outcome, &REPLIES));
    let save = b"osmrepl-save 3\nbase 0\nkinds nwr\nkeys 0\n\
        sequence 4\ntime 2024-01-01T00:03:00Z\nobjects 0\n\
        users 0\nchangesets 0\nend\n";
    assert!(rt; is_file(&outcome, "save", save));
    let state = b"sequenceNumber=4\ntimestamp=2024-01-01T00\\:03\\:00Z\n";
    assert!(rt; is_file(&outcome, "dir/state.txt", state));
    Ok(())
}

// The replies to the publications by number below.
const NUMBERED: [&str; 15] = [
    "published 1\n",
    "published 1\n",
    "refused",
    "refused",
    "refused",
    "published 2\n",
    "published 2\n",
    "published 1\n",
    "refused",
    "lost",
    "cut off",
    "lost",
    "published 2\n",
    "refused",
    "applied 1..1\napplied 2..2\nnumber 2\n",
];

fn publish_as(alloc: Global, minute: u32, number: u32) -> Operation {
    Operation::PublishAs {
        changes: Batch::new(alloc),
        time: TIME + minute % 60 * 60,
        number,
        calls: None,
    }
}

fn killed_publish_as(alloc: Global, minute: u32, number: u32, calls: u64) -> Operation {
    Operation::PublishAs {
        changes: Batch::new(alloc),
        time: TIME + minute % 60 * 60,
        number,
        calls: Some(calls),
    }
}

// Each number is asked for several times: after kills, at another time, and after its files were
// lost.
fn numbered(alloc: Global) -> Result<Vec<Operation>, Fail> {
    let mut list = Vec::new(alloc);
    for operation in [
        publish_as(alloc, 0, 1),
        publish_as(alloc, 0, 1),
        publish_as(alloc, 1, 1),
        publish_as(alloc, 1, 3),
        killed_publish_as(alloc, 1, 2, 5),
        killed_publish_as(alloc, 1, 2, 6),
        killed_publish_as(alloc, 1, 2, 9),
        killed_publish_as(alloc, 0, 1, 5),
        killed_publish_as(alloc, 1, 2, 8),
        Operation::Lose {
            number: 2,
            suffix: Suffix::O5c,
        },
        killed_publish_as(alloc, 1, 2, 6),
        Operation::Lose {
            number: 2,
            suffix: Suffix::Opl,
        },
        publish_as(alloc, 1, 2),
        publish_as(alloc, 0, 2),
        Operation::Follow { calls: None },
    ] {
        list.push(operation)?;
    }
    Ok(list)
}

#[test]
fn each_number_is_published_once(rt: HostRuntime) -> Result<(), Fail> {
    let alloc = rt.alloc();
    let outcome = outcome_of(alloc, numbered(alloc)?)?;
    assert!(rt; are_replies(&outcome, &NUMBERED));
    let state = b"sequenceNumber=2\ntimestamp=2024-01-01T00\\:01\\:00Z\n";
    assert!(rt; is_file(&outcome, "dir/state.txt", state));
    assert!(rt; outcome.store.get("dir/000/000/002.o5c").is_some());
    assert!(rt; outcome.store.get("dir/000/000/002.opl").is_some());
    Ok(())
}

// The replies to the exports and beginnings below. An export prints nothing.
const BEGUN: [&str; 27] = [
    "refused",
    "refused",
    "published 1\n",
    "lost",
    "missing 1\nnumber 0\n",
    "refused",
    "refused",
    "back",
    "applied 1..1\nnumber 1\n",
    "refused",
    "refused",
    "refused",
    "",
    "published 2\n",
    "published 3\n",
    "applied 2..2\napplied 3..3\nnumber 3\n",
    "lost",
    "refused",
    "back",
    "refused",
    "refused",
    "refused",
    "number 1\n",
    "applied 2..2\napplied 3..3\nnumber 3\n",
    "",
    "number 3\n",
    "number 3\n",
];

// Exports and beginnings before anything was saved or exported, which a run that takes nothing
// doesn't change, killed after each number of calls, with a state that is lost, and after more was followed, which is followed
// again.
fn beginnings(alloc: Global) -> Result<Vec<Operation>, Fail> {
    let mut list = Vec::new(alloc);
    for operation in [
        Operation::Export { calls: None },
        Operation::Begin { calls: None },
        publish(alloc, 0),
        Operation::Lose {
            number: 1,
            suffix: STATE,
        },
        Operation::Follow { calls: None },
        Operation::Export { calls: None },
        Operation::Begin { calls: None },
        Operation::PutBack {
            number: 1,
            suffix: STATE,
        },
        Operation::Follow { calls: None },
        Operation::Begin { calls: None },
        Operation::Export { calls: Some(0) },
        Operation::Export { calls: Some(6) },
        Operation::Export { calls: Some(7) },
        publish(alloc, 1),
        publish(alloc, 2),
        Operation::Follow { calls: None },
        Operation::Lose {
            number: 1,
            suffix: STATE,
        },
        Operation::Begin { calls: None },
        Operation::PutBack {
            number: 1,
            suffix: STATE,
        },
        Operation::Begin { calls: Some(0) },
        Operation::Begin { calls: Some(1) },
        Operation::Begin { calls: Some(8) },
        Operation::Begin { calls: Some(9) },
        Operation::Follow { calls: None },
        Operation::Export { calls: None },
        Operation::Begin { calls: None },
        Operation::Follow { calls: None },
    ] {
        list.push(operation)?;
    }
    Ok(list)
}

#[test]
fn a_beginning_goes_back_to_what_was_exported(rt: HostRuntime) -> Result<(), Fail> {
    let alloc = rt.alloc();
    let outcome = outcome_of(alloc, beginnings(alloc)?)?;
    assert!(rt; are_replies(&outcome, &BEGUN));
    let save = b"osmrepl-save 3\nbase 3\nkinds nwr\nkeys 0\n\
        sequence 3\ntime 2024-01-01T00:02:00Z\nobjects 0\n\
        users 0\nchangesets 0\nend\n";
    assert!(rt; is_file(&outcome, "save", save));
    assert!(rt; is_file(&outcome, "extract.o5m", b"\xff\xe0\x04o5m2\xfe"));
    Ok(())
}

// The replies to the runs over spoiled files below.
const SPOILED: [&str; 14] = [
    "published 1\n",
    "published 2\n",
    "published 3\n",
    "applied 1..1\nnumber 1\n",
    "refused",
    "refused",
    "applied 2..2\nnumber 2\n",
    "refused",
    "applied 3..3\nnumber 3\n",
    "number 3\n",
    "not there",
    "lost",
    "not there",
    "number 3\n",
];

fn follow_spoiled(number: u32, suffix: Suffix) -> Operation {
    Operation::FollowSpoiled {
        number,
        suffix,
        calls: None,
    }
}

// Spoiled files of a later number, of the next one, of one that was followed, of none, and one that
// isn't read; a run that comes to the number before makes fifteen calls.
fn spoiled(alloc: Global) -> Result<Vec<Operation>, Fail> {
    let mut list = Vec::new(alloc);
    for operation in [
        publish(alloc, 0),
        publish(alloc, 1),
        publish(alloc, 2),
        follow_spoiled(2, STATE),
        follow_spoiled(2, Suffix::O5c),
        Operation::FollowSpoiled {
            number: 3,
            suffix: Suffix::O5c,
            calls: Some(14),
        },
        Operation::FollowSpoiled {
            number: 3,
            suffix: Suffix::O5c,
            calls: Some(15),
        },
        follow_spoiled(3, STATE),
        follow_spoiled(3, Suffix::Opl),
        follow_spoiled(1, STATE),
        follow_spoiled(4, Suffix::O5c),
        Operation::Lose {
            number: 3,
            suffix: Suffix::O5c,
        },
        follow_spoiled(3, Suffix::O5c),
        Operation::Follow { calls: None },
    ] {
        list.push(operation)?;
    }
    Ok(list)
}

#[test]
fn what_comes_before_a_spoiled_file_is_saved(rt: HostRuntime) -> Result<(), Fail> {
    let alloc = rt.alloc();
    let outcome = outcome_of(alloc, spoiled(alloc)?)?;
    assert!(rt; are_replies(&outcome, &SPOILED));
    assert!(rt; is_before(outcome.replies.get(3), 2));
    assert!(rt; is_before(outcome.replies.get(6), 3));
    let state = b"sequenceNumber=2\ntimestamp=2024-01-01T00\\:01\\:00Z\n";
    assert!(rt; is_file(&outcome, "dir/000/000/002.state.txt", state));
    Ok(())
}

// Whether a run came to the number before that one.
fn is_before(reply: Option<&Reply>, number: u32) -> bool {
    match reply {
        Some(Reply::FollowedBefore { report: _, fault }) => match fault {
            RunFault::BadState(FileName::Sequence(named, _), _)
            | RunFault::BadChange(FileName::Sequence(named, _), _, _) => *named == number,
            _ => false,
        },
        _ => false,
    }
}

// An extract whose name tells no form.
#[test]
fn a_name_without_a_form_is_no_extract(rt: HostRuntime) -> Result<(), Fail> {
    let alloc = rt.alloc();
    let mut list = Vec::new(alloc);
    for operation in [
        publish(alloc, 0),
        Operation::Follow { calls: None },
        Operation::Export { calls: None },
        Operation::Begin { calls: None },
        Operation::Export { calls: Some(0) },
        Operation::Begin { calls: Some(0) },
    ] {
        list.push(operation)?;
    }
    let setup = Setup {
        extract: "extract.osm",
        ..SETUP
    };
    let outcome = run(alloc, MemoryStore::new(alloc), &setup, list)?;
    assert!(rt; outcome.replies.len() == 6);
    for reply in outcome.replies.iter().skip(2) {
        assert!(rt; is_unknown_form(reply));
    }
    Ok(())
}

fn is_unknown_form(reply: &Reply) -> bool {
    match reply {
        Reply::Refused(RunFault::UnknownForm) => true,
        _ => false,
    }
}

// The replies to the operations under a filter below.
const FILTERED: [&str; 12] = [
    "not there",
    "published 1\n",
    "applied 1..1\nnumber 1\n",
    "refused",
    "not there",
    "",
    "published 2\n",
    "applied 2..2\nnumber 2\n",
    "number 1\n",
    "applied 2..2\nnumber 2\n",
    "refused",
    "number 2\n",
];

// The ways with a tag `highway`.
fn highways(alloc: Global) -> Result<Filter, Fail> {
    Ok(filter_of(alloc, "w", &["highway"])?)
}

fn follow_all(alloc: Global) -> Operation {
    Operation::FollowOther {
        filter: Filter::all(alloc),
    }
}

// Runs under the filter of all objects before anything was saved, and over a save of another one,
// and a run under the filter of the list, which is no other.
fn filtered(alloc: Global) -> Result<Vec<Operation>, Fail> {
    let same = Operation::FollowOther {
        filter: highways(alloc)?,
    };
    let mut list = Vec::new(alloc);
    for operation in [
        follow_all(alloc),
        publish(alloc, 0),
        Operation::Follow { calls: None },
        follow_all(alloc),
        same,
        Operation::Export { calls: None },
        publish(alloc, 1),
        Operation::Follow { calls: None },
        Operation::Begin { calls: None },
        Operation::Follow { calls: None },
        follow_all(alloc),
        Operation::Follow { calls: None },
    ] {
        list.push(operation)?;
    }
    Ok(list)
}

#[test]
fn a_run_under_another_filter_is_refused(rt: HostRuntime) -> Result<(), Fail> {
    let alloc = rt.alloc();
    let filter = highways(alloc)?;
    let list = filtered(alloc)?;
    let outcome = run_with(alloc, MemoryStore::new(alloc), &SETUP, &filter, list)?;
    assert!(rt; are_replies(&outcome, &FILTERED));
    assert!(rt; is_other_filter(outcome.replies.get(3)));
    assert!(rt; is_other_filter(outcome.replies.get(10)));
    let save = b"osmrepl-save 3\nbase 1\nkinds w\nkeys 1\nhighway\n\
        sequence 2\ntime 2024-01-01T00:01:00Z\nobjects 0\n\
        users 0\nchangesets 0\nend\n";
    assert!(rt; is_file(&outcome, "save", save));
    Ok(())
}

fn is_other_filter(reply: Option<&Reply>) -> bool {
    match reply {
        Some(Reply::Refused(RunFault::OtherFilter)) => true,
        _ => false,
    }
}

// The replies to what follows: the first run makes a save, the next ones write its journal.
const JOURNALED: [&str; 10] = [
    "published 1\n",
    "applied 1..1\nnumber 1\n",
    "published 2\n",
    "applied 2..2\nnumber 2\n",
    "published 3\n",
    "refused",
    "applied 3..3\nnumber 3\n",
    "number 3\n",
    "",
    "number 3\n",
];

const FIRST: [&str; 4] = [
    "published 1\n",
    "applied 1..1\nnumber 1\n",
    "published 2\n",
    "applied 2..2\nnumber 2\n",
];

const MERGED: [&str; 7] = [
    "published 1\n",
    "applied 1..1\nnumber 1\n",
    "published 2\n",
    "applied 2..2\nnumber 2\n",
    "published 3\n",
    "refused",
    "applied 3..3\nnumber 3\n",
];

fn journaled(alloc: Global) -> Result<Vec<Operation>, Fail> {
    let mut list = Vec::new(alloc);
    for operation in [
        publish(alloc, 0),
        Operation::Follow { calls: None },
        publish(alloc, 1),
        Operation::Follow { calls: None },
        publish(alloc, 2),
        Operation::Follow { calls: Some(6) },
        Operation::Follow { calls: None },
        Operation::Follow { calls: None },
        Operation::Export { calls: None },
        Operation::Begin { calls: None },
    ] {
        list.push(operation)?;
    }
    Ok(list)
}

#[test]
fn what_is_new_goes_into_the_journal_of_a_large_save(rt: HostRuntime) -> Result<(), Fail> {
    let alloc = rt.alloc();
    let filter = Filter::all(alloc);
    let mut list = journaled(alloc)?;
    list.truncate(4);
    let outcome = run_with(alloc, MemoryStore::new(alloc), &JOURNALS, &filter, list)?;
    assert!(rt; are_replies(&outcome, &FIRST));
    let save = b"osmrepl-save 3\nbase 0\nkinds nwr\nkeys 0\n\
        sequence 1\ntime 2024-01-01T00:00:00Z\nobjects 0\n\
        users 0\nchangesets 0\nend\n";
    assert!(rt; is_file(&outcome, "save", save));
    assert!(rt; outcome.store.get("save.journal").is_some());
    Ok(())
}

#[test]
fn an_export_and_a_beginning_take_what_the_journal_has(rt: HostRuntime) -> Result<(), Fail> {
    let alloc = rt.alloc();
    let filter = Filter::all(alloc);
    let outcome = run_with(alloc, MemoryStore::new(alloc), &JOURNALS, &filter, journaled(alloc)?)?;
    assert!(rt; are_replies(&outcome, &JOURNALED));
    let save = b"osmrepl-save 3\nbase 3\nkinds nwr\nkeys 0\n\
        sequence 3\ntime 2024-01-01T00:02:00Z\nobjects 0\n\
        users 0\nchangesets 0\nend\n";
    assert!(rt; is_file(&outcome, "save", save));
    Ok(())
}

#[test]
fn a_save_is_written_once_its_journal_is_full(rt: HostRuntime) -> Result<(), Fail> {
    let alloc = rt.alloc();
    let filter = Filter::all(alloc);
    let mut list = journaled(alloc)?;
    list.truncate(7);
    let outcome = run_with(alloc, MemoryStore::new(alloc), &SHORT_JOURNALS, &filter, list)?;
    assert!(rt; are_replies(&outcome, &MERGED));
    let save = b"osmrepl-save 3\nbase 0\nkinds nwr\nkeys 0\n\
        sequence 3\ntime 2024-01-01T00:02:00Z\nobjects 0\n\
        users 0\nchangesets 0\nend\n";
    assert!(rt; is_file(&outcome, "save", save));
    Ok(())
}
