//! Tests of replays: readers and writers that fail, and the flush at the end.

use osm_script::fault::ScriptFault;
use osm_script::replay::replay_run;
use std::alloc::Global;
use std::io::{self, Read, Write};

// The script of one node.
const SCRIPT: &str = "edit n1 v1 dV c7 t2024-01-01T00:00:00Z i5 uann T x1 y2
close 2024-01-01T00:00:00Z
deliver 1 opl
show
";

// The replies to it that a person expects.
const REPLIES: &str = "edited
closed 1
applied 1..1
number 1
time 2024-01-01T00:00:00Z
objects 1
n1 v1 dV c7 t2024-01-01T00:00:00Z i5 uann T x1 y2
users 1
5 1
changesets 1
7 1
held 0
";

// A reader that gives some bytes and then fails.
#[derive(Drop)]
struct Cut<'a> {
    rest: &'a [u8],
}

impl Read for Cut<'_> {
    fn read(&mut self, buffer: &mut [u8]) -> io::Result<usize> {
        let (Some(byte), Some(first)) = (self.rest.first(), buffer.first_mut()) else {
            return Err(io::Error::from(io::ErrorKind::Interrupted));
        };
        *first = *byte;
        self.rest = &self.rest[1..];
        Ok(1)
    }
}

// A writer that takes `room` bytes, and then none.
#[derive(Drop)]
struct Full {
    room: usize,
    taken: usize,
}

impl Write for Full {
    fn write(&mut self, bytes: &[u8]) -> io::Result<usize> {
        let count = bytes.len().min(self.room);
        self.room -= count;
        self.taken = self.taken.saturating_add(count);
        Ok(count)
    }

    fn flush(&mut self) -> io::Result<()> {
        Ok(())
    }
}

// A writer that holds back what it takes until it is flushed; the flush may fail.
#[derive(Drop)]
struct Buffered {
    waiting: usize,
    flushed: usize,
    is_failing: bool,
}

impl Write for Buffered {
    fn write(&mut self, bytes: &[u8]) -> io::Result<usize> {
        self.waiting = self.waiting.saturating_add(bytes.len());
        Ok(bytes.len())
    }

    fn flush(&mut self) -> io::Result<()> {
        if self.is_failing {
            return Err(io::Error::from(io::ErrorKind::StorageFull));
        }
        self.flushed = self.flushed.saturating_add(self.waiting);
        self.waiting = 0;
        Ok(())
    }
}

// Whether a replay from the reader ends in that fault, and writes nothing.
fn is_refused<R: Read>(alloc: Global, reader: &mut R, fault: ScriptFault) -> bool {
    let mut written = Vec::new(alloc);
    let refused = replay_run(alloc, reader, &mut written).err();
    refused == Some(fault) && written.is_empty()
}

#[test]
fn a_reader_that_fails_is_a_fault_after_each_byte(rt: HostRuntime) {
    for length in 0..SCRIPT.len() {
        let rest = &SCRIPT.as_bytes()[..length];
        let fault = ScriptFault::ReadFault;
        assert!(rt;
            is_refused(rt.alloc(), &mut Cut { rest }, fault),
            "{length}"
        );
    }
}

// Whether a replay to a writer with that much room fills it, and then ends in a fault.
fn is_full_after(alloc: Global, room: usize) -> bool {
    let mut writer = Full { room, taken: 0 };
    let refused = replay_run(alloc, &mut SCRIPT.as_bytes(), &mut writer).err();
    refused == Some(ScriptFault::WriteFault) && writer.taken == room
}

#[test]
fn a_writer_that_takes_nothing_is_a_fault_after_each_byte(rt: HostRuntime) {
    for room in 0..REPLIES.len() {
        assert!(rt; is_full_after(rt.alloc(), room), "{room}");
    }
}

// Whether a replay ends with that answer, flushes that many bytes and leaves none waiting.
fn flushes(alloc: Global, is_failing: bool, answer: Result<(), ScriptFault>, count: usize) -> bool {
    let mut writer = Buffered {
        waiting: 0,
        flushed: 0,
        is_failing,
    };
    let answered = replay_run(alloc, &mut SCRIPT.as_bytes(), &mut writer);
    answered == answer && writer.flushed == count && (is_failing || writer.waiting == 0)
}

#[test]
fn the_replies_are_flushed_before_a_replay_is_done(rt: HostRuntime) {
    let fault = Err(ScriptFault::WriteFault);
    assert!(rt; flushes(rt.alloc(), false, Ok(()), REPLIES.len()));
    assert!(rt; flushes(rt.alloc(), true, fault, 0));
}

fn is_answered(alloc: Global, script: &str, replies: &str) -> bool {
    let mut written = Vec::new(alloc);
    let is_done = replay_run(alloc, &mut script.as_bytes(), &mut written).is_ok();
    is_done && written.as_slice() == replies.as_bytes()
}

#[test]
fn a_script_is_answered_as_a_person_would(rt: HostRuntime) {
    assert!(rt; is_answered(rt.alloc(), SCRIPT, REPLIES));
}
