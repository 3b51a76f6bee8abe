//! Tests of state files and paths: the texts of planet servers, faults in their order, and paths.

use super::shown::is_shown;
use osm_state::paths::{Suffix, path, path_number};
use osm_state::state::State;
use osm_state::state_text::{StateError, state_read, state_write};
use std::alloc::Global;

// 2024-01-01T00:00:00Z
const NEW_YEAR: u32 = 1_704_067_200;

fn read(text: &[u8]) -> Result<(u32, u32), StateError> {
    let state = state_read(text)?;
    Ok((state.sequence(), state.time()))
}

// State files as planet servers have written them over the years.
const SERVER_TEXTS: [(&[u8], (u32, u32)); 8] = [
    (
        b"#Wed Sep 12 07:07:05 UTC 2012\r\ntxnMax=5\r\nsequenceNumber=1234567\r\n\
          timestamp=2012-09-12T07\\:06\\:02Z\r\n",
        (1_234_567, 1_347_433_562),
    ),
    (
        b"#Mon Aug 24 10:12:41 UTC 2009\nsequenceNumber=0\ntimestamp=2009-08-24T10\\:12\\:00Z\n\
          txnActiveList=221,223\ntxnMax=224\ntxnMaxQueried=224\ntxnReadyList=\n",
        (0, 1_251_108_720),
    ),
    (
        b"txnMaxQueried=12\ntxnMax=12\ntxnActiveList=\ntxnReadyList=\n\
          timestamp=2011-11-01T11\\:37\\:02Z\nsequenceNumber=99\n",
        (99, 1_320_147_422),
    ),
    (
        b"#Sat Sep 15 00:42:04 UTC 2012\nsequenceNumber=7\ntimestamp=2012-09-15T00\\:41\\:04Z",
        (7, 1_347_669_664),
    ),
    (
        b"# original OSM minutely replication sequence number 6516001\n\
          timestamp=2025-03-14T09\\:26\\:00Z\nsequenceNumber=4366\n",
        (4366, 1_741_944_360),
    ),
    (
        b"timestamp=2025-03-14T09:26:00Z\nsequenceNumber=004366",
        (4366, 1_741_944_360),
    ),
    (
        b"sequenceNumber=999999999\ntimestamp=2106-02-07T06\\:28\\:15Z\n",
        (999_999_999, 4_294_967_295),
    ),
    (
        b"\n\n\tsequenceNumber\t=\t1 \n timestamp = 1970-01-01T00\\:00\\:01Z\t\n",
        (1, 1),
    ),
];

#[test]
fn texts_of_planet_servers_are_read(rt: HostRuntime) {
    for (text, state) in SERVER_TEXTS {
        assert!(rt; read(text) == Ok(state), "{state:?}");
    }
}

// Texts on which our rules leave no doubt.
const TEXTS: [(&[u8], Result<(u32, u32), StateError>); 29] = [
    (b"", Err(StateError::MissingSequence)),
    (
        b"timestamp=2024-01-01T00:00:00Z",
        Err(StateError::MissingSequence),
    ),
    (
        b"sequencenumber=1\ntimestamp=2024-01-01T00:00:00Z",
        Err(StateError::MissingSequence),
    ),
    (
        b"#sequenceNumber=1\ntimestamp=2024-01-01T00:00:00Z",
        Err(StateError::MissingSequence),
    ),
    (b"sequenceNumber=1", Err(StateError::MissingTime)),
    (
        b"sequenceNumber=1\ntimestamp=2024-01-01T00:00:60Z",
        Err(StateError::BadTime),
    ),
    (
        b"sequenceNumber=1\ntimestamp=1970-01-01T00:00:00Z",
        Err(StateError::BadTime),
    ),
    (
        b"sequenceNumber=1\ntimestamp=2024-01-01T00:00:00Zx",
        Err(StateError::BadTime),
    ),
    (
        b"sequenceNumber=1\ntimestamp=2024-01-01T00:00:00Z and so on\\",
        Err(StateError::BadEscape),
    ),
    (
        b"sequenceNumber=1\\\ntimestamp=2024-01-01T00:00:00Z",
        Err(StateError::BadEscape),
    ),
    (
        b"sequenceNumber=1000000000 and so on\\\ntimestamp=",
        Err(StateError::BadEscape),
    ),
    (
        b"sequenceNumber=1000000000\ntimestamp=\\",
        Err(StateError::BadSequence),
    ),
    (
        b"sequenceNumber=0000000001\ntimestamp=2024-01-01T00:00:00Z",
        Err(StateError::BadSequence),
    ),
    (
        b"sequenceNumber=+1\ntimestamp=2024-01-01T00:00:00Z",
        Err(StateError::BadSequence),
    ),
    (
        b"sequenceNumber=\ntimestamp=2024-01-01T00:00:00Z",
        Err(StateError::BadSequence),
    ),
    (
        b"sequenceNumber=1\r\r\ntimestamp=2024-01-01T00:00:00Z",
        Err(StateError::BadSequence),
    ),
    (
        b"sequenceNumber=7\n! x\n sequenceNumber = \\08 \ntimestamp=2024-01-01T00:00:00Z",
        Ok((8, NEW_YEAR)),
    ),
    (
        b"sequenceNumber=7\ntimestamp=\\2\\0\\2\\4-01-01T00:00:00Z\n\
          sequenceNumber\r\nsequenceNumber 9",
        Ok((7, NEW_YEAR)),
    ),
    (
        b"sequenceNumber=7\r\ntimestamp=2024-01-01T00:00:00Z\r",
        Ok((7, NEW_YEAR)),
    ),
    (
        b"  # a note\n  ! another = one\nsequenceNumber=7\ntimestamp=2024-01-01T00:00:00Z\nwiki=\\",
        Ok((7, NEW_YEAR)),
    ),
    (
        b"sequenceNumber=7\x0c\ntimestamp=2024-01-01T00:00:00Z",
        Err(StateError::BadSequence),
    ),
    (
        b"sequenceNumber=7\ntimestamp=\x0b2024-01-01T00:00:00Z",
        Err(StateError::BadTime),
    ),
    (
        b"\x0csequenceNumber=7\ntimestamp=2024-01-01T00:00:00Z",
        Err(StateError::MissingSequence),
    ),
    (
        b"sequenceNumber:7\ntimestamp=2024-01-01T00:00:00Z",
        Err(StateError::MissingSequence),
    ),
    (
        b"sequenceNumber=7\nTimestamp=2024-01-01T00:00:00Z",
        Err(StateError::MissingTime),
    ),
    (
        b"sequenceNumber=7\ntimestamp=2024-01-01T00:00:00Z\ntimestamp=",
        Err(StateError::BadTime),
    ),
    (
        b"sequenceNumber=\\u0037\ntimestamp=2024-01-01T00:00:00Z",
        Err(StateError::BadSequence),
    ),
    (
        b"sequenceNumber=7\\\n8\ntimestamp=2024-01-01T00:00:00Z",
        Err(StateError::BadEscape),
    ),
    (
        b";sequenceNumber=8\nsequenceNumber=7\ntimestamp=2024-01-01T00:00:00Z # UTC",
        Err(StateError::BadTime),
    ),
];

#[test]
fn the_first_fault_is_named(rt: HostRuntime) {
    for (index, (text, state)) in TEXTS.iter().enumerate() {
        assert!(rt; read(*text) == *state, "text {index}");
    }
}

#[test]
fn a_cut_text_is_refused_for_what_it_lacks(rt: HostRuntime) {
    let text = b"sequenceNumber=1\ntimestamp=2024-01-01T00\\:00\\:00Z\n";
    for length in 0..51usize {
        let expected = match length {
            0..15 => Err(StateError::MissingSequence),
            15 => Err(StateError::BadSequence),
            16..27 => Err(StateError::MissingTime),
            41 | 45 => Err(StateError::BadEscape),
            49.. => Ok((1, NEW_YEAR)),
            _ => Err(StateError::BadTime),
        };
        assert!(rt; read(&text[..length]) == expected, "{length} bytes");
    }
}

// Whether the state of that number and time is written as the text.
fn is_written(alloc: Global, sequence: u32, time: u32, text: &[u8]) -> bool {
    match State::new(sequence, time) {
        Some(state) => is_text_of(alloc, &state, text),
        None => false,
    }
}

fn is_text_of(alloc: Global, state: &State, text: &[u8]) -> bool {
    match state_write(alloc, state) {
        Ok(written) => written.as_slice() == text,
        Err(_) => false,
    }
}

#[test]
fn a_state_is_written_with_escaped_colons(rt: HostRuntime) {
    let written: [(u32, u32, &[u8]); 3] = [
        (
            1_234_567,
            1_347_433_562,
            b"sequenceNumber=1234567\ntimestamp=2012-09-12T07\\:06\\:02Z\n",
        ),
        (
            0,
            1,
            b"sequenceNumber=0\ntimestamp=1970-01-01T00\\:00\\:01Z\n",
        ),
        (
            999_999_999,
            u32::MAX,
            b"sequenceNumber=999999999\ntimestamp=2106-02-07T06\\:28\\:15Z\n",
        ),
    ];
    for (sequence, time, text) in written {
        assert!(rt; is_written(rt.alloc(), sequence, time, text), "{sequence}");
    }
}

#[test]
fn a_state_is_refused_outside_its_limits(rt: HostRuntime) {
    assert_eq!(rt; State::new(1_000_000_000, 1), None);
    assert_eq!(rt; State::new(1, 0), None);
}

// Whether the text is the path of the number and the suffix.
fn is_path(alloc: Global, number: u32, suffix: Suffix, text: &str) -> bool {
    if 999_999_999 < number || path_number(text) != Some((number, suffix)) {
        return false;
    }
    match path(alloc, number, suffix) {
        Ok(written) => written.as_str() == text,
        Err(_) => false,
    }
}

#[test]
fn paths_are_written_and_read_back(rt: HostRuntime) {
    let paths = [
        (0, Suffix::Opl, "000/000/000.opl"),
        (1, Suffix::Opl, "000/000/001.opl"),
        (1_234_567, Suffix::Opl, "001/234/567.opl"),
        (999_999_999, Suffix::Opl, "999/999/999.opl"),
        (1000, Suffix::O5c, "000/001/000.o5c"),
        (20_030_100, Suffix::State, "020/030/100.state.txt"),
    ];
    for (number, suffix, text) in paths {
        assert!(rt; is_path(rt.alloc(), number, suffix, text), "{text}");
    }
}

#[test]
fn what_is_no_path_has_no_number(rt: HostRuntime) {
    let others = [
        "",
        "1/2/3.opl",
        "000/000/0001.opl",
        "000/000/001.osc",
        "000/000/001",
        "000/000/001.opl ",
        "000/000/001.OPL",
        "000-000-001.opl",
        "00:/000/001.opl",
        "/000/000/01.opl",
        "state.txt",
        "000/000/0\u{e9}.opl",
    ];
    for text in others {
        assert_eq!(rt; path_number(text), None, "{text}");
    }
}

#[test]
fn a_fault_prints_its_name(rt: HostRuntime) {
    let texts = [
        (StateError::MissingSequence, "MissingSequence"),
        (StateError::BadEscape, "BadEscape"),
        (StateError::BadSequence, "BadSequence"),
        (StateError::MissingTime, "MissingTime"),
        (StateError::BadTime, "BadTime"),
    ];
    for (fault, text) in texts {
        assert!(rt; is_shown(rt.alloc(), &fault, text), "{text}");
    }
}
