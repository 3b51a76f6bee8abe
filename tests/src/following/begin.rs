//! Tests of a follower that begins with objects.

use osm_follow::begin::BeginError;
use osm_follow::follower::Follower;
use osm_model::change::Change;
use osm_opl::lines::read_line;
use osm_state::state_text::state_read;
use std::alloc::Global;

// A node of user 5.
const NODE: &[u8] = b"n1 v1 dV c7 t2024-01-01T00:00:00Z i5 uann T x1 y2";

const STATE_0: &[u8] = b"sequenceNumber=0\ntimestamp=2024-01-01T00:00:00Z\n";

const STATE_1: &[u8] = b"sequenceNumber=1\ntimestamp=2024-01-01T00:00:00Z\n";

// The node so many times.
fn nodes(alloc: Global, count: usize) -> Option<Vec<Change>> {
    let mut nodes = Vec::new(alloc);
    for _ in 0..count {
        nodes.push(read_line(alloc, NODE).ok()?).ok()?;
    }
    Some(nodes)
}

fn begun(alloc: Global, state: &[u8], count: usize) -> Option<Result<Follower, BeginError>> {
    let state = state_read(state).ok()?;
    let objects = nodes(alloc, count)?;
    Some(Follower::begin(alloc, &state, objects))
}

// Whether the follower is at sequence 1, which it began at, and counts nothing.
fn is_at_1(follower: &Follower) -> bool {
    let is_begun = matches!(follower.number(), Ok(1)) && matches!(follower.base(), Ok(1));
    is_begun && matches!(follower.user_count(5), Ok(0))
}

fn begins_at_1(alloc: Global) -> bool {
    match begun(alloc, STATE_1, 1) {
        Some(Ok(follower)) => is_at_1(&follower),
        _ => false,
    }
}

fn is_refused(alloc: Global, state: &[u8], count: usize, wanted: BeginError) -> bool {
    match begun(alloc, state, count) {
        Some(Err(error)) => error == wanted,
        _ => false,
    }
}

#[test]
fn a_follower_begins_with_objects_and_counts_none_of_them(rt: HostRuntime) {
    assert!(rt; begins_at_1(rt.alloc()));
    assert!(rt; is_refused(rt.alloc(), STATE_0, 1, BeginError::BadSequence));
    assert!(rt; is_refused(rt.alloc(), STATE_1, 2, BeginError::NotData { index: 2 }));
}
