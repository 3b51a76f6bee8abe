//! Tests of the publisher: the texts of a sequence, closes that are refused, and the texts of
//! refusals.

use osm_follow::delivery::DeliverError;
use osm_follow::follower::Broken;
use osm_follow::lag::LagError;
use osm_publisher::published::Published;
use osm_publisher::publisher::{CloseError, EditError, Publisher};
use osm_follow::view::ViewError;
use osm_opl::lines::read_line;
use osm_state::state::State;
use std::alloc::Global;
use std::fmt::Display;

// 2024-01-01T00:00:00Z
const NEW_YEAR: u32 = 1_704_067_200;

/// The line of a node.
pub const NODE: &[u8] = b"n1 v1 dV c7 t2024-01-01T00:00:00Z i5 uann T x1 y2";

const NODE_FILE: &[u8] = b"n1 v1 dV c7 t2024-01-01T00:00:00Z i5 uann T x1 y2\n";

const STATE: &[u8] = b"sequenceNumber=1\ntimestamp=2024-01-01T00\\:00\\:00Z\n";

// The node in o5c (OSM wiki, O5m).
const NODE_O5C: &[u8] =
    b"\xff\xe0\x04o5c2\x10\x17\x02\x01\x80\x82\x90\xd9\x0c\x0e\x00\x05\x00ann\x00\
      \x80\xda\xc4\x09\x80\xb4\x89\x13\xfe";

/// Whether those are the three texts of the node as sequence 1.
pub fn is_the_node(published: &Published) -> bool {
    let is_state = published.number() == 1 && published.state() == STATE;
    is_state && published.opl() == NODE_FILE && published.o5c() == NODE_O5C
}

// Whether the publisher takes the node, and publishes it as sequence 1, after which nothing is
// pending.
fn publishes_the_node(alloc: Global, publisher: &mut Publisher) -> bool {
    let Ok(change) = read_line(alloc, NODE) else {
        return false;
    };
    let is_taken = publisher.edit(change).is_ok();
    let is_published = match publisher.close(alloc, NEW_YEAR) {
        Ok(published) => is_the_node(&published),
        Err(_) => false,
    };
    let is_empty = publisher.pending().changes().is_empty();
    is_taken && is_published && is_empty && publisher.number() == 1
}

// Why the publisher closes no sequence at that time.
fn close_refusal(alloc: Global, publisher: &mut Publisher, time: u32) -> Option<CloseError> {
    publisher.close(alloc, time).err()
}

#[test]
fn a_sequence_is_published_as_three_texts(rt: HostRuntime) {
    let mut publisher = Publisher::new(rt.alloc());
    // A close at time 0 is refused, since it has to be later.
    let is_back = close_refusal(rt.alloc(), &mut publisher, 0) == Some(CloseError::TimeBack);
    let is_published = publishes_the_node(rt.alloc(), &mut publisher);
    assert!(rt; is_back && is_published);
}

// Whether a publisher refuses an earlier time, closes once, and then has no number left, whatever
// the time.
fn closes_once(alloc: Global, publisher: &mut Publisher) -> bool {
    let is_back = close_refusal(alloc, publisher, NEW_YEAR - 1) == Some(CloseError::TimeBack);
    let is_closed = close_refusal(alloc, publisher, NEW_YEAR).is_none();
    let is_last = publisher.number() == 999_999_999;
    let full = Some(CloseError::SequenceFull);
    let is_full = close_refusal(alloc, publisher, NEW_YEAR) == full;
    is_back && is_closed && is_last && is_full && close_refusal(alloc, publisher, 0) == full
}

#[test]
fn a_close_is_refused_at_the_last_number_and_for_an_earlier_time(rt: HostRuntime) {
    let is_so = match State::new(999_999_998, NEW_YEAR) {
        Some(state) => closes_once(rt.alloc(), &mut Publisher::resume(rt.alloc(), &state)),
        None => false,
    };
    assert!(rt; is_so);
}

fn is_shown<T: Display>(alloc: Global, value: &T, text: &str) -> bool {
    match format!(in alloc; "{value}") {
        Ok(shown) => shown.as_str() == text,
        Err(_) => false,
    }
}

// Whether the refusal of an edit is shown by its name.
fn is_full_shown(alloc: Global) -> bool {
    match read_line(alloc, NODE) {
        Ok(change) => is_shown(alloc, &EditError::BatchFull(change), "BatchFull"),
        Err(_) => false,
    }
}

#[test]
fn refusals_are_named_as_they_are(rt: HostRuntime) {
    let alloc = rt.alloc();
    assert!(rt; is_full_shown(alloc));
    assert!(rt; is_shown(alloc, &CloseError::TooLarge, "TooLarge"));
    assert!(rt; is_shown(alloc, &DeliverError::TooEarly, "TooEarly"));
    assert!(rt; is_shown(alloc, &ViewError::WantOfMemory, "WantOfMemory"));
    assert!(rt; is_shown(alloc, &LagError::TopBehind, "TopBehind"));
    assert!(rt; is_shown(alloc, &Broken, "Broken"));
}
