//! Tests of the follower: its answers to one call after another.

use super::answers::{Call, are_answered};
use osm_follow::delivery::{DeliverError, Delivered};
use osm_follow::follower::Broken;
use osm_follow::lag::{Lag, LagError};
use osm_follow::restart::RestartError;
use osm_model::form::{FormError, Why};
use osm_state::state_text::StateError;

// A node of user 5.
const NODE: &[u8] = b"n1 v1 dV c7 t2024-01-01T00:00:00Z i5 uann T x1 y2\n";

// The same in o5c (OSM wiki, O5m).
const NODE_O5C: &[u8] =
    b"\xff\xe0\x04o5c2\x10\x17\x02\x01\x80\x82\x90\xd9\x0c\x0e\x00\x05\x00ann\x00\
      \x80\xda\xc4\x09\x80\xb4\x89\x13\xfe";

// The node's deletion, by another user.
const GONE: &[u8] = b"n1 v2 dD c8 t2024-01-01T00:01:00Z i6 ubob T x y\n";

const NEW_YEAR: u32 = 1_704_067_200;

const LAST: u32 = 999_999_999;

const STATE_0: &[u8] = b"sequenceNumber=0\ntimestamp=2024-01-01T00:00:00Z\n";

const STATE_1: &[u8] = b"sequenceNumber=1\ntimestamp=2024-01-01T00\\:00\\:00Z\n";

const STATE_2: &[u8] = b"sequenceNumber=2\ntimestamp=2024-01-01T00:00:00Z\n";

const STATE_3: &[u8] = b"sequenceNumber=3\ntimestamp=2024-01-01T00:00:00Z\n";

const STATE_65: &[u8] = b"sequenceNumber=65\ntimestamp=2024-01-01T00:00:00Z\n";

const STATE_LAST: &[u8] = b"sequenceNumber=999999999\ntimestamp=2024-01-01T00:00:00Z\n";

// The follower after the node as sequence 1.
const ONE_NODE: &[u8] = b"osmrepl-save 3\nbase 0\nkinds nwr\nkeys 0\nsequence 1\n\
    time 2024-01-01T00:00:00Z\nobjects 1\nn1 v1 dV c7 t2024-01-01T00:00:00Z i5 uann T x1 y2\n\
    users 1\n5 1\nchangesets 1\n7 1\nend\n";

// A number whose window ends with the last number.
const NEAR_THE_TOP: &[u8] = b"osmrepl-save 1\nsequence 999999936\ntime 2024-01-01T00:00:00Z\n\
    objects 0\nusers 0\nchangesets 0\nend\n";

// The last number but one.
const AT_THE_TOP: &[u8] = b"osmrepl-save 1\nsequence 999999998\ntime 2024-01-01T00:00:00Z\n\
    objects 0\nusers 0\nchangesets 0\nend\n";

const NO_STATE: DeliverError = DeliverError::BadState(StateError::MissingSequence);

const NO_HEADER: DeliverError = DeliverError::BadChange(FormError::Fault {
    place: 0,
    why: Why::BadHeader,
});

const APPLIED: Result<Delivered, DeliverError> = Ok(Delivered::Applied { low: 1, high: 1 });

const HELD: Result<Delivered, DeliverError> = Ok(Delivered::Held);

const BOTH: Result<Delivered, DeliverError> = Ok(Delivered::Applied { low: 1, high: 2 });

const APPLIED_LAST: Result<Delivered, DeliverError> = Ok(Delivered::Applied {
    low: LAST,
    high: LAST,
});

const BAD_SAVE: Result<(), RestartError> = Err(RestartError::BadSave { line: 3 });

const FOUR_BEHIND: Lag = Lag {
    behind: 4,
    seconds: Some(240),
};

const NOT_BEHIND: Lag = Lag {
    behind: 0,
    seconds: Some(0),
};

const NO_SECONDS: Lag = Lag {
    behind: 4,
    seconds: None,
};

const HISTORIES: [(&str, &[Call]); 13] = [
    (
        "OPL files are read, and old numbers aren't",
        &[
            Call::Opl(STATE_1, NODE, APPLIED),
            Call::O5c(STATE_1, b"no file", Ok(Delivered::Old)),
            Call::HoldsTheNode,
            Call::Save(ONE_NODE),
        ],
    ),
    (
        "o5c files are read",
        &[
            Call::O5c(STATE_1, NODE_O5C, APPLIED),
            Call::O5c(STATE_1, b"no file", Ok(Delivered::Old)),
            Call::HoldsTheNode,
        ],
    ),
    (
        "a delivery is refused for its first fault",
        &[
            Call::O5c(b"", b"", Err(NO_STATE)),
            Call::O5c(STATE_0, b"", Err(DeliverError::BadSequence)),
            Call::O5c(STATE_65, b"", Err(DeliverError::TooEarly)),
            Call::O5c(STATE_2, b"", Err(NO_HEADER)),
            Call::O5c(STATE_1, b"", Err(NO_HEADER)),
            Call::HoldsNothing,
        ],
    ),
    (
        "a number that is held isn't read again",
        &[
            Call::Opl(STATE_2, GONE, HELD),
            Call::Opl(STATE_2, b"no file", Ok(Delivered::Again)),
            Call::IsHeld(1, false),
            Call::IsHeld(2, true),
            Call::Opl(STATE_1, NODE, BOTH),
            Call::Opl(STATE_2, b"no file", Ok(Delivered::Old)),
        ],
    ),
    (
        "the missing numbers are those up to the top that are not held, within the window",
        &[
            Call::Opl(STATE_3, b"", HELD),
            Call::Opl(STATE_1, b"", APPLIED),
            Call::Misses(5, &[2, 4, 5]),
            Call::Misses(2, &[2]),
            Call::Misses(1, &[]),
            Call::Misses(0, &[]),
            Call::MissesMany(LAST, 63, 2, 65),
        ],
    ),
    (
        "a lag counts sequences and seconds",
        &[
            Call::Opl(STATE_3, b"", HELD),
            Call::Opl(STATE_1, b"", APPLIED),
            Call::Lag(5, NEW_YEAR + 240, Ok(FOUR_BEHIND)),
            Call::Lag(1, NEW_YEAR, Ok(NOT_BEHIND)),
            Call::Lag(5, NEW_YEAR - 1, Err(LagError::TimeBehind)),
            Call::Lag(0, NEW_YEAR, Err(LagError::TopBehind)),
            Call::Lag(0, NEW_YEAR - 1, Err(LagError::TopBehind)),
        ],
    ),
    (
        "a new follower has no time to count from",
        &[Call::Lag(4, 1, Ok(NO_SECONDS))],
    ),
    (
        "a restart drops what is held",
        &[
            Call::Restart(Some(ONE_NODE), Ok(())),
            Call::Opl(STATE_3, b"", HELD),
            Call::Restart(Some(ONE_NODE), Ok(())),
            Call::IsHeld(3, false),
            Call::HoldsTheNode,
            Call::Save(ONE_NODE),
        ],
    ),
    (
        "a restart from nothing is at 0",
        &[
            Call::Restart(Some(ONE_NODE), Ok(())),
            Call::Restart(None, Ok(())),
            Call::HoldsNothing,
        ],
    ),
    (
        "a refused restart breaks the follower",
        &[
            Call::Restart(Some(ONE_NODE), Ok(())),
            Call::Restart(Some(b"osmrepl-save 1\nsequence 1\n"), BAD_SAVE),
            Call::Number(Err(Broken)),
            Call::Opl(STATE_2, b"", Err(DeliverError::Broken)),
            Call::Restart(Some(ONE_NODE), Ok(())),
            Call::Number(Ok(1)),
        ],
    ),
    (
        "the window ends with the last number",
        &[
            Call::Restart(Some(NEAR_THE_TOP), Ok(())),
            Call::MissesMany(LAST, 63, 999_999_937, LAST),
            Call::Opl(STATE_LAST, b"", HELD),
            Call::MissesMany(LAST, 62, 999_999_937, 999_999_998),
        ],
    ),
    (
        "the last number is applied",
        &[
            Call::Restart(Some(AT_THE_TOP), Ok(())),
            Call::Misses(LAST, &[LAST]),
            Call::Opl(STATE_LAST, b"", APPLIED_LAST),
            Call::Misses(LAST, &[]),
        ],
    ),
    (
        "a number past the top isn't missing while it is held",
        &[Call::Opl(STATE_2, b"", HELD), Call::Misses(2, &[1])],
    ),
];

#[test]
fn a_follower_answers_as_a_person_expects(rt: HostRuntime) {
    for (name, calls) in HISTORIES {
        assert!(rt; are_answered(rt.alloc(), calls), "{name}");
    }
}
