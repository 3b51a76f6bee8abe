//! Tests of the values of osm_model: refusals, calendar times, and the texts of faults.

use super::shown::is_shown;
use osm_model::change::{Change, ChangeError};
use osm_model::form::{FormError, Why};
use osm_model::lists::Tags;
use osm_model::meta::{Meta, OutOfRange};
use osm_model::text::{Text, TextError};
use osm_model::time::{time_read, time_write};
use std::alloc::{AllocError, Global};

fn meta(alloc: Global) -> Option<Meta> {
    let user = Text::new(alloc, "").ok()?;
    Meta::new(1, 1, 1, 1, user).ok()
}

// Why a node at that longitude isn't made.
fn node_refusal(alloc: Global, lon: i32) -> Option<ChangeError> {
    Change::node(1, meta(alloc)?, lon, 0, Tags::new(alloc)).err()
}

#[test]
fn a_node_past_the_date_line_is_refused(rt: HostRuntime) {
    let refused = node_refusal(rt.alloc(), 1_800_000_001);
    assert!(rt; refused == Some(ChangeError::OutOfRange));
    assert!(rt; node_refusal(rt.alloc(), 1_800_000_000).is_none());
}

// One byte more than a text can have, and then `end`.
fn long_string(alloc: Global, end: &str) -> Result<String, AllocError> {
    let mut long = String::new(alloc);
    for _ in 0..1_021 {
        long.push('a')?;
    }
    long.push_str(end)?;
    Ok(long)
}

fn is_long_refused(alloc: Global, end: &str, error: TextError) -> bool {
    match long_string(alloc, end) {
        Ok(long) => is_refused(alloc, long.as_str(), error),
        Err(_) => false,
    }
}

fn is_refused(alloc: Global, text: &str, error: TextError) -> bool {
    Text::new(alloc, text).err() == Some(error)
}

#[test]
fn texts_are_refused_by_what_is_wrong_with_them(rt: HostRuntime) {
    assert!(rt; is_refused(rt.alloc(), "a\0", TextError::HasNul));
    assert!(rt; is_long_refused(rt.alloc(), "", TextError::TooLong));
    assert!(rt; is_long_refused(rt.alloc(), "\0", TextError::HasNul));
}

// Days and times as a calendar and a clock give them.
#[test]
fn times_are_those_of_the_calendar(rt: HostRuntime) {
    for (text, seconds) in [
        ("1970-01-01T00:00:01Z", 1),
        ("2000-02-29T23:59:59Z", 951_868_799),
        ("2012-09-12T07:06:02Z", 1_347_433_562),
        ("2024-01-01T00:00:00Z", 1_704_067_200),
        ("2106-02-07T06:28:15Z", 4_294_967_295),
    ] {
        assert!(rt; time_read(text.as_bytes()) == Some(seconds), "{text}");
        assert!(rt; time_write(seconds).as_slice() == text.as_bytes(), "{text}");
    }
    assert_eq!(rt;
        time_write(0).as_slice(),
        b"1970-01-01T00:00:00Z".as_slice()
    );
    for text in [
        "1970-01-01T00:00:00Z",
        "1900-02-29T00:00:00Z",
        "2023-02-29T00:00:00Z",
        "2024-01-01T00:00:60Z",
        "2024-01-01T24:00:00Z",
        "2024-13-01T00:00:00Z",
        "2024-01-01 00:00:00Z",
        "2024-01-01T00:00:00",
        "2106-02-07T06:28:16Z",
    ] {
        assert!(rt; time_read(text.as_bytes()).is_none(), "{text}");
    }
}

#[test]
fn faults_are_their_names(rt: HostRuntime) {
    let alloc = rt.alloc();
    assert!(rt; is_shown(alloc, &TextError::HasNul, "HasNul"));
    assert!(rt; is_shown(alloc, &TextError::TooLong, "TooLong"));
    assert!(rt; is_shown(alloc, &OutOfRange, "OutOfRange"));
    assert!(rt; is_shown(alloc, &ChangeError::TooManyTags, "TooManyTags"));
    assert!(rt; is_shown(alloc, &ChangeError::TooManyRefs, "TooManyRefs"));
}

#[test]
fn faults_of_files_are_their_names(rt: HostRuntime) {
    let alloc = rt.alloc();
    let why = Why::BadReference;
    assert!(rt; is_shown(alloc, &FormError::Fault { place: 3, why }, "Fault"));
    assert!(rt; is_shown(alloc, &why, "BadReference"));
    assert!(rt; is_shown(alloc, &FormError::TooLarge, "TooLarge"));
}
