//! Tests of filters: which are refused, which objects they keep, and that copies are equal.

use super::shown::is_shown;
use osm_model::filter::{Filter, FilterError};
use osm_model::text::Text;
use osm_opl::lines::read_line;
use std::alloc::Global;

fn texts(alloc: Global, keys: &[&str]) -> Option<Vec<Text>> {
    let mut texts = Vec::new(alloc);
    for key in keys {
        texts.push(Text::new(alloc, key).ok()?).ok()?;
    }
    Some(texts)
}

// The keys `a`, `aa` and so on.
fn rising_keys(alloc: Global, count: usize) -> Option<Vec<Text>> {
    let mut key = String::new(alloc);
    let mut keys = Vec::new(alloc);
    for _ in 0..count {
        key.push('a').ok()?;
        keys.push(Text::new(alloc, key.as_str()).ok()?).ok()?;
    }
    Some(keys)
}

// Why there is no filter of ways with these keys.
fn refusal(alloc: Global, keys: &[&str]) -> Option<FilterError> {
    Filter::new(false, true, false, texts(alloc, keys)?).err()
}

fn refusal_of_many(alloc: Global, count: usize) -> Option<FilterError> {
    Filter::new(false, true, false, rising_keys(alloc, count)?).err()
}

fn refusal_without_kind(alloc: Global, count: usize) -> Option<FilterError> {
    Filter::new(false, false, false, rising_keys(alloc, count)?).err()
}

#[test]
fn a_filter_has_a_kind_and_at_most_100_keys_in_order(rt: HostRuntime) {
    let alloc = rt.alloc();
    assert!(rt; refusal_without_kind(alloc, 0) == Some(FilterError::NoKind));
    assert!(rt; refusal_without_kind(alloc, 101) == Some(FilterError::NoKind));
    assert!(rt; refusal_of_many(alloc, 101) == Some(FilterError::TooManyKeys));
    assert!(rt; refusal(alloc, &["b", "a"]) == Some(FilterError::Unsorted));
    assert!(rt; refusal(alloc, &["a", "a"]) == Some(FilterError::Unsorted));
    assert!(rt; refusal(alloc, &["a", "b", "c", "bb"]) == Some(FilterError::Unsorted));
}

// Whether there is a filter of ways with these keys, and its copy is equal to it.
fn is_copied(alloc: Global, keys: Option<Vec<Text>>) -> bool {
    let Some(keys) = keys else {
        return false;
    };
    match Filter::new(false, true, false, keys) {
        Ok(filter) => is_like_its_copy(alloc, &filter),
        Err(_) => false,
    }
}

fn is_like_its_copy(alloc: Global, filter: &Filter) -> bool {
    match filter.copy(alloc) {
        Ok(copy) => copy == *filter && copy.ways() && !copy.nodes() && !copy.relations(),
        Err(_) => false,
    }
}

#[test]
fn a_copy_is_equal_to_its_filter(rt: HostRuntime) {
    let alloc = rt.alloc();
    assert!(rt; is_copied(alloc, texts(alloc, &[])));
    assert!(rt; is_copied(alloc, texts(alloc, &["", "B", "a", "aa", "b", "ä"])));
    assert!(rt; is_copied(alloc, rising_keys(alloc, 100)));
}

// Whether a filter of ways with one key is equal to one of ways with another.
fn are_equal(alloc: Global, key: &str, other: &str) -> Option<bool> {
    let filter = Filter::new(false, true, false, texts(alloc, &[key])?).ok()?;
    let other = Filter::new(false, true, false, texts(alloc, &[other])?).ok()?;
    Some(filter == other && filter != Filter::all(alloc))
}

#[test]
fn filters_are_told_apart_by_their_keys(rt: HostRuntime) {
    assert!(rt; are_equal(rt.alloc(), "highway", "highway") == Some(true));
    assert!(rt; are_equal(rt.alloc(), "highway", "high") == Some(false));
}

// Whether the change of a line is kept.
fn keeps(alloc: Global, filter: &Filter, line: &[u8]) -> Option<bool> {
    Some(filter.keeps(&read_line(alloc, line).ok()?))
}

fn ways_keep(alloc: Global, keys: &[&str], line: &[u8]) -> Option<bool> {
    let filter = Filter::new(false, true, false, texts(alloc, keys)?).ok()?;
    keeps(alloc, &filter, line)
}

const NODE: &[u8] = b"n1 v1 dV c7 t2024-01-01T00:00:00Z i5 uann Thighway=stop x1 y2";

const WAY: &[u8] = b"w10 v1 dV c7 t2024-01-01T00:00:00Z i5 uann Thighway=path Nn1,n2,n5";

const DELETED_WAY: &[u8] = b"w10 v2 dD c7 t2024-01-01T00:00:00Z i5 uann Thighway=path Nn1";

const RELATION: &[u8] = b"r3 v1 dV c7 t2024-01-01T00:00:00Z i5 uann T Mn1@,w10@outer,n4@";

#[test]
fn ways_are_kept_by_a_key_whatever_its_value(rt: HostRuntime) {
    let cases: [(&[u8], bool); 10] = [
        (WAY, true),
        (
            b"w10 v1 dV c7 t2024-01-01T00:00:00Z i5 uann Thighway= N",
            true,
        ),
        (
            b"w10 v1 dV c7 t2024-01-01T00:00:00Z i5 uann Ta=b,highway=x,c=d N",
            true,
        ),
        (
            b"w10 v1 dV c7 t2024-01-01T00:00:00Z i5 uann Tname=highway N",
            false,
        ),
        (
            b"w10 v1 dV c7 t2024-01-01T00:00:00Z i5 uann Thighway:lanes=2 N",
            false,
        ),
        (
            b"w10 v1 dV c7 t2024-01-01T00:00:00Z i5 uann Thigh=2 N",
            false,
        ),
        (
            b"w10 v1 dV c7 t2024-01-01T00:00:00Z i5 uann T Nn1,n2",
            false,
        ),
        (NODE, false),
        (DELETED_WAY, false),
        (RELATION, false),
    ];
    for (line, is_kept) in cases {
        assert_eq!(rt; ways_keep(rt.alloc(), &["highway"], line), Some(is_kept));
        assert_eq!(rt;
            ways_keep(rt.alloc(), &["addr:street", "highway", "z"], line),
            Some(is_kept)
        );
    }
}

#[test]
fn without_keys_objects_are_kept_by_their_kind(rt: HostRuntime) {
    let alloc = rt.alloc();
    let all = Filter::all(alloc);
    for (line, of_ways, of_all) in [
        (NODE, false, true),
        (WAY, true, true),
        (DELETED_WAY, false, false),
        (RELATION, false, true),
    ] {
        assert_eq!(rt; ways_keep(alloc, &[], line), Some(of_ways));
        assert_eq!(rt; keeps(alloc, &all, line), Some(of_all));
    }
}

#[test]
fn the_texts_of_refusals_are_their_names(rt: HostRuntime) {
    assert!(rt; is_shown(rt.alloc(), &FilterError::NoKind, "NoKind"));
    assert!(rt; is_shown(rt.alloc(), &FilterError::TooManyKeys, "TooManyKeys"));
    assert!(rt; is_shown(rt.alloc(), &FilterError::Unsorted, "Unsorted"));
}
