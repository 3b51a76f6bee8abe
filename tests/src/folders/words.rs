//! Tests of arguments that no command line passes on: empty ones, and a key with a NUL.

use osm_runs::data_form::data_form_of;
use osm_runs::fault::RunFault;
use osm_runs::filters::filter_of;
use osm_runs::form::form_of;
use osm_publishing::publish_as::publish_as_run;
use osm_model::filter::Filter;
use osm_model::text::Text;
use osm_store::memory_store::MemoryStore;
use osm_store::stopping_store::StoppingStore;
use std::alloc::Global;

#[test]
fn an_empty_name_tells_no_form(rt: HostRuntime) {
    assert!(rt; form_of("").is_none() && data_form_of("").is_none());
}

// Why a publication with that number is refused, over a store that takes no call.
fn refusal_of(alloc: Global, sequence: &str) -> Option<RunFault> {
    let mut stopping = StoppingStore::new(MemoryStore::new(alloc), 0);
    publish_as_run(
        alloc,
        &mut stopping,
        "dir",
        "changes",
        "2024-01-01T00:00:00Z",
        sequence,
    )
    .err()
}

#[test]
fn an_empty_number_is_refused_before_any_call(rt: HostRuntime) {
    assert!(rt; refusal_of(rt.alloc(), "") == Some(RunFault::BadSequence));
}

fn are_texts(texts: &[Text], words: &[&str]) -> bool {
    if texts.len() != words.len() {
        return false;
    }
    for (text, word) in texts.iter().zip(words) {
        if text.as_str() != *word {
            return false;
        }
    }
    true
}

// Whether the filter keeps the ways with these keys.
fn is_of_ways(filter: &Filter, keys: &[&str]) -> bool {
    let are_ways = !filter.nodes() && filter.ways() && !filter.relations();
    are_ways && are_texts(filter.keys(), keys)
}

fn makes(alloc: Global, words: &[&str], keys: &[&str]) -> bool {
    match filter_of(alloc, "w", words) {
        Ok(filter) => is_of_ways(&filter, keys),
        Err(_) => false,
    }
}

#[test]
fn an_empty_key_comes_first_and_one_with_a_nul_is_refused(rt: HostRuntime) {
    assert!(rt; makes(rt.alloc(), &["ab", "a", "", "b"], &["", "a", "ab", "b"]));
    assert!(rt; filter_of(rt.alloc(), "w", &["a", "b\0"]).err() == Some(RunFault::BadFilter));
}
