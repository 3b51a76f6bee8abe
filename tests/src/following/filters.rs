//! Tests of followers and worlds with a filter: which saves they restart from, and which objects
//! they keep when they begin.

use osm_follow::follower::{Broken, Follower, saved_filter};
use osm_follow::restart::RestartError;
use osm_model::change::Change;
use osm_model::filter::Filter;
use osm_model::text::Text;
use osm_opl::lines::read_line;
use osm_script::replies::write_replies;
use osm_script::script::parse_script;
use osm_state::state_text::state_read;
use osm_world::event::{Event, Reply};
use osm_world::world::{Run, World};
use std::alloc::Global;

// A node of user 5.
const NODE: &[u8] = b"n1 v1 dV c7 t2024-01-01T00:00:00Z i5 uann T x1 y2";

const STATE_1: &[u8] = b"sequenceNumber=1\ntimestamp=2024-01-01T00:00:00Z\n";

// Saves at sequence 1 of an empty mirror, of each version.
const SAVE_1: &[u8] = b"osmrepl-save 1\nsequence 1\ntime 2024-01-01T00:00:00Z\n\
    objects 0\nusers 0\nchangesets 0\nend\n";

const SAVE_2: &[u8] = b"osmrepl-save 2\nbase 0\nsequence 1\ntime 2024-01-01T00:00:00Z\n\
    objects 0\nusers 0\nchangesets 0\nend\n";

const SAVE_OF_ALL: &[u8] = b"osmrepl-save 3\nbase 0\nkinds nwr\nkeys 0\nsequence 1\n\
    time 2024-01-01T00:00:00Z\nobjects 0\nusers 0\nchangesets 0\nend\n";

const SAVE_OF_WAYS: &[u8] = b"osmrepl-save 3\nbase 0\nkinds w\nkeys 0\nsequence 1\n\
    time 2024-01-01T00:00:00Z\nobjects 0\nusers 0\nchangesets 0\nend\n";

const SAVE_OF_HIGHWAYS: &[u8] = b"osmrepl-save 3\nbase 0\nkinds w\nkeys 1\nhighway\nsequence 1\n\
    time 2024-01-01T00:00:00Z\nobjects 0\nusers 0\nchangesets 0\nend\n";

const SAVE_OF_TWO_KEYS: &[u8] = b"osmrepl-save 3\nbase 0\nkinds w\nkeys 2\nhighway\nname\n\
    sequence 1\ntime 2024-01-01T00:00:00Z\nobjects 0\nusers 0\nchangesets 0\nend\n";

// Filters: whether nodes, ways and relations are kept, and the key; and the saves that a follower
// with that filter restarts from.
const RESTARTS: [((bool, bool, bool), Option<&str>, &[&[u8]]); 4] = [
    ((true, true, true), None, &[SAVE_1, SAVE_2, SAVE_OF_ALL]),
    ((true, true, true), Some("highway"), &[]),
    ((false, true, false), None, &[SAVE_OF_WAYS]),
    ((false, true, false), Some("highway"), &[SAVE_OF_HIGHWAYS]),
];

const SAVES: [&[u8]; 6] = [
    SAVE_1,
    SAVE_2,
    SAVE_OF_ALL,
    SAVE_OF_WAYS,
    SAVE_OF_HIGHWAYS,
    SAVE_OF_TWO_KEYS,
];

fn filter_of(alloc: Global, kinds: (bool, bool, bool), key: Option<&str>) -> Option<Filter> {
    let mut keys = Vec::new(alloc);
    if let Some(key) = key {
        keys.push(Text::new(alloc, key).ok()?).ok()?;
    }
    Filter::new(kinds.0, kinds.1, kinds.2, keys).ok()
}

// Whether a follower with the filter restarts from the save exactly if it is one of `its`, and is
// broken otherwise; and whether it still has its filter then, and starts again from nothing.
fn restarts_from(alloc: Global, filter: Filter, save: &[u8], its: &[&[u8]]) -> Option<bool> {
    let kept = filter.copy(alloc).ok()?;
    let mut follower = Follower::with_filter(alloc, filter).ok()?;
    let answer = follower.restart(alloc, Some(save));
    let is_right = if its.contains(&save) {
        answer == Ok(()) && follower.number() == Ok(1)
    } else {
        answer == Err(RestartError::OtherFilter) && follower.number() == Err(Broken)
    };
    let is_same = *follower.filter() == kept;
    let is_new = follower.restart(alloc, None) == Ok(()) && follower.number() == Ok(0);
    Some(is_right && is_same && is_new && *follower.filter() == kept)
}

fn restarts_from_its_own(
    alloc: Global,
    kinds: (bool, bool, bool),
    key: Option<&str>,
    save: &[u8],
    its: &[&[u8]],
) -> bool {
    let Some(filter) = filter_of(alloc, kinds, key) else {
        return false;
    };
    restarts_from(alloc, filter, save, its) == Some(true)
}

#[test]
fn a_follower_restarts_only_from_a_save_of_its_filter(rt: HostRuntime) {
    for (kinds, key, its) in RESTARTS {
        for save in SAVES {
            assert!(rt;
                restarts_from_its_own(rt.alloc(), kinds, key, save, its),
                "{kinds:?}"
            );
        }
    }
}

fn one_node(alloc: Global) -> Option<Vec<Change>> {
    let mut objects = Vec::new(alloc);
    objects.push(read_line(alloc, NODE).ok()?).ok()?;
    Some(objects)
}

// How many objects a follower has that begins with the node.
fn left_of_the_node(alloc: Global, kinds: (bool, bool, bool), key: Option<&str>) -> Option<usize> {
    let filter = filter_of(alloc, kinds, key)?;
    let state = state_read(STATE_1).ok()?;
    let follower = Follower::begin_with(alloc, filter, &state, one_node(alloc)?).ok()?;
    let view = follower.view(alloc).ok()?;
    Some(view.objects().len())
}

#[test]
fn a_follower_begins_with_what_its_filter_keeps(rt: HostRuntime) {
    let nodes = (true, false, false);
    assert!(rt; left_of_the_node(rt.alloc(), nodes, None) == Some(1));
    assert!(rt; left_of_the_node(rt.alloc(), nodes, Some("highway")) == Some(0));
    assert!(rt; left_of_the_node(rt.alloc(), (false, true, true), None) == Some(0));
}

// Whether a world of ways publishes the node, begins with it, and shows no object.
fn shows_no_object(alloc: Global) -> Option<bool> {
    let filter = filter_of(alloc, (false, true, false), None)?;
    let mut world = World::with_filter(alloc, filter).ok()?;
    let node = read_line(alloc, NODE).ok()?;
    let is_edited = matches!(world.step(Event::Edit(node)), Reply::Edited);
    let is_closed = matches!(world.step(Event::Close(1_704_067_200)), Reply::Closed(1));
    let is_begun = matches!(world.step(Event::Begin(1)), Reply::Begun(1));
    let Reply::Shown(view) = world.step(Event::Show) else {
        return None;
    };
    let are_ways = world.follower().filter().ways() && !world.follower().filter().nodes();
    Some(is_edited && is_closed && is_begun && are_ways && view.objects().is_empty())
}

#[test]
fn a_world_keeps_its_filter_when_its_follower_begins(rt: HostRuntime) {
    assert!(rt; shows_no_object(rt.alloc()) == Some(true));
}

// A node and a way, and then the way without its tag.
const HIGHWAYS: &[u8] = b"edit n1 v1 dV c7 t2024-01-01T00:00:00Z i5 uann T x1 y2\n\
    edit w10 v1 dV c7 t2024-01-01T00:00:00Z i5 uann Thighway=path Nn1,n2,n5\n\
    close 2024-01-01T00:00:00Z\n\
    edit w10 v2 dV c7 t2024-01-01T00:00:00Z i5 uann T Nn1,n2,n5\n\
    close 2024-01-01T00:01:00Z\n\
    deliver 1 opl\nshow\ndeliver 2 o5c\nshow\n";

const REPLIES: &[u8] = b"edited\nedited\nclosed 1\nedited\nclosed 2\n\
    applied 1..1\nnumber 1\ntime 2024-01-01T00:00:00Z\nobjects 1\n\
    w10 v1 dV c7 t2024-01-01T00:00:00Z i5 uann Thighway=path Nn1,n2,n5\n\
    users 1\n5 2\nchangesets 1\n7 2\nheld 0\n\
    applied 2..2\nnumber 2\ntime 2024-01-01T00:01:00Z\nobjects 0\n\
    users 1\n5 3\nchangesets 1\n7 3\nheld 0\n";

const SAVE_AFTER_BOTH: &[u8] = b"osmrepl-save 3\nbase 0\nkinds w\nkeys 1\nhighway\nsequence 2\n\
    time 2024-01-01T00:01:00Z\nobjects 0\nusers 1\n5 3\nchangesets 1\n7 3\nend\n";

fn highways(alloc: Global) -> Option<Filter> {
    filter_of(alloc, (false, true, false), Some("highway"))
}

fn run_of_highways(alloc: Global) -> Option<Run> {
    let filter = highways(alloc)?;
    let events = parse_script(alloc, HIGHWAYS).ok()?;
    World::run_with(alloc, filter, events).ok()
}

fn are_the_replies(alloc: Global, replies: &[Reply]) -> bool {
    match write_replies(alloc, replies) {
        Ok(text) => text.as_slice() == REPLIES,
        Err(_) => false,
    }
}

fn is_the_save(alloc: Global, follower: &Follower) -> bool {
    match follower.save(alloc) {
        Ok(save) => save.as_slice() == SAVE_AFTER_BOTH,
        Err(_) => false,
    }
}

fn is_answered_and_saved(alloc: Global) -> bool {
    match run_of_highways(alloc) {
        Some(run) => {
            let is_saved = is_the_save(alloc, run.world.follower());
            is_saved && are_the_replies(alloc, run.replies.as_slice())
        }
        None => false,
    }
}

// Whether the save's filter is that of highways, and its copy too.
fn is_saved_with_its_filter(alloc: Global) -> Option<bool> {
    let filter = highways(alloc)?;
    let saved = saved_filter(alloc, SAVE_AFTER_BOTH).ok()?;
    let copy = saved.copy(alloc).ok()?;
    Some(saved == filter && copy == filter)
}

fn number_after_a_restart(alloc: Global) -> Option<u32> {
    let mut follower = Follower::with_filter(alloc, highways(alloc)?).ok()?;
    follower.restart(alloc, Some(SAVE_AFTER_BOTH)).ok()?;
    follower.number().ok()
}

#[test]
fn a_world_of_highways_drops_a_way_without_its_tag_and_counts_all_edits(rt: HostRuntime) {
    assert!(rt; is_answered_and_saved(rt.alloc()));
    assert!(rt; is_saved_with_its_filter(rt.alloc()) == Some(true));
    assert!(rt; number_after_a_restart(rt.alloc()) == Some(2));
}
