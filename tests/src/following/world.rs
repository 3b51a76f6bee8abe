//! A test of the world: the events of a script, one by one.

use super::publisher::{NODE, is_the_node};
use osm_follow::view::View;
use osm_opl::lines::read_line;
use osm_world::event::{Event, Form, Reply};
use osm_world::world::World;
use std::alloc::Global;

const NEW_YEAR: u32 = 1_704_067_200;

fn edits_the_node(alloc: Global, world: &mut World) -> bool {
    match read_line(alloc, NODE) {
        Ok(change) => matches!(world.step(Event::Edit(change)), Reply::Edited),
        Err(_) => false,
    }
}

// Whether a close is refused for its time, and the next one publishes the first sequence.
fn closes_at_last(world: &mut World) -> bool {
    let is_back = matches!(world.step(Event::Close(0)), Reply::TimeBack);
    is_back && matches!(world.step(Event::Close(NEW_YEAR)), Reply::Closed(1))
}

// Whether the world has archived the node's sequence, and no other.
fn has_archived_the_node(world: &World) -> bool {
    let is_alone = world.published(0).is_none() && world.published(2).is_none();
    let is_there = match world.published(1) {
        Some(published) => is_the_node(published),
        None => false,
    };
    is_alone && is_there
}

fn delivers(world: &mut World, form: Form) -> bool {
    let reply = world.step(Event::Deliver { number: 1, form });
    matches!(reply, Reply::Applied { low: 1, high: 1 })
}

// Whether that is the view of a follower at sequence 1 that holds the node.
fn is_of_the_node(view: &View) -> bool {
    let is_first = view.number() == 1 && view.time() == Some(NEW_YEAR);
    let are_users = view.users() == [(5, 1)].as_slice();
    let are_changesets = view.changesets() == [(7, 1)].as_slice();
    let is_counted = are_users && are_changesets;
    is_first && is_counted && view.objects().len() == 1 && view.held().is_empty()
}

fn shows_the_node(world: &mut World) -> bool {
    match world.step(Event::Show) {
        Reply::Shown(view) => is_of_the_node(&view),
        _ => false,
    }
}

fn takes_the_events(alloc: Global, world: &mut World, form: Form) -> bool {
    let is_closed = edits_the_node(alloc, world) && closes_at_last(world);
    let is_applied = has_archived_the_node(world) && delivers(world, form);
    let are_first = world.publisher().number() == 1 && world.follower().number() == Ok(1);
    is_closed && is_applied && are_first && shows_the_node(world)
}

fn a_world_takes_the_events(alloc: Global, form: Form) -> bool {
    match World::new(alloc) {
        Ok(mut world) => takes_the_events(alloc, &mut world, form),
        Err(_) => false,
    }
}

#[test]
fn a_world_takes_the_events_of_a_script_one_by_one(rt: HostRuntime) {
    for form in [Form::Opl, Form::O5c] {
        assert!(rt; a_world_takes_the_events(rt.alloc(), form), "{form:?}");
    }
}
