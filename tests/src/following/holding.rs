//! A test of the holding area: each call once, at the ends of its window.

use osm_holding::holding::{Held, HoldingArea};
use osm_model::batch::Batch;
use std::alloc::Global;

// Whether those are the numbers that are held.
fn has(alloc: Global, area: &HoldingArea, numbers: &[u32]) -> bool {
    match area.numbers(alloc) {
        Ok(held) => held.as_slice() == numbers,
        Err(_) => false,
    }
}

// Whether that number of the window after number 1 is free at first, and is held after `hold`.
fn holds(alloc: Global, area: &mut HoldingArea, number: u32, time: u32) -> bool {
    if area.reached() != 1 || number < 3 || 65 < number || area.is_held(number) {
        return false;
    }
    let batch = Batch::new(alloc);
    area.hold(number, Held { batch, time });
    area.is_held(number)
}

// Whether the area goes on from that number to the next one, which is free.
fn advances_from(area: &mut HoldingArea, number: u32) -> bool {
    let reached = area.reached();
    if reached != number || reached >= 999_999_999 || area.is_held(reached + 1) {
        return false;
    }
    area.advance();
    true
}

// The time of the next sequence, if it is held.
fn next_time(area: &mut HoldingArea) -> Option<u32> {
    match area.take_next() {
        Some(held) => Some(held.time),
        None => None,
    }
}

// Whether sequences that come early to an area at number 1 wait for their turn.
fn keeps_early_sequences(alloc: Global, area: &mut HoldingArea) -> bool {
    let is_new = has(alloc, area, [].as_slice());
    let are_held = holds(alloc, area, 65, 165) && holds(alloc, area, 3, 103);
    let are_listed = has(alloc, area, [3, 65].as_slice());
    let is_moved = advances_from(area, 1) && area.reached() == 2;
    let is_taken = next_time(area) == Some(103) && next_time(area).is_none();
    let is_left = has(alloc, area, [65].as_slice());
    is_new && are_held && are_listed && is_moved && is_taken && is_left
}

// Whether a reset drops what is held.
fn is_reset(alloc: Global, area: &mut HoldingArea) -> bool {
    area.reset(999_999_999);
    area.reached() == 999_999_999 && has(alloc, area, [].as_slice())
}

fn is_an_area(alloc: Global) -> bool {
    match HoldingArea::new(alloc, 1) {
        Ok(mut area) => { keeps_early_sequences(alloc, &mut area) && is_reset(alloc, &mut area) }
        Err(_) => false,
    }
}

#[test]
fn early_sequences_wait_for_their_turn(rt: HostRuntime) {
    assert!(rt; is_an_area(rt.alloc()));
}
