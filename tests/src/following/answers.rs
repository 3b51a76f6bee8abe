//! Calls of a follower, each with its answer.

use osm_follow::delivery::{DeliverError, Delivered};
use osm_follow::follower::{Broken, Follower};
use osm_follow::lag::{Lag, LagError};
use osm_follow::restart::RestartError;
use osm_model::form::ChangeForm;
use osm_model::kind::{Key, Kind};
use osm_o5c::o5c::O5c;
use osm_opl::opl::Opl;
use osm_state::state::State;
use std::alloc::Global;

/// A call of a follower and its answer.
pub enum Call<'a> {
    /// A delivery of a state file and an OPL file.
    Opl(&'a [u8], &'a [u8], Result<Delivered, DeliverError>),
    /// A delivery of a state file and an o5c file.
    O5c(&'a [u8], &'a [u8], Result<Delivered, DeliverError>),
    /// A restart from a save, or from nothing.
    Restart(Option<&'a [u8]>, Result<(), RestartError>),
    /// The follower's save.
    Save(&'a [u8]),
    /// The follower's number.
    Number(Result<u32, Broken>),
    /// Whether a number is held.
    IsHeld(u32, bool),
    /// The follower is at sequence 1, holds only node 1, and counts its one edit.
    HoldsTheNode,
    /// The follower is at number 0 and holds nothing.
    HoldsNothing,
    /// The numbers that are missing up to the top.
    Misses(u32, &'a [u32]),
    /// How many numbers are missing up to the top, with the first and the last of them.
    MissesMany(u32, usize, u32, u32),
    /// How far the follower is behind the number and time at the top.
    Lag(u32, u32, Result<Lag, LagError>),
}

/// Whether a new follower gives those answers to the calls, one after the other.
pub fn are_answered(alloc: Global, calls: &[Call]) -> bool {
    let Ok(mut follower) = Follower::new(alloc) else {
        return false;
    };
    answers_all(alloc, &mut follower, calls)
}

fn answers_all(alloc: Global, follower: &mut Follower, calls: &[Call]) -> bool {
    for call in calls {
        if !answers(alloc, follower, call) {
            return false;
        }
    }
    true
}

fn answers(alloc: Global, follower: &mut Follower, call: &Call) -> bool {
    match call {
        Call::Opl(state, file, answer) => {
            follower.deliver::<Opl>(alloc, *state, *file) == *answer
        }
        Call::O5c(state, file, answer) => {
            follower.deliver::<O5c>(alloc, *state, *file) == *answer
        }
        Call::Restart(save, answer) => follower.restart(alloc, *save) == *answer,
        shown => shows(alloc, follower, shown),
    }
}

// Whether a follower shows that.
fn shows(alloc: Global, follower: &Follower, call: &Call) -> bool {
    match call {
        Call::Save(text) => saves(alloc, follower, *text),
        Call::Number(number) => follower.number() == *number,
        Call::IsHeld(number, is_held) => follower.is_held(*number) == Ok(*is_held),
        Call::HoldsTheNode => holds_the_node(follower) == Ok(true),
        Call::HoldsNothing => holds_nothing(follower) == Ok(true),
        Call::Misses(top, numbers) => misses(alloc, follower, *top, *numbers),
        Call::MissesMany(top, count, first, last) => {
            misses_many(alloc, follower, *top, (*count, *first, *last))
        }
        Call::Lag(top, time, lag) => lags(follower, (*top, *time), *lag),
        _ => false,
    }
}

fn saves(alloc: Global, follower: &Follower, text: &[u8]) -> bool {
    match follower.save(alloc) {
        Ok(save) => save.as_slice() == text,
        Err(_) => false,
    }
}

fn node(id: i64) -> Key {
    Key {
        kind: Kind::Node,
        id,
    }
}

fn holds_the_node(follower: &Follower) -> Result<bool, Broken> {
    let is_there = follower.get(node(1))?.is_some() && follower.get(node(2))?.is_none();
    let is_counted = follower.user_count(5)? == 1 && follower.changeset_count(7)? == 1;
    let is_alone = follower.user_count(7)? == 0;
    let is_first = follower.number()? == 1 && follower.time()? == Some(1_704_067_200);
    Ok(is_there && is_counted && is_alone && is_first && !follower.is_broken())
}

fn holds_nothing(follower: &Follower) -> Result<bool, Broken> {
    Ok(follower.number()? == 0 && follower.time()?.is_none() && follower.user_count(5)? == 0)
}

fn misses(alloc: Global, follower: &Follower, top: u32, numbers: &[u32]) -> bool {
    let Some(state) = State::new(top, 1) else {
        return false;
    };
    match follower.missing(alloc, &state) {
        Ok(missing) => missing.as_slice() == numbers,
        Err(_) => false,
    }
}

fn misses_many(alloc: Global, follower: &Follower, top: u32, numbers: (usize, u32, u32)) -> bool {
    let Some(state) = State::new(top, 1) else {
        return false;
    };
    match follower.missing(alloc, &state) {
        Ok(missing) => is_range(missing.as_slice(), numbers),
        Err(_) => false,
    }
}

fn is_range(numbers: &[u32], (count, first, last): (usize, u32, u32)) -> bool {
    let are_ends = numbers.first() == Some(&first) && numbers.last() == Some(&last);
    numbers.len() == count && are_ends
}

fn lags(follower: &Follower, (top, time): (u32, u32), lag: Result<Lag, LagError>) -> bool {
    match State::new(top, time) {
        Some(state) => follower.lag(&state) == lag,
        None => false,
    }
}
