//! Calls of a follower.

use crate::answers::Answers;
use crate::filters::filter_of;
use crate::subject::Subject;
use osm_follow::follower::{Follower, saved_filter};
use osm_model::change::Change;
use osm_model::filter::Filter;
use osm_model::form::ChangeForm;
use osm_model::memory::WantOfMemory;
use osm_o5c::o5c::O5c;
use osm_opl::data::read_data;
use osm_opl::opl::Opl;
use osm_reading::pieces::cut;
use osm_script::show::write_view;
use osm_state::state::State;
use osm_state::state_text::state_read;
use std::alloc::Global;
use std::mem::replace;

/// A follower, and a filter and objects that one begins with.
#[derive(Drop)]
pub(crate) struct Following {
    follower: Follower,
    filter: Filter,
    objects: Vec<Change>,
}

/// A call, or what is prepared for one.
#[derive(Clone, Copy)]
pub(crate) enum Call {
    Filter,
    Objects,
    Show,
    Mend,
    New,
    WithFilter,
    Begin,
    BeginWith,
    FromSave,
    SavedFilter,
    /// A call of the follower that is there.
    Ask(Ask),
}

#[derive(Clone, Copy)]
pub(crate) enum Ask {
    DeliverOpl,
    DeliverO5c,
    Missing,
    Save,
    Restart,
    RestartFromNothing,
}

const CALLS: &[(&str, Call)] = &[
    ("filter", Call::Filter),
    ("objects", Call::Objects),
    ("show", Call::Show),
    ("mend", Call::Mend),
    ("Follower::new", Call::New),
    ("Follower::with_filter", Call::WithFilter),
    ("Follower::begin", Call::Begin),
    ("Follower::begin_with", Call::BeginWith),
    ("Follower::from_save", Call::FromSave),
    ("saved_filter", Call::SavedFilter),
    ("Follower::deliver::<Opl>", Call::Ask(Ask::DeliverOpl)),
    ("Follower::deliver::<O5c>", Call::Ask(Ask::DeliverO5c)),
    ("Follower::missing", Call::Ask(Ask::Missing)),
    ("Follower::view", Call::Show),
    ("Follower::save", Call::Ask(Ask::Save)),
    ("Follower::restart", Call::Ask(Ask::Restart)),
    ("restart-from-nothing", Call::Ask(Ask::RestartFromNothing)),
];

impl Subject for Following {
    type Call = Call;

    fn begin(alloc: Global) -> Result<Following, WantOfMemory> {
        let follower = Follower::new(alloc)?;
        Ok(Following {
            follower,
            filter: Filter::all(alloc),
            objects: Vec::new(alloc),
        })
    }

    fn calls() -> &'static [(&'static str, Call)] {
        CALLS
    }

    fn take(&mut self, alloc: Global, call: Call, given: &[u8], out: &mut Answers) {
        match call {
            Call::Filter => out.put(filter_of(alloc, given), &mut self.filter),
            Call::Objects => out.put(read_data(alloc, given).ok(), &mut self.objects),
            Call::Show => show(alloc, &self.follower, out),
            Call::Mend => mend(alloc, &mut self.follower, given, out),
            Call::New => out.put_or(Follower::new(alloc), &mut self.follower),
            Call::WithFilter => self.with_filter(alloc, out),
            Call::Begin => self.begin_at(alloc, given, out),
            Call::BeginWith => self.begin_with(alloc, given, out),
            Call::FromSave => out.put_or(Follower::from_save(alloc, given), &mut self.follower),
            Call::SavedFilter => write_filter(alloc, given, out),
            Call::Ask(ask) => self.ask(alloc, ask, given, out),
        }
    }
}

impl Following {
    fn ask(&mut self, alloc: Global, ask: Ask, given: &[u8], out: &mut Answers) {
        let follower = &mut self.follower;
        match ask {
            Ask::DeliverOpl => deliver::<Opl>(alloc, follower, given, out),
            Ask::DeliverO5c => deliver::<O5c>(alloc, follower, given, out),
            Ask::Missing => missing(alloc, follower, given, out),
            Ask::Save => out.bytes(follower.save(alloc)),
            Ask::Restart => out.done(follower.restart(alloc, Some(given))),
            Ask::RestartFromNothing => out.done(follower.restart(alloc, None)),
        }
    }

    fn take_filter(&mut self, alloc: Global) -> Filter {
        replace(&mut self.filter, Filter::all(alloc))
    }

    fn take_objects(&mut self, alloc: Global) -> Vec<Change> {
        replace(&mut self.objects, Vec::new(alloc))
    }

    fn with_filter(&mut self, alloc: Global, out: &mut Answers) {
        let filter = self.take_filter(alloc);
        out.put_or(Follower::with_filter(alloc, filter), &mut self.follower)
    }

    // Begins with the objects at the sequence of a state text.
    fn begin_at(&mut self, alloc: Global, state: &[u8], out: &mut Answers) {
        let Some(state) = state_of(state, out) else {
            return;
        };
        let objects = self.take_objects(alloc);
        out.put_or(Follower::begin(alloc, &state, objects), &mut self.follower)
    }

    // Begins in the same way, under the filter.
    fn begin_with(&mut self, alloc: Global, state: &[u8], out: &mut Answers) {
        let Some(state) = state_of(state, out) else {
            return;
        };
        let filter = self.take_filter(alloc);
        let objects = self.take_objects(alloc);
        let begun = Follower::begin_with(alloc, filter, &state, objects);
        out.put_or(begun, &mut self.follower)
    }
}

fn state_of(text: &[u8], out: &mut Answers) -> Option<State> {
    let state = state_read(text).ok();
    if state.is_none() {
        out.fail("no state");
    }
    state
}

/// The show text of a follower, or why it has no view.
pub(crate) fn show(alloc: Global, follower: &Follower, out: &mut Answers) {
    match follower.view(alloc) {
        Ok(view) => {
            let written = write_view(&view, &mut out.text);
            out.expect(written);
        }
        Err(error) => out.debug(&error),
    }
}

// Restarts a follower that is broken from the save.
fn mend(alloc: Global, follower: &mut Follower, save: &[u8], out: &mut Answers) {
    if follower.is_broken() {
        out.done(follower.restart(alloc, Some(save)));
    } else {
        out.add(b"whole\n");
    }
}

// How many keys the filter of a save text has, or why there is none.
fn write_filter(alloc: Global, save: &[u8], out: &mut Answers) {
    match saved_filter(alloc, save) {
        Ok(filter) => {
            out.show(filter.keys().len());
            out.add(b" keys\n");
        }
        Err(error) => out.debug(&error),
    }
}

// Delivers a state text and a change file, which has a byte 0 before it.
fn deliver<F: ChangeForm>(alloc: Global, follower: &mut Follower, given: &[u8], out: &mut Answers) {
    let (state, file) = cut(given, 0);
    let Some(file) = file else {
        return out.fail("no change file");
    };
    match follower.deliver::<F>(alloc, state, file) {
        Ok(delivered) => out.debug(&delivered),
        Err(error) => out.debug(&error),
    }
}

// The numbers that are missing up to that of a state text.
fn missing(alloc: Global, follower: &Follower, state: &[u8], out: &mut Answers) {
    match state_read(state) {
        Ok(state) => out.list(follower.missing(alloc, &state)),
        Err(_) => out.fail("no state"),
    }
}
