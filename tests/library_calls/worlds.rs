//! Calls of a world.

use crate::answers::Answers;
use crate::filters::filter_of;
use crate::followers;
use crate::publishers::write_published;
use crate::subject::Subject;
use osm_model::filter::Filter;
use osm_model::memory::WantOfMemory;
use osm_script::replies::write_replies;
use osm_script::script::parse_script;
use osm_world::event::{Event, Reply};
use osm_world::world::{Run, World};
use std::alloc::Global;
use std::mem::replace;

/// A world, a filter and events for one, and its replies since they were told.
#[derive(Drop)]
pub(crate) struct Worlds {
    world: World,
    filter: Option<Filter>,
    events: Vec<Event>,
    replies: Vec<Reply>,
}

/// A call, or what is prepared for one.
#[derive(Clone, Copy)]
pub(crate) enum Call {
    Filter,
    Events,
    Reply,
    Show,
    New,
    WithFilter,
    Run,
    RunWith,
    Step,
}

const CALLS: &[(&str, Call)] = &[
    ("filter", Call::Filter),
    ("events", Call::Events),
    ("reply", Call::Reply),
    ("show", Call::Show),
    ("World::new", Call::New),
    ("World::with_filter", Call::WithFilter),
    ("World::run", Call::Run),
    ("World::run_with", Call::RunWith),
    ("World::step", Call::Step),
];

impl Subject for Worlds {
    type Call = Call;

    fn begin(alloc: Global) -> Result<Worlds, WantOfMemory> {
        let replies = Vec::with_capacity(alloc, 100)?;
        Ok(Worlds {
            world: World::new(alloc)?,
            filter: None,
            events: Vec::new(alloc),
            replies,
        })
    }

    fn calls() -> &'static [(&'static str, Call)] {
        CALLS
    }

    fn take(&mut self, alloc: Global, call: Call, given: &[u8], out: &mut Answers) {
        match call {
            Call::Filter => out.put_some(filter_of(alloc, given), &mut self.filter),
            Call::Events => out.put(parse_script(alloc, given).ok(), &mut self.events),
            Call::Reply => self.reply(alloc, out),
            Call::Show => self.show(alloc, out),
            Call::New => out.put_or(World::new(alloc), &mut self.world),
            Call::WithFilter => self.with_filter(alloc, out),
            Call::Run => self.run(alloc, out),
            Call::RunWith => self.run_with(alloc, out),
            Call::Step => self.step(out),
        }
    }
}

impl Worlds {
    fn take_events(&mut self, alloc: Global) -> Vec<Event> {
        replace(&mut self.events, Vec::new(alloc))
    }

    fn with_filter(&mut self, alloc: Global, out: &mut Answers) {
        match self.filter.take() {
            Some(filter) => out.put_or(World::with_filter(alloc, filter), &mut self.world),
            None => out.fail("no filter"),
        }
    }

    fn run(&mut self, alloc: Global, out: &mut Answers) {
        let events = self.take_events(alloc);
        self.keep(World::run(alloc, events), out);
    }

    fn run_with(&mut self, alloc: Global, out: &mut Answers) {
        match self.filter.take() {
            Some(filter) => {
                let events = self.take_events(alloc);
                self.keep(World::run_with(alloc, filter, events), out);
            }
            None => out.fail("no filter"),
        }
    }

    // A world after all the events, in place of the old one.
    fn keep(&mut self, answer: Result<Run, WantOfMemory>, out: &mut Answers) {
        match answer {
            Ok(run) => {
                self.world = run.world;
                for reply in run.replies {
                    self.keep_reply(reply, out);
                }
            }
            Err(error) => out.debug(&error),
        }
    }

    fn keep_reply(&mut self, reply: Reply, out: &mut Answers) {
        if self.replies.push(reply).is_err() {
            out.fail("no room for a reply");
        }
    }

    // Takes the last event, and keeps the reply.
    fn step(&mut self, out: &mut Answers) {
        match self.events.pop() {
            Some(event) => {
                let reply = self.world.step(event);
                self.keep_reply(reply, out);
            }
            None => out.fail("no event"),
        }
    }

    // The replies that were kept, which are then dropped.
    fn reply(&mut self, alloc: Global, out: &mut Answers) {
        match write_replies(alloc, self.replies.as_slice()) {
            Ok(text) => out.add(text.as_slice()),
            Err(_) => out.fail("no memory"),
        }
        self.replies.clear();
    }

    // What is pending, what was published, and the follower.
    fn show(&self, alloc: Global, out: &mut Answers) {
        out.add(b"pending\n");
        out.changes(self.world.publisher().pending().changes());
        for number in 1..=self.world.publisher().number() {
            match self.world.published(number) {
                Some(published) => write_published(published, out),
                None => out.fail("not published"),
            }
        }
        followers::show(alloc, self.world.follower(), out);
    }
}
