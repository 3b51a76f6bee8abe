//! Calls of scripts and of their replies.

use crate::answers::Answers;
use crate::subject::Subject;
use osm_model::memory::WantOfMemory;
use osm_script::replay::replay_run;
use osm_script::replies::write_replies;
use osm_script::script::parse_script;
use osm_world::event::Reply;
use osm_world::world::World;
use std::alloc::Global;

// Room for what a replay writes.
const ROOM: usize = 65_536;

/// Replies of a world, and what replays wrote.
#[derive(Drop)]
pub(crate) struct Scripts {
    replies: Vec<Reply>,
    written: Vec<u8>,
}

/// A call, or what is prepared for one.
#[derive(Clone, Copy)]
pub(crate) enum Call {
    Replies,
    Show,
    ParseScript,
    WriteReplies,
    ReplayRun,
}

const CALLS: &[(&str, Call)] = &[
    ("replies", Call::Replies),
    ("show", Call::Show),
    ("parse_script", Call::ParseScript),
    ("write_replies", Call::WriteReplies),
    ("replay_run", Call::ReplayRun),
];

impl Subject for Scripts {
    type Call = Call;

    fn begin(alloc: Global) -> Result<Scripts, WantOfMemory> {
        let written = Vec::with_capacity(alloc, ROOM)?;
        Ok(Scripts {
            replies: Vec::new(alloc),
            written,
        })
    }

    fn calls() -> &'static [(&'static str, Call)] {
        CALLS
    }

    fn take(&mut self, alloc: Global, call: Call, given: &[u8], out: &mut Answers) {
        match call {
            Call::Replies => out.put(replies_to(alloc, given), &mut self.replies),
            Call::Show => self.show(out),
            Call::ParseScript => write_events(alloc, given, out),
            Call::WriteReplies => out.bytes(write_replies(alloc, self.replies.as_slice())),
            Call::ReplayRun => self.replay(alloc, given, out),
        }
    }
}

impl Scripts {
    fn replay(&mut self, alloc: Global, mut script: &[u8], out: &mut Answers) {
        out.done(replay_run(alloc, &mut script, &mut self.written));
    }

    // What replays wrote since it was shown.
    fn show(&mut self, out: &mut Answers) {
        out.add(self.written.as_slice());
        self.written.clear();
    }
}

// The replies of a new world to a script.
fn replies_to(alloc: Global, script: &[u8]) -> Option<Vec<Reply>> {
    let events = parse_script(alloc, script).ok()?;
    match World::run(alloc, events) {
        Ok(run) => Some(run.replies),
        Err(_) => None,
    }
}

// The events of a script, or its fault.
fn write_events(alloc: Global, script: &[u8], out: &mut Answers) {
    match parse_script(alloc, script) {
        Ok(events) => {
            for event in &events {
                out.debug(event);
            }
        }
        Err(fault) => out.debug(&fault),
    }
}
