//! Calls of a publisher.

use crate::answers::Answers;
use crate::subject::Subject;
use osm_publisher::published::Published;
use osm_publisher::publisher::{EditError, Publisher};
use osm_model::change::Change;
use osm_model::memory::WantOfMemory;
use osm_model::time::time_read;
use osm_opl::lines::read_line;
use std::alloc::Global;

/// A publisher, and an edit for it.
#[derive(Drop)]
pub(crate) struct Publishing {
    publisher: Publisher,
    change: Option<Change>,
}

/// A call, or what is prepared for one.
#[derive(Clone, Copy)]
pub(crate) enum Call {
    Change,
    Show,
    Edit,
    Close,
}

const CALLS: &[(&str, Call)] = &[
    ("change", Call::Change),
    ("show", Call::Show),
    ("Publisher::edit", Call::Edit),
    ("Publisher::close", Call::Close),
];

impl Subject for Publishing {
    type Call = Call;

    fn begin(alloc: Global) -> Result<Publishing, WantOfMemory> {
        Ok(Publishing {
            publisher: Publisher::new(alloc),
            change: None,
        })
    }

    fn calls() -> &'static [(&'static str, Call)] {
        CALLS
    }

    fn take(&mut self, alloc: Global, call: Call, given: &[u8], out: &mut Answers) {
        match call {
            Call::Change => out.put_some(read_line(alloc, given).ok(), &mut self.change),
            Call::Show => self.show(out),
            Call::Edit => self.edit(out),
            Call::Close => self.close(alloc, given, out),
        }
    }
}

impl Publishing {
    // Adds the edit. One that is handed back is kept, for the next time.
    fn edit(&mut self, out: &mut Answers) {
        let Some(change) = self.change.take() else {
            return out.add(b"no change\n");
        };
        match self.publisher.edit(change) {
            Ok(()) => out.add(b"done\n"),
            Err(EditError::BatchFull(change)) => {
                self.change = Some(change);
                out.add(b"BatchFull\n");
            }
            Err(EditError::WantOfMemory(change)) => {
                self.change = Some(change);
                out.add(b"WantOfMemory\n");
            }
        }
    }

    fn close(&mut self, alloc: Global, time: &[u8], out: &mut Answers) {
        let Some(time) = time_read(time) else {
            return out.fail("no time");
        };
        match self.publisher.close(alloc, time) {
            Ok(published) => write_published(&published, out),
            Err(error) => out.debug(&error),
        }
    }

    // The number, what is pending, and the edit that isn't.
    fn show(&self, out: &mut Answers) {
        out.add(b"number ");
        out.line(self.publisher.number());
        out.changes(self.publisher.pending().changes());
        if let Some(change) = &self.change {
            out.add(b"and ");
            out.change(change);
        }
    }
}

/// The number and the texts of a sequence.
pub(crate) fn write_published(published: &Published, out: &mut Answers) {
    out.add(b"published ");
    out.line(published.number());
    out.add(published.state());
    out.add(published.opl());
    out.add(published.o5c());
    out.add(b"\n");
}
