//! What the program's words do, over files in memory.

use crate::answers::Answers;
use crate::filters::filter_of;
use crate::subject::Subject;
use osm_runs::options::FollowOptions;
use osm_model::filter::Filter;
use osm_model::memory::WantOfMemory;
use osm_reading::pieces::cut;
use osm_repl::execution::{Settings, execute};
use osm_repl::notes::Notes;
use osm_repl::sizes::check_sizes;
use osm_store::memory_store::MemoryStore;
use osm_words::orders::Order;
use std::alloc::Global;
use std::hash::RandomState;
use std::io;
use std::io::Write;
use std::random::RandomSource;

// Room for what a run writes.
const ROOM: usize = 65_536;

// One seed for all runs: bytes of 0.
struct ZeroBytes;

impl RandomSource for ZeroBytes {
    fn fill_bytes(&self, bytes: &mut [u8]) -> io::Result<()> {
        bytes.fill(0);
        Ok(())
    }
}

/// Files in memory, the filter of the next run unless it keeps all, and what a run wrote.
#[derive(Drop)]
pub(crate) struct Files {
    store: MemoryStore,
    filter: Option<Filter>,
    written: Vec<u8>,
}

impl Files {
    // Adds a file: its name, a byte 0 and its bytes.
    fn put(&mut self, alloc: Global, given: &[u8], out: &mut Answers) {
        let (name, bytes) = cut(given, 0);
        match (str::from_utf8(name), bytes) {
            (Ok(name), Some(bytes)) => out.expect(self.store.put(alloc, name, bytes)),
            _ => out.fail("no name and bytes"),
        }
    }

    // Does what the order asks for, with those sizes of saves and journals, and adds what it wrote.
    fn execute(
        &mut self,
        alloc: Global,
        order: Order<'_>,
        sizes: Option<&str>,
        mut input: &[u8],
        out: &mut Answers,
    ) {
        let Ok(sizes) = check_sizes(sizes) else {
            out.fail("no sizes");
            return;
        };
        let Ok(hashing) = RandomState::new(&ZeroBytes) else {
            out.fail("no seed");
            return;
        };
        let filter = match self.filter.take() {
            Some(filter) => filter,
            None => Filter::all(alloc),
        };
        let options = FollowOptions::new(filter);
        let (store, written) = (&mut self.store, &mut self.written);
        let settings = Settings {
            options,
            sizes,
            sought: &[],
            hashing,
        };
        let mut notes = Notes::new(alloc);
        let ended = execute(alloc, order, settings, store, &mut input, written, &mut notes);
        out.add(self.written.as_slice());
        out.add(notes.lines.as_slice());
        self.written.clear();
        match ended {
            Ok(status) => {
                out.add(b"status ");
                out.line(status);
            }
            Err(fault) => out.line(fault),
        }
    }

    // The files with those names.
    fn show(&self, names: &[u8], out: &mut Answers) {
        match str::from_utf8(names) {
            Ok(names) => self.show_each(names, out),
            Err(_) => out.fail("no names"),
        }
    }

    fn show_each(&self, names: &str, out: &mut Answers) {
        for name in names.split('\n') {
            if let Some(bytes) = self.store.get(name) {
                out.add(b"file ");
                out.line(name);
                out.add(bytes);
                out.add(b"\n");
            }
        }
    }
}

// Orders over the files of a folder, a save, and changes and data in each form.
const PUBLISH: Order<'static> = Order::Publish {
    dir: "dir",
    changes: "changes",
    now: "2024-01-01T00:03:00Z",
};

const PUBLISH_AS: Order<'static> = Order::PublishAs {
    dir: "dir",
    changes: "changes",
    now: "2024-01-01T00:03:00Z",
    sequence: "1",
};

const BEGIN_OPL: Order<'static> = Order::Begin {
    base: "a.opl",
    state: "state",
    save: "save",
};

const BEGIN_O5M: Order<'static> = Order::Begin {
    base: "a.o5m",
    state: "state",
    save: "save",
};

const FOLLOW: Order<'static> = Order::Follow {
    dir: "dir",
    save: "save",
};

const LAG: Order<'static> = Order::Lag {
    dir: "dir",
    save: "save",
};

const EXPORT_OPL: Order<'static> = Order::Export {
    save: "save",
    output: "b.opl",
};

const EXPORT_O5M: Order<'static> = Order::Export {
    save: "save",
    output: "b.o5m",
};

const CONVERT: Order<'static> = Order::Convert {
    input: "a.opl",
    output: "b.o5c",
};

const CHANGES_OPL: Order<'static> = Order::Changes {
    dir: "dir",
    output: "b.opl",
    from: "1",
    to: "2",
};

const CHANGES_O5C: Order<'static> = Order::Changes {
    dir: "dir",
    output: "b.o5c",
    from: "1",
    to: "2",
};

const TALLY: Order<'static> = Order::Tally {
    dir: "dir",
    from: "1",
    to: "2",
    by: None,
};

/// A call, or what is prepared for one.
#[derive(Clone, Copy)]
pub(crate) enum Call {
    File,
    Filter,
    Show,
    /// What the word of the program with that order does.
    Execute(Order<'static>),
    /// What the word `follow` does with those sizes.
    Follow(&'static str),
}

const CALLS: &[(&str, Call)] = &[
    ("file", Call::File),
    ("filter", Call::Filter),
    ("show", Call::Show),
    ("execute-replay", Call::Execute(Order::Replay)),
    ("execute-publish", Call::Execute(PUBLISH)),
    ("execute-publish-as", Call::Execute(PUBLISH_AS)),
    ("execute-begin-opl", Call::Execute(BEGIN_OPL)),
    ("execute-begin-o5m", Call::Execute(BEGIN_O5M)),
    ("execute-follow", Call::Execute(FOLLOW)),
    ("execute-follow-journal", Call::Follow("0:4096")),
    ("execute-follow-merge", Call::Follow("0:0")),
    ("execute-lag", Call::Execute(LAG)),
    ("execute-show", Call::Execute(Order::Show { save: "save" })),
    ("execute-export-opl", Call::Execute(EXPORT_OPL)),
    ("execute-export-o5m", Call::Execute(EXPORT_O5M)),
    ("execute-convert", Call::Execute(CONVERT)),
    ("execute-changes-opl", Call::Execute(CHANGES_OPL)),
    ("execute-changes-o5c", Call::Execute(CHANGES_O5C)),
    ("execute-tally", Call::Execute(TALLY)),
];

impl Subject for Files {
    type Call = Call;

    fn begin(alloc: Global) -> Result<Files, WantOfMemory> {
        let written = Vec::with_capacity(alloc, ROOM)?;
        Ok(Files {
            store: MemoryStore::new(alloc),
            filter: None,
            written,
        })
    }

    fn calls() -> &'static [(&'static str, Call)] {
        CALLS
    }

    fn take(&mut self, alloc: Global, call: Call, given: &[u8], out: &mut Answers) {
        match call {
            Call::File => self.put(alloc, given, out),
            Call::Filter => out.put_some(filter_of(alloc, given), &mut self.filter),
            Call::Show => self.show(given, out),
            Call::Execute(order) => self.execute(alloc, order, None, given, out),
            Call::Follow(sizes) => self.execute(alloc, FOLLOW, Some(sizes), given, out),
        }
    }
}
