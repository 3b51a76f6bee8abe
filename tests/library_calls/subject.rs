//! What calls are made on.

use crate::answers::Answers;
use crate::commands::Command;
use osm_model::memory::WantOfMemory;
use std::alloc::Global;

/// Values, and the calls that are made on them.
pub(crate) trait Subject: Sized {
    /// A call, or what is prepared for one.
    type Call: Copy + 'static;

    /// The values before the first command.
    fn begin(alloc: Global) -> Result<Self, WantOfMemory>;

    /// The calls by their words.
    fn calls() -> &'static [(&'static str, Self::Call)];

    /// Makes the call, and adds the answer.
    fn take(&mut self, alloc: Global, call: Self::Call, given: &[u8], out: &mut Answers);
}

/// What has that word in a table. A search is much cheaper to prove than a match over words.
pub(crate) fn named<C: Copy>(table: &[(&str, C)], word: &[u8]) -> Option<C> {
    for (name, named) in table {
        if name.as_bytes() == word {
            return Some(*named);
        }
    }
    None
}

/// Takes the commands in order, up to one with a fault, and ends each answer with a line `--`.
pub(crate) fn take_each<S: Subject + Drop>(
    rt: &HostRuntime,
    commands: &[Command<'_>],
    out: &mut Answers,
) {
    match S::begin(rt.alloc()) {
        Ok(mut subject) => take_all(rt, &mut subject, commands, out),
        Err(_) => out.fail("no memory"),
    }
}

fn take_all<S: Subject>(
    rt: &HostRuntime,
    subject: &mut S,
    commands: &[Command<'_>],
    out: &mut Answers,
) {
    for command in commands {
        take(rt, subject, command, out);
        if out.fault.is_some() {
            return;
        }
    }
}

fn take<S: Subject>(rt: &HostRuntime, subject: &mut S, command: &Command<'_>, out: &mut Answers) {
    if command.word == b"mark".as_slice() {
        let written = eprintln!(rt; "mark");
        return out.expect(written);
    }
    match named(S::calls(), command.word) {
        Some(call) => subject.take(rt.alloc(), call, command.given, out),
        None => out.fail("no such call"),
    }
    out.add(b"--\n");
}
