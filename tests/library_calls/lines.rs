//! Calls that append lines with numbers, and the show text of a view.

use crate::answers::Answers;
use crate::subject::Subject;
use osm_follow::follower::Follower;
use osm_follow::view::View;
use osm_model::memory::WantOfMemory;
use osm_reading::number_lines::{
    write_applied, write_bytes, write_count, write_count_lines, write_number, write_numbered,
    write_numbered_lines,
};
use osm_save::shown::{write_base, write_time};
use osm_script::show::write_view;
use std::alloc::Global;

/// A view, and the text that is appended to.
#[derive(Drop)]
pub(crate) struct Lines {
    view: Option<View>,
    text: Vec<u8>,
}

/// A call, or what is prepared for one.
#[derive(Clone, Copy)]
pub(crate) enum Call {
    View,
    Text,
    Show,
    WriteView,
    /// Appends to the text.
    Append(Line),
}

#[derive(Clone, Copy)]
pub(crate) enum Line {
    Numbered,
    NumberedLines,
    Applied,
    Count,
    CountLines,
    Number,
    Bytes,
    Base,
    Time,
}

const CALLS: &[(&str, Call)] = &[
    ("view", Call::View),
    ("text", Call::Text),
    ("show", Call::Show),
    ("write_view", Call::WriteView),
    ("write_numbered", Call::Append(Line::Numbered)),
    ("write_numbered_lines", Call::Append(Line::NumberedLines)),
    ("write_applied", Call::Append(Line::Applied)),
    ("write_count", Call::Append(Line::Count)),
    ("write_count_lines", Call::Append(Line::CountLines)),
    ("write_number", Call::Append(Line::Number)),
    ("write_bytes", Call::Append(Line::Bytes)),
    ("write_base", Call::Append(Line::Base)),
    ("write_time", Call::Append(Line::Time)),
];

impl Subject for Lines {
    type Call = Call;

    fn begin(alloc: Global) -> Result<Lines, WantOfMemory> {
        Ok(Lines {
            view: None,
            text: Vec::new(alloc),
        })
    }

    fn calls() -> &'static [(&'static str, Call)] {
        CALLS
    }

    fn take(&mut self, alloc: Global, call: Call, given: &[u8], out: &mut Answers) {
        match call {
            Call::View => out.put_some(view_of(alloc, given), &mut self.view),
            Call::Text => out.put(Vec::from_slice(alloc, given).ok(), &mut self.text),
            Call::Show => self.show(out),
            Call::WriteView => self.write_view(out),
            Call::Append(line) => out.done(append(line, &mut self.text)),
        }
    }
}

impl Lines {
    fn show(&self, out: &mut Answers) {
        out.add(self.text.as_slice());
        out.add(b"\n");
    }

    fn write_view(&mut self, out: &mut Answers) {
        match &self.view {
            Some(view) => out.done(write_view(view, &mut self.text)),
            None => out.fail("no view"),
        }
    }
}

fn append(line: Line, text: &mut Vec<u8>) -> Result<(), WantOfMemory> {
    match line {
        Line::Numbered => write_numbered(b"number ", 12, text),
        Line::NumberedLines => write_numbered_lines(b"missing ", &[2, 3, 5], text),
        Line::Applied => write_applied(1, 3, text),
        Line::Count => write_count(5, 12, text),
        Line::CountLines => write_count_lines(&[(5, 1), (6, 22)], text),
        Line::Number => write_number(u64::MAX, text),
        Line::Bytes => write_bytes(b"some bytes", text),
        Line::Base => write_base(7, text),
        Line::Time => write_time(Some(1_704_067_200), text),
    }
}

// The view of a follower that restarts from that save.
fn view_of(alloc: Global, save: &[u8]) -> Option<View> {
    let mut follower = Follower::new(alloc).ok()?;
    if follower.restart(alloc, Some(save)).is_err() {
        return None;
    }
    follower.view(alloc).ok()
}
