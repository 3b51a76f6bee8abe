//! Calls of the two forms of change files and of data files, and of lines and texts of OPL.

use crate::answers::Answers;
use crate::subject::Subject;
use osm_model::batch::Batch;
use osm_model::data::DataError;
use osm_model::form::{ChangeForm, there_and_back};
use osm_model::memory::WantOfMemory;
use osm_model::text::Text;
use osm_o5c::o5c::O5c;
use osm_opl::lines::{read_line, write_line};
use osm_opl::opl::Opl;
use osm_opl::texts::{read_text, write_text};
use std::alloc::Global;

/// A batch that is written, and a text that lines are added to.
#[derive(Drop)]
pub(crate) struct Forms {
    batch: Batch,
    text: Vec<u8>,
}

/// A call, or what is prepared for one.
#[derive(Clone, Copy)]
pub(crate) enum Call {
    Batch,
    Text,
    Show,
    WriteLine,
    ReadLine,
    WriteText,
    ReadText,
    ReadOpl,
    ReadO5c,
    ReadOplData,
    ReadO5cData,
    /// Writes the batch.
    Write(Written),
}

#[derive(Clone, Copy)]
pub(crate) enum Written {
    Opl,
    O5c,
    OplData,
    O5cData,
    OplAndBack,
    O5cAndBack,
}

const CALLS: &[(&str, Call)] = &[
    ("batch", Call::Batch),
    ("text", Call::Text),
    ("show", Call::Show),
    ("write_line", Call::WriteLine),
    ("read_line", Call::ReadLine),
    ("write_text", Call::WriteText),
    ("read_text", Call::ReadText),
    ("Opl::read", Call::ReadOpl),
    ("O5c::read", Call::ReadO5c),
    ("read_data-opl", Call::ReadOplData),
    ("read_data-o5c", Call::ReadO5cData),
    ("Opl::write", Call::Write(Written::Opl)),
    ("O5c::write", Call::Write(Written::O5c)),
    ("write_data-opl", Call::Write(Written::OplData)),
    ("write_data-o5c", Call::Write(Written::O5cData)),
    ("there_and_back::<Opl>", Call::Write(Written::OplAndBack)),
    ("there_and_back::<O5c>", Call::Write(Written::O5cAndBack)),
];

impl Subject for Forms {
    type Call = Call;

    fn begin(alloc: Global) -> Result<Forms, WantOfMemory> {
        Ok(Forms {
            batch: Batch::new(alloc),
            text: Vec::new(alloc),
        })
    }

    fn calls() -> &'static [(&'static str, Call)] {
        CALLS
    }

    fn take(&mut self, alloc: Global, call: Call, given: &[u8], out: &mut Answers) {
        match call {
            Call::Batch => out.put(Opl::read(alloc, given).ok(), &mut self.batch),
            Call::Text => out.put(Vec::from_slice(alloc, given).ok(), &mut self.text),
            Call::Show => self.show(out),
            Call::WriteLine => self.write_line(out),
            Call::ReadLine => out.change_or(read_line(alloc, given)),
            Call::WriteText => self.write_text(alloc, given, out),
            Call::ReadText => write_read_text(alloc, given, out),
            Call::ReadOpl => out.batch(Opl::read(alloc, given)),
            Call::ReadO5c => out.batch(O5c::read(alloc, given)),
            Call::ReadOplData => out.objects(osm_opl::data::read_data(alloc, given)),
            Call::ReadO5cData => out.objects(osm_o5c::data::read_data(alloc, given)),
            Call::Write(what) => write(alloc, what, &self.batch, out),
        }
    }
}

impl Forms {
    // Adds the line of the first change to the text.
    fn write_line(&mut self, out: &mut Answers) {
        match self.batch.changes().first() {
            Some(change) => out.done(write_line(change, &mut self.text)),
            None => out.fail("no change"),
        }
    }

    // Adds a short text, which takes no memory itself.
    fn write_text(&mut self, alloc: Global, given: &[u8], out: &mut Answers) {
        match short_text(alloc, given) {
            Some(given) => out.done(write_text(&given, &mut self.text)),
            None => out.fail("no text"),
        }
    }

    fn show(&self, out: &mut Answers) {
        out.add(self.text.as_slice());
        out.add(b"\n");
    }
}

fn short_text(alloc: Global, given: &[u8]) -> Option<Text> {
    Text::new(alloc, str::from_utf8(given).ok()?).ok()
}

fn write(alloc: Global, what: Written, batch: &Batch, out: &mut Answers) {
    match what {
        Written::Opl => out.bytes(Opl::write(alloc, batch)),
        Written::O5c => out.bytes(O5c::write(alloc, batch)),
        Written::OplData => out.bytes(opl_data(alloc, batch)),
        Written::O5cData => out.bytes(o5c_data(alloc, batch)),
        Written::OplAndBack => out.batch(there_and_back::<Opl>(alloc, batch)),
        Written::O5cAndBack => out.batch(there_and_back::<O5c>(alloc, batch)),
    }
}

// A text in a line, or the error.
fn write_read_text(alloc: Global, given: &[u8], out: &mut Answers) {
    match read_text(alloc, given) {
        Ok(text) => out.line(text.as_str()),
        Err(error) => out.debug(&error),
    }
}

// The changes of a batch as a data file of OPL.
fn opl_data(alloc: Global, batch: &Batch) -> Result<Vec<u8>, DataError> {
    osm_opl::data::write_data(alloc, batch.changes())
}

// The changes of a batch as a data file of o5c.
fn o5c_data(alloc: Global, batch: &Batch) -> Result<Vec<u8>, DataError> {
    osm_o5c::data::write_data(alloc, batch.changes())
}
