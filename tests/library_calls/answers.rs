//! Where answers are written, and what they give is kept.

use osm_model::batch::Batch;
use osm_model::change::Change;
use osm_opl::lines::write_line;
use std::fmt::{Debug, Display};
use std::io::Write;

/// The answers so far, and the fault of the input, if one was found.
#[derive(Drop)]
pub(crate) struct Answers {
    /// Their bytes.
    pub text: Vec<u8>,
    /// What is wrong with a command.
    pub fault: Option<&'static str>,
}

impl Answers {
    /// Says what is wrong with a command.
    pub(crate) fn fail(&mut self, fault: &'static str) {
        self.fault = Some(fault);
    }

    /// Fails unless something was written.
    pub(crate) fn expect<E: Drop>(&mut self, written: Result<(), E>) {
        if written.is_err() {
            self.fail("not written");
        }
    }

    /// Adds the bytes.
    pub(crate) fn add(&mut self, bytes: &[u8]) {
        let added = self.text.extend_from_slice(bytes);
        self.expect(added);
    }

    /// Adds the value.
    pub(crate) fn show<D: Display + Drop>(&mut self, value: D) {
        let written = write!(&mut self.text, "{value}");
        self.expect(written);
    }

    /// Adds a line with the value.
    pub(crate) fn line<D: Display + Drop>(&mut self, value: D) {
        let written = writeln!(&mut self.text, "{value}");
        self.expect(written);
    }

    /// Adds a line with the value as `Debug` writes it.
    pub(crate) fn debug<D: Debug>(&mut self, value: &D) {
        let written = writeln!(&mut self.text, "{value:?}");
        self.expect(written);
    }

    /// Adds the value as `Debug` writes it.
    pub(crate) fn debug_part<D: Debug>(&mut self, value: &D) {
        let written = write!(&mut self.text, "{value:?}");
        self.expect(written);
    }

    /// A line `done`, or the error.
    pub(crate) fn done<E: Debug + Drop>(&mut self, answer: Result<(), E>) {
        match answer {
            Ok(()) => self.add(b"done\n"),
            Err(error) => self.debug(&error),
        }
    }

    /// The bytes and a line feed, or the error.
    pub(crate) fn bytes<E: Debug + Drop>(&mut self, answer: Result<Vec<u8>, E>) {
        match answer {
            Ok(bytes) => {
                self.add(bytes.as_slice());
                self.add(b"\n");
            }
            Err(error) => self.debug(&error),
        }
    }

    /// A line that shows it, or the error.
    pub(crate) fn shown<D: Display + Drop, E: Debug + Drop>(&mut self, answer: Result<D, E>) {
        match answer {
            Ok(value) => self.line(value),
            Err(error) => self.debug(&error),
        }
    }

    /// A line with the list, or the error.
    pub(crate) fn list<D: Debug + Drop, E: Debug + Drop>(&mut self, answer: Result<Vec<D>, E>) {
        match answer {
            Ok(list) => self.debug(&list.as_slice()),
            Err(error) => self.debug(&error),
        }
    }

    /// A line of OPL for each change of the batch, or the error.
    pub(crate) fn batch<E: Debug + Drop>(&mut self, answer: Result<Batch, E>) {
        match answer {
            Ok(batch) => self.changes(batch.changes()),
            Err(error) => self.debug(&error),
        }
    }

    /// A line of OPL for each object, or the error.
    pub(crate) fn objects<E: Debug + Drop>(&mut self, answer: Result<Vec<Change>, E>) {
        match answer {
            Ok(objects) => self.changes(objects.as_slice()),
            Err(error) => self.debug(&error),
        }
    }

    /// A line of OPL, or the error.
    pub(crate) fn change_or<E: Debug + Drop>(&mut self, answer: Result<Change, E>) {
        match answer {
            Ok(change) => self.change(&change),
            Err(error) => self.debug(&error),
        }
    }

    /// A line of OPL for each change.
    pub(crate) fn changes(&mut self, changes: &[Change]) {
        for change in changes {
            self.change(change);
        }
    }

    /// A line of OPL.
    pub(crate) fn change(&mut self, change: &Change) {
        let written = write_line(change, &mut self.text);
        self.expect(written);
        self.add(b"\n");
    }

    /// A line `done` after what came is put in its place, or the error.
    pub(crate) fn put_or<T: Drop, E: Debug + Drop>(&mut self, answer: Result<T, E>, place: &mut T) {
        match answer {
            Ok(value) => {
                *place = value;
                self.add(b"done\n");
            }
            Err(error) => self.debug(&error),
        }
    }

    /// Puts what is prepared for a call in its place.
    pub(crate) fn put<T: Drop>(&mut self, prepared: Option<T>, place: &mut T) {
        match prepared {
            Some(value) => *place = value,
            None => self.fail("not prepared"),
        }
    }

    /// Puts what is prepared for a call in its place, which may be empty.
    pub(crate) fn put_some<T: Drop>(&mut self, prepared: Option<T>, place: &mut Option<T>) {
        match prepared {
            Some(value) => *place = Some(value),
            None => self.fail("not prepared"),
        }
    }
}
