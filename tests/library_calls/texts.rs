//! Calls that make a value from what they are given: paths and state texts, texts of objects, and
//! what the words of the command line ask for.

use crate::answers::Answers;
use crate::subject::Subject;
use osm_runs::fault::{FileName, RunFault};
use osm_model::limits::MAX_SEQUENCE;
use osm_model::memory::WantOfMemory;
use osm_model::text::Text;
use osm_reading::sequence::sequence_read;
use osm_repl::causes::{Cause, cause_text, path_of};
use osm_repl::checks::check_words;
use osm_state::paths::{Suffix, path};
use osm_state::state::State;
use osm_state::state_text::state_write;
use osm_words::command_line::asked;
use osm_words::echo::echoes;
use osm_words::orders::{Asked, Extract, Options, Order};
use std::alloc::Global;
use std::fmt::Debug;
use std::io::ErrorKind;

/// A text that may be copied, and words whose filter may be made.
#[derive(Drop)]
pub(crate) struct Texts {
    text: Option<Text>,
    asked: Option<Asked<'static>>,
}

/// A call, or what is prepared for one.
#[derive(Clone, Copy)]
pub(crate) enum Call {
    Text,
    Follow,
    Show,
    New,
    WithinLimits,
    Copy,
    Path,
    StateWrite,
    Asked,
    CheckWords,
    PathOf,
    CauseText,
    Echoes,
}

const CALLS: &[(&str, Call)] = &[
    ("text", Call::Text),
    ("follow", Call::Follow),
    ("show", Call::Show),
    ("Text::new", Call::New),
    ("Text::within_limits", Call::WithinLimits),
    ("Text::copy", Call::Copy),
    ("path", Call::Path),
    ("state_write", Call::StateWrite),
    ("asked", Call::Asked),
    ("check_words", Call::CheckWords),
    ("path_of", Call::PathOf),
    ("cause_text", Call::CauseText),
    ("echoes", Call::Echoes),
];

impl Subject for Texts {
    type Call = Call;

    fn begin(_: Global) -> Result<Texts, WantOfMemory> {
        Ok(Texts {
            text: None,
            asked: None,
        })
    }

    fn calls() -> &'static [(&'static str, Call)] {
        CALLS
    }

    fn take(&mut self, alloc: Global, call: Call, given: &[u8], out: &mut Answers) {
        match str::from_utf8(given) {
            Ok(given) => self.call(alloc, call, given, out),
            Err(_) => out.fail("no text"),
        }
    }
}

impl Texts {
    fn call(&mut self, alloc: Global, call: Call, given: &str, out: &mut Answers) {
        match call {
            Call::Text => out.put_some(Text::new(alloc, given).ok(), &mut self.text),
            Call::Follow => out.put_some(asked_for_ways(alloc), &mut self.asked),
            Call::Show => {}
            Call::New => write_text(Text::new(alloc, given), out),
            Call::WithinLimits => self.write_within_limits(alloc, out),
            Call::Copy => self.write_copy(alloc, out),
            Call::Path => write_path(alloc, given, out),
            Call::StateWrite => write_state(alloc, given, out),
            Call::Asked => write_asked(alloc, given, out),
            Call::CheckWords => self.write_check(alloc, out),
            Call::PathOf => write_path_of_fault(alloc, given, out),
            Call::CauseText => write_cause(alloc, given, out),
            Call::Echoes => write_echoes(alloc, given, out),
        }
    }

    fn write_within_limits(&self, alloc: Global, out: &mut Answers) {
        match &self.text {
            Some(text) => write_text(Text::within_limits(alloc, text.as_str()), out),
            None => out.fail("no text"),
        }
    }

    fn write_copy(&self, alloc: Global, out: &mut Answers) {
        match &self.text {
            Some(text) => write_text(text.copy(alloc), out),
            None => out.fail("no text"),
        }
    }

    // The filter that the words ask for.
    fn write_check(&self, alloc: Global, out: &mut Answers) {
        let Some(asked) = &self.asked else {
            return out.fail("no words");
        };
        match check_words(alloc, asked) {
            Ok(options) => out.filter(&options.filter),
            Err(fault) => out.line(fault),
        }
    }
}

fn write_text<E: Debug + Drop>(answer: Result<Text, E>, out: &mut Answers) {
    match answer {
        Ok(text) => out.line(text.as_str()),
        Err(error) => out.debug(&error),
    }
}

// The path of the OPL file of a number.
fn write_path(alloc: Global, given: &str, out: &mut Answers) {
    match sequence_read(given.as_bytes()) {
        Some(number) => out.shown(path(alloc, number.min(MAX_SEQUENCE), Suffix::Opl)),
        None => out.fail("no number"),
    }
}

// The state text of a number at the first second.
fn write_state(alloc: Global, given: &str, out: &mut Answers) {
    match first_state(given) {
        Some(state) => out.bytes(state_write(alloc, &state)),
        None => out.fail("no state"),
    }
}

fn first_state(given: &str) -> Option<State> {
    State::new(sequence_read(given.as_bytes())?, 1)
}

const MOST_WORDS: usize = 8;

// The words of a text that stand between single blanks, and how many there are, at most eight.
fn words_of(text: &str) -> ([&str; MOST_WORDS], usize) {
    let mut words = [""; MOST_WORDS];
    let mut count = 0usize;
    for word in text.split(' ') {
        if let Some(place) = words.get_mut(count) {
            *place = word;
            count = count.saturating_add(1);
        }
    }
    (words, count)
}

fn write_asked(alloc: Global, given: &str, out: &mut Answers) {
    let (words, count) = words_of(given);
    let Some(words) = words.get(..count) else {
        return out.fail("too many words");
    };
    match asked(alloc, words) {
        Ok(found) => {
            out.debug_part(&found.order);
            out.add(b" ");
            out.debug(&found.extract);
        }
        Err(error) => out.debug(&error.kind()),
    }
}

// The words `follow dir save` with the kind of ways and two keys, one of them twice.
fn asked_for_ways(alloc: Global) -> Option<Asked<'static>> {
    let mut keys = Vec::new(alloc);
    for key in ["highway", "a-name-of-more-than-22-bytes", "highway"] {
        keys.push(key).ok()?;
    }
    let (dir, save) = ("dir", "save");
    Some(Asked {
        order: Order::Follow { dir, save },
        options: Options {
            no_lock: false,
            any_time: false,
            json: false,
            quiet: false,
        },
        extract: Extract { kinds: "w", keys },
        limit: None,
        sizes: None,
        sought: Vec::new(alloc),
    })
}

// The path of a save that isn't there.
fn write_path_of_fault(alloc: Global, given: &str, out: &mut Answers) {
    let fault = RunFault::Absent(FileName::Save);
    out.shown(path_of(alloc, Order::Show { save: given }, fault, None, ""));
}

// A cause with that path, and all other parts.
fn write_cause(alloc: Global, given: &str, out: &mut Answers) {
    let cause = Cause {
        path: given,
        said: Some(ErrorKind::NotFound.into()),
        hint: "a hint",
    };
    out.shown(cause_text(alloc, cause));
}

fn write_echoes(alloc: Global, given: &str, out: &mut Answers) {
    let (words, count) = words_of(given);
    let Some(words) = words.get(..count) else {
        return out.fail("too many words");
    };
    match echoes(alloc, words) {
        Ok(echoes) => {
            for echo in &echoes {
                out.line(echo.as_str());
            }
        }
        Err(error) => out.debug(&error),
    }
}
