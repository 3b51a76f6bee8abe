//! Makes calls of the libraries on values, as standard input says, and writes what they answer and
//! what the values are after them.
//!
//! Standard input is a list of commands. A command is a line `WORD LENGTH`, and that many bytes and
//! a line feed after it. The first word names what the calls are made on; the others are names of
//! calls, as `Batch::push`, or of what is prepared for one, as `change`. The answer to a command
//! ends with a line `--`. At the word `mark` the program writes a line to standard error and does
//! nothing else: what is allocated between two marks, the calls between them allocate.
#![tactic(auto)]

mod answers;
mod commands;
mod files;
mod filters;
mod followers;
mod forms;
mod lines;
mod mirrors;
mod publishers;
mod scripts;
mod subject;
mod texts;
mod values;
mod worlds;

use answers::Answers;
use commands::{Command, commands_of};
use files::Files;
use followers::Following;
use forms::Forms;
use lines::Lines;
use mirrors::Mirrors;
use publishers::Publishing;
use scripts::Scripts;
use std::io::{Read, Write};
use subject::{named, take_each};
use texts::Texts;
use values::Values;
use worlds::Worlds;

// Room for all answers, so that writing one allocates nothing.
const ROOM: usize = 1_048_576;

fn main(rt: HostRuntime) -> Result<(), &'static str> {
    let alloc = rt.alloc();
    let mut input = Vec::new(alloc);
    if rt.stdin().read_to_end(&mut input).is_err() {
        return Err("no input");
    }
    let Ok(text) = Vec::with_capacity(alloc, ROOM) else {
        return Err("no room");
    };
    let mut out = Answers { text, fault: None };
    take_input(&rt, input.as_slice(), &mut out);
    if let Some(fault) = out.fault {
        return Err(fault);
    }
    match rt.stdout().write_all(out.text.as_slice()) {
        Ok(()) => Ok(()),
        Err(_) => Err("not written"),
    }
}

fn take_input(rt: &HostRuntime, input: &[u8], out: &mut Answers) {
    match commands_of(rt.alloc(), input) {
        Some(commands) => take_all(rt, commands.as_slice(), out),
        None => out.fail("no commands"),
    }
}

// The first command names what the calls are made on.
fn take_all(rt: &HostRuntime, commands: &[Command<'_>], out: &mut Answers) {
    let Some((first, rest)) = commands.split_first() else {
        return out.fail("no command");
    };
    match named(SUBJECTS, first.word) {
        Some(on) => take_on(rt, on, rest, out),
        None => out.fail("nothing has this name"),
    }
}

// What calls are made on.
#[derive(Clone, Copy)]
enum On {
    Texts,
    Values,
    Forms,
    Mirrors,
    Lines,
    Publisher,
    Follower,
    World,
    Scripts,
    Files,
}

const SUBJECTS: &[(&str, On)] = &[
    ("texts", On::Texts),
    ("values", On::Values),
    ("forms", On::Forms),
    ("mirrors", On::Mirrors),
    ("lines", On::Lines),
    ("publisher", On::Publisher),
    ("follower", On::Follower),
    ("world", On::World),
    ("scripts", On::Scripts),
    ("files", On::Files),
];

fn take_on(rt: &HostRuntime, on: On, commands: &[Command<'_>], out: &mut Answers) {
    match on {
        On::Texts => take_each::<Texts>(rt, commands, out),
        On::Values => take_each::<Values>(rt, commands, out),
        On::Forms => take_each::<Forms>(rt, commands, out),
        On::Mirrors => take_each::<Mirrors>(rt, commands, out),
        On::Lines => take_each::<Lines>(rt, commands, out),
        On::Publisher => take_each::<Publishing>(rt, commands, out),
        On::Follower => take_each::<Following>(rt, commands, out),
        On::World => take_each::<Worlds>(rt, commands, out),
        On::Scripts => take_each::<Scripts>(rt, commands, out),
        On::Files => take_each::<Files>(rt, commands, out),
    }
}
