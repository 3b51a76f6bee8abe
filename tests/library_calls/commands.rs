//! The commands of standard input.

use osm_reading::pieces::cut;
use osm_reading::sequence::sequence_read;
use std::alloc::Global;

/// A command.
#[derive(Clone, Copy)]
pub(crate) struct Command<'a> {
    /// What it is: the name of a call, or of what is prepared for one.
    pub word: &'a [u8],
    /// The bytes after it.
    pub given: &'a [u8],
}

/// The commands in those bytes, if they are commands.
pub(crate) fn commands_of(alloc: Global, bytes: &[u8]) -> Option<Vec<Command<'_>>> {
    let mut commands = Vec::new(alloc);
    let mut rest = bytes;
    for _ in 0..bytes.len() {
        if rest.is_empty() {
            break;
        }
        let (command, after) = command_in(rest)?;
        commands.push(command).ok()?;
        rest = after;
    }
    Some(commands)
}

// The command that the bytes begin with, and what follows it.
fn command_in(bytes: &[u8]) -> Option<(Command<'_>, &[u8])> {
    let (line, rest) = cut(bytes, b'\n');
    let (word, length) = cut(line, b' ');
    let length = sequence_read(length?)? as usize;
    let (given, after) = rest?.split_at_checked(length)?;
    Some((Command { word, given }, after.strip_prefix(b"\n")?))
}
