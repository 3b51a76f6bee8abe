//! A small save is read with net changes laid over it, one item after another.

use super::merge::{AFTER, BEFORE, changed_objects, changes, store_of};
use osm_merge::check::check_merged;
use osm_merge::fault::MergeFault;
use osm_merge::lists::Totals;
use osm_merge::objects::LineTaker;
use osm_merge::opening::Opening;
use osm_merge::source::Source;
use osm_merged::counts::MergedCounts;
use osm_merged::objects::MergedObjects;
use osm_merged::opening::{open_changesets, open_objects, open_users};
use osm_model::change::Change;
use osm_model::filter::Filter;
use osm_model::kind::Key;
use osm_model::memory::WantOfMemory;
use osm_net::lists::NetLists;
use osm_save::counts::write_count;
use osm_save::lines::write_numbered;
use osm_save::objects::checked_key;
use osm_store::stopping_store::StoppingStore;
use osm_store::store::Store;
use std::alloc::Global;

// More than there is in any list.
const MOST: usize = 20;

fn push_line(line: &[u8], text: &mut Vec<u8>) -> Result<(), WantOfMemory> {
    text.extend_from_slice(line)?;
    text.push(b'\n')?;
    Ok(())
}

// Writes the objects that are ahead.
fn write_objects<S: Store>(
    alloc: Global,
    store: &mut S,
    source: &mut Source,
    filter: &Filter,
    objects: &mut MergedObjects,
    text: &mut Vec<u8>,
) -> Result<(), MergeFault> {
    let mut line = Vec::new(alloc);
    for _ in 0..MOST {
        match objects.next(alloc, store, "save", source, filter, &mut line) {
            Ok(Some(_object)) => {
                push_line(line.as_slice(), text)?;
            }
            Ok(None) => return Ok(()),
            Err(fault) => return Err(fault),
        }
    }
    Err(MergeFault::Changed)
}

// Writes the counts that are ahead.
fn write_counts<S: Store>(
    alloc: Global,
    store: &mut S,
    source: &mut Source,
    counts: &mut MergedCounts,
    text: &mut Vec<u8>,
) -> Result<(), MergeFault> {
    for _ in 0..MOST {
        match counts.next(alloc, store, "save", source) {
            Ok(Some((number, count))) => write_count(number, count, text)?,
            Ok(None) => return Ok(()),
            Err(fault) => return Err(fault),
        }
    }
    Err(MergeFault::Changed)
}

// Writes the list of users.
fn write_users<S: Store>(
    alloc: Global,
    store: &mut S,
    source: &mut Source,
    opening: &Opening,
    total: u64,
    users: &[(u32, u64)],
    text: &mut Vec<u8>,
) -> Result<(), MergeFault> {
    write_numbered(b"users ", total, text)?;
    let mut counts = open_users(alloc, store, "save", source, opening, users)?;
    write_counts(alloc, store, source, &mut counts, text)
}

// Writes the list of changesets, and `end`.
fn write_changesets<S: Store>(
    alloc: Global,
    store: &mut S,
    source: &mut Source,
    opening: &Opening,
    total: u64,
    changesets: &[(u32, u64)],
    text: &mut Vec<u8>,
) -> Result<(), MergeFault> {
    write_numbered(b"changesets ", total, text)?;
    let mut counts = open_changesets(alloc, store, "save", source, opening, changesets)?;
    write_counts(alloc, store, source, &mut counts, text)?;
    source.end(alloc, store, "save")?;
    push_line(b"end", text)?;
    Ok(())
}

// Writes the lists of a save with net changes laid over them, and `end`, while they are read.
fn write_lists<S: Store>(
    alloc: Global,
    store: &mut S,
    totals: Totals,
    lists: &NetLists,
    text: &mut Vec<u8>,
) -> Result<(), MergeFault> {
    write_numbered(b"objects ", totals.objects, text)?;
    let entries = lists.objects.as_slice();
    let (mut source, opening, mut objects) = open_objects(alloc, store, "save", entries)?;
    let filter = &opening.filter;
    write_objects(alloc, store, &mut source, filter, &mut objects, text)?;
    write_users(
        alloc,
        store,
        &mut source,
        &opening,
        totals.users,
        lists.users.as_slice(),
        text,
    )?;
    write_changesets(
        alloc,
        store,
        &mut source,
        &opening,
        totals.changesets,
        lists.changesets.as_slice(),
        text,
    )
}

// The same for a save that is checked first.
fn write_checked<S: Store>(
    alloc: Global,
    store: &mut S,
    lists: &NetLists,
    text: &mut Vec<u8>,
) -> Result<(), MergeFault> {
    match check_merged(alloc, store, "save", lists) {
        Ok(checked) => write_lists(alloc, store, checked.totals, lists, text),
        Err(fault) => Err(fault),
    }
}

// Writes the save of a store, with the changes or without any.
fn write_save<S: Store>(
    alloc: Global,
    store: &mut S,
    is_changed: bool,
    text: &mut Vec<u8>,
) -> Result<(), MergeFault> {
    let lists = if is_changed {
        changes(alloc)?
    } else {
        NetLists::new(alloc)
    };
    write_checked(alloc, store, &lists, text)
}

// Whether all lists are written as that save has them.
fn is_written(alloc: Global, is_changed: bool, wanted: &[u8]) -> bool {
    let mut store = store_of(alloc, BEFORE);
    let mut text = Vec::new(alloc);
    let result = write_save(alloc, &mut store, is_changed, &mut text);
    result.is_ok() && text.as_slice().starts_with(b"objects ") && wanted.ends_with(text.as_slice())
}

#[test]
fn a_save_is_read_with_changes(rt: HostRuntime) {
    assert!(rt; is_written(rt.alloc(), true, AFTER));
}

#[test]
fn a_save_is_read_as_it_is_without_changes(rt: HostRuntime) {
    assert!(rt; is_written(rt.alloc(), false, BEFORE));
}

// Takes as many lines as there is room for.
#[derive(Drop)]
struct Lines {
    text: Vec<u8>,
    written: Vec<u8>,
    room: usize,
}

impl LineTaker for Lines {
    ghost use Rattle.std.specs.Prelude.{[]};

    // Nothing is said of it: tests aren't proved.
    ghost ahead = { λ lines objects. [] };

    fn take(
        &mut self,
        alloc: Global,
        filter: &Filter,
        last: Option<Key>,
        bound: Option<Key>,
        line: &[u8],
    ) -> Result<Option<Key>, WantOfMemory> {
        let Some(key) = checked_key(alloc, filter, last, line, &mut self.written)? else {
            return Ok(None);
        };
        if self.room == 0 || bound.is_some_and(|bound| key >= bound) {
            return Ok(None);
        }
        self.room -= 1;
        push_line(line, &mut self.text)?;
        Ok(Some(key))
    }
}

// Writes the objects that are ahead, the first lines of them as they are.
fn write_taken(
    alloc: Global,
    entries: &[(Key, Option<Change>)],
    lines: &mut Lines,
) -> Result<(), MergeFault> {
    let mut store = store_of(alloc, BEFORE);
    let (mut source, opening, mut objects) = open_objects(alloc, &mut store, "save", entries)?;
    let filter = &opening.filter;
    let mut line = Vec::new(alloc);
    for _ in 0..MOST {
        if objects.pass_line(alloc, &mut store, "save", &mut source, filter, lines)? {
            continue;
        }
        match objects.next(alloc, &mut store, "save", &mut source, filter, &mut line)? {
            Some(_object) => push_line(line.as_slice(), &mut lines.text)?,
            None => return Ok(()),
        }
    }
    Err(MergeFault::Changed)
}

// How many lines are taken where there is room for so many, if the text is as without any. The
// first of the changes that are laid over the save is the one at that index.
fn count_taken(alloc: Global, first: usize, room: usize) -> Option<usize> {
    let entries = changed_objects(alloc).ok()?;
    let entries = entries.get(first..)?;
    let mut none = Lines {
        text: Vec::new(alloc),
        written: Vec::new(alloc),
        room: 0,
    };
    write_taken(alloc, entries, &mut none).ok()?;
    let mut some = Lines {
        text: Vec::new(alloc),
        written: Vec::new(alloc),
        room,
    };
    write_taken(alloc, entries, &mut some).ok()?;
    if some.text.as_slice() != none.text.as_slice() {
        return None;
    }
    Some(room - some.room)
}

#[test]
fn lines_are_taken_up_to_the_first_change(rt: HostRuntime) {
    let alloc = rt.alloc();
    // The changes are of n1, n2, w2 and r9, and the lines of n1, n3 and w2.
    assert!(rt; count_taken(alloc, 4, MOST) == Some(3));
    assert!(rt; count_taken(alloc, 2, MOST) == Some(2));
    assert!(rt; count_taken(alloc, 0, MOST) == Some(0));
}

#[test]
fn a_line_that_is_not_taken_is_given(rt: HostRuntime) {
    let alloc = rt.alloc();
    assert!(rt; count_taken(alloc, 4, 1) == Some(1));
    assert!(rt; count_taken(alloc, 2, 1) == Some(1));
    assert!(rt; count_taken(alloc, 3, 2) == Some(2));
}

// Whether a text is the beginning of what is written of the save.
fn begins(alloc: Global, text: &[u8]) -> bool {
    let mut whole = Vec::new(alloc);
    let result = write_save(alloc, &mut store_of(alloc, BEFORE), true, &mut whole);
    result.is_ok() && whole.as_slice().starts_with(text)
}

// Whether the device is blamed over a store that can make so many calls, and what was written until
// then is where the lists begin. None if all was written.
fn stops_at_the_beginning(alloc: Global, calls: u64) -> Option<bool> {
    let mut store = StoppingStore::new(store_of(alloc, BEFORE), calls);
    let mut text = Vec::new(alloc);
    match write_save(alloc, &mut store, true, &mut text) {
        Ok(()) => None,
        Err(fault) => Some(fault == MergeFault::ReadFault && begins(alloc, text.as_slice())),
    }
}

#[test]
fn a_reading_that_fails_at_a_call_gave_the_beginning(rt: HostRuntime) {
    let alloc = rt.alloc();
    assert!(rt; stops_at_the_beginning(alloc, 0) == Some(true));
    assert!(rt; stops_at_the_beginning(alloc, 1) == Some(true));
    assert!(rt; stops_at_the_beginning(alloc, 2) == Some(true));
    assert!(rt; stops_at_the_beginning(alloc, 3) == Some(true));
    assert!(rt; stops_at_the_beginning(alloc, 100).is_none());
}

// Whether a cut save is refused as bad, and nothing is written.
fn is_refused(alloc: Global, length: usize) -> bool {
    let Some(cut) = BEFORE.get(..length) else {
        return false;
    };
    let mut text = Vec::new(alloc);
    match write_save(alloc, &mut store_of(alloc, cut), true, &mut text) {
        Err(MergeFault::BadSave { line: _ }) => text.is_empty(),
        _ => false,
    }
}

#[test]
fn a_cut_save_is_not_read(rt: HostRuntime) {
    for length in 0..BEFORE.len() {
        assert!(rt; is_refused(rt.alloc(), length), "{length}");
    }
}
