//! Calls of a mirror and of its parts, of a save text, and of a holding area.

use crate::answers::Answers;
use crate::subject::Subject;
use osm_holding::holding::{Held, HoldingArea};
use osm_mirror::counts::Counts;
use osm_mirror::mirror::Mirror;
use osm_mirror::objects::Objects;
use osm_model::batch::Batch;
use osm_model::change::Change;
use osm_model::filter::Filter;
use osm_model::form::ChangeForm;
use osm_model::memory::WantOfMemory;
use osm_opl::lines::read_line;
use osm_opl::opl::Opl;
use osm_save::head::{Head, head_read};
use osm_save::save::{Saved, save_read, save_write};
use std::alloc::Global;
use std::mem::replace;

/// What a save text saves, objects and counts by themselves, a holding area, and changes for them.
#[derive(Drop)]
pub(crate) struct Mirrors {
    saved: Saved,
    objects: Objects,
    counts: Counts,
    holding: Option<HoldingArea>,
    changes: Batch,
    change: Option<Change>,
}

/// A call, or what is prepared for one.
#[derive(Clone, Copy)]
pub(crate) enum Call {
    Changes,
    Change,
    Area,
    Saved,
    Show,
    SaveRead,
    HeadRead,
    SaveWrite,
    Apply,
    Put,
    AddOne,
    NewArea,
    Numbers,
    /// A copy of one of the mirror's lists.
    Copy(Copied),
}

#[derive(Clone, Copy)]
pub(crate) enum Copied {
    Objects,
    Users,
    Changesets,
    ObjectsByKey,
    UserCounts,
}

const CALLS: &[(&str, Call)] = &[
    ("changes", Call::Changes),
    ("change", Call::Change),
    ("area", Call::Area),
    ("saved", Call::Saved),
    ("show", Call::Show),
    ("save_read", Call::SaveRead),
    ("head_read", Call::HeadRead),
    ("save_write", Call::SaveWrite),
    ("Mirror::apply", Call::Apply),
    ("Objects::put", Call::Put),
    ("Counts::add_one", Call::AddOne),
    ("HoldingArea::new", Call::NewArea),
    ("HoldingArea::numbers", Call::Numbers),
    ("Mirror::objects", Call::Copy(Copied::Objects)),
    ("Mirror::users", Call::Copy(Copied::Users)),
    ("Mirror::changesets", Call::Copy(Copied::Changesets)),
    ("Objects::to_vec", Call::Copy(Copied::ObjectsByKey)),
    ("Counts::to_vec", Call::Copy(Copied::UserCounts)),
];

impl Subject for Mirrors {
    type Call = Call;

    fn begin(alloc: Global) -> Result<Mirrors, WantOfMemory> {
        Ok(Mirrors {
            saved: saved_of(alloc, Mirror::new(alloc)),
            objects: Objects::new(alloc),
            counts: Counts::new(alloc),
            holding: None,
            changes: Batch::new(alloc),
            change: None,
        })
    }

    fn calls() -> &'static [(&'static str, Call)] {
        CALLS
    }

    fn take(&mut self, alloc: Global, call: Call, given: &[u8], out: &mut Answers) {
        match call {
            Call::Changes => out.put(Opl::read(alloc, given).ok(), &mut self.changes),
            Call::Change => out.put_some(read_line(alloc, given).ok(), &mut self.change),
            Call::Area => out.put_some(area_with_one(alloc).ok(), &mut self.holding),
            Call::Saved => out.put(save_read(alloc, given).ok(), &mut self.saved),
            Call::Show => self.show(alloc, out),
            Call::SaveRead => out.put_or(save_read(alloc, given), &mut self.saved),
            Call::HeadRead => write_number_of(alloc, given, out),
            Call::SaveWrite => out.bytes(save_of(alloc, &self.saved)),
            Call::Apply => self.apply(alloc, out),
            Call::Put => self.put(alloc, out),
            Call::AddOne => self.count(alloc, out),
            Call::NewArea => self.new_area(alloc, out),
            Call::Numbers => self.numbers(alloc, out),
            Call::Copy(what) => copy(alloc, what, &self.saved.mirror, out),
        }
    }
}

impl Mirrors {
    // Applies the changes to a new mirror.
    fn apply(&mut self, alloc: Global, out: &mut Answers) {
        let changes = replace(&mut self.changes, Batch::new(alloc));
        let mut mirror = Mirror::new(alloc);
        out.done(mirror.apply(&Filter::all(alloc), changes.into_changes()));
        self.saved = saved_of(alloc, mirror);
    }

    fn put(&mut self, alloc: Global, out: &mut Answers) {
        match self.change.take() {
            Some(change) => out.done(self.objects.put(&Filter::all(alloc), change)),
            None => out.fail("no change"),
        }
    }

    // Counts one edit of a user without any.
    fn count(&mut self, alloc: Global, out: &mut Answers) {
        let mut counts = Counts::new(alloc);
        out.done(counts.add_one(5));
        self.counts = counts;
    }

    fn new_area(&mut self, alloc: Global, out: &mut Answers) {
        match HoldingArea::new(alloc, 7) {
            Ok(area) => {
                self.holding = Some(area);
                out.add(b"done\n");
            }
            Err(error) => out.debug(&error),
        }
    }

    fn numbers(&self, alloc: Global, out: &mut Answers) {
        match &self.holding {
            Some(area) => out.list(area.numbers(alloc)),
            None => out.fail("no area"),
        }
    }

    // The save text, the objects and the counts by themselves, and the numbers that are held.
    fn show(&self, alloc: Global, out: &mut Answers) {
        match save_of(alloc, &self.saved) {
            Ok(text) => out.add(text.as_slice()),
            Err(_) => out.fail("no save"),
        }
        for change in self.objects.iter() {
            out.change(change);
        }
        for (number, count) in self.counts.iter() {
            out.show(number);
            out.add(b" ");
            out.line(count);
        }
        if let Some(area) = &self.holding {
            write_held(area, out);
        }
    }
}

// The number that a save begins with, or why there is none.
fn write_number_of(alloc: Global, save: &[u8], out: &mut Answers) {
    match head_read(alloc, save) {
        Ok(head) => out.line(head.number),
        Err(error) => out.debug(&error),
    }
}

fn saved_of(alloc: Global, mirror: Mirror) -> Saved {
    Saved {
        number: 0,
        base: 0,
        time: None,
        filter: Filter::all(alloc),
        mirror,
    }
}

fn save_of(alloc: Global, saved: &Saved) -> Result<Vec<u8>, WantOfMemory> {
    let head = Head {
        number: saved.number,
        base: saved.base,
        time: saved.time,
    };
    save_write(alloc, head, &saved.filter, &saved.mirror)
}

fn write_held(area: &HoldingArea, out: &mut Answers) {
    out.add(b"held");
    for number in 0..100u32 {
        if area.is_held(number) {
            out.add(b" ");
            out.show(number);
        }
    }
    out.add(b"\n");
}

// An area after number 0 that holds number 3.
fn area_with_one(alloc: Global) -> Result<HoldingArea, WantOfMemory> {
    let mut area = HoldingArea::new(alloc, 0)?;
    let batch = Batch::new(alloc);
    area.hold(3, Held { batch, time: 1 });
    Ok(area)
}

fn copy(alloc: Global, what: Copied, mirror: &Mirror, out: &mut Answers) {
    match what {
        Copied::Objects => out.objects(mirror.objects(alloc)),
        Copied::Users => out.list(mirror.users(alloc)),
        Copied::Changesets => out.list(mirror.changesets(alloc)),
        Copied::ObjectsByKey => out.objects(mirror.objects_by_key().to_vec(alloc)),
        Copied::UserCounts => out.list(mirror.user_counts().to_vec(alloc)),
    }
}
