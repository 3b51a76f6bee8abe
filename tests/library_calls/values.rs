//! Calls of a change, of its parts, of a batch, and of a filter.

use crate::answers::Answers;
use crate::filters::filter_of;
use crate::subject::Subject;
use osm_model::batch::{Batch, PushError};
use osm_model::change::{Change, What};
use osm_model::filter::Filter;
use osm_model::kind::{Key, Kind};
use osm_model::limits::MAX_TAGS;
use osm_model::lists::{Member, Part, Parts, Refs, Tag, Tags};
use osm_model::memory::WantOfMemory;
use osm_model::meta::Meta;
use osm_model::text::Text;
use osm_opl::lines::read_line;
use std::alloc::Global;

/// A batch, a list of references, a change for them, and a filter.
#[derive(Drop)]
pub(crate) struct Values {
    change: Option<Change>,
    batch: Batch,
    refs: Refs,
    spare: Option<Tags>,
    filter: Option<Filter>,
}

/// A call, or what is prepared for one.
#[derive(Clone, Copy)]
pub(crate) enum Call {
    Change,
    Spare,
    Filter,
    Show,
    Push,
    CopyBatch,
    PushPart,
    WithinLimits,
    CopyFilter,
    /// A copy of the change, or of a part of it.
    Copy(Copied),
}

#[derive(Clone, Copy)]
pub(crate) enum Copied {
    Change,
    Meta,
    Refs,
    Tag,
    Member,
}

const CALLS: &[(&str, Call)] = &[
    ("change", Call::Change),
    ("spare", Call::Spare),
    ("filter", Call::Filter),
    ("show", Call::Show),
    ("Batch::push", Call::Push),
    ("Batch::copy", Call::CopyBatch),
    ("Parts::push", Call::PushPart),
    ("Change::within_limits", Call::WithinLimits),
    ("Filter::copy", Call::CopyFilter),
    ("Change::copy", Call::Copy(Copied::Change)),
    ("Meta::copy", Call::Copy(Copied::Meta)),
    ("Parts::copy", Call::Copy(Copied::Refs)),
    ("Tag::copy", Call::Copy(Copied::Tag)),
    ("Member::copy", Call::Copy(Copied::Member)),
];

impl Subject for Values {
    type Call = Call;

    fn begin(alloc: Global) -> Result<Values, WantOfMemory> {
        Ok(Values {
            change: None,
            batch: Batch::new(alloc),
            refs: Parts::new(alloc),
            spare: None,
            filter: None,
        })
    }

    fn calls() -> &'static [(&'static str, Call)] {
        CALLS
    }

    fn take(&mut self, alloc: Global, call: Call, given: &[u8], out: &mut Answers) {
        match call {
            Call::Change => out.put_some(read_line(alloc, given).ok(), &mut self.change),
            Call::Spare => out.put_some(spare_tags(alloc), &mut self.spare),
            Call::Filter => out.put_some(filter_of(alloc, given), &mut self.filter),
            Call::Show => self.show(out),
            Call::Push => self.push(out),
            Call::CopyBatch => out.batch(self.batch.copy(alloc)),
            Call::PushPart => out.done(self.refs.push(7)),
            Call::WithinLimits => within_limits(alloc, &mut self.spare, out),
            Call::CopyFilter => self.copy_filter(alloc, out),
            Call::Copy(what) => self.copy_of_change(alloc, what, out),
        }
    }
}

impl Values {
    // The kinds and the keys of a copy, or the error.
    fn copy_filter(&self, alloc: Global, out: &mut Answers) {
        let Some(filter) = &self.filter else {
            return out.fail("no filter");
        };
        match filter.copy(alloc) {
            Ok(filter) => out.filter(&filter),
            Err(error) => out.debug(&error),
        }
    }

    // Copies the change, or a part of it.
    fn copy_of_change(&self, alloc: Global, what: Copied, out: &mut Answers) {
        match &self.change {
            Some(change) => copy_of(alloc, what, change, out),
            None => out.fail("no change"),
        }
    }

    // Adds the change to the batch. One that is handed back is kept, for the next time.
    fn push(&mut self, out: &mut Answers) {
        let Some(change) = self.change.take() else {
            return out.add(b"no change\n");
        };
        match self.batch.push(change) {
            Ok(()) => out.add(b"done\n"),
            Err(PushError::Full(change)) => {
                self.change = Some(change);
                out.add(b"Full\n");
            }
            Err(PushError::WantOfMemory(change)) => {
                self.change = Some(change);
                out.add(b"WantOfMemory\n");
            }
        }
    }

    // The references, the changes of the batch, and the change that isn't in it.
    fn show(&self, out: &mut Answers) {
        out.debug(&self.refs.as_slice());
        out.changes(self.batch.changes());
        if let Some(change) = &self.change {
            out.add(b"and ");
            out.change(change);
        }
    }
}

// Copies the change, a list of it, or the first part of one.
fn copy_of(alloc: Global, what: Copied, change: &Change, out: &mut Answers) {
    match what {
        Copied::Change => out.change_or(change.copy(alloc)),
        Copied::Meta => copy_meta(alloc, change.meta(), out),
        Copied::Refs => copy_refs(alloc, change.what(), out),
        Copied::Tag => copy_tag(alloc, change.what(), out),
        Copied::Member => copy_member(alloc, change.what(), out),
    }
}

// A tag, with room for a hundred.
fn spare_tags(alloc: Global) -> Option<Tags> {
    let (key, value) = (Text::new(alloc, "a").ok()?, Text::new(alloc, "b").ok()?);
    let mut tags = Vec::with_capacity(alloc, 100).ok()?;
    tags.push(Tag { key, value }).ok()?;
    Some(Parts::from_vec(tags))
}

// Makes a node with a list of tags that has room for many more.
fn within_limits(alloc: Global, spare: &mut Option<Tags>, out: &mut Answers) {
    match (spare.take(), nobody(alloc)) {
        (Some(tags), Some(meta)) => write_node(tags, meta, out),
        _ => out.fail("no tags"),
    }
}

// Version 1 of nobody.
fn nobody(alloc: Global) -> Option<Meta> {
    Meta::new(1, 1, 1, 1, Text::new(alloc, "").ok()?).ok()
}

fn write_node(tags: Tags, meta: Meta, out: &mut Answers) {
    if tags.as_slice().len() > MAX_TAGS {
        return out.fail("too many tags");
    }
    let key = Key {
        kind: Kind::Node,
        id: 1,
    };
    let what = What::Node {
        lon: 0,
        lat: 0,
        tags,
    };
    out.change(&Change::within_limits(key, meta, what));
}

fn copy_meta(alloc: Global, meta: &Meta, out: &mut Answers) {
    match meta.copy(alloc) {
        Ok(meta) => out.line(meta.user().as_str()),
        Err(error) => out.debug(&error),
    }
}

fn copy_refs(alloc: Global, what: &What, out: &mut Answers) {
    let What::Way { refs, .. } = what else {
        return out.fail("no references");
    };
    match refs.copy(alloc) {
        Ok(refs) => out.debug(&refs.as_slice()),
        Err(error) => out.debug(&error),
    }
}

fn copy_tag(alloc: Global, what: &What, out: &mut Answers) {
    let Some(tag) = first_tag(what) else {
        return out.fail("no tag");
    };
    match tag.copy(alloc) {
        Ok(tag) => {
            out.show(tag.key.as_str());
            out.add(b"=");
            out.line(tag.value.as_str());
        }
        Err(error) => out.debug(&error),
    }
}

fn first_tag(what: &What) -> Option<&Tag> {
    match what {
        What::Way { tags, .. } => tags.as_slice().first(),
        _ => None,
    }
}

fn copy_member(alloc: Global, what: &What, out: &mut Answers) {
    let Some(member) = first_member(what) else {
        return out.fail("no member");
    };
    match member.copy(alloc) {
        Ok(member) => {
            out.show(member.key.id);
            out.add(b"@");
            out.line(member.role.as_str());
        }
        Err(error) => out.debug(&error),
    }
}

fn first_member(what: &What) -> Option<&Member> {
    match what {
        What::Relation { members, .. } => members.as_slice().first(),
        _ => None,
    }
}
