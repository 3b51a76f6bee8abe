//! Tests that mixed changes stay the same when written and read back in each form, and when copied.

use osm_model::batch::Batch;
use osm_model::files::WriteError;
use osm_model::form::{ChangeForm, there_and_back};
use osm_model::memory::WantOfMemory;
use osm_o5c::o5c::O5c;
use osm_opl::opl::{Opl, laws_of_opl};
use std::alloc::Global;

// Objects of each kind and deletions of two, with and without tags, of users whose names are
// escaped or not ASCII.
const MIXED: &[u8] = b"\
    n11000000001 v2 dV c145000001 t2024-01-01T00:00:01Z i1001 umapper_42 T x8.5000001 y47.0000001\n\
    n11000000004 v5 dV c145000004 t2024-01-01T00:00:04Z i1000 uann \
    Taddr:street=Rue%20%de%20%la%20%Gare,addr:housenumber=12,surface=asphalt x-8.5 y-47\n\
    n-5 v1 dV c145000005 t2024-01-01T00:00:05Z i1002 ubob%20%the%20%builder T x180 y90\n\
    w1200000014 v1 dV c145000014 t2024-01-01T00:00:14Z i1002 ubob%20%the%20%builder \
    Tname=Hauptstrasse,source=survey Nn11000000014,n11000000015,n-5,n11000000014\n\
    w1200000015 v7 dV c145000015 t2024-01-01T00:00:15Z i1003 uJ\xc3\xbcrgen T N\n\
    r17000018 v5 dV c145000018 t2024-01-01T00:00:18Z i1002 uann Ttype=multipolygon \
    Mw1200000018@outer,w1200000019@inner,n1200000020@,r1200000021@%2c%\n\
    n900000019 v6 dD c145000019 t2024-01-01T00:00:19Z i1003 uJ\xc3\xbcrgen T x y\n\
    w900000039 v5 dD c145000039 t2024-01-01T00:00:39Z i1003 umapper_42 T N\n";

fn comes_back<F: ChangeForm>(alloc: Global, batch: &Batch) -> bool {
    match there_and_back::<F>(alloc, batch) {
        Ok(back) => back == *batch,
        Err(_) => false,
    }
}

fn is_copied(alloc: Global, batch: &Batch) -> bool {
    match batch.copy(alloc) {
        Ok(copy) => copy == *batch && copy.changes().len() == 8,
        Err(_) => false,
    }
}

fn is_kept(alloc: Global, batch: &Batch) -> bool {
    let comes_back = comes_back::<Opl>(alloc, batch) && comes_back::<O5c>(alloc, batch);
    comes_back && is_copied(alloc, batch)
}

// What is written as o5c within so many bytes; none if that is too large.
fn written_within(
    alloc: Global,
    batch: &Batch,
    most: u64,
) -> Result<Option<Vec<u8>>, WantOfMemory> {
    match O5c::write_within(alloc, batch, most) {
        Ok(bytes) => Ok(Some(bytes)),
        Err(WriteError::TooLarge) => Ok(None),
        Err(WriteError::WantOfMemory) => Err(WantOfMemory),
    }
}

// Whether the batch is written as o5c within as many bytes as that has, and within one less isn't.
fn is_bounded(alloc: Global, batch: &Batch) -> bool {
    let Ok(whole) = O5c::write(alloc, batch) else {
        return false;
    };
    let size = whole.len() as u64;
    let fits = match written_within(alloc, batch, size) {
        Ok(Some(bytes)) => bytes.as_slice() == whole.as_slice(),
        _ => false,
    };
    let is_too_large = match written_within(alloc, batch, size - 1) {
        Ok(None) => true,
        _ => false,
    };
    fits && is_too_large
}

#[test]
fn changes_are_written_within_a_bound_only_if_they_fit(rt: HostRuntime) {
    let is_bounded = match Opl::read(rt.alloc(), MIXED) {
        Ok(batch) => is_bounded(rt.alloc(), &batch),
        Err(_) => false,
    };
    assert!(rt; is_bounded);
}

// Whether mixed changes stay the same in each form and in a copy.
fn are_kept(alloc: Global) -> bool {
    match Opl::read(alloc, MIXED) {
        Ok(batch) => is_kept(alloc, &batch),
        Err(_) => false,
    }
}

#[test]
fn mixed_changes_come_back_in_each_form_and_are_copied(rt: HostRuntime) {
    assert!(rt; are_kept(rt.alloc()));
    laws_of_opl();
}
