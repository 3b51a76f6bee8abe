//! Tests of data files in both forms: where and why one is refused, and that each form's file holds
//! the objects of the other's.

use osm_model::data::DataError;
use osm_model::form::{ChangeForm, FormError, Why};
use osm_o5c::data as o5m;
use osm_o5c::o5c::O5c;
use osm_opl::data as opl;
use osm_opl::opl::Opl;
use std::alloc::{AllocError, Global};

const NODE: &[u8] = b"n1 v1 dV c7 t2024-01-01T00:00:00Z i5 uann T x1 y2\n";

const NODE_O5M: &[u8] = b"\xff\xe0\x04o5m2\
    \x10\x17\x02\x01\x80\x82\x90\xd9\x0c\x0e\x00\x05\x00ann\x00\x80\xda\xc4\x09\x80\xb4\x89\x13\
    \xfe";

// Ids rise as whole numbers.
const NODES: &[u8] = b"n-2 v1 dV c7 t2024-01-01T00:00:00Z i5 uann T x1 y2\n\
    n-1 v1 dV c7 t2024-01-01T00:00:00Z i5 uann T x1 y2\n\
    n0 v1 dV c7 t2024-01-01T00:00:00Z i5 uann T x1 y2\n\
    n1 v1 dV c7 t2024-01-01T00:00:00Z i5 uann T x1 y2\n";

const NODES_O5M: &[u8] = b"\xff\xe0\x04o5m2\
    \x10\x17\x03\x01\x80\x82\x90\xd9\x0c\x0e\x00\x05\x00ann\x00\x80\xda\xc4\x09\x80\xb4\x89\x13\
    \x10\x07\x02\x01\x00\x00\x01\x00\x00\
    \x10\x07\x02\x01\x00\x00\x01\x00\x00\
    \x10\x07\x02\x01\x00\x00\x01\x00\x00\
    \xfe";

const KINDS: &[u8] = b"n1 v1 dV c7 t2024-01-01T00:00:00Z i5 uann T x1 y2\n\
    w10 v1 dV c7 t2024-01-01T00:00:00Z i5 uann Thighway=path Nn1,n2,n5\n\
    r3 v1 dV c7 t2024-01-01T00:00:00Z i5 uann T Mn1@,w10@outer,n4@\n";

const KINDS_O5M: &[u8] = b"\xff\xe0\x04o5m2\
    \x10\x17\x02\x01\x80\x82\x90\xd9\x0c\x0e\x00\x05\x00ann\x00\x80\xda\xc4\x09\x80\xb4\x89\x13\
    \xff\
    \x11\x21\x14\x01\x80\x82\x90\xd9\x0c\x0e\x00\x05\x00ann\x00\x03\x02\x02\x06\
    \x00highway\x00path\x00\
    \xff\
    \x12\x1f\x06\x01\x80\x82\x90\xd9\x0c\x0e\x00\x05\x00ann\x00\x0f\
    \x02\x000\x00\x14\x001outer\x00\x06\x02\
    \xfe";

// The same with the time of the file, a bounding box, and resets that aren't needed.
const KINDS_AND_MORE: &[u8] = b"\xff\xe0\x04o5m2\
    \xdc\x05\x80\x82\x90\xd9\x0c\xdb\x04\x00\x00\x02\x02\xff\
    \x10\x17\x02\x01\x80\x82\x90\xd9\x0c\x0e\x00\x05\x00ann\x00\x80\xda\xc4\x09\x80\xb4\x89\x13\
    \xff\xff\
    \x11\x21\x14\x01\x80\x82\x90\xd9\x0c\x0e\x00\x05\x00ann\x00\x03\x02\x02\x06\
    \x00highway\x00path\x00\
    \xff\
    \x12\x1f\x06\x01\x80\x82\x90\xd9\x0c\x0e\x00\x05\x00ann\x00\x0f\
    \x02\x000\x00\x14\x001outer\x00\x06\x02\
    \xff\xfe";

// Whether the objects of the one file are written as the other.
fn is_written_as_o5m(alloc: Global, lines: &[u8], bytes: &[u8]) -> bool {
    let Ok(objects) = opl::read_data(alloc, lines) else {
        return false;
    };
    match o5m::write_data(alloc, objects.as_slice()) {
        Ok(written) => written.as_slice() == bytes,
        Err(_) => false,
    }
}

fn is_written_as_opl(alloc: Global, bytes: &[u8], lines: &[u8]) -> bool {
    let Ok(objects) = o5m::read_data(alloc, bytes) else {
        return false;
    };
    match opl::write_data(alloc, objects.as_slice()) {
        Ok(written) => written.as_slice() == lines,
        Err(_) => false,
    }
}

#[test]
fn each_form_holds_the_objects_of_the_other(rt: HostRuntime) {
    let cases: [(&[u8], &[u8]); 4] = [
        (b"", b"\xff\xe0\x04o5m2\xfe"),
        (NODE, NODE_O5M),
        (NODES, NODES_O5M),
        (KINDS, KINDS_O5M),
    ];
    for (lines, bytes) in cases {
        assert!(rt; is_written_as_o5m(rt.alloc(), lines, bytes));
        assert!(rt; is_written_as_opl(rt.alloc(), bytes, lines));
    }
    assert!(rt; is_written_as_opl(rt.alloc(), KINDS_AND_MORE, KINDS));
    o5m::laws_of_data();
    opl::laws_of_data();
}

const EQUAL_KEYS: &[u8] = b"n1 v1 dV c1 t2024-01-01T00:00:00Z i1 u T x0 y0\n\
    n1 v2 dV c1 t2024-01-01T00:00:00Z i1 u T x0 y0\n";

const EQUAL_KEYS_O5M: &[u8] = b"\xff\xe0\x04o5m2\
    \x10\x17\x02\x01\x80\x82\x90\xd9\x0c\x0e\x00\x05\x00ann\x00\x80\xda\xc4\x09\x80\xb4\x89\x13\
    \x10\x0d\x00\x01\x00\x00\x00\x05\x00ann\x00\x00\x00\
    \xfe";

const FALLING_KEYS: &[u8] = b"# of one kind\n\
    n2 v1 dV c1 t2024-01-01T00:00:00Z i1 u T x0 y0\n\
    n-1 v1 dV c1 t2024-01-01T00:00:00Z i1 u T x0 y0\n";

const FALLING_KEYS_O5M: &[u8] = b"\xff\xe0\x04o5m2\xdc\x00\
    \x10\x17\x04\x01\x80\x82\x90\xd9\x0c\x0e\x00\x05\x00ann\x00\x80\xda\xc4\x09\x80\xb4\x89\x13\
    \x10\x07\x05\x01\x00\x00\x01\x00\x00\
    \xfe";

// As osmium sorts negative ids.
const AWAY_FROM_0: &[u8] = b"n0 v1 dV c1 t2024-01-01T00:00:00Z i1 u T x0 y0\n\
    n-1 v1 dV c1 t2024-01-01T00:00:00Z i1 u T x0 y0\n\
    n-2 v1 dV c1 t2024-01-01T00:00:00Z i1 u T x0 y0\n";

const AWAY_FROM_0_O5M: &[u8] = b"\xff\xe0\x04o5m2\
    \x10\x17\x00\x01\x80\x82\x90\xd9\x0c\x0e\x00\x05\x00ann\x00\x80\xda\xc4\x09\x80\xb4\x89\x13\
    \x10\x07\x01\x01\x00\x00\x01\x00\x00\
    \x10\x07\x01\x01\x00\x00\x01\x00\x00\
    \xfe";

// The node's id is the greater one.
const FALLING_KINDS: &[u8] = b"w10 v1 dV c1 t2024-01-01T00:00:00Z i1 u T N\n\n\
    n11 v1 dV c1 t2024-01-01T00:00:00Z i1 u T x0 y0\n";

const FALLING_KINDS_O5M: &[u8] = b"\xff\xe0\x04o5m2\
    \x11\x10\x14\x01\x80\x82\x90\xd9\x0c\x0e\x00\x05\x00ann\x00\x00\
    \x10\x07\x02\x01\x00\x00\x01\x00\x00\
    \xfe";

const DELETION_FIRST: &[u8] = b"w10 v1 dD c1 t2024-01-01T00:00:00Z i1 u T N\n\
    r11 v1 dV c1 t2024-01-01T00:00:00Z i1 u T M\n";

const DELETION_FIRST_O5M: &[u8] = b"\xff\xe0\x04o5m2\
    \x11\x0f\x14\x01\x80\x82\x90\xd9\x0c\x0e\x00\x05\x00ann\x00\
    \x12\x06\x02\x01\x00\x00\x01\x00\
    \xfe";

const DELETION_LAST: &[u8] = b"n1 v1 dV c1 t2024-01-01T00:00:00Z i1 u T x0 y0\n\
    n2 v1 dD c1 t2024-01-01T00:00:00Z i1 u T x y\n";

const DELETION_LAST_O5M: &[u8] = b"\xff\xe0\x04o5m2\
    \x10\x17\x02\x01\x80\x82\x90\xd9\x0c\x0e\x00\x05\x00ann\x00\x80\xda\xc4\x09\x80\xb4\x89\x13\
    \x10\x05\x02\x01\x00\x00\x01\
    \xfe";

// The line that is at fault, and why.
fn fault_in_opl(alloc: Global, lines: &[u8]) -> Option<(u64, Why)> {
    match opl::read_data(alloc, lines) {
        Err(FormError::Fault { place, why }) => Some((place, why)),
        _ => None,
    }
}

// The offset of the dataset that is at fault, and why.
fn fault_in_o5m(alloc: Global, bytes: &[u8]) -> Option<(u64, Why)> {
    match o5m::read_data(alloc, bytes) {
        Err(FormError::Fault { place, why }) => Some((place, why)),
        _ => None,
    }
}

#[test]
fn what_is_no_data_is_refused_at_its_place(rt: HostRuntime) {
    let cases: [(&[u8], u64, &[u8], u64, Why); 6] = [
        (EQUAL_KEYS, 2, EQUAL_KEYS_O5M, 32, Why::OutOfOrder),
        (FALLING_KEYS, 3, FALLING_KEYS_O5M, 34, Why::OutOfOrder),
        (AWAY_FROM_0, 2, AWAY_FROM_0_O5M, 32, Why::OutOfOrder),
        (FALLING_KINDS, 3, FALLING_KINDS_O5M, 25, Why::OutOfOrder),
        (DELETION_FIRST, 1, DELETION_FIRST_O5M, 7, Why::Deleted),
        (DELETION_LAST, 2, DELETION_LAST_O5M, 32, Why::Deleted),
    ];
    for (lines, line, bytes, offset, why) in cases {
        assert_eq!(rt; fault_in_opl(rt.alloc(), lines), Some((line, why)));
        assert_eq!(rt; fault_in_o5m(rt.alloc(), bytes), Some((offset, why)));
    }
    assert_eq!(rt; fault_in_opl(rt.alloc(), b"\nn1"), Some((2, Why::BadField)));
}

const CHANGE_FILE: &[u8] = b"\xff\xe0\x04o5c2\
    \x10\x17\x02\x01\x80\x82\x90\xd9\x0c\x0e\x00\x05\x00ann\x00\x80\xda\xc4\x09\x80\xb4\x89\x13\
    \xfe";

// The offset of the fault of a change file, and why.
fn fault_in_o5c(alloc: Global, bytes: &[u8]) -> Option<(u64, Why)> {
    match O5c::read(alloc, bytes) {
        Err(FormError::Fault { place, why }) => Some((place, why)),
        _ => None,
    }
}

#[test]
fn a_change_file_is_no_data_file_and_the_other_way_round(rt: HostRuntime) {
    assert_eq!(rt; fault_in_o5c(rt.alloc(), CHANGE_FILE), None);
    assert_eq!(rt; fault_in_o5m(rt.alloc(), NODE_O5M), None);
    assert_eq!(rt;
        fault_in_o5m(rt.alloc(), CHANGE_FILE),
        Some((0, Why::BadHeader))
    );
    assert_eq!(rt;
        fault_in_o5c(rt.alloc(), NODE_O5M),
        Some((0, Why::BadHeader))
    );
}

// The fault of the file of one node that is cut after so many bytes.
fn fault_of_cut(length: usize) -> (u64, Why) {
    if length < 7 {
        return (0, Why::BadHeader);
    }
    if length < 32 {
        return (7, Why::Truncated);
    }
    (32, Why::Truncated)
}

#[test]
fn a_cut_data_file_is_refused_at_its_end(rt: HostRuntime) {
    for length in 0..NODE_O5M.len() {
        let (cut, _rest) = NODE_O5M.split_at(length);
        assert_eq!(rt; fault_in_o5m(rt.alloc(), cut), Some(fault_of_cut(length)));
    }
}

// Why the changes of a change file aren't written as a data file in either form.
fn refusals(alloc: Global, lines: &[u8]) -> Option<(DataError, DataError)> {
    let Ok(batch) = Opl::read(alloc, lines) else {
        return None;
    };
    let in_opl = opl::write_data(alloc, batch.changes()).err()?;
    let in_o5m = o5m::write_data(alloc, batch.changes()).err()?;
    Some((in_opl, in_o5m))
}

#[test]
fn changes_that_are_no_data_are_not_written(rt: HostRuntime) {
    let cases: [(&[u8], u64); 5] = [
        (DELETION_FIRST, 1),
        (EQUAL_KEYS, 2),
        (AWAY_FROM_0, 2),
        (FALLING_KINDS, 2),
        (DELETION_LAST, 2),
    ];
    for (lines, index) in cases {
        let error = DataError::NotData { index };
        assert_eq!(rt; refusals(rt.alloc(), lines), Some((error, error)));
    }
}

// The lines of nodes with a tag each that no other has.
fn many_nodes(alloc: Global, count: u32) -> Result<Vec<u8>, AllocError> {
    let mut lines = Vec::new(alloc);
    for id in 0..count {
        let line = format!(in alloc;
            "n{id} v1 dV c7 t2024-01-01T00:00:00Z i5 uann Tk={id} x1 y2\n"
        )?;
        lines.extend_from_slice(line.as_bytes())?;
    }
    Ok(lines)
}

// Whether that many nodes are the same after they were written as o5m.
fn come_back(alloc: Global, count: u32) -> bool {
    let Ok(lines) = many_nodes(alloc, count) else {
        return false;
    };
    match as_o5m(alloc, lines.as_slice()) {
        Some(bytes) => is_written_as_opl(alloc, bytes.as_slice(), lines.as_slice()),
        None => false,
    }
}

fn as_o5m(alloc: Global, lines: &[u8]) -> Option<Vec<u8>> {
    let objects = opl::read_data(alloc, lines).ok()?;
    o5m::write_data(alloc, objects.as_slice()).ok()
}

// The user of the last node is the first that no number names any more.
#[test]
fn strings_far_back_are_named_up_to_15000(rt: HostRuntime) {
    assert!(rt; come_back(rt.alloc(), 15_001));
}

fn is_too_large(alloc: Global, size: usize) -> bool {
    let Ok(bytes) = Vec::from_elem(alloc, b'\n', size) else {
        return false;
    };
    let in_opl = opl::read_data(alloc, bytes.as_slice()).err();
    let in_o5m = o5m::read_data(alloc, bytes.as_slice()).err();
    in_opl == Some(FormError::TooLarge) && in_o5m == Some(FormError::TooLarge)
}

#[test]
fn more_than_64_mib_are_too_large(rt: HostRuntime) {
    assert!(rt; is_too_large(rt.alloc(), 67_108_865));
}
