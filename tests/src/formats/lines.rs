//! Tests of lines: read and written one by one, cut, and skipped. Then of sequence numbers.

use super::shown::is_shown;
use osm_model::form::Why;
use osm_model::kind::{Key, Kind};
use osm_opl::lines::{LineError, line_key, read_line, write_line};
use osm_opl::written::written_key;
use osm_reading::lines::{is_skipped_line, split_line};
use osm_reading::sequence::sequence_read;
use std::alloc::Global;

const NODE: &[u8] = b"n1 v1 dV c7 t2024-01-01T00:00:00Z i5 uann T x1 y2";

// Whether the line is read, and its change is then appended to `out` as the same line.
fn is_written_again(alloc: Global, out: &mut Vec<u8>, line: &[u8]) -> bool {
    let is_written = match read_line(alloc, line) {
        Ok(change) => write_line(&change, out).is_ok(),
        Err(_) => false,
    };
    is_written && out.as_slice().starts_with(NODE) && out.as_slice().ends_with(line)
}

#[test]
fn lines_are_written_one_after_the_other(rt: HostRuntime) {
    let mut out = Vec::new(rt.alloc());
    let is_first = is_written_again(rt.alloc(), &mut out, NODE);
    let is_second = is_written_again(rt.alloc(), &mut out, NODE);
    let length = out.len();
    assert!(rt; is_first && is_second && length == 2 * NODE.len());
}

// Texts of 64 bytes, which are appended with the rest of a line, and of 65, which aren't; the longest
// start of a line and the longest location; and short texts with escapes.
const LONG_LINES: [&[u8]; 7] = [
    b"n2 v1 dV c7 t2024-01-01T00:00:00Z i5 \
    uaaaaaaaaaaaaaaaaaaaaaaaaaaaaaaaaaaaaaaaaaaaaaaaaaaaaaaaaaaaaaaaa T x1 y2",
    b"n3 v1 dV c7 t2024-01-01T00:00:00Z i5 \
    uaaaaaaaaaaaaaaaaaaaaaaaaaaaaaaaaaaaaaaaaaaaaaaaaaaaaaaaaaaaaaaaaa T x-1.5 y2.0000001",
    b"w4 v1 dV c7 t2024-01-01T00:00:00Z i5 uann \
    Taaaaaaaaaaaaaaaaaaaaaaaaaaaaaaaaaaaaaaaaaaaaaaaaaaaaaaaaaaaaaaaa=\
    aaaaaaaaaaaaaaaaaaaaaaaaaaaaaaaaaaaaaaaaaaaaaaaaaaaaaaaaaaaaaaaa N",
    b"w5 v1 dV c7 t2024-01-01T00:00:00Z i5 uann \
    Taaaaaaaaaaaaaaaaaaaaaaaaaaaaaaaaaaaaaaaaaaaaaaaaaaaaaaaaaaaaaaaaa=b,\
    b=aaaaaaaaaaaaaaaaaaaaaaaaaaaaaaaaaaaaaaaaaaaaaaaaaaaaaaaaaaaaaaaaa,c=d N",
    b"r-4611686018427387903 v4294967295 dD c4294967295 t2106-02-07T06:28:15Z i4294967295 \
    uaaaaaaaaaaaaaaaaaaaaaaaaaaaaaaaaaaaaaaaaaaaaaaaaaaaaaaaaaaaaaaaa T M",
    b"n7 v1 dV c7 t2024-01-01T00:00:00Z i5 uann T x-179.9999999 y-89.9999999",
    b"w6 v1 dV c7 t2024-01-01T00:00:00Z i5 ua%20%b Ta%20%b=c,c=%20%,d=e Nn1,n-2",
];

#[test]
fn short_and_long_texts_are_written_again(rt: HostRuntime) {
    for line in LONG_LINES {
        let mut out = Vec::new(rt.alloc());
        assert!(rt; is_written_again(rt.alloc(), &mut out, NODE));
        assert!(rt; is_written_again(rt.alloc(), &mut out, line));
        assert!(rt; out.len() == NODE.len() + line.len());
    }
}

// Why the line isn't read.
fn refusal(alloc: Global, line: &[u8]) -> Option<LineError> {
    read_line(alloc, line).err()
}

#[test]
fn a_line_is_not_empty(rt: HostRuntime) {
    let refused = refusal(rt.alloc(), b"");
    assert!(rt; refused == Some(LineError::Fault(Why::BadKind)));
}

#[test]
fn the_key_of_a_line_is_its_first_field(rt: HostRuntime) {
    assert!(rt; line_key(NODE) == key_of(Kind::Node, 1));
    assert!(rt; line_key(b"w123456789012 v") == key_of(Kind::Way, 123_456_789_012));
    assert!(rt; line_key(b"r-7") == key_of(Kind::Relation, -7));
    assert!(rt; line_key(b"x1 v1").is_none());
    assert!(rt; line_key(b"").is_none());
}

fn key_of(kind: Kind, id: i64) -> Option<Key> {
    Some(Key { kind, id })
}

#[test]
fn what_is_written_of_an_object_is_recognised(rt: HostRuntime) {
    let cases: [(&[u8], Option<Key>); 6] = [
        (NODE, key_of(Kind::Node, 1)),
        (
            b"n20 v1 dV c7 t2024-02-29T23:59:59Z i5 ua%20%b T x-0.0000001 y-90",
            key_of(Kind::Node, 20),
        ),
        (
            b"n3 v1 dV c7 t2024-01-01T00:00:00Z i5 u Tname=M%fc%nchen,%65e5%=%1f600% x180 y0.5",
            key_of(Kind::Node, 3),
        ),
        (
            b"w4 v1 dV c7 t2024-01-01T00:00:00Z i5 uann T N",
            key_of(Kind::Way, 4),
        ),
        (
            b"w5 v1 dV c7 t2024-01-01T00:00:00Z i5 uann Tlit=yes Nn1,n123456789012,n1",
            key_of(Kind::Way, 5),
        ),
        (
            b"r6 v1 dV c7 t2024-01-01T00:00:00Z i5 uann T Mn1@,w2@outer,r6@a%40%b",
            key_of(Kind::Relation, 6),
        ),
    ];
    for (line, key) in cases {
        assert!(rt; written_key(line) == key);
    }
}

#[test]
fn what_is_written_otherwise_is_not_recognised(rt: HostRuntime) {
    let cases: [&[u8]; 11] = [
        b"",
        b"n01 v1 dV c7 t2024-01-01T00:00:00Z i5 uann T x1 y2",
        b"n1 v1 dD c7 t2024-01-01T00:00:00Z i5 uann T x y",
        b"n1 v1 dV c0 t2024-01-01T00:00:00Z i5 uann T x1 y2",
        b"n1 v1 dV c7 t2024-02-30T00:00:00Z i5 uann T x1 y2",
        b"n1 v1 dV c7 t2024-01-01T00:00:00Z i5 u%61%nn T x1 y2",
        b"n1 v1 dV c7 t2024-01-01T00:00:00Z i5 u%FC% T x1 y2",
        b"n1 v1 dV c7 t2024-01-01T00:00:00Z i5 uann T x1.0 y2",
        b"n1 v1 dV c7 t2024-01-01T00:00:00Z i5 uann T x-0 y2",
        b"n1 v1 dV c7 t2024-01-01T00:00:00Z i5 uann T x1 y90.0000001",
        b"n1 v1 dV c7 t2024-01-01T00:00:00Z i5 uann T x1 y2 ",
    ];
    for line in cases {
        assert!(rt; written_key(line).is_none());
    }
}

#[test]
fn lines_are_cut_and_told_apart(rt: HostRuntime) {
    let cases: [(&[u8], &[u8], Option<&[u8]>); 6] = [
        (b"# a\r\r\nb", b"# a\r", Some(b"b")),
        (b"b\r", b"b", None),
        (b"", b"", None),
        (b"\n", b"", Some(b"")),
        (b"a\n\r", b"a", Some(b"\r")),
        (b"a\rb\n\n", b"a\rb", Some(b"\n")),
    ];
    for (bytes, line, rest) in cases {
        assert_eq!(rt; split_line(bytes), (line, rest));
    }
}

#[test]
fn only_empty_lines_and_those_of_a_number_sign_are_skipped(rt: HostRuntime) {
    assert!(rt; is_skipped_line(b""));
    for code in 0u32..256 {
        let line = [code as u8, b'1'];
        assert_eq!(rt; is_skipped_line(&line), code == 0x23, "{code}");
    }
}

#[test]
fn a_sequence_is_one_to_nine_digits(rt: HostRuntime) {
    let cases: [(&[u8], Option<u32>); 11] = [
        (b"0", Some(0)),
        (b"7", Some(7)),
        (b"000000012", Some(12)),
        (b"999999999", Some(999_999_999)),
        (b"", None),
        (b"0000000001", None),
        (b"1000000000", None),
        (b"1a", None),
        (b"+1", None),
        (b"-1", None),
        (b" 1", None),
    ];
    for (digits, number) in cases {
        assert_eq!(rt; sequence_read(digits), number);
    }
}

#[test]
fn the_texts_of_refusals_are_their_names(rt: HostRuntime) {
    assert!(rt; is_shown(rt.alloc(), &LineError::WantOfMemory, "WantOfMemory"));
    assert!(rt; is_shown(rt.alloc(), &LineError::Fault(Why::BadText), "Fault"));
}
