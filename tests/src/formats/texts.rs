//! Tests of texts one by one: written and read again, escaped, and refused.

use osm_model::form::Why;
use osm_model::text::Text;
use osm_opl::lines::LineError;
use osm_opl::texts::{read_text, write_text};
use std::alloc::Global;

// What is written of a text after `key `.
fn written(alloc: Global, text: &str) -> Option<Vec<u8>> {
    let mut out = Vec::from_slice(alloc, b"key ").ok()?;
    write_text(&Text::new(alloc, text).ok()?, &mut out).ok()?;
    Some(out)
}

fn is_written(alloc: Global, text: &str, bytes: &[u8]) -> bool {
    match written(alloc, text) {
        Some(out) => out.as_slice().strip_prefix(b"key ") == Some(bytes),
        None => false,
    }
}

fn is_read(alloc: Global, bytes: &[u8], text: &str) -> bool {
    match read_text(alloc, bytes) {
        Ok(read) => read.as_str() == text,
        Err(_) => false,
    }
}

#[test]
fn a_text_is_read_as_it_was_written(rt: HostRuntime) {
    let cases: [(&str, &[u8]); 8] = [
        ("", b""),
        ("highway", b"highway"),
        ("a b,c", b"a%20%b%2c%c"),
        ("addr:street", b"addr:street"),
        ("100%", b"100%25%"),
        ("a=b@c", b"a%3d%b%40%c"),
        ("\u{1}\n\u{7f}", b"%01%%0a%%7f%"),
        ("ä日\u{10ffff}", b"%e4%%65e5%%10ffff%"),
    ];
    for (text, bytes) in cases {
        assert!(rt; is_written(rt.alloc(), text, bytes), "{text}");
        assert!(rt; is_read(rt.alloc(), bytes, text), "{text}");
    }
}

#[test]
fn other_spellings_of_a_text_are_read_too(rt: HostRuntime) {
    let cases: [(&[u8], &str); 4] = [
        (b"%61%%00000062%", "ab"),
        (b"%E4%%e4%", "ää"),
        ("ä日".as_bytes(), "ä日"),
        (
            b"!\"#$&'()*+-./:;<>?[\\]^_`{|}~\x01\x7f",
            "!\"#$&'()*+-./:;<>?[\\]^_`{|}~\u{1}\u{7f}",
        ),
    ];
    for (bytes, text) in cases {
        assert!(rt; is_read(rt.alloc(), bytes, text), "{text}");
    }
}

// A text of that many times the same characters.
fn repeated(alloc: Global, part: &str, count: usize) -> Option<String> {
    let mut text = String::new(alloc);
    for _ in 0..count {
        text.push_str(part).ok()?;
    }
    Some(text)
}

// Whether so many of the characters are written and read back as they were.
fn is_read_back(alloc: Global, part: &str, count: usize) -> Option<bool> {
    let text = repeated(alloc, part, count)?;
    let mut out = Vec::new(alloc);
    write_text(&Text::new(alloc, text.as_str()).ok()?, &mut out).ok()?;
    Some(is_read(alloc, out.as_slice(), text.as_str()))
}

fn refusal(alloc: Global, bytes: &[u8]) -> Option<LineError> {
    read_text(alloc, bytes).err()
}

fn refusal_of_many(alloc: Global, part: &str, count: usize) -> Option<LineError> {
    refusal(alloc, repeated(alloc, part, count)?.as_bytes())
}

#[test]
fn the_longest_text_has_1020_bytes_without_its_escapes(rt: HostRuntime) {
    let alloc = rt.alloc();
    let too_long = Some(LineError::Fault(Why::BadText));
    assert!(rt; is_read_back(alloc, "a", 1_020) == Some(true));
    assert!(rt; is_read_back(alloc, " ", 1_020) == Some(true));
    assert!(rt; is_read_back(alloc, "\u{10ffff}", 255) == Some(true));
    assert!(rt; refusal_of_many(alloc, "a", 1_021) == too_long);
    assert!(rt; refusal_of_many(alloc, "%20%", 1_021) == too_long);
    assert!(rt; refusal_of_many(alloc, "%10ffff%", 256) == too_long);
}

#[test]
fn bytes_that_spell_no_text_are_refused(rt: HostRuntime) {
    let cases: [(&[u8], Why); 18] = [
        (b" ", Why::BadField),
        (b"a b", Why::BadField),
        (b"a,b", Why::BadField),
        (b"a=b", Why::BadField),
        (b"a@b", Why::BadField),
        (b"a\tb", Why::BadField),
        (b"a\n", Why::BadField),
        (b"a\r", Why::BadField),
        (b"a\0", Why::BadText),
        (b"\xff", Why::BadText),
        (b"\xc3", Why::BadText),
        (b"%", Why::BadEscape),
        (b"100%", Why::BadEscape),
        (b"%%", Why::BadEscape),
        (b"%0%", Why::BadEscape),
        (b"%d800%", Why::BadEscape),
        (b"%110000%", Why::BadEscape),
        (b"%000000061%", Why::BadEscape),
    ];
    for (bytes, why) in cases {
        assert!(rt;
            refusal(rt.alloc(), bytes) == Some(LineError::Fault(why)),
            "{bytes:?}"
        );
    }
}
