//! Tests of reads in blocks: across a file and past its end, and which file is read if it changes
//! in between.

use super::cases::{Case, Run, check};
use super::steps::{Call, DONE, Disk, Read, Step, is_read};
use osm_disk::disk_store::DiskStore;
use osm_store::store::StoreError;
use std::alloc::Global;
use std::fs::Files;
use std::io::ErrorKind;
use std::process;
use std::test::Fail;

// 90 bytes: the numbers from 0, of two digits each.
const TEXT: &[u8] =
    b"000102030405060708091011121314151617181920212223242526272829303132333435363738394041424344";

// The bytes of the text from that place on, at most so many.
fn part(from: u64, most: u64) -> &'static [u8] {
    let rest = TEXT.get(from as usize..).unwrap_or(&[]);
    rest.get(..most as usize).unwrap_or(rest)
}

/// Whether blocks of 1 to 100 bytes of the file are those of the text, from places across it and
/// past its end.
pub fn are_blocks<S: Files>(alloc: Global, store: &mut DiskStore<S>, path: &str) -> bool {
    for most in 1..=100_u64 {
        for step in 0..=100_u64 {
            let from = step.saturating_mul(most);
            let block = (path, Read::Block(from, most));
            if !is_read(alloc, store, block, Ok(Some(part(from, most)))) {
                return false;
            }
        }
    }
    true
}

const OLDER: Step = Step::Disk("save", Disk::Put(b"older"));

// The first two bytes of a file are read, and then another one is renamed over it: the first one is
// read to its end.
const NEWEST: Step = Step::Disk("new", Disk::Put(b"newest"));

const FIRST: Step = Step::Read("save", Read::Block(0, 2), Ok(Some(b"ol")));

const RENAMED: Step = Step::Disk("new", Disk::Rename("save"));

const REST: Step = Step::Read("save", Read::Block(2, 9), Ok(Some(b"der")));

const AGAIN: Step = Step::Read("save", Read::Block(0, 9), Ok(Some(b"older")));

// What lets go of it, after which the other one is read.
const ABANDON: Step = Step::Call("", Call::Abandon, DONE);

const COMMIT: Step = Step::Call("", Call::Commit, DONE);

const WRITE: Step = Step::Call("other", Call::Write(b""), DONE);

const OTHER_NAME: Step = Step::Read("other", Read::Block(0, 1), Ok(Some(b"")));

const OF_THE_OTHER: Step = Step::Read("save", Read::Block(2, 9), Ok(Some(b"west")));

const CASES: &[Case] = &[
    Case {
        shows: "blocks of each size are read across a file and past its end",
        runs: &[Run::Inside(&[Step::Disk("save", Disk::Put(TEXT)), Step::Blocks("save")])],
    },
    Case {
        shows: "a block is part of a file or refused",
        runs: &[
            Run::Inside(&[
                OLDER,
                Step::Read("save", Read::Block(1, 3), Ok(Some(b"lde"))),
                Step::Read("save", Read::Block(1, u64::MAX), Ok(Some(b"lder"))),
                Step::Read("save", Read::Block(1, 0), Ok(Some(b""))),
                Step::Read("save", Read::Block(5, 9), Ok(Some(b""))),
                Step::Read("save", Read::Block(u64::MAX, 9), Ok(Some(b""))),
                Step::Read("absent/save", Read::Block(0, 9), Ok(None)),
                Step::Read("save/below", Read::Block(0, 9), Err(StoreError::Device)),
                Step::Read("", Read::Block(0, 9), Err(StoreError::Device)),
            ]),
            Run::Outside(&[Step::Read("/dev/zero", Read::Block(1 << 40, 2), Ok(Some(b"\0\0")))]),
        ],
    },
    Case {
        shows: "a file that is renamed over is read to its end",
        runs: &[
            Run::Inside(&[
                OLDER,
                NEWEST,
                FIRST,
                RENAMED,
                REST,
                AGAIN,
                ABANDON,
                OF_THE_OTHER,
            ]),
            Run::Inside(&[
                OLDER,
                NEWEST,
                FIRST,
                RENAMED,
                REST,
                AGAIN,
                COMMIT,
                OF_THE_OTHER,
            ]),
            Run::Inside(&[
                OLDER,
                NEWEST,
                FIRST,
                RENAMED,
                REST,
                AGAIN,
                WRITE,
                OF_THE_OTHER,
            ]),
            Run::Inside(&[
                OLDER,
                NEWEST,
                FIRST,
                RENAMED,
                REST,
                AGAIN,
                OTHER_NAME,
                OF_THE_OTHER,
            ]),
        ],
    },
    Case {
        shows: "a file that is cut has no bytes past the cut",
        runs: &[Run::Inside(&[
            OLDER,
            Step::Read("save", Read::Block(0, 4), Ok(Some(b"olde"))),
            Step::Disk("save", Disk::Put(b"ab")),
            Step::Read("save", Read::Block(4, 4), Ok(Some(b""))),
            Step::Read("save", Read::Block(1, 4), Ok(Some(b"b"))),
        ])],
    },
    Case {
        shows: "a block with each call failing is refused, and read right when it is asked again",
        // Opening the file, going to the place, a read of bytes, and the read that finds the end.
        runs: &[Run::Failing(
            &[0, 1, 2, 3],
            ErrorKind::Other,
            &[
                OLDER,
                Step::Read("save", Read::Block(2, 9), Err(StoreError::Device)),
                REST,
            ],
        )],
    },
];

#[test]
fn blocks(rt: HostRuntime) -> Result<(), Fail> {
    check(&rt, process::id(rt.process()), CASES)
}
