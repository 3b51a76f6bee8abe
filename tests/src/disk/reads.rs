//! Tests of reads: whole files, files that are absent, too large or that fail, and whether a file
//! is there.

use super::cases::{Case, Run, check};
use super::steps::{Disk, Read, Step};
use osm_store::store::StoreError;
use std::io::ErrorKind;
use std::process;
use std::test::Fail;

const OLD: Step = Step::Disk("save", Disk::Put(b"old"));

const OLDER: Step = Step::Disk("save", Disk::Put(b"older"));

const CASES: &[Case] = &[
    Case {
        shows: "a file is read whole or refused",
        runs: &[
            Run::Inside(&[
                OLD,
                Step::Read("save", Read::Whole(3), Ok(Some(b"old"))),
                Step::Read("save", Read::Whole(2), Err(StoreError::TooLarge)),
                Step::Read("save", Read::Whole(0), Err(StoreError::TooLarge)),
                Step::Read("save", Read::Whole(u64::MAX), Ok(Some(b"old"))),
                Step::Read("absent/save", Read::Whole(3), Ok(None)),
                Step::Read("save/below", Read::Whole(3), Err(StoreError::Device)),
                Step::Read("", Read::Whole(3), Err(StoreError::Device)),
            ]),
            Run::Outside(&[Step::Read(
                "/dev/zero",
                Read::Whole(100_000),
                Err(StoreError::TooLarge),
            )]),
        ],
    },
    Case {
        shows: "the first bytes of a file are read",
        runs: &[
            Run::Inside(&[
                OLD,
                Step::Read("save", Read::Prefix(3), Ok(Some(b"old"))),
                Step::Read("save", Read::Prefix(2), Ok(Some(b"ol"))),
                Step::Read("save", Read::Prefix(0), Ok(Some(b""))),
                Step::Read("save", Read::Prefix(u64::MAX), Ok(Some(b"old"))),
                Step::Read("absent/save", Read::Prefix(3), Ok(None)),
                Step::Read("save/below", Read::Prefix(3), Err(StoreError::Device)),
                Step::Read("", Read::Prefix(3), Err(StoreError::Device)),
            ]),
            Run::Outside(&[Step::Read("/dev/zero", Read::Prefix(2), Ok(Some(b"\0\0")))]),
        ],
    },
    Case {
        shows: "it is asked what is there",
        runs: &[Run::Inside(&[
            OLD,
            Step::Disk("link", Disk::Link("save")),
            Step::Disk("dangling", Disk::Link("absent")),
            Step::Asks("save", Ok(true)),
            Step::Asks("link", Ok(true)),
            Step::Asks("", Ok(true)),
            Step::Asks("dangling", Ok(false)),
            Step::Asks("absent/save", Ok(false)),
            Step::Asks("save/below", Err(StoreError::Device)),
        ])],
    },
    Case {
        shows: "a folder past a lost number is there",
        // Folders are in the place of the files of number 3.
        runs: &[Run::Inside(&[
            Step::Disk(
                "state.txt",
                Disk::Put(b"sequenceNumber=3\ntimestamp=2024-01-01T00\\:02\\:00Z\n"),
            ),
            Step::Disk("000", Disk::Folder),
            Step::Disk("000/000", Disk::Folder),
            Step::Disk("000/000/003.state.txt", Disk::Folder),
            Step::Disk("000/000/003.opl", Disk::Folder),
            Step::Follow("save", b"missing 1\nmissing 2\nnumber 0\n"),
        ])],
    },
    Case {
        shows: "a read with each call failing is refused",
        // Opening the file, two reads of bytes, and the read that finds the end.
        runs: &[
            Run::Failing(
                &[0, 1, 2, 3],
                ErrorKind::Other,
                &[
                    OLDER,
                    Step::Read("save", Read::Whole(9), Err(StoreError::Device)),
                ],
            ),
            Run::Failing(
                &[4],
                ErrorKind::Other,
                &[
                    OLDER,
                    Step::Read("save", Read::Whole(9), Ok(Some(b"older"))),
                ],
            ),
        ],
    },
];

#[test]
fn reads(rt: HostRuntime) -> Result<(), Fail> {
    check(&rt, process::id(rt.process()), CASES)
}
