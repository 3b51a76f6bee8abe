//! Tests of writes in parts: what a file holds before and after a commit, with each call failing in
//! turn. No temporary file may be left.

use super::cases::{Case, Run, check};
use super::steps::{Call, DONE, Disk, NEW, REFUSED, Step};
use std::io::ErrorKind;
use std::process;
use std::test::Fail;

const OLD: Step = Step::Disk("save", Disk::Put(b"old"));

const IS_OLD: Step = Step::Disk("save", Disk::Holds(b"old"));

const IS_NEW: Step = Step::Disk("save", Disk::Holds(NEW));

const WRITTEN: Step = Step::Call("save", Call::WriteInParts, DONE);

const NOT_WRITTEN: Step = Step::Call("save", Call::WriteInParts, REFUSED);

const BEGUN: Step = Step::Call("save", Call::Begin, DONE);

const APPENDED: Step = Step::Call("", Call::Append(b"new"), DONE);

const APPENDED_MORE: Step = Step::Call("", Call::Append(b"er"), DONE);

const COMMITTED: Step = Step::Call("", Call::Commit, DONE);

const ABANDONED: Step = Step::Call("", Call::Abandon, DONE);

const BESIDE: Step = Step::Disk(".save.osmrepl-7", Disk::Present);

const TIDY: Step = Step::Disk(".save.osmrepl-7", Disk::Absent);

const NO_OTHER: Step = Step::Disk("other", Disk::Absent);

const TIDY_BESIDE_THE_OTHER: Step = Step::Disk(".other.osmrepl-7", Disk::Absent);

const IS_NEW_BELOW: Step = Step::Disk("dir/000/save", Disk::Holds(NEW));

const TIDY_BELOW: Step = Step::Disk("dir/000/.save.osmrepl-7", Disk::Absent);

const CASES: &[Case] = &[
    Case {
        shows: "parts with each call failing leave the old file or the new one",
        // Two looks at what is there, opening the temporary file and a look at its mode; a write
        // for each part; the sync and the rename; then opening the folder and its sync.
        runs: &[
            Run::Failing(
                &[0, 1, 2, 3, 4, 5, 6, 7],
                ErrorKind::Other,
                &[OLD, NOT_WRITTEN, IS_OLD, TIDY],
            ),
            Run::Failing(&[8, 9], ErrorKind::Other, &[OLD, NOT_WRITTEN, IS_NEW, TIDY]),
            Run::Failing(&[10], ErrorKind::Other, &[WRITTEN, IS_NEW]),
        ],
    },
    Case {
        shows: "a begun file that is dropped leaves nothing, also at a commit",
        runs: &[
            Run::Inside(&[
                OLD,
                BEGUN,
                APPENDED,
                BESIDE,
                IS_OLD,
                ABANDONED,
                APPENDED_MORE,
                COMMITTED,
                IS_OLD,
                NO_OTHER,
                TIDY,
                TIDY_BESIDE_THE_OTHER,
            ]),
            Run::Inside(&[
                OLD,
                BEGUN,
                APPENDED,
                BESIDE,
                IS_OLD,
                BEGUN,
                ABANDONED,
                APPENDED_MORE,
                COMMITTED,
                IS_OLD,
                NO_OTHER,
                TIDY,
                TIDY_BESIDE_THE_OTHER,
            ]),
            Run::Inside(&[
                OLD,
                BEGUN,
                APPENDED,
                BESIDE,
                IS_OLD,
                Step::Call("other", Call::Begin, DONE),
                ABANDONED,
                APPENDED_MORE,
                COMMITTED,
                IS_OLD,
                NO_OTHER,
                TIDY,
                TIDY_BESIDE_THE_OTHER,
            ]),
        ],
    },
    Case {
        shows: "a commit makes folders and leaves links",
        runs: &[
            Run::Inside(&[
                Step::Disk("link", Disk::Link("dir/000/save")),
                Step::Call("link", Call::WriteInParts, DONE),
                IS_NEW_BELOW,
                TIDY_BELOW,
                Step::Disk("dir/000/save", Disk::Put(b"old")),
            ]),
            Run::Inside(&[
                Step::Call("link", Call::WriteInParts, DONE),
                IS_NEW_BELOW,
                TIDY_BELOW,
                Step::Disk("link", Disk::IsLink),
            ]),
            Run::Inside(&[
                Step::Call("dir/000/save", Call::WriteInParts, DONE),
                IS_NEW_BELOW,
                TIDY_BELOW,
            ]),
        ],
    },
    Case {
        shows: "devices take parts at once and folders take none",
        runs: &[
            Run::Outside(&[Step::Call("/dev/full", Call::WriteInParts, REFUSED)]),
            Run::Inside(&[Step::Call("", Call::WriteInParts, REFUSED)]),
            Run::Outside(&[Step::Call("/dev/null/save", Call::WriteInParts, REFUSED)]),
            Run::Outside(&[Step::Call("absent/", Call::WriteInParts, REFUSED)]),
            Run::Outside(&[Step::Call("", Call::WriteInParts, REFUSED)]),
            Run::Outside(&[
                Step::Call("/dev/null", Call::WriteInParts, DONE),
                Step::Call("/dev/full", Call::Begin, DONE),
                Step::Call("", Call::Append(b"new"), REFUSED),
                COMMITTED,
            ]),
        ],
    },
    Case {
        shows: "a write meanwhile has a temporary file of its own, and the commit comes after it",
        runs: &[Run::Inside(&[
            BEGUN,
            APPENDED,
            Step::Call("save", Call::Write(b"other"), DONE),
            Step::Disk("save", Disk::Holds(b"other")),
            BESIDE,
            Step::Disk(".save.osmrepl-8", Disk::Absent),
            COMMITTED,
            Step::Disk("save", Disk::Holds(b"new")),
            TIDY,
        ])],
    },
    Case {
        shows: "what killed processes left is removed at a begin",
        runs: &[Run::Inside(&[
            Step::Disk(".save.osmrepl-9", Disk::Put(b"left")),
            BEGUN,
            Step::Disk(".save.osmrepl-9", Disk::Present),
            Step::Call("", Call::SetAlone, DONE),
            BEGUN,
            Step::Disk(".save.osmrepl-9", Disk::Absent),
            ABANDONED,
        ])],
    },
];

#[test]
fn parts(rt: HostRuntime) -> Result<(), Fail> {
    check(&rt, process::id(rt.process()), CASES)
}
