//! Tests of writes: what a file holds after a write, with each call failing in turn.

use super::cases::{Case, Run, check};
use super::steps::{Call, DONE, Disk, NEW, REFUSED, Step};
use std::io::ErrorKind;
use std::process;
use std::test::Fail;

const OLD: Step = Step::Disk("save", Disk::Put(b"old"));

const WRITTEN: Step = Step::Call("save", Call::Write(NEW), DONE);

const NOT_WRITTEN: Step = Step::Call("save", Call::Write(NEW), REFUSED);

const IS_NEW: Step = Step::Disk("save", Disk::Holds(NEW));

const TIDY: Step = Step::Disk(".save.osmrepl-7", Disk::Absent);

const JOURNAL_WRITTEN: Step = Step::Call("save.journal", Call::Write(NEW), DONE);

const JOURNAL_NOT_WRITTEN: Step = Step::Call("save.journal", Call::Write(NEW), REFUSED);

const JOURNAL_IS_NEW: Step = Step::Disk("save.journal", Disk::Holds(NEW));

const NO_JOURNAL: Step = Step::Disk("save.journal", Disk::Absent);

const JOURNAL_TIDY: Step = Step::Disk(".save.journal.osmrepl-7", Disk::Absent);

const REMOVE_THE_JOURNAL: Step = Step::Disk("save.journal", Disk::Remove);

const REMOVE_THE_LINK: Step = Step::Disk("link", Disk::Remove);

const WRITE_THROUGH: Step = Step::Call("link", Call::Write(NEW), DONE);

const THROUGH_THE_LINK: Step = Step::Disk("link", Disk::Holds(NEW));

const STILL_A_LINK: Step = Step::Disk("link", Disk::IsLink);

const OLD_END: Step = Step::Disk("end", Disk::Put(b"old"));

const NEW_END: Step = Step::Disk("end", Disk::Holds(NEW));

const NO_END: Step = Step::Disk("end", Disk::Remove);

const CASES: &[Case] = &[
    Case {
        shows: "a write with each call failing leaves the old file or the new one",
        // Two looks at what is there, opening the temporary file and a look at its mode, two
        // writes, the sync and the rename; then opening the folder and its sync.
        runs: &[
            Run::Failing(
                &[0, 1, 2, 3, 4, 5, 6, 7],
                ErrorKind::Other,
                &[
                    OLD,
                    NOT_WRITTEN,
                    Step::Disk("save", Disk::Holds(b"old")),
                    TIDY,
                ],
            ),
            Run::Failing(&[8, 9], ErrorKind::Other, &[OLD, NOT_WRITTEN, IS_NEW, TIDY]),
            Run::Failing(&[10], ErrorKind::Other, &[WRITTEN, IS_NEW]),
        ],
    },
    Case {
        shows: "a journal that is made anew is written only after a look at its save",
        // A look at the journal, one at its save and one more at the journal, opening the temporary
        // file and a look at its mode, two writes, the sync and the rename; then opening the folder
        // and its sync. If there is no save, or a folder, nothing is done about the mode.
        runs: &[
            Run::Failing(
                &[0, 1, 2, 3, 4, 5, 6, 7, 8],
                ErrorKind::Other,
                &[OLD, JOURNAL_NOT_WRITTEN, NO_JOURNAL, JOURNAL_TIDY],
            ),
            Run::Failing(
                &[9, 10],
                ErrorKind::Other,
                &[OLD, JOURNAL_NOT_WRITTEN, JOURNAL_IS_NEW, REMOVE_THE_JOURNAL],
            ),
            Run::Failing(
                &[11],
                ErrorKind::Other,
                &[JOURNAL_WRITTEN, JOURNAL_IS_NEW, REMOVE_THE_JOURNAL],
            ),
            Run::Inside(&[Step::Disk("save", Disk::Remove)]),
            Run::Failing(
                &[0, 1, 2, 3, 4, 5, 6, 7],
                ErrorKind::Other,
                &[JOURNAL_NOT_WRITTEN, NO_JOURNAL, JOURNAL_TIDY],
            ),
            Run::Failing(
                &[8, 9],
                ErrorKind::Other,
                &[JOURNAL_NOT_WRITTEN, JOURNAL_IS_NEW, REMOVE_THE_JOURNAL],
            ),
            Run::Inside(&[
                Step::Disk("save", Disk::Folder),
                JOURNAL_WRITTEN,
                JOURNAL_IS_NEW,
                JOURNAL_TIDY,
            ]),
        ],
    },
    Case {
        shows: "a folder that cannot be synced takes files",
        // The folder may not be read, or its file system syncs none. Before the rename such errors
        // count. The last two replace a file, and look at the mode of the new one.
        runs: &[
            Run::Failing(&[6], ErrorKind::PermissionDenied, &[NOT_WRITTEN]),
            Run::Failing(&[7], ErrorKind::PermissionDenied, &[WRITTEN]),
            Run::Failing(&[9], ErrorKind::InvalidInput, &[WRITTEN]),
            Run::Failing(&[9], ErrorKind::Unsupported, &[WRITTEN]),
        ],
    },
    Case {
        shows: "a write makes the folders that it needs",
        runs: &[Run::Inside(&[
            Step::Call("dir/000/000/001.opl", Call::Write(NEW), DONE),
            Step::Disk("dir/000/000/001.opl", Disk::Holds(NEW)),
        ])],
    },
    Case {
        shows: "a temporary file that is there is left, and the next name is taken",
        runs: &[Run::Inside(&[
            Step::Disk(".save.osmrepl-7", Disk::Put(b"of another process")),
            Step::Disk(".save.osmrepl-8", Disk::Put(b"of the next one")),
            WRITTEN,
            IS_NEW,
            Step::Disk(".save.osmrepl-7", Disk::Holds(b"of another process")),
            Step::Disk(".save.osmrepl-8", Disk::Holds(b"of the next one")),
            Step::Disk(".save.osmrepl-9", Disk::Absent),
        ])],
    },
    Case {
        shows: "a link stays and the file at its end is replaced",
        runs: &[
            Run::Inside(&[
                Step::Disk("link", Disk::Link("end")),
                WRITE_THROUGH,
                THROUGH_THE_LINK,
                NEW_END,
                STILL_A_LINK,
            ]),
            Run::Inside(&[
                REMOVE_THE_LINK,
                Step::Disk("link", Disk::LinkInto("end")),
                WRITE_THROUGH,
                THROUGH_THE_LINK,
                NEW_END,
                STILL_A_LINK,
            ]),
            Run::Inside(&[
                REMOVE_THE_LINK,
                Step::Disk("link", Disk::Link("./end")),
                WRITE_THROUGH,
                THROUGH_THE_LINK,
                NEW_END,
                STILL_A_LINK,
            ]),
        ],
    },
    Case {
        shows: "forty links are followed and no more, also with no file at the end",
        runs: &[
            Run::Inside(&[
                Step::Disk("", Disk::Links),
                OLD_END,
                Step::Call("39", Call::Write(NEW), DONE),
                Step::Disk("39", Disk::Holds(NEW)),
                NEW_END,
                NO_END,
            ]),
            Run::Inside(&[
                Step::Call("39", Call::Write(NEW), DONE),
                Step::Disk("39", Disk::Holds(NEW)),
                Step::Disk("39", Disk::IsLink),
                OLD_END,
            ]),
            Run::Inside(&[
                Step::Call("40", Call::Write(NEW), DONE),
                Step::Disk("40", Disk::Holds(NEW)),
                NEW_END,
                NO_END,
            ]),
            Run::Inside(&[
                Step::Call("40", Call::Write(NEW), DONE),
                Step::Disk("40", Disk::Holds(NEW)),
                Step::Disk("40", Disk::IsLink),
            ]),
            Run::Inside(&[Step::Call("41", Call::Write(NEW), REFUSED)]),
        ],
    },
    Case {
        shows: "a full device and folders take no bytes",
        runs: &[
            Run::Inside(&[
                Step::Disk("loop", Disk::Link("loop")),
                Step::Call("loop", Call::Write(NEW), REFUSED),
            ]),
            Run::Inside(&[Step::Call("", Call::Write(NEW), REFUSED)]),
            Run::Outside(&[Step::Call("/dev/full", Call::Write(NEW), REFUSED)]),
            Run::Outside(&[Step::Call("/dev/null/save", Call::Write(NEW), REFUSED)]),
            Run::Outside(&[Step::Call("absent/", Call::Write(NEW), REFUSED)]),
            Run::Outside(&[Step::Call("", Call::Write(NEW), REFUSED)]),
            Run::Outside(&[
                Step::Disk("absent", Disk::Absent),
                Step::Disk(".osmrepl-7", Disk::Absent),
                Step::Disk("/dev/full", Disk::Present),
            ]),
        ],
    },
];

#[test]
fn writes(rt: HostRuntime) -> Result<(), Fail> {
    check(&rt, process::id(rt.process()), CASES)
}
