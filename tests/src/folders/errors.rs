//! Tests of the errors that no run shows: their names.

use osm_runs::fault::{FileName, RunFault};
use osm_save::head::HeadError;
use osm_save::save::SaveError;
use osm_store::store::StoreError;
use std::alloc::Global;
use std::fmt::Display;

// Whether the value is shown as that text.
fn is_shown<T: Display>(alloc: Global, value: &T, text: &str) -> bool {
    match format!(in alloc; "{value}") {
        Ok(shown) => shown.as_str() == text,
        Err(_) => false,
    }
}

#[test]
fn errors_of_stores_and_saves_are_shown_as_their_names(rt: HostRuntime) {
    assert!(rt; is_shown(rt.alloc(), &StoreError::Device, "Device"));
    assert!(rt; is_shown(rt.alloc(), &StoreError::TooLarge, "TooLarge"));
    assert!(rt; is_shown(rt.alloc(), &StoreError::WantOfMemory, "WantOfMemory"));
    assert!(rt; is_shown(rt.alloc(), &SaveError::BadSave { line: 7 }, "BadSave"));
    assert!(rt; is_shown(rt.alloc(), &SaveError::WantOfMemory, "WantOfMemory"));
    assert!(rt; is_shown(rt.alloc(), &HeadError::BadHead { line: 3 }, "BadHead"));
}

#[test]
fn faults_of_a_journal_are_shown_with_its_name(rt: HostRuntime) {
    let alloc = rt.alloc();
    let journal = FileName::Journal;
    assert!(rt; is_shown(alloc, &RunFault::BadJournal(12), "save: journal: line 12"));
    let other = "save: journal: of another save, at 144";
    assert!(rt; is_shown(alloc, &RunFault::OtherJournal(144), other));
    assert!(rt;
        is_shown(
            alloc,
            &RunFault::ReadFault(journal),
            "save: journal: read failed"
        )
    );
    assert!(rt;
        is_shown(
            alloc,
            &RunFault::WriteFault(journal),
            "save: journal: write failed"
        )
    );
    assert!(rt;
        is_shown(
            alloc,
            &RunFault::TooLarge(journal),
            "save: journal: too large"
        )
    );
}
