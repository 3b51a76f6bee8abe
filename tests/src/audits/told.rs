//! The lines and the JSON that an audit gives.

use super::folders::{File, WHOLE, store_with};
use osm_audit::audit::{Audit, audit_run};
use osm_audit::report::{audit_fault_line, audit_line, audit_status, audit_text};
use osm_runs::fault::RunFault;
use std::alloc::Global;

fn audit_of(alloc: Global, files: &[File<'_>], to: Option<u32>) -> Result<Audit, RunFault> {
    let mut store = store_with(alloc, files)?;
    audit_run(alloc, &mut store, "dir", None, to)
}

// Whether the audit is told so.
fn is_told(alloc: Global, audit: &Audit, status: u8, text: &str, line: &str) -> bool {
    let (Ok(lines), Ok(json)) = (audit_text(alloc, audit), audit_line(alloc, audit)) else {
        return false;
    };
    audit_status(audit) == status
        && lines.as_slice() == text.as_bytes()
        && json.as_slice() == line.as_bytes()
}

#[test]
fn an_audit_is_told(rt: HostRuntime) {
    let alloc = rt.alloc();
    let whole = match audit_of(alloc, &WHOLE, None) {
        Ok(audit) => is_told(
            alloc,
            &audit,
            0,
            "ok 1..3\n",
            "{\"fault\":null,\"findings\":[],\"from\":1,\"to\":3}\n",
        ),
        Err(_) => false,
    };
    assert!(rt; whole);
    let empty = match audit_of(alloc, &[], Some(1)) {
        Ok(audit) => is_told(
            alloc,
            &audit,
            1,
            "1..1: not there\n",
            "{\"fault\":null,\"findings\":[\
             {\"cause\":\"not there\",\"number\":1,\"to\":1}],\
             \"from\":1,\"to\":1}\n",
        ),
        Err(_) => false,
    };
    assert!(rt; empty);
}

#[test]
fn a_fault_is_told(rt: HostRuntime) {
    let line = match audit_of(rt.alloc(), &[], None) {
        Ok(_) => false,
        Err(fault) => match audit_fault_line(rt.alloc(), fault) {
            Ok(line) => {
                line.as_slice()
                    == b"{\"fault\":\"state.txt: not there\",\"findings\":null,\"from\":null,\
                         \"to\":null}\n"
                        .as_slice()
            }
            Err(_) => false,
        },
    };
    assert!(rt; line);
}
