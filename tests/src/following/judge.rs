//! Tests of osm_judge: which texts it judges, and its definitions on lists worked out by hand.

use osm_judge::judge::may_answer;
use osm_judge::plain::{plain_content_of, plain_edits_by_changeset, plain_edits_by_user};
use osm_model::change::Change;
use osm_model::filter::Filter;
use osm_model::form::ChangeForm;
use osm_model::kind::{Key, Kind};
use osm_opl::lines::write_line;
use osm_opl::opl::Opl;
use osm_script::fault::ScriptFault;
use std::alloc::Global;

// Lines of changes, the line of node 1 that they leave (empty if they leave none), and how many
// edits are of user 5 and of changeset 7.
const LEFT: [(&str, &str, &str, usize, usize); 8] = [
    ("nothing", "", "", 0, 0),
    (
        "one change",
        "n1 v1 dV c7 t2024-01-01T00:00:00Z i5 uann T x1 y2",
        "n1 v1 dV c7 t2024-01-01T00:00:00Z i5 uann T x1 y2",
        1,
        1,
    ),
    (
        "the later change counts",
        "n1 v5 dV c7 t2024-01-01T00:00:00Z i5 uann T x1 y2\n\
n1 v2 dV c7 t2024-01-01T00:00:00Z i5 uann T x1 y2",
        "n1 v2 dV c7 t2024-01-01T00:00:00Z i5 uann T x1 y2",
        2,
        2,
    ),
    (
        "a deletion at the end",
        "n1 v1 dV c7 t2024-01-01T00:00:00Z i5 uann T x1 y2\n\
n1 v2 dV c7 t2024-01-01T00:00:00Z i5 uann T x1 y2\n\
n1 v3 dD c7 t2024-01-01T00:00:00Z i5 uann T x y",
        "",
        3,
        3,
    ),
    (
        "a deletion between",
        "n1 v1 dV c7 t2024-01-01T00:00:00Z i5 uann T x1 y2\n\
n1 v3 dD c7 t2024-01-01T00:00:00Z i5 uann T x y\n\
n1 v4 dV c7 t2024-01-01T00:00:00Z i5 uann T x1 y2",
        "n1 v4 dV c7 t2024-01-01T00:00:00Z i5 uann T x1 y2",
        3,
        3,
    ),
    (
        "only a deletion",
        "n1 v3 dD c7 t2024-01-01T00:00:00Z i5 uann T x y",
        "",
        1,
        1,
    ),
    (
        "a way of the same id",
        "n1 v1 dV c7 t2024-01-01T00:00:00Z i5 uann T x1 y2\n\
w1 v1 dV c8 t2024-01-01T00:00:00Z i6 ub T N",
        "n1 v1 dV c7 t2024-01-01T00:00:00Z i5 uann T x1 y2",
        1,
        1,
    ),
    (
        "another name of the user",
        "n1 v1 dV c7 t2024-01-01T00:00:00Z i5 uann T x1 y2\n\
n1 v2 dV c7 t2024-01-01T00:00:00Z i5 ubea T x1 y2",
        "n1 v2 dV c7 t2024-01-01T00:00:00Z i5 ubea T x1 y2",
        2,
        2,
    ),
];

// Whether the changes leave node 1 as on the line, or no node 1 if the line is empty.
fn leave_the_node(alloc: Global, changes: &[Change], left: &str) -> bool {
    let key = Key {
        kind: Kind::Node,
        id: 1,
    };
    match plain_content_of(changes, key) {
        Some(change) => is_line(alloc, change, left),
        None => left.is_empty(),
    }
}

fn is_line(alloc: Global, change: &Change, text: &str) -> bool {
    let mut line = Vec::new(alloc);
    let is_written = write_line(change, &mut line).is_ok();
    is_written && line.as_slice() == text.as_bytes()
}

// Whether that many of the changes are of user 5, and that many of changeset 7.
fn are_counted(changes: &[Change], users: usize, changesets: usize) -> bool {
    plain_edits_by_user(changes, 5) == users && plain_edits_by_changeset(changes, 7) == changesets
}

// Whether the definitions give that for the changes on those lines.
fn is_said_of(alloc: Global, lines: &str, left: &str, (users, changesets): (usize, usize)) -> bool {
    match Opl::read(alloc, lines.as_bytes()) {
        Ok(batch) => {
            let changes = batch.changes();
            leave_the_node(alloc, changes, left) && are_counted(changes, users, changesets)
        }
        Err(_) => false,
    }
}

#[test]
fn the_definitions_say_what_a_person_expects(rt: HostRuntime) {
    for (name, lines, left, users, changesets) in LEFT {
        assert!(rt;
            is_said_of(rt.alloc(), lines, left, (users, changesets)),
            "{name}"
        );
    }
}

fn refusal(alloc: Global) -> Option<ScriptFault> {
    may_answer(alloc, &Filter::all(alloc), b"show\nx\n", b"old\n").err()
}

#[test]
fn what_is_no_script_is_not_judged(rt: HostRuntime) {
    assert!(rt; refusal(rt.alloc()) == Some(ScriptFault::BadScript(2)));
}
