//! Tests as tables, and what runs them.

use super::failing::{Countdown, Failing};
use super::steps::{Step, goes};
use osm_disk::disk_store::DiskStore;
use std::cell::Cell;
use std::env::{self, Env};
use std::fs::Files;
use std::io::ErrorKind;
use std::test::Fail;

// The process for which the stores write.
const PROCESS: u32 = 7;

/// A test: what it shows, and runs in a folder of its own, in their order.
pub struct Case<'a> {
    pub shows: &'a str,
    pub runs: &'a [Run<'a>],
}

/// Steps with a new store.
#[derive(Clone, Copy)]
pub enum Run<'a> {
    /// Their paths are below the folder.
    Inside(&'a [Step<'a>]),
    /// Their paths are as they stand.
    Outside(&'a [Step<'a>]),
    /// Below the folder, once for each of those numbers: the store's call after that many fails
    /// with an error of that kind.
    Failing(&'a [u64], ErrorKind, &'a [Step<'a>]),
}

// Where a test is wrong: its run and its step, counted from 0, and after how many calls the store's
// next one failed.
#[derive(Clone, Copy, Debug)]
struct Place {
    run: usize,
    calls: Option<u64>,
    step: usize,
}

/// Runs the tests, and fails at the first step that goes otherwise than it says.
pub fn check<R: Files + Env + AllocGlobal>(
    rt: &R,
    process: u32,
    cases: &[Case<'_>],
) -> Result<(), Fail> {
    for case in cases {
        let folder = scratch(rt, process)?;
        if let Some(place) = wrong_place(rt, folder.as_str(), case.runs) {
            return Err(Fail::new(format_args!("{}: {place:?}", case.shows)));
        }
    }
    Ok(())
}

// Makes a new, empty folder `osm_disk-PROCESS/` in the folder of temporary files.
fn scratch<R: Files + Env + AllocGlobal>(rt: &R, process: u32) -> Result<String, Fail> {
    let root = env::temp_dir(rt)?;
    let folder = format!(in rt.alloc(); "{}/osm_disk-{process}/", root.as_str())?;
    let _ = rt.remove_dir_all(rt.alloc(), folder.as_str());
    rt.create_dir(folder.as_str())?;
    Ok(folder)
}

fn wrong_place<R: Files + AllocGlobal>(rt: &R, folder: &str, runs: &[Run<'_>]) -> Option<Place> {
    for (number, run) in runs.iter().enumerate() {
        if let Some((calls, step)) = wrong_in(rt, folder, *run) {
            return Some(Place {
                run: number,
                calls,
                step,
            });
        }
    }
    None
}

fn wrong_in<R: Files + AllocGlobal>(
    rt: &R,
    folder: &str,
    run: Run<'_>,
) -> Option<(Option<u64>, usize)> {
    match run {
        Run::Inside(steps) => Some((None, wrong_step_over(rt, folder, steps)?)),
        Run::Outside(steps) => Some((None, wrong_step_over(rt, "", steps)?)),
        Run::Failing(each, kind, steps) => {
            for calls in each {
                if let Some(step) = wrong_step_failing(rt, folder, (*calls, kind), steps) {
                    return Some((Some(*calls), step));
                }
            }
            None
        }
    }
}

// The first step that goes wrong over the disk.
fn wrong_step_over<R: Files + AllocGlobal>(
    rt: &R,
    folder: &str,
    steps: &[Step<'_>],
) -> Option<usize> {
    let mut store = DiskStore::new(rt, PROCESS);
    wrong_step(rt, &mut store, folder, steps)
}

// The first step that goes wrong over the disk with one call failing.
fn wrong_step_failing<R: Files + AllocGlobal>(
    rt: &R,
    folder: &str,
    (calls, kind): (u64, ErrorKind),
    steps: &[Step<'_>],
) -> Option<usize> {
    let left = Cell::new(calls);
    let countdown = Countdown { left: &left, kind };
    let files = Failing {
        files: rt,
        countdown,
    };
    let mut store = DiskStore::new(files, PROCESS);
    wrong_step(rt, &mut store, folder, steps)
}

fn wrong_step<R: Files + AllocGlobal, S: Files>(
    rt: &R,
    store: &mut DiskStore<S>,
    folder: &str,
    steps: &[Step<'_>],
) -> Option<usize> {
    for (number, step) in steps.iter().enumerate() {
        if !goes(rt, store, folder, *step) {
            return Some(number);
        }
    }
    None
}
