//! The one time that is shown.
use crate::spans::{share, Run, CEILING};

/// How much faster than the local clock the hand may be, in millionths.
const HASTE: u32 = 500;

#[derive(Clone, Copy, Default)]
pub struct Hand {
    pub time: Option<u64>,
    /// It goes on with the local clock, since no world was left, until a reply is accepted.
    free: bool,
}

impl Hand {
    /// A reply was accepted, and a world is left. The first time shows the least that may be.
    pub fn heard(&mut self, runs: &[Run], ticks: u64) {
        self.time = Some(match self.time {
            Some(time) => step(runs, ticks, time),
            None => runs[0].from,
        });
        self.free = false;
    }

    /// Any other moment with a world left.
    pub fn passed(&mut self, runs: &[Run], ticks: u64) {
        if self.free {
            self.lost(ticks);
        } else {
            self.time = self.time.map(|time| step(runs, ticks, time));
        }
    }

    /// No world is left, or none was.
    pub fn lost(&mut self, ticks: u64) {
        self.time = self.time.map(|time| time.saturating_add(ticks).min(CEILING).max(time));
        self.free = true;
    }
}

/// Towards the middle of the longest run, and on to the next time that may be.
fn step(runs: &[Run], ticks: u64, time: u64) -> u64 {
    let reach = time.saturating_add(ticks).saturating_add(share(HASTE, ticks));
    let there = time.max(middle_of_longest(runs).min(reach));
    match runs.iter().find(|run| run.to >= there) {
        Some(run) => there.max(run.from),
        None => there,
    }
}

/// Of equally long runs the earliest counts.
fn middle_of_longest(runs: &[Run]) -> u64 {
    let mut longest = runs[0];
    for &run in &runs[1..] {
        if run.to - run.from > longest.to - longest.from {
            longest = run;
        }
    }
    (longest.from + longest.to) / 2
}

pub fn may_be(runs: &[Run], time: u64) -> bool {
    runs.iter().any(|run| run.from <= time && time <= run.to)
}
