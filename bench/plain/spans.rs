//! Times, drift, and the spans of all choices of faulty servers.

/// Times are whole microseconds up to this.
pub const CEILING: u64 = 1 << 62;

/// The lower end of a span that holds no time. Nothing passes 64 bits when it is moved on.
const NONE: u64 = 1 << 63;

/// The most choices that there are: five of ten servers.
pub const MOST_CHOICES: usize = 252;

const MILLION: u64 = 1_000_000;

/// So many millionths of n, rounded down; at most 1,000 millionths.
pub fn share(millionths: u32, n: u64) -> u64 {
    let m = millionths as u64;
    n / MILLION * m + n % MILLION * m / MILLION
}

/// The least and the most that true time goes on between two moments.
#[derive(Clone, Copy, Default)]
pub struct Step {
    pub least: u64,
    pub most: u64,
}

impl Step {
    pub fn new(drift: u32, ticks: u64) -> Step {
        let share = share(drift, ticks);
        Step { least: ticks - share, most: ticks.saturating_add(share) }
    }
}

/// What a reply says of a moment, if its server isn't faulty.
#[derive(Clone, Copy)]
pub enum Bound {
    AtMost(u8, u64),
    AtLeast(u8, u64),
}

/// The choices of exactly so many of the servers, as bits. Choices of fewer have narrower spans, so they add no time and take no name away.
pub fn choices(servers: u8, faulty: u8) -> Vec<u16> {
    (0..1u16 << servers).filter(|choice| choice.count_ones() == faulty as u32).collect()
}

fn is_faulty(choice: u16, server: u8) -> bool {
    choice >> server & 1 == 1
}

/// A run of times, both ends in it.
#[derive(Clone, Copy, Debug, PartialEq, Eq)]
pub struct Run {
    pub from: u64,
    pub to: u64,
}

/// The span of each choice at one moment. The ends are those of the last cut; how far time went on since is the same for all of them, and kept once.
#[derive(Clone)]
pub struct Row {
    from: [u64; MOST_CHOICES],
    to: [u64; MOST_CHOICES],
    since: Step,
}

impl Row {
    /// Every span is from 0 to a greatest time.
    pub fn upto(greatest: u64) -> Row {
        Row { from: [0; MOST_CHOICES], to: [greatest; MOST_CHOICES], since: Step::default() }
    }

    /// Time goes on. Sums stop where every span is empty or full anyway.
    pub fn pass(&mut self, step: Step) {
        self.since.least = self.since.least.saturating_add(step.least).min(CEILING + 1);
        self.since.most = self.since.most.saturating_add(step.most).min(CEILING);
    }

    /// Moves the ends to now.
    fn settle(&mut self, size: usize) {
        let Step { least, most } = self.since;
        for (from, to) in self.from[..size].iter_mut().zip(&mut self.to[..size]) {
            let moved = *from + least;
            *from = if moved > CEILING { NONE } else { moved };
            *to = (*to + most).min(CEILING);
        }
        self.since = Step::default();
    }

    /// Cuts the spans of the choices in which the bound's server isn't faulty.
    pub fn cut(&mut self, choices: &[u16], bound: Bound) {
        self.settle(choices.len());
        let ends = self.from.iter_mut().zip(&mut self.to).zip(choices);
        match bound {
            Bound::AtMost(server, time) => {
                for ((from, to), &choice) in ends {
                    let limit = if is_faulty(choice, server) { CEILING } else { time };
                    *to = (*to).min(limit);
                    *from = if *from > *to { NONE } else { *from };
                }
            }
            Bound::AtLeast(server, time) => {
                for ((from, to), &choice) in ends {
                    let limit = if is_faulty(choice, server) { 0 } else { time };
                    *from = (*from).max(limit);
                    *from = if *from > *to { NONE } else { *from };
                }
            }
        }
    }

    /// One moment: time goes on, and a bound, if there is one, cuts.
    pub fn go(&mut self, choices: &[u16], step: Step, bound: Option<Bound>) {
        self.pass(step);
        if let Some(bound) = bound {
            self.cut(choices, bound);
        }
    }

    /// The span of a choice by its place.
    pub fn span(&self, place: usize) -> Option<Run> {
        let from = self.from[place] + self.since.least;
        let to = (self.to[place] + self.since.most).min(CEILING);
        if from <= to { Some(Run { from, to }) } else { None }
    }

    /// Places of choices by their lower ends. The order stays right while time goes on, until the next cut.
    pub fn sort(&self, order: &mut [u8]) {
        order.sort_unstable_by_key(|&place| self.from[place as usize]);
    }

    /// The times of all spans together, as runs that don't touch; and the servers that are faulty in every choice that has a span.
    pub fn read(&self, choices: &[u16], order: &[u8], runs: &mut Vec<Run>) -> u16 {
        runs.clear();
        let mut named = u16::MAX;
        let mut last = Run { from: 0, to: 0 };
        for &place in order {
            let Some(span) = self.span(place as usize) else { break };
            named &= choices[place as usize];
            if runs.is_empty() || span.from > last.to + 1 {
                runs.push(span);
                last = span;
            } else if span.to > last.to {
                last.to = span.to;
                if let Some(run) = runs.last_mut() {
                    run.to = span.to;
                }
            }
        }
        named
    }
}

/// For each choice, the times at a moment from which true time can go on to the last moment.
pub struct Back {
    spans: Vec<Option<Run>>,
}

impl Back {
    /// At the last moment: any time.
    pub fn new(choices: &[u16]) -> Back {
        Back { spans: vec![Some(Run { from: 0, to: CEILING }); choices.len()] }
    }

    pub fn cut(&mut self, choices: &[u16], bound: Bound) {
        for (span, &choice) in self.spans.iter_mut().zip(choices) {
            *span = span.and_then(|run| cut_span(run, choice, bound));
        }
    }

    /// To the moment before, with this step between the two.
    pub fn pass(&mut self, step: Step) {
        for span in &mut self.spans {
            *span = span.and_then(|run| Some(Run { from: run.from.saturating_sub(step.most), to: run.to.checked_sub(step.least)? }));
        }
    }

    /// The least and the greatest time that is in both rows' spans of some choice.
    pub fn meet(&self, row: &Row) -> Option<Run> {
        let mut all: Option<Run> = None;
        for (place, span) in self.spans.iter().enumerate() {
            let (Some(back), Some(forward)) = (span, row.span(place)) else { continue };
            let both = Run { from: back.from.max(forward.from), to: back.to.min(forward.to) };
            if both.from <= both.to {
                all = Some(all.map_or(both, |run| Run { from: run.from.min(both.from), to: run.to.max(both.to) }));
            }
        }
        all
    }
}

fn cut_span(run: Run, choice: u16, bound: Bound) -> Option<Run> {
    let cut = match bound {
        Bound::AtMost(server, time) if !is_faulty(choice, server) => Run { from: run.from, to: run.to.min(time) },
        Bound::AtLeast(server, time) if !is_faulty(choice, server) => Run { from: run.from.max(time), to: run.to },
        _ => run,
    };
    if cut.from <= cut.to { Some(cut) } else { None }
}
