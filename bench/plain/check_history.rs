//! What a box wrote in a night, worked out again from the whole history and for all choices of at most so many faulty servers.
use clockbox::machine::number;
use clockbox::spans::{share, Run, CEILING};
use clockbox::station::Rules;

use crate::runs_of;

/// What is known of the true time at one count.
struct Known {
    count: u64,
    bounds: Vec<(u8, bool, u64)>,
}

/// All that was accepted since the beginning, or since no world was left.
struct History {
    rules: Rules,
    greatest: u64,
    /// The count at which it begins, and then those of all moments.
    known: Vec<Known>,
    hand: Option<u64>,
    hand_count: u64,
}

/// Works every line of a night's output out again.
pub fn check(rules: Rules, lines: &[Vec<u8>]) {
    let mut history = History::new(rules);
    for (place, line) in lines.iter().enumerate() {
        history.line(line, &lines[place + 1..]);
    }
}

impl History {
    fn new(rules: Rules) -> History {
        History { rules, greatest: 1 << 61, known: vec![Known { count: 0, bounds: Vec::new() }], hand: None, hand_count: 0 }
    }

    fn line(&mut self, line: &[u8], after: &[Vec<u8>]) {
        match line[0] {
            3 => {
                let (count, asked, server) = (number(&line[1..9]), number(&line[9..17]), line[17]);
                self.bound(asked, (server, true, number(&line[26..34])));
                self.bound(count, (server, false, number(&line[18..26])));
            }
            4 => self.reckoned(line, after),
            5 | 7 => drop(self.at(number(&line[1..9]))),
            6 => self.said(line),
            _ => {}
        }
    }

    /// What is known at a count, which is made if it is a new one.
    fn at(&mut self, count: u64) -> &mut Known {
        let place = match self.known.binary_search_by_key(&count, |known| known.count) {
            Ok(place) => place,
            Err(place) => {
                assert_eq!(place, self.known.len(), "counts go on");
                self.known.push(Known { count, bounds: Vec::new() });
                place
            }
        };
        &mut self.known[place]
    }

    fn bound(&mut self, count: u64, bound: (u8, bool, u64)) {
        self.at(count).bounds.push(bound);
    }

    fn reckoned(&mut self, line: &[u8], after: &[Vec<u8>]) {
        let count = number(&line[1..9]);
        self.at(count);
        let mut spans = Vec::new();
        let mut named = u16::MAX;
        for choice in self.choices() {
            if let Some(span) = self.forward(choice).last().copied().flatten() {
                spans.push(span);
                named &= choice;
            }
        }
        let lost = no_world_left(after);
        assert_eq!(lost, spans.is_empty());
        if lost {
            *self = History { rules: self.rules, greatest: CEILING, known: vec![Known { count, bounds: Vec::new() }], ..*self };
            (spans, named) = (vec![Run { from: 0, to: CEILING }], 0);
        }
        let (found, who) = runs_of(line);
        assert_eq!((&found, who), (&joined(spans), named));
        self.hand(&found, count, after, lost);
    }

    /// What is promised of the hand.
    fn hand(&mut self, runs: &[Run], count: u64, after: &[Vec<u8>], lost: bool) {
        let Some(line) = after.first().filter(|line| line[0] == 22) else {
            assert_eq!(self.hand, None);
            return;
        };
        let time = number(&line[1..9]);
        let may_be = |time: u64| runs.iter().any(|run| run.from <= time && time <= run.to);
        assert_eq!(line[9] == 1, may_be(time));
        assert!(may_be(time) || runs.iter().all(|run| run.to < time), "a time that may be is ahead of an unsound hand");
        match self.hand {
            None => assert_eq!(time, runs[0].from),
            Some(before) => {
                assert!(time >= before, "the hand went back");
                let ticks = count - self.hand_count;
                let reach = before.saturating_add(ticks).saturating_add(share(500, ticks));
                assert!(time <= reach || !lost && runs.iter().any(|run| run.from == time) && !runs.iter().any(|run| run.from < time && run.to >= reach));
            }
        }
        self.hand = Some(time);
        self.hand_count = count;
    }

    fn choices(&self) -> impl Iterator<Item = u16> {
        let most = self.rules.faulty as u32;
        (0..1u16 << self.rules.servers).filter(move |choice| choice.count_ones() <= most)
    }

    fn step(&self, place: usize) -> (u64, u64) {
        let ticks = (self.known[place].count - self.known[place - 1].count) as u128;
        let drift = self.rules.drift as u128;
        let least = (ticks * (1_000_000 - drift)).div_ceil(1_000_000);
        let most = ticks * (1_000_000 + drift) / 1_000_000;
        (least as u64, most.min(u64::MAX as u128) as u64)
    }

    fn cut(&self, place: usize, choice: u16, span: Run) -> Option<Run> {
        let mut span = span;
        for &(server, upper, time) in &self.known[place].bounds {
            if choice >> server & 1 == 1 {
                continue;
            }
            if upper {
                span.to = span.to.min(time);
            } else {
                span.from = span.from.max(time);
            }
        }
        if span.from <= span.to { Some(span) } else { None }
    }

    /// The span of a choice at each count, by what came up to it.
    fn forward(&self, choice: u16) -> Vec<Option<Run>> {
        let mut spans = Vec::with_capacity(self.known.len());
        let mut span = self.cut(0, choice, Run { from: 0, to: self.greatest });
        spans.push(span);
        for place in 1..self.known.len() {
            let (least, most) = self.step(place);
            span = span.and_then(|run| {
                let moved = Run { from: run.from.checked_add(least)?, to: run.to.saturating_add(most).min(CEILING) };
                if moved.from <= CEILING { self.cut(place, choice, moved) } else { None }
            });
            spans.push(span);
        }
        spans
    }

    fn said(&self, line: &[u8]) {
        let count = number(&line[1..9]);
        let event = self.known.iter().position(|known| known.count == count).expect("an event of this count");
        let mut all: Vec<Run> = Vec::new();
        for choice in self.choices() {
            let forward = self.forward(choice);
            let mut span = forward[forward.len() - 1];
            for place in (event + 1..self.known.len()).rev() {
                let (least, most) = self.step(place);
                span = span.and_then(|run| meet(Run { from: run.from.saturating_sub(most), to: run.to.checked_sub(least)? }, forward[place - 1]?));
            }
            all.extend(span);
        }
        let least = all.iter().map(|run| run.from).min();
        let greatest = all.iter().map(|run| run.to).max();
        assert_eq!((least, greatest), (Some(number(&line[9..17])), Some(number(&line[17..25]))));
    }
}

/// Whether a moment's notices say that no world is left. They come after the hand.
fn no_world_left(after: &[Vec<u8>]) -> bool {
    let mut rest = after.iter().peekable();
    rest.next_if(|line| line[0] == 22);
    rest.next_if(|line| line[..] == [21, 9]);
    rest.next().is_some_and(|line| line[..] == [21, 7])
}

fn meet(a: Run, b: Run) -> Option<Run> {
    let both = Run { from: a.from.max(b.from), to: a.to.min(b.to) };
    if both.from <= both.to { Some(both) } else { None }
}

fn joined(mut spans: Vec<Run>) -> Vec<Run> {
    spans.sort_by_key(|span| span.from);
    let mut runs: Vec<Run> = Vec::new();
    for span in spans {
        match runs.last_mut() {
            Some(run) if span.from <= run.to + 1 => run.to = run.to.max(span.to),
            _ => runs.push(span),
        }
    }
    runs
}
