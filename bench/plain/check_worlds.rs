//! Tiny nights with all their worlds, one by one: who is faulty, and how true time went.
use std::collections::BTreeSet;

use clockbox::night::Random;
use clockbox::station::Rules;

use crate::{with_count, Play};

/// A reply that was accepted: the moments of its asking and its coming, by their places, and what it says.
struct Word {
    server: u8,
    asked: usize,
    heard: usize,
    least: u64,
    greatest: u64,
}

/// A short run, and all that its worlds are made of.
struct Tiny {
    play: Play,
    random: Random,
    rules: Rules,
    /// The count at each moment.
    counts: Vec<u64>,
    words: Vec<Word>,
    marks: Vec<usize>,
    pending: Vec<(u8, u8, usize)>,
    lost: bool,
}

/// The greatest time at the beginning that the first replies leave.
const TINY_GREATEST: u64 = 24;

/// Plays a few moments with small numbers, and compares what is said with all worlds: who is faulty, and how true time went.
pub fn check(seed: u64) {
    let mut random = Random(seed);
    let servers = random.between(1, 3) as u8;
    let rules = Rules { servers, faulty: random.below(servers as u64) as u8, drift: random.pick(&[0, 500, 1_000]) };
    let play = Play::new(rules.servers, rules.faulty, rules.drift);
    let mut tiny = Tiny { play, random, rules, counts: Vec::new(), words: Vec::new(), marks: Vec::new(), pending: Vec::new(), lost: false };
    tiny.first_replies();
    for _ in 0..tiny.random.between(2, 12) {
        if !tiny.lost {
            tiny.act();
        }
    }
    tiny.compare();
}

impl Tiny {
    fn made_moment(&mut self, count: u64) -> usize {
        self.counts.push(count);
        self.lost = self.play.notices(7);
        self.counts.len() - 1
    }

    fn count(&self) -> u64 {
        self.counts.last().copied().unwrap_or(0)
    }

    fn ask(&mut self, server: u8) {
        let nonce = self.play.ask(server);
        self.play.accepted(7);
        let place = self.made_moment(self.count());
        self.pending.push((server, nonce, place));
    }

    fn reply(&mut self, which: usize, midpoint: u64, radius: u32) {
        let (server, nonce, asked) = self.pending.remove(which);
        self.play.reply(server, nonce, midpoint, radius);
        self.play.accepted(3);
        let heard = self.made_moment(self.count());
        self.words.push(Word { server, asked, heard, least: midpoint.saturating_sub(radius as u64), greatest: midpoint + radius as u64 });
    }

    /// Each server says at once that it is early; so no world begins late.
    fn first_replies(&mut self) {
        for server in 0..self.rules.servers {
            if self.lost {
                return;
            }
            self.ask(server);
            let radius = self.random.between(2, 8);
            let midpoint = self.random.between(0, TINY_GREATEST - radius);
            self.reply(0, midpoint, radius as u32);
        }
    }

    fn act(&mut self) {
        match self.random.below(5) {
            0 | 1 => self.ask(self.random_server()),
            2 => {
                self.play.mark();
                let place = self.made_moment(self.count());
                self.marks.push(place);
            }
            3 if self.steps() < 3 => {
                let count = self.count() + self.random.pick(&[1, 999, 1_000, 2_000]);
                self.play.count(count);
                self.made_moment(count);
            }
            _ if !self.pending.is_empty() => {
                let which = self.random.below(self.pending.len() as u64) as usize;
                let midpoint = self.count() + self.random.between(0, TINY_GREATEST);
                let radius = self.random.between(0, 8) as u32;
                self.reply(which, midpoint, radius);
            }
            _ => {}
        }
    }

    fn random_server(&self) -> u8 {
        (self.counts.len() * 7 % self.rules.servers as usize) as u8
    }

    /// How often the count went on.
    fn steps(&self) -> usize {
        self.counts.windows(2).filter(|two| two[0] < two[1]).count()
    }

    fn compare(&mut self) {
        let mut times = BTreeSet::new();
        let mut named = (1u16 << self.rules.servers) - 1;
        let mut marked = vec![BTreeSet::new(); self.marks.len()];
        for way in self.ways() {
            for faulty in (0..1u16 << self.rules.servers).filter(|set| set.count_ones() <= self.rules.faulty as u32) {
                if self.words.iter().all(|word| faulty >> word.server & 1 == 1 || may_be_true(word, &way)) {
                    times.insert(way[way.len() - 1]);
                    named &= faulty;
                    marked.iter_mut().zip(&self.marks).for_each(|(times, &place)| times.extend([way[place]]));
                }
            }
        }
        assert_eq!(self.lost, times.is_empty());
        if self.lost {
            return;
        }
        self.play.says(&runs(&times), named);
        for (times, place) in marked.iter().zip(self.marks.clone()) {
            let count = self.counts[place];
            self.play.event(count);
            let mut line = with_count(6, count);
            line.extend(times.first().expect("a world").to_be_bytes());
            line.extend(times.last().expect("a world").to_be_bytes());
            assert_eq!(self.play.lines, [line]);
        }
    }

    /// Every way that true time can have gone, from each early beginning.
    fn ways(&self) -> Vec<Vec<u64>> {
        let mut ways: Vec<Vec<u64>> = (0..=TINY_GREATEST).map(|time| vec![time]).collect();
        for two in self.counts.windows(2) {
            let ticks = two[1] - two[0];
            let drift = self.rules.drift as u64;
            let least = (ticks * (1_000_000 - drift)).div_ceil(1_000_000);
            let most = ticks * (1_000_000 + drift) / 1_000_000;
            ways = ways.iter().flat_map(|way| (least..=most).map(|on| longer(way, on))).collect();
        }
        ways
    }
}

fn longer(way: &[u64], on: u64) -> Vec<u64> {
    let mut way = way.to_vec();
    way.push(way[way.len() - 1] + on);
    way
}

/// The reply was made at some time between its asking and its coming, and within what it says.
fn may_be_true(word: &Word, way: &[u64]) -> bool {
    (word.least..=word.greatest).any(|made| way[word.asked] <= made && made <= way[word.heard])
}

fn runs(times: &BTreeSet<u64>) -> Vec<(u64, u64)> {
    let mut runs: Vec<(u64, u64)> = Vec::new();
    for &time in times {
        match runs.last_mut() {
            Some(run) if run.1 + 1 == time => run.1 = time,
            _ => runs.push((time, time)),
        }
    }
    runs
}
