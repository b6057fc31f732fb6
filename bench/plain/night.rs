//! Nights by a seed: the input of a box, line by line, and the random bytes that it draws.
use std::fs;
use std::io;
use std::path::Path;

use crate::machine::{number, Machine, Nonces, MOST_RADIUS};
use crate::sha256::Key;
use crate::spans::{Step, CEILING};
use crate::station::{Nonce, Rules};
use crate::text::Lines;

/// A small generator of random numbers (splitmix64).
pub struct Random(pub u64);

impl Random {
    pub fn next(&mut self) -> u64 {
        self.0 = self.0.wrapping_add(0x9e3779b97f4a7c15);
        let mut z = self.0;
        z = (z ^ z >> 30).wrapping_mul(0xbf58476d1ce4e5b9);
        z = (z ^ z >> 27).wrapping_mul(0x94d049bb133111eb);
        z ^ z >> 31
    }

    /// A number below n, which isn't 0.
    pub fn below(&mut self, n: u64) -> u64 {
        self.next() % n
    }

    /// Both ends may come.
    pub fn between(&mut self, from: u64, to: u64) -> u64 {
        from + self.below(to - from + 1)
    }

    /// True once in n times.
    pub fn once_in(&mut self, n: u64) -> bool {
        self.below(n) == 0
    }

    pub fn pick<T: Copy>(&mut self, from: &[T]) -> T {
        from[self.below(from.len() as u64) as usize]
    }
}

/// The random bytes that are drawn in a night. In some nights nonces come again.
pub struct Drawn {
    random: Random,
    pub bytes: Vec<u8>,
    repeats: bool,
}

impl Nonces for Drawn {
    fn next(&mut self) -> io::Result<Nonce> {
        let mut nonce = [0; 32];
        let before = self.bytes.len() / 32;
        if self.repeats && before > 0 && self.random.once_in(3) {
            let place = before - 1 - self.random.below(before.min(4) as u64) as usize;
            nonce.copy_from_slice(&self.bytes[32 * place..32 * place + 32]);
        } else {
            for byte in &mut nonce {
                *byte = self.random.next() as u8;
            }
        }
        self.bytes.extend_from_slice(&nonce);
        Ok(nonce)
    }
}

/// What a server's replies are like.
#[derive(Clone, Copy)]
enum Habit {
    Honest,
    /// Wrong by so much, always.
    Ahead(i64),
    /// Wrong by anything up to so much.
    Wild(u64),
}

/// A request that was made, and true time then.
#[derive(Clone, Copy)]
struct Asked {
    server: u8,
    nonce: Nonce,
    truth: u64,
    count: u64,
    answered: bool,
}

/// How large the numbers of a night are.
#[derive(Clone, Copy)]
struct Scale {
    /// Steps of the clock are mostly up to this.
    step: u64,
    radius: u64,
    /// A lie is wrong by up to this.
    lie: u64,
    /// True time at the beginning is up to this.
    start: u64,
}

const SCALES: [Scale; 6] = [
    Scale { step: 30, radius: 5, lie: 2_000, start: 20_000 },
    Scale { step: 3, radius: 6, lie: 40, start: 60 },
    Scale { step: 2_000, radius: 300, lie: 5_000, start: 10_000 },
    Scale { step: 300_000, radius: 20_000, lie: 2_000_000, start: 1 << 60 },
    Scale { step: 3_000_000, radius: 100_000, lie: 100_000_000, start: 1 << 61 },
    Scale { step: 40, radius: 1 << 31, lie: 1 << 33, start: 1 << 33 },
];

const SIZES: [(u8, u8); 16] = [
    (1, 0), (2, 0), (2, 1), (3, 1), (3, 2), (4, 1), (5, 2), (5, 4), (6, 3), (7, 2), (8, 4), (9, 8), (10, 0), (10, 4), (10, 5), (10, 9),
];

pub struct Night {
    random: Random,
    machine: Machine,
    pub drawn: Drawn,
    pub input: Vec<u8>,
    /// What the box wrote for the last line.
    lines: Lines,
    pub census: Census,
    pub rules: Rules,
    keys: Vec<[u8; 32]>,
    habits: Vec<Habit>,
    scale: Scale,
    count: u64,
    truth: u64,
    asked: Vec<Asked>,
    marks: Vec<u64>,
    odd_case: bool,
}

/// How often each kind of line, refusal and notice was written.
#[derive(Default)]
pub struct Census {
    input: u64,
    kinds: [u64; 32],
    refusals: [u64; 16],
    most_runs: u8,
    named: u64,
    unsound: u64,
}

impl Census {
    fn add(&mut self, lines: &[u8]) {
        for line in lines.split(|&byte| byte == b'\n').filter(|line| !line.is_empty()) {
            let kind = hex_byte(line, 0);
            self.kinds[kind as usize] += 1;
            match kind {
                4 => {
                    self.most_runs = self.most_runs.max(hex_byte(line, 9));
                    let last = line.len() / 2 - 2;
                    self.named += (hex_byte(line, last) | hex_byte(line, last + 1) != 0) as u64;
                }
                21 => self.refusals[hex_byte(line, 1) as usize] += 1,
                22 => self.unsound += (hex_byte(line, 9) == 0) as u64,
                _ => {}
            }
        }
    }

    pub fn join(&mut self, other: &Census) {
        self.input += other.input;
        self.kinds.iter_mut().zip(other.kinds).for_each(|(a, b)| *a += b);
        self.refusals.iter_mut().zip(other.refusals).for_each(|(a, b)| *a += b);
        self.most_runs = self.most_runs.max(other.most_runs);
        self.named += other.named;
        self.unsound += other.unsound;
    }

    pub fn print(&self, nights: u64) {
        println!("{nights} nights, {} lines of input", self.input);
        let [_, requests, _, heard, reckoned, marked, said, ..] = self.kinds;
        println!("{requests} requests, {heard} replies accepted, {reckoned} moments, {marked} marks, {said} questions about events answered");
        println!("{} moments named a server, {} runs at most, {} times the hand was not sound", self.named, self.most_runs, self.unsound);
        let numbers: Vec<String> = (1..=10).map(|number| format!("{number}: {}", self.refusals[number])).collect();
        println!("refusals and notices {}", numbers.join(", "));
    }
}

fn hex_byte(line: &[u8], place: usize) -> u8 {
    let digit = |at: usize| (line[at] as char).to_digit(16).unwrap_or(0) as u8;
    digit(2 * place) << 4 | digit(2 * place + 1)
}

impl Night {
    fn new(seed: u64, servers: u8, faulty: u8) -> Night {
        let mut random = Random(seed.wrapping_mul(0x2545f4914f6cdd1d) ^ 0x6e69676874);
        let drift = random.pick(&[0, 1, 50, 100, 1_000]);
        let scale = random.pick(&SCALES);
        let keys = (0..servers).map(|_| std::array::from_fn(|_| random.next() as u8)).collect();
        let truth = random.between(0, scale.start);
        let drawn = Drawn { random: Random(random.next()), bytes: Vec::new(), repeats: random.once_in(6) };
        let odd_case = random.once_in(5);
        let mut night = Night {
            random,
            machine: Machine::new(),
            drawn,
            input: Vec::new(),
            lines: Lines::new(),
            census: Census::default(),
            rules: Rules { servers, faulty, drift },
            keys,
            habits: Vec::new(),
            scale,
            count: 0,
            truth,
            asked: Vec::new(),
            marks: Vec::new(),
            odd_case,
        };
        night.choose_habits();
        night
    }

    /// Mostly as many servers lie as may, alone or together; sometimes more.
    fn choose_habits(&mut self) {
        let Rules { servers, faulty, .. } = self.rules;
        let most = if self.random.once_in(6) { servers } else { faulty };
        let how_many = if self.random.once_in(2) { most as u64 } else { self.random.between(0, most as u64) };
        let common = self.wrong_by();
        let together = self.random.once_in(2);
        self.habits = vec![Habit::Honest; servers as usize];
        for _ in 0..how_many {
            let Some(server) = self.some_honest_server() else { return };
            self.habits[server] = match self.random.below(3) {
                _ if together => Habit::Ahead(common),
                0 => Habit::Wild(self.scale.lie),
                _ => Habit::Ahead(self.wrong_by()),
            };
        }
    }

    fn some_honest_server(&mut self) -> Option<usize> {
        let honest: Vec<usize> = (0..self.habits.len()).filter(|&server| matches!(self.habits[server], Habit::Honest)).collect();
        if honest.is_empty() { None } else { Some(self.random.pick(&honest)) }
    }

    fn wrong_by(&mut self) -> i64 {
        let by = self.random.below(self.scale.lie) as i64;
        if self.random.once_in(2) { by } else { -by }
    }

    // Lines

    /// Gives a line of text to the box, and writes it down.
    fn text(&mut self, text: &[u8]) {
        self.input.extend_from_slice(text);
        self.input.push(b'\n');
        self.lines.clear();
        self.machine.line(text, &mut self.drawn, &mut self.lines).expect("nonces are always at hand");
        self.census.input += 1;
        self.census.add(self.lines.text());
    }

    fn send(&mut self, bytes: &[u8]) {
        let text = self.hex(bytes);
        self.text(&text);
    }

    fn hex(&mut self, bytes: &[u8]) -> Vec<u8> {
        let mut text = Vec::with_capacity(2 * bytes.len());
        for byte in bytes {
            let pair = format!("{byte:02x}");
            let upper = self.odd_case && self.random.once_in(2);
            text.extend(if upper { pair.to_uppercase() } else { pair }.bytes());
        }
        text
    }

    fn settings(&self) -> Vec<u8> {
        let mut bytes = vec![16, self.rules.servers, self.rules.faulty];
        bytes.extend(self.rules.drift.to_be_bytes());
        self.keys.iter().for_each(|key| bytes.extend(key));
        bytes
    }

    // The clock

    fn advance(&mut self, ticks: u64) {
        let count = self.count.saturating_add(ticks);
        let step = Step::new(self.rules.drift, count - self.count);
        let gone = self.random.between(step.least, step.most);
        self.truth = self.truth.saturating_add(gone);
        self.count = count;
        self.send_count(count);
    }

    fn send_count(&mut self, count: u64) {
        let mut bytes = vec![17];
        bytes.extend(count.to_be_bytes());
        self.send(&bytes);
    }

    fn ordinary_step(&mut self) -> u64 {
        if self.random.once_in(5) { 0 } else { self.random.between(0, self.scale.step) }
    }

    fn step(&mut self) {
        let ticks = self.ordinary_step();
        self.advance(ticks);
    }

    fn steps(&mut self, how_many: u64) {
        for _ in 0..how_many {
            self.step();
        }
    }

    fn go_back(&mut self) {
        let by = self.random.between(1, 5);
        self.send_count(self.count.saturating_sub(by));
    }

    /// Nothing for a while: up to the end of something's time, or just after it.
    fn silence(&mut self) {
        let from = match self.random.below(3) {
            0 => self.count,
            1 => self.recent().map_or(self.count, |asked| asked.count),
            _ => self.marks.last().copied().unwrap_or(self.count),
        };
        let long = self.random.pick(&[10_000_000, 10_000_000, 10_000_000, 3_600_000_000, 7_200_000_000]);
        let until = from + long + self.random.below(2);
        self.advance(until.saturating_sub(self.count));
    }

    /// So long a silence that time comes near its end, or past it.
    fn long_silence(&mut self) {
        let power = self.random.pick(&[40, 58, 60, 61, 62, 63]);
        let ticks = (1u64 << power) - self.random.below(3);
        self.advance(ticks);
    }

    // Requests and replies

    fn ask(&mut self, server: u8) {
        self.send(&[18, server]);
        let line = self.lines.text();
        if line.starts_with(b"01") {
            let nonce = std::array::from_fn(|place| hex_byte(line, 2 + place));
            self.asked.push(Asked { server, nonce, truth: self.truth, count: self.count, answered: false });
        }
    }

    fn some_server(&mut self) -> u8 {
        self.random.below(self.rules.servers as u64) as u8
    }

    fn ask_some(&mut self) {
        let server = self.some_server();
        self.ask(server);
    }

    /// One of the last requests, mostly one that wasn't answered.
    fn recent(&mut self) -> Option<Asked> {
        let last = &self.asked[self.asked.len().saturating_sub(20)..];
        let mut from: Vec<Asked> = last.to_vec();
        if !self.random.once_in(8) {
            from.retain(|asked| !asked.answered);
        }
        if from.is_empty() { None } else { Some(self.random.pick(&from)) }
    }

    /// A time and a radius as this server would say them.
    fn word(&mut self, asked: Asked) -> (u64, u64) {
        let made = self.random.between(asked.truth.min(self.truth), self.truth);
        let radius = if self.random.once_in(8) { 0 } else { self.random.between(0, self.scale.radius.min(MOST_RADIUS as u64)) };
        let off = self.random.between(0, 2 * radius) as i128 - radius as i128;
        let wrong = match self.habits[asked.server as usize] {
            Habit::Honest => 0,
            Habit::Ahead(by) => by as i128,
            Habit::Wild(upto) => self.random.between(0, 2 * upto) as i128 - upto as i128,
        };
        ((made as i128 + off + wrong).clamp(0, u64::MAX as i128) as u64, radius)
    }

    fn signed(&mut self, server: u8, nonce: &Nonce, midpoint: u64, radius: u32) -> Vec<u8> {
        let key = self.keys.get(server as usize).copied().unwrap_or([0; 32]);
        sign(&key, server, nonce, midpoint, radius)
    }

    fn reply(&mut self, asked: Asked) {
        let (midpoint, radius) = self.word(asked);
        let bytes = self.signed(asked.server, &asked.nonce, midpoint, radius as u32);
        self.send(&bytes);
        self.note_answered(asked);
    }

    fn note_answered(&mut self, asked: Asked) {
        if self.lines.text().starts_with(b"03") {
            let same = |one: &&mut Asked| one.nonce == asked.nonce && one.server == asked.server && !one.answered;
            if let Some(one) = self.asked.iter_mut().rev().take(100).find(same) {
                one.answered = true;
            }
        }
    }

    fn reply_to_recent(&mut self) {
        if let Some(asked) = self.recent() {
            self.reply(asked);
        }
    }

    fn reply_to_last(&mut self, back: usize) {
        if self.asked.len() > back {
            self.reply(self.asked[self.asked.len() - 1 - back]);
        }
    }

    fn exchange(&mut self) {
        self.ask_some();
        self.step();
        self.reply_to_last(0);
    }

    /// Every server is asked, and they reply in any order.
    fn round(&mut self) {
        let before = self.asked.len();
        for server in 0..self.rules.servers {
            self.ask(server);
            if self.random.once_in(3) {
                self.step();
            }
        }
        let mut waiting: Vec<Asked> = self.asked[before..].to_vec();
        while !waiting.is_empty() {
            let place = self.random.below(waiting.len() as u64) as usize;
            self.reply(waiting.swap_remove(place));
            if self.random.once_in(2) {
                self.step();
            }
        }
    }

    /// Some requests of one server at one count, and replies to them in any order.
    fn alike(&mut self) {
        let server = self.some_server();
        let how_many = self.random.between(2, 4);
        let before = self.asked.len();
        for _ in 0..how_many {
            self.ask(server);
            if self.random.once_in(3) {
                self.advance(0);
            }
            if self.random.once_in(4) {
                self.ask_some();
            }
        }
        let far = self.random.pick(&[1, 2, 3, 58, 62]);
        self.steps(far);
        let made = self.asked.len() - before;
        for _ in 0..made {
            let place = before + self.random.below(made as u64) as usize;
            self.reply(self.asked[place]);
            if self.random.once_in(3) {
                self.step();
            }
        }
    }

    fn many_requests(&mut self) {
        let how_many = self.random.between(14, 19);
        for _ in 0..how_many {
            self.ask_some();
        }
        for _ in 0..how_many {
            self.reply_to_recent();
        }
    }

    /// As many requests as can be, and about as many moments as close the oldest of them; then some more.
    fn full_of_requests(&mut self) {
        self.advance(10_000_001);
        for _ in 0..16 {
            self.ask_some();
        }
        if self.random.once_in(2) {
            self.ask(self.rules.servers);
        }
        let how_many = self.random.between(46, 51);
        for _ in 0..how_many {
            self.advance(0);
        }
        for _ in 0..3 {
            self.ask_some();
        }
        self.reply_to_recent();
    }

    /// About 64 moments after a request, which is then answered, closed by another moment, or answered after that.
    fn many_moments(&mut self) {
        self.ask_some();
        let how_many = self.random.between(60, 66);
        for _ in 0..how_many {
            match self.random.below(20) {
                0 => self.mark(),
                1 => self.ask_some(),
                2 => self.reply_to_recent(),
                _ => self.step(),
            }
        }
        match self.random.below(4) {
            0 => self.mark(),
            1 => self.ask_some(),
            _ => {}
        }
        self.reply_to_recent();
        self.reply_to_recent();
    }

    /// A request is closed, by age or by moments, and answered about 64 moments later.
    fn long_after(&mut self) {
        self.ask_some();
        let Some(asked) = self.asked.last().copied() else { return };
        if self.random.once_in(2) {
            self.advance(10_000_001);
        } else {
            self.steps(64);
            self.mark();
        }
        let how_many = self.random.between(60, 66);
        for _ in 0..how_many {
            self.step();
        }
        for _ in 0..4 {
            self.reply(asked);
            self.step();
        }
    }

    // Faulty messages

    fn faulty_reply(&mut self) {
        let Some(asked) = self.recent() else { return };
        let (mut midpoint, mut radius) = self.word(asked);
        let (mut server, mut nonce) = (asked.server, asked.nonce);
        let mut touched = None;
        let faults = self.random.between(1, 2);
        for _ in 0..faults {
            match self.random.below(12) {
                0 => midpoint = CEILING + self.random.between(1, 3),
                1 => radius = MOST_RADIUS as u64 + self.random.between(1, 3),
                2 => server = self.rules.servers + self.random.below(3) as u8,
                3 => server = self.some_server(),
                4 => nonce[self.random.below(32) as usize] ^= 1 << self.random.below(8),
                5..=8 => touched = Some(self.random.between(34, 45) as usize),
                _ => touched = Some(self.random.between(46, 109) as usize),
            }
        }
        let mut bytes = self.signed(server, &nonce, midpoint, radius as u32);
        if let Some(place) = touched {
            bytes[place] ^= 1 << self.random.below(8);
        }
        self.send(&bytes);
    }

    /// Replies at the very ends of what is in range.
    fn extreme_reply(&mut self) {
        let Some(asked) = self.recent() else { return };
        let midpoint = self.random.pick(&[0, 1, CEILING - 1, CEILING, 1 << 61, 1 << 32]);
        let radius = self.random.pick(&[0, 1, MOST_RADIUS - 1, MOST_RADIUS]);
        let bytes = self.signed(asked.server, &asked.nonce, midpoint, radius);
        self.send(&bytes);
        self.note_answered(asked);
    }

    fn damaged(&mut self) {
        let mut bytes = match self.random.below(7) {
            0 => self.settings(),
            1 => vec![17, 0, 0, 0, 0, 0, 0, 0, 1],
            2 => vec![18, 0],
            3 => vec![19],
            4 => vec![20, 0, 0, 0, 0, 0, 0, 0, 1],
            5 => vec![self.random.next() as u8, 1, 2, 3],
            _ => self.signed(0, &[7; 32], 1, 1),
        };
        let mut text = self.hex(&bytes);
        match self.random.below(9) {
            0 => text.clear(),
            1 => text.truncate(self.random.below(text.len() as u64 + 1) as usize),
            2 => text.push(b'0'),
            3 => text.extend(b"00"),
            4 => text.push(b'\r'),
            5 => {
                let place = self.random.below(text.len() as u64) as usize;
                text[place] = self.random.pick(b"gG/:@`\x00\xff -x");
            }
            6 => {
                bytes[0] = self.random.pick(&[0, 1, 3, 4, 5, 6, 7, 15, 21, 22, 255]);
                text = self.hex(&bytes);
            }
            7 => {
                let length = self.random.pick(&[16_334, 16_336, 65_534, 65_536, 65_538, 140_000]);
                text = vec![b'1'; length];
            }
            _ => {}
        }
        self.text(&text);
    }

    /// Messages before settings, settings that are out of range, and then those of the night.
    fn beginning(&mut self) {
        let length = self.random.below(4);
        for _ in 0..length {
            match self.random.below(6) {
                0 => self.send_count(5),
                1 => self.send(&[18, 0]),
                2 => self.send(&[19]),
                3 => self.bad_settings(),
                4 => self.settings_of_many(),
                _ => self.damaged_before(),
            }
        }
        let settings = self.settings();
        self.send(&settings);
    }

    fn bad_settings(&mut self) {
        let mut bytes = self.settings();
        match self.random.below(4) {
            0 => bytes[2] = self.rules.servers,
            1 => bytes[3..7].copy_from_slice(&[0, 0, 3, 233]),
            2 => bytes[6] ^= 1,
            _ => bytes[3] = 1,
        }
        if bytes[3..7] == self.rules.drift.to_be_bytes() || number(&bytes[3..7]) > 1_000 || bytes[2] >= bytes[1] {
            self.send(&bytes);
        }
    }

    /// Settings of their right length for none, or for more than ten servers.
    fn settings_of_many(&mut self) {
        let servers = self.random.pick(&[0, 11, 12, 100, 255]);
        let mut bytes = vec![16, servers, 0, 0, 0, 0, 0];
        bytes.resize(7 + 32 * servers as usize, 1);
        self.send(&bytes);
    }

    fn damaged_before(&mut self) {
        let mut bytes = self.settings();
        let length = self.random.below(bytes.len() as u64) as usize;
        bytes.truncate(length);
        self.send(&bytes);
    }

    // Events

    fn mark(&mut self) {
        self.send(&[19]);
        if self.lines.text().starts_with(b"05") {
            self.marks.push(self.count);
        }
    }

    fn question(&mut self, count: u64) {
        let mut bytes = vec![20];
        bytes.extend(count.to_be_bytes());
        self.send(&bytes);
    }

    fn some_question(&mut self) {
        let length = self.marks.len() as u64;
        let count = match self.random.below(8) {
            0 => self.count + self.random.below(3),
            1 if length > 0 => self.marks[self.random.below(length) as usize] + 1,
            _ if length > 0 && self.random.once_in(2) => self.marks[(length - 1 - self.random.below(length.min(10))) as usize],
            _ if length > 0 => self.marks[self.random.below(length) as usize],
            _ => 0,
        };
        self.question(count);
    }

    /// A mark, something after it, and a question about it.
    fn mark_and_ask(&mut self) {
        self.mark();
        let mark = self.count;
        match self.random.below(4) {
            0 => self.step(),
            1 => self.exchange(),
            2 => self.round(),
            _ => self.silence(),
        }
        self.question(mark);
    }

    fn many_marks(&mut self) {
        let how_many = self.random.between(250, 262);
        for _ in 0..how_many {
            self.mark();
            if self.random.once_in(3) {
                self.step();
            }
        }
        for _ in 0..20 {
            self.some_question();
        }
    }

    /// A mark, and about 1,024 moments after it.
    fn very_many_moments(&mut self) {
        self.advance(10_000_001);
        self.mark();
        let mark = self.count;
        let how_many = self.random.between(1_018, 1_026);
        for _ in 0..how_many {
            match self.random.below(30) {
                0 => self.exchange(),
                1 => self.mark(),
                _ => self.step(),
            }
        }
        for _ in 0..6 {
            self.question(mark);
            self.some_question();
            self.step();
        }
    }

    /// As many moments as are kept, all at one count, until they are just not or just too old.
    fn old_moments(&mut self) {
        self.advance(10_000_001);
        for _ in 0..1_030 {
            self.advance(0);
        }
        let before = self.random.below(2);
        self.advance(7_200_000_000 - before);
        self.advance(1);
        self.advance(1);
    }

    /// As many events as are kept, in the oldest of about as many moments as are kept.
    fn full_of_events(&mut self) {
        self.advance(7_200_000_001);
        self.advance(7_200_000_001);
        for _ in 0..256 {
            self.mark();
        }
        let how_many = self.random.between(764, 770);
        for _ in 0..how_many {
            self.advance(0);
        }
        for _ in 0..4 {
            self.mark();
            self.advance(1);
        }
    }

    // The night as a whole

    fn act(&mut self) {
        match self.random.below(100) {
            0..=17 => self.step(),
            18..=21 => self.mark_and_ask(),
            22..=33 => self.ask_some(),
            34..=51 => self.reply_to_recent(),
            52..=59 => self.exchange(),
            60..=63 => self.round(),
            64..=68 => self.mark(),
            69..=73 => self.some_question(),
            74..=77 => self.faulty_reply(),
            78..=79 if self.random.once_in(4) => self.extreme_reply(),
            80..=82 => self.damaged(),
            83..=84 => self.go_back(),
            85..=86 => self.alike(),
            87 => self.many_requests(),
            88 => self.full_of_requests(),
            89..=90 => self.many_moments(),
            91..=92 => self.long_after(),
            93..=95 => self.silence(),
            96 => {
                let server = self.rules.servers + self.random.below(3) as u8;
                self.ask(server);
            }
            97 => self.choose_habits(),
            98 if self.random.once_in(8) => self.long_silence(),
            _ => self.steps(5),
        }
    }

    fn play(&mut self, long: bool) {
        self.beginning();
        let acts = if long { 150 } else { self.random.between(5, 50) };
        for _ in 0..acts {
            self.act();
        }
        if long {
            self.many_marks();
            self.very_many_moments();
            self.many_marks();
            match self.random.below(3) {
                0 => self.old_moments(),
                1 => self.full_of_events(),
                _ => {}
            }
            for _ in 0..40 {
                self.act();
            }
        }
    }

    pub fn write(&self, path: &Path) -> io::Result<()> {
        let settings: String = self.settings().iter().map(|byte| format!("{byte:02x}")).collect();
        fs::write(path.with_extension("settings"), settings + "\n")?;
        fs::write(path.with_extension("in"), &self.input)?;
        fs::write(path.with_extension("random"), &self.drawn.bytes)
    }
}

pub fn sign(key: &[u8; 32], server: u8, nonce: &Nonce, midpoint: u64, radius: u32) -> Vec<u8> {
    let mut bytes = vec![2, server];
    bytes.extend(nonce);
    bytes.extend(midpoint.to_be_bytes());
    bytes.extend(radius.to_be_bytes());
    let code = Key::new(key).code(&bytes);
    bytes.extend(code);
    bytes.extend([0; 32]);
    bytes
}

/// One night in 25 is long. In one of 40 the random bytes run out, and in one of 10 the last line has no end.
pub fn night(seed: u64) -> Night {
    let (servers, faulty) = SIZES[(seed % SIZES.len() as u64) as usize];
    let mut night = Night::new(seed, servers, faulty);
    night.play(seed % 25 == 24);
    if night.random.once_in(40) {
        let length = night.drawn.bytes.len();
        night.drawn.bytes.truncate(length.saturating_sub(night.random.pick(&[1, 32, 100])));
    }
    if night.random.once_in(10) {
        night.input.pop();
    }
    night
}

/// A long night without faults in its messages: of ten messages one is an ask, one a reply to an ask some time ago, and eight are counts.
pub fn speed_night(servers: u8, faulty: u8, messages: u64) -> Night {
    let mut night = Night::new(1, servers, faulty);
    night.rules.drift = 50;
    night.scale = Scale { step: 100_000, radius: 20_000, lie: 200_000, start: 1 << 60 };
    night.odd_case = false;
    night.drawn.repeats = false;
    night.habits = (0..servers).map(|server| if server < faulty { Habit::Wild(200_000) } else { Habit::Honest }).collect();
    let settings = night.settings();
    night.send(&settings);
    for turn in 0..messages / 10 {
        night.ask((turn % servers as u64) as u8);
        night.steps(4);
        night.reply_to_last(night.asked.len().min(4) - 1);
        night.steps(4);
    }
    night
}

