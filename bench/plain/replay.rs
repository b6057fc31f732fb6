//! A record worked out again, line by line.
use crate::machine::{number, read_message, read_settings, write_said, Message, MOST_RADIUS};
use crate::spans::CEILING;
use crate::station::{Rules, Station};
use crate::text::{read_line, Lines};

/// The longest line of a record: one of 255 runs.
const MOST_BYTES: usize = 12 + 16 * 255;
const NO_NONCE: [u8; 32] = [0; 32];

/// The rules of a settings line, if it is one and in range.
pub fn read_rules(text: &[u8]) -> Option<Rules> {
    let mut bytes = [0; 7 + 32 * 10];
    let length = read_line(text, &mut bytes)?;
    let Message::Settings(rest) = read_message(&bytes[..length])? else { return None };
    read_settings(rest).ok().map(|(rules, _)| rules)
}

/// A line differs from what was worked out, which is a line of text, or nothing where no line can stand.
#[derive(Debug, PartialEq, Eq)]
pub struct Differs(pub Option<Vec<u8>>);

pub struct Replay {
    station: Station,
    /// The lines that the last moment wrote, and how much of them was found in the record.
    expected: Lines,
    found: usize,
}

impl Replay {
    pub fn new(rules: Rules) -> Replay {
        Replay { station: Station::new(rules), expected: Lines::new(), found: 0 }
    }

    /// Takes the next line of the record, without its line feed.
    pub fn line(&mut self, text: &[u8]) -> Result<(), Differs> {
        if self.is_expected(text) {
            return Ok(());
        }
        let mut bytes = [0; MOST_BYTES];
        let length = read_line(text, &mut bytes).ok_or_else(|| self.differs())?;
        let line = &bytes[..length];
        if is_passed_over(line) {
            return Ok(());
        }
        if self.found < self.expected.len() {
            return Err(self.differs());
        }
        self.begin(line).ok_or(Differs(None))?;
        if self.is_expected(text) { Ok(()) } else { Err(self.differs()) }
    }

    /// Whether this is the next line that was worked out, which is then found.
    fn is_expected(&mut self, text: &[u8]) -> bool {
        let rest = &self.expected.text()[self.found..];
        let found = rest.len() > text.len() && rest[text.len()] == b'\n' && rest[..text.len()].eq_ignore_ascii_case(text);
        if found {
            self.found += text.len() + 1;
        }
        found
    }

    /// The record ends.
    pub fn end(&self) -> Result<(), Differs> {
        if self.next_expected().is_none() { Ok(()) } else { Err(self.differs()) }
    }

    fn next_expected(&self) -> Option<&[u8]> {
        let rest = &self.expected.text()[self.found..];
        if rest.is_empty() { None } else { rest.split(|&byte| byte == b'\n').next() }
    }

    fn differs(&self) -> Differs {
        Differs(self.next_expected().map(<[u8]>::to_vec))
    }

    /// The first line of a message: does what it says was done. None if no box could have written it here.
    fn begin(&mut self, line: &[u8]) -> Option<()> {
        self.expected.clear();
        self.found = 0;
        let (&kind, rest) = line.split_first()?;
        match (kind, rest.len()) {
            (3, 33) => self.heard(rest)?,
            (4, length) if length >= 11 => self.shown(number(&rest[..8]))?,
            (5, 8) => self.marked(number(rest))?,
            (6, 24) => return self.said(number(&rest[..8])),
            (7, 9) => self.asked(number(&rest[..8]), rest[8])?,
            _ => return None,
        }
        // What was taken from the line stands before what was worked out, except for a showing, which begins with that.
        if kind != 4 {
            self.write(line);
        }
        self.station.write_moment(&mut self.expected);
        Some(())
    }

    fn write(&mut self, line: &[u8]) {
        self.expected.bytes(line);
        self.expected.end();
    }

    fn heard(&mut self, rest: &[u8]) -> Option<()> {
        let (count, asked, server) = (number(&rest[..8]), number(&rest[8..16]), rest[16]);
        let (least, greatest) = (number(&rest[17..25]), number(&rest[25..33]));
        self.station.set_count(count).ok()?;
        let place = self.station.find_asked_at(server, asked)?;
        if !some_reply_says(least, greatest) {
            return None;
        }
        self.station.accept(place, least, greatest);
        Some(())
    }

    fn shown(&mut self, count: u64) -> Option<()> {
        self.station.set_count(count).ok()?;
        if self.station.showing_is_put_off() {
            return None;
        }
        self.station.show();
        Some(())
    }

    fn marked(&mut self, count: u64) -> Option<()> {
        self.station.set_count(count).ok()?;
        self.station.may_mark().ok()?;
        self.station.mark();
        Some(())
    }

    fn asked(&mut self, count: u64, server: u8) -> Option<()> {
        self.station.set_count(count).ok()?;
        self.station.may_ask(server).ok()?;
        self.station.ask(server, NO_NONCE);
        Some(())
    }

    fn said(&mut self, count: u64) -> Option<()> {
        let run = self.station.said_of(count).ok()?;
        write_said(&mut self.expected, count, run.from, run.to);
        Some(())
    }
}

/// Requests, and refusals that are no notices of a moment.
fn is_passed_over(line: &[u8]) -> bool {
    match *line {
        [1, ..] => line.len() == 34,
        [21, refusal] => matches!(refusal, 1..=6 | 8 | 10),
        _ => false,
    }
}

/// Whether some midpoint and radius in range have these ends.
fn some_reply_says(least: u64, greatest: u64) -> bool {
    let most_radius = MOST_RADIUS as u64;
    if least == 0 {
        return greatest <= 2 * most_radius;
    }
    match greatest.checked_sub(least) {
        Some(width) => width % 2 == 0 && width / 2 <= most_radius && least + width / 2 <= CEILING,
        None => false,
    }
}
