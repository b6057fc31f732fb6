//! The box: a line in, lines out.
use std::io;

use crate::sha256::Key;
use crate::spans::CEILING;
use crate::station::{Match, Nonce, Refusal, Rules, Station};
use crate::text::{read_line, Lines};

pub const MOST_RADIUS: u32 = 1 << 31;
const MOST_SERVERS: u8 = 10;
const MOST_DRIFT: u32 = 1_000;
const REPLY_LENGTH: usize = 110;
/// What a reply's signature is over.
const SIGNED_LENGTH: usize = 46;
/// The longest message that isn't too long: settings of 255 servers, which are refused for that.
pub const MOST_BYTES: usize = 7 + 32 * 255;

/// Where nonces come from.
pub trait Nonces {
    fn next(&mut self) -> io::Result<Nonce>;
}

/// A message to the box.
pub enum Message<'a> {
    Reply(&'a [u8; REPLY_LENGTH]),
    Settings(&'a [u8]),
    Count(u64),
    Ask(u8),
    Mark,
    Event(u64),
}

pub fn number(bytes: &[u8]) -> u64 {
    bytes.iter().fold(0, |sum, &byte| sum << 8 | byte as u64)
}

/// Reads a message by its kind and length.
pub fn read_message(bytes: &[u8]) -> Option<Message<'_>> {
    let (&kind, rest) = bytes.split_first()?;
    match (kind, rest.len()) {
        (2, _) => bytes.try_into().ok().map(Message::Reply),
        (16, length) if length >= 6 && length == 6 + 32 * rest[0] as usize => Some(Message::Settings(rest)),
        (17, 8) => Some(Message::Count(number(rest))),
        (18, 1) => Some(Message::Ask(rest[0])),
        (19, 0) => Some(Message::Mark),
        (20, 8) => Some(Message::Event(number(rest))),
        _ => None,
    }
}

/// Reads settings of the right length, without their kind.
pub fn read_settings(rest: &[u8]) -> Result<(Rules, Vec<Key>), Refusal> {
    let rules = Rules { servers: rest[0], faulty: rest[1], drift: number(&rest[2..6]) as u32 };
    if rules.servers == 0 || rules.servers > MOST_SERVERS || rules.faulty >= rules.servers || rules.drift > MOST_DRIFT {
        return Err(Refusal::OutOfRange);
    }
    Ok((rules, rest[6..].chunks_exact(32).map(Key::new).collect()))
}

enum Stop {
    Refused(Refusal),
    NoNonce(io::Error),
}

impl From<Refusal> for Stop {
    fn from(refusal: Refusal) -> Stop {
        Stop::Refused(refusal)
    }
}

/// The box, before and after settings are accepted.
pub struct Machine {
    bytes: Box<[u8; MOST_BYTES]>,
    set: Option<Set>,
}

struct Set {
    keys: Vec<Key>,
    station: Station,
}

impl Default for Machine {
    fn default() -> Machine {
        Machine { bytes: Box::new([0; MOST_BYTES]), set: None }
    }
}

impl Machine {
    pub fn new() -> Machine {
        Machine::default()
    }

    /// Takes a line without its line feed, and adds to `out` what is written for it. Fails only if a nonce is needed and can't be had.
    pub fn line(&mut self, text: &[u8], nonces: &mut impl Nonces, out: &mut Lines) -> io::Result<()> {
        match self.message(text, nonces, out) {
            Ok(()) => Ok(()),
            Err(Stop::Refused(refusal)) => {
                out.refusal(refusal as u8);
                Ok(())
            }
            Err(Stop::NoNonce(error)) => Err(error),
        }
    }

    fn message(&mut self, text: &[u8], nonces: &mut impl Nonces, out: &mut Lines) -> Result<(), Stop> {
        let length = read_line(text, &mut self.bytes[..]).ok_or(Refusal::Malformed)?;
        let message = read_message(&self.bytes[..length]).ok_or(Refusal::Malformed)?;
        match (message, &mut self.set) {
            (Message::Settings(rest), None) => {
                let (rules, keys) = read_settings(rest)?;
                self.set = Some(Set { keys, station: Station::new(rules) });
                Ok(())
            }
            (Message::Settings(_), Some(_)) | (_, None) => Err(Refusal::Malformed.into()),
            (Message::Reply(reply), Some(set)) => Ok(set.reply(reply, out)?),
            (Message::Count(count), Some(set)) => Ok(set.count(count, out)?),
            (Message::Ask(server), Some(set)) => set.ask(server, nonces, out),
            (Message::Mark, Some(set)) => Ok(set.mark(out)?),
            (Message::Event(count), Some(set)) => Ok(set.event(count, out)?),
        }
    }

    /// A line that is longer than any message.
    pub fn too_long(&self, out: &mut Lines) {
        out.refusal(Refusal::Malformed as u8);
    }
}

impl Set {
    fn count(&mut self, count: u64, out: &mut Lines) -> Result<(), Refusal> {
        self.station.set_count(count)?;
        if !self.station.showing_is_put_off() {
            self.station.show();
            self.station.write_moment(out);
        }
        Ok(())
    }

    fn ask(&mut self, server: u8, nonces: &mut impl Nonces, out: &mut Lines) -> Result<(), Stop> {
        self.station.may_ask(server)?;
        let nonce = nonces.next().map_err(Stop::NoNonce)?;
        self.station.ask(server, nonce);
        out.byte(1);
        out.byte(server);
        out.bytes(&nonce);
        out.end();
        write_asked(out, self.station.count(), server);
        self.station.write_moment(out);
        Ok(())
    }

    fn reply(&mut self, reply: &[u8; REPLY_LENGTH], out: &mut Lines) -> Result<(), Refusal> {
        let server = reply[1];
        let midpoint = number(&reply[34..42]);
        let radius = number(&reply[42..46]);
        if server >= self.station.rules().servers || midpoint > CEILING || radius > MOST_RADIUS as u64 {
            return Err(Refusal::OutOfRange);
        }
        let found = self.station.find(server, &reply[2..34]).ok_or(Refusal::UnknownNonce)?;
        if !is_signed(&self.keys[server as usize], reply) {
            return Err(Refusal::WrongSignature);
        }
        let Match::Pending(place) = found else { return Err(Refusal::TooLate) };
        let (least, greatest) = (midpoint.saturating_sub(radius), midpoint + radius);
        let asked = self.station.accept(place, least, greatest);
        write_heard(out, self.station.count(), asked, server, least, greatest);
        self.station.write_moment(out);
        Ok(())
    }

    fn mark(&mut self, out: &mut Lines) -> Result<(), Refusal> {
        self.station.may_mark()?;
        self.station.mark();
        write_marked(out, self.station.count());
        self.station.write_moment(out);
        Ok(())
    }

    fn event(&mut self, count: u64, out: &mut Lines) -> Result<(), Refusal> {
        let run = self.station.said_of(count)?;
        write_said(out, count, run.from, run.to);
        Ok(())
    }
}

/// The signature of the stand-in: the code of the first 46 bytes, and 32 zero bytes. Every byte is read whatever is found.
fn is_signed(key: &Key, reply: &[u8; REPLY_LENGTH]) -> bool {
    let code = key.code(&reply[..SIGNED_LENGTH]);
    let (first, second) = reply[SIGNED_LENGTH..].split_at(32);
    let differs = first.iter().zip(code).fold(0, |sum, (a, b)| sum | (a ^ b));
    second.iter().fold(differs, |sum, byte| sum | byte) == 0
}

pub fn write_asked(out: &mut Lines, count: u64, server: u8) {
    out.byte(7);
    out.number(count);
    out.byte(server);
    out.end();
}

pub fn write_heard(out: &mut Lines, count: u64, asked: u64, server: u8, least: u64, greatest: u64) {
    out.byte(3);
    out.number(count);
    out.number(asked);
    out.byte(server);
    out.number(least);
    out.number(greatest);
    out.end();
}

pub fn write_marked(out: &mut Lines, count: u64) {
    out.byte(5);
    out.number(count);
    out.end();
}

pub fn write_said(out: &mut Lines, count: u64, least: u64, greatest: u64) {
    out.byte(6);
    out.number(count);
    out.number(least);
    out.number(greatest);
    out.end();
}
