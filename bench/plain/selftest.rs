//! Tests of the plain box: worked cases, refusals, worlds counted one by one, and nights checked by simple means from all that went before.
mod check_history;
mod check_protocol;
mod check_record;
mod check_worlds;

use std::io;
use std::process::ExitCode;

use clockbox::machine::{number, Machine, Nonces};
use clockbox::night::{night, sign};
use clockbox::sha256::{sha256, Key};
use clockbox::spans::{share, Run, CEILING};
use clockbox::station::Nonce;
use clockbox::text::{read_line, Lines};

const NIGHTS: u64 = 100;
const TINY_NIGHTS: u64 = 300;

fn main() -> ExitCode {
    hashes();
    drift();
    worked_cases();
    refusals();
    closing();
    alike();
    events();
    moments();
    beginning_anew();
    for seed in 0..TINY_NIGHTS {
        check_worlds::check(seed);
    }
    let mut said = 0;
    for seed in 0..NIGHTS {
        said += check_night(seed);
    }
    println!("selftest: worked cases, refusals, {TINY_NIGHTS} nights with their worlds counted, {NIGHTS} nights with {said} lines worked out from the beginning");
    ExitCode::SUCCESS
}

/// Plays a night, and checks what was refused, what was said, and its record. Gives the number of lines.
fn check_night(seed: u64) -> u64 {
    let night = night(seed);
    let mut machine = Machine::new();
    let mut nonces = FromFile(night.drawn.bytes, 0);
    let mut protocol = check_protocol::Protocol::new(night.rules);
    let mut text = Vec::new();
    let mut out = Lines::new();
    let input = night.input.strip_suffix(b"\n").unwrap_or(&night.input);
    for line in input.split(|&byte| byte == b'\n') {
        out.clear();
        if machine.line(line, &mut nonces, &mut out).is_err() {
            break;
        }
        protocol.check(line, &lines_of(out.text()));
        text.extend_from_slice(out.text());
    }
    let lines = lines_of(&text);
    check_history::check(night.rules, &lines);
    check_record::check(seed, night.rules, &text);
    lines.len() as u64
}

/// Nonces out of a night's random bytes.
struct FromFile(Vec<u8>, usize);

impl Nonces for FromFile {
    fn next(&mut self) -> io::Result<Nonce> {
        let end = self.1 + 32;
        let nonce = self.0.get(self.1..end).and_then(|bytes| bytes.try_into().ok()).ok_or(io::ErrorKind::UnexpectedEof)?;
        self.1 = end;
        Ok(nonce)
    }
}

// Boxes to play with

/// Nonces 1, 2, 3 and so on, in all their bytes.
struct Counted(u8);

impl Nonces for Counted {
    fn next(&mut self) -> io::Result<Nonce> {
        self.0 = self.0.wrapping_add(1);
        Ok([self.0; 32])
    }
}

/// A box, and what it wrote for the last message, line by line as bytes.
struct Play {
    machine: Machine,
    nonces: Counted,
    lines: Vec<Vec<u8>>,
}

fn key(server: u8) -> [u8; 32] {
    [server + 100; 32]
}

fn bytes_of(text: &[u8]) -> Vec<u8> {
    let mut bytes = vec![0; text.len() / 2];
    assert_eq!(read_line(text, &mut bytes), Some(text.len() / 2));
    bytes
}

fn lines_of(text: &[u8]) -> Vec<Vec<u8>> {
    text.split(|&byte| byte == b'\n').filter(|line| !line.is_empty()).map(bytes_of).collect()
}

fn with_count(kind: u8, count: u64) -> Vec<u8> {
    let mut bytes = vec![kind];
    bytes.extend(count.to_be_bytes());
    bytes
}

impl Play {
    fn empty() -> Play {
        Play { machine: Machine::new(), nonces: Counted(0), lines: Vec::new() }
    }

    fn new(servers: u8, faulty: u8, drift: u32) -> Play {
        let mut play = Play::empty();
        play.send(&settings(servers, faulty, drift));
        assert!(play.lines.is_empty());
        play
    }

    fn text(&mut self, text: &[u8]) {
        let mut out = Lines::new();
        self.machine.line(text, &mut self.nonces, &mut out).expect("nonces are at hand");
        self.lines = lines_of(out.text());
    }

    fn send(&mut self, bytes: &[u8]) {
        let text: String = bytes.iter().map(|byte| format!("{byte:02x}")).collect();
        self.text(text.as_bytes());
    }

    fn count(&mut self, count: u64) {
        self.send(&with_count(17, count));
    }

    /// Asks, and gives the nonce.
    fn ask(&mut self, server: u8) -> u8 {
        self.send(&[18, server]);
        self.nonces.0
    }

    fn mark(&mut self) {
        self.send(&[19]);
    }

    fn event(&mut self, count: u64) {
        self.send(&with_count(20, count));
    }

    fn reply(&mut self, server: u8, nonce: u8, midpoint: u64, radius: u32) {
        self.send(&sign(&key(server), server, &[nonce; 32], midpoint, radius));
    }

    /// Asks and is answered at once.
    fn hear(&mut self, server: u8, midpoint: u64, radius: u32) {
        let nonce = self.ask(server);
        self.reply(server, nonce, midpoint, radius);
    }

    fn refused(&self, number: u8) {
        assert_eq!(self.lines, [[21, number]]);
    }

    fn line(&self, kind: u8) -> Option<&[u8]> {
        self.lines.iter().find(|line| line[0] == kind).map(Vec::as_slice)
    }

    fn accepted(&self, kind: u8) {
        assert!(self.line(kind).is_some(), "no line of kind {kind}: {:?}", self.lines);
    }

    fn says(&self, runs: &[(u64, u64)], named: u16) {
        let (found, who) = runs_of(self.line(4).expect("a reckoned line"));
        let runs: Vec<Run> = runs.iter().map(|&(from, to)| Run { from, to }).collect();
        assert_eq!((found, who), (runs, named));
    }

    fn shows(&self, time: u64, sound: u8) {
        let mut line = with_count(22, time);
        line.push(sound);
        assert_eq!(self.line(22), Some(line.as_slice()));
    }

    fn notices(&self, number: u8) -> bool {
        self.lines.iter().any(|line| line[..] == [21, number])
    }
}

fn settings(servers: u8, faulty: u8, drift: u32) -> Vec<u8> {
    let mut bytes = vec![16, servers, faulty];
    bytes.extend(drift.to_be_bytes());
    (0..servers).for_each(|server| bytes.extend(key(server)));
    bytes
}

fn runs_of(line: &[u8]) -> (Vec<Run>, u16) {
    let runs = line[10..line.len() - 2].chunks(16).map(|two| Run { from: number(&two[..8]), to: number(&two[8..]) });
    let runs: Vec<Run> = runs.collect();
    assert_eq!(runs.len(), line[9] as usize);
    (runs, number(&line[line.len() - 2..]) as u16)
}

// Parts

fn hex(bytes: &[u8]) -> String {
    bytes.iter().map(|byte| format!("{byte:02x}")).collect()
}

fn hashes() {
    assert_eq!(hex(&sha256(b"")), "e3b0c44298fc1c149afbf4c8996fb92427ae41e4649b934ca495991b7852b855");
    assert_eq!(hex(&sha256(b"abc")), "ba7816bf8f01cfea414140de5dae2223b00361a396177a9cb410ff61f20015ad");
    let two_blocks = b"abcdbcdecdefdefgefghfghighijhijkijkljklmklmnlmnomnopnopq";
    assert_eq!(hex(&sha256(two_blocks)), "248d6a61d20638b8e5c026930c3e6039a33ce45964ff2167f6ecedd419db06c1");
    let code = Key::new(&[0x0b; 20]).code(b"Hi There");
    assert_eq!(hex(&code), "b0344c61d8db38535ca8afceaf0bf12b881dc200c9833da726e9376c2e32cff7");
    let code = Key::new(b"Jefe").code(b"what do ya want for nothing?");
    assert_eq!(hex(&code), "5bdcc146bf60754e6a042426089575c75a003f089d2739839dec58b964ec3843");
    let code = Key::new(&[0xaa; 131]).code(b"Test Using Larger Than Block-Size Key - Hash Key First");
    assert_eq!(hex(&code), "60e431591ee0b67f0d8a26aacbf5b77f8e0bc6213728c5140546040f0ee37f54");
}

fn drift() {
    for n in [0, 1, 999, 1_000, 999_999, 1_000_000, 1_000_001, 1 << 40, u64::MAX - 1, u64::MAX] {
        for d in [0, 1, 100, 999, 1_000] {
            assert_eq!(share(d, n) as u128, n as u128 * d as u128 / 1_000_000);
        }
    }
}

fn worked_cases() {
    // Two servers that agree, and one that doesn't.
    let mut play = Play::new(3, 1, 0);
    play.hear(0, 15, 5);
    play.hear(1, 20, 5);
    play.hear(2, 45, 5);
    play.says(&[(15, 20)], 0b100);
    // A gap; and then a reply that closes it.
    let mut play = Play::new(3, 1, 0);
    play.hear(0, 15, 5);
    play.hear(1, 24, 6);
    play.hear(2, 34, 6);
    play.says(&[(18, 20), (28, 30)], 0);
    play.count(1);
    play.hear(1, 20, 1);
    play.says(&[(19, 21)], 0b100);
    // Drift over a long time and over a short one.
    let mut play = Play::new(1, 0, 100);
    play.hear(0, 6, 1);
    play.says(&[(5, 7)], 0);
    play.shows(5, 1);
    play.count(1_000_000);
    play.says(&[(999_905, 1_000_107)], 0);
    let mut play = Play::new(1, 0, 100);
    play.hear(0, 6, 1);
    play.count(10);
    play.says(&[(15, 17)], 0);
    // Asked at the beginning, and answered 30 ticks later.
    let mut play = Play::new(1, 0, 0);
    let nonce = play.ask(0);
    play.count(30);
    play.reply(0, nonce, 100, 5);
    play.says(&[(95, 135)], 0);
    // A server that contradicts itself is named.
    let mut play = Play::new(2, 1, 0);
    play.hear(0, 1_000, 10);
    play.hear(0, 2_000, 10);
    play.says(&[(0, 1 << 61)], 0b01);
    // No world is left.
    let mut play = Play::new(1, 0, 0);
    play.hear(0, 15, 5);
    play.says(&[(10, 20)], 0);
    play.shows(10, 1);
    play.hear(0, 35, 5);
    assert!(play.notices(7));
    play.says(&[(0, CEILING)], 0);
    play.shows(10, 1);
}

fn refusals() {
    let mut play = Play::empty();
    for text in [&b""[..], b"1", b"zz", b"1300", b"13\r", b" 13", b"1100000000000000", b"15", b"01", b"13", b"1200", b"110000000000000000"] {
        play.text(text);
        play.refused(1);
    }
    for (servers, faulty, drift) in [(0, 0, 0), (11, 0, 0), (255, 0, 0), (3, 3, 0), (3, 1, 1_001)] {
        let mut bytes = vec![16, servers, faulty];
        bytes.extend(u32::to_be_bytes(drift));
        bytes.resize(7 + 32 * servers as usize, 0);
        play.send(&bytes);
        play.refused(2);
        bytes.push(0);
        play.send(&bytes);
        play.refused(1);
    }
    play.send(&settings(3, 1, 1_000));
    assert!(play.lines.is_empty());
    play.send(&settings(3, 1, 1_000));
    play.refused(1);
    play.send(&settings(3, 3, 1_000));
    play.refused(1);
    play.ask(3);
    play.refused(2);
    play.count(100);
    play.count(99);
    play.refused(8);
    play.event(100);
    play.refused(6);
    let nonce = play.ask(1);
    play.reply(1, nonce, CEILING + 1, 0);
    play.refused(2);
    play.reply(1, nonce, CEILING, (1 << 31) + 1);
    play.refused(2);
    play.reply(3, nonce, 0, 0);
    play.refused(2);
    play.reply(0, nonce, 0, 0);
    play.refused(3);
    play.reply(1, nonce + 1, 0, 0);
    play.refused(3);
    let mut bytes = sign(&key(1), 1, &[nonce; 32], 1_000, 10);
    for place in (34..110).filter(|place| ![34, 42].contains(place)) {
        bytes[place] ^= 1;
        play.send(&bytes);
        play.refused(4);
        bytes[place] ^= 1;
    }
    play.send(&bytes);
    play.accepted(3);
    play.send(&bytes);
    play.refused(3);
    // The ends of a reply: below 0 is 0, and above the ceiling is written as it is.
    let nonce = play.ask(0);
    play.reply(0, nonce, 5, 10);
    assert_eq!(play.line(3).map(|line| (number(&line[18..26]), number(&line[26..34]))), Some((0, 15)));
    let nonce = play.ask(0);
    play.reply(0, nonce, CEILING, 1 << 31);
    assert_eq!(play.line(3).map(|line| (number(&line[18..26]), number(&line[26..34]))), Some((CEILING - (1 << 31), CEILING + (1 << 31))));
}

fn closing() {
    // At exactly ten seconds a request is pending, and later it is closed; the signature is looked at first.
    let mut play = Play::new(2, 1, 0);
    let first = play.ask(0);
    let second = play.ask(0);
    play.count(10_000_000);
    play.reply(0, first, 1 << 40, 1);
    play.accepted(3);
    play.count(10_000_001);
    play.reply(0, second, 1 << 40, 1);
    play.refused(5);
    play.send(&sign(&key(1), 0, &[second; 32], 1 << 40, 1));
    play.refused(4);
    // It was closed before the showing, which is the first moment since: with 64 it is known, with 65 no more.
    for _ in 0..63 {
        play.count(10_000_001);
    }
    play.reply(0, second, 1 << 40, 1);
    play.refused(5);
    play.count(10_000_001);
    play.reply(0, second, 1 << 40, 1);
    play.refused(3);

    // With 63 moments since a reply is taken; with 64 it isn't, and showings are put off until something closes the request.
    for (moments, taken) in [(63, true), (64, false)] {
        let mut play = Play::new(2, 1, 0);
        let nonce = play.ask(0);
        for _ in 0..moments {
            play.count(5);
            play.accepted(4);
        }
        play.reply(0, nonce, 100, 5);
        if taken {
            play.accepted(3);
            continue;
        }
        play.refused(5);
        play.count(6);
        assert!(play.lines.is_empty());
        play.mark();
        play.accepted(5);
        play.count(7);
        play.accepted(4);
        play.reply(0, nonce, 100, 5);
        play.refused(5);
        for _ in 0..62 {
            play.count(7);
        }
        play.reply(0, nonce, 100, 5);
        play.refused(5);
        play.count(7);
        play.reply(0, nonce, 100, 5);
        play.refused(3);
    }

    // Showings are put off until a count closes the request by age.
    let mut play = Play::new(2, 1, 0);
    let old = play.ask(0);
    for _ in 0..64 {
        play.count(5);
    }
    play.count(10_000_000);
    assert!(play.lines.is_empty());
    play.count(9_999_999);
    play.refused(8);
    play.count(10_000_001);
    play.says(&[(10_000_001, (1 << 61) + 10_000_001)], 0);
    play.reply(0, old, 1 << 40, 5);
    play.refused(5);

    // Sixteen requests, and a seventeenth; one that the new moment closes makes room.
    let mut play = Play::new(2, 1, 0);
    for _ in 0..16 {
        play.ask(1);
        play.accepted(7);
    }
    play.ask(1);
    play.refused(10);
    play.ask(2);
    play.refused(2);
    for _ in 0..49 {
        play.count(0);
        play.accepted(4);
    }
    play.count(0);
    assert!(play.lines.is_empty());
    play.ask(1);
    play.accepted(7);
    play.ask(1);
    play.accepted(7);
}

fn alike() {
    // Of two requests at one count the older is answered, whichever nonce comes; the other nonce is good for the younger.
    let mut play = Play::new(2, 1, 0);
    let first = play.ask(0);
    let second = play.ask(0);
    for _ in 0..62 {
        play.count(0);
    }
    play.reply(0, second, 100, 10);
    play.accepted(3);
    play.reply(0, second, 100, 10);
    play.refused(3);
    // The older had 64 moments since by now, but it is the younger that is left.
    play.reply(0, first, 100, 10);
    play.accepted(3);

    // If the older one is closed by the reply's own moment, the younger is answered.
    let mut play = Play::new(2, 1, 0);
    let first = play.ask(0);
    let second = play.ask(0);
    for _ in 0..63 {
        play.count(0);
    }
    play.reply(0, first, 100, 10);
    play.refused(5);
    play.reply(0, second, 100, 10);
    play.accepted(3);
    play.reply(0, first, 100, 10);
    play.refused(5);
}

fn events() {
    let mut play = Play::new(1, 0, 100);
    play.mark();
    play.count(1_000_000);
    play.hear(0, 2_000_000, 10);
    play.event(0);
    let mut line = with_count(6, 0);
    line.extend(999_890u64.to_be_bytes());
    line.extend(1_000_110u64.to_be_bytes());
    assert_eq!(play.lines, [line]);
    play.event(1_000_000);
    play.refused(6);
    play.count(3_600_000_000);
    play.event(0);
    play.accepted(6);
    play.count(3_600_000_001);
    play.event(0);
    play.refused(6);
    // 256 are kept, until they are too old.
    for _ in 0..256 {
        play.mark();
        play.accepted(5);
    }
    play.mark();
    play.refused(10);
    play.count(7_200_000_001);
    play.mark();
    play.refused(10);
    play.count(7_200_000_002);
    play.mark();
    play.accepted(5);
}

fn moments() {
    // With 1,024 kept, each one more lets the oldest go, and its event with it.
    let mut play = Play::new(1, 0, 0);
    play.mark();
    play.mark();
    for _ in 0..1_022 {
        play.count(1);
        assert!(!play.notices(9));
    }
    play.event(0);
    play.accepted(6);
    play.count(1);
    assert!(play.notices(9));
    play.event(0);
    play.accepted(6);
    play.count(1);
    assert!(play.notices(9));
    play.event(0);
    play.refused(6);
    // Those that are too old go without a word.
    play.count(7_200_000_001);
    assert!(play.notices(9));
    play.count(7_200_000_002);
    assert!(!play.notices(9));
}

fn beginning_anew() {
    let mut play = Play::new(1, 0, 0);
    play.mark();
    let pending = play.ask(0);
    play.hear(0, 100, 0);
    play.shows(100, 1);
    play.count(10);
    play.shows(110, 1);
    play.hear(0, 50, 0);
    assert!(play.notices(7));
    play.says(&[(0, CEILING)], 0);
    play.shows(110, 1);
    play.event(0);
    play.refused(6);
    play.reply(0, pending, 100, 0);
    play.refused(5);
    // The hand runs freely, until a reply is accepted.
    play.count(20);
    play.says(&[(10, CEILING)], 0);
    play.shows(120, 1);
    play.hear(0, 1_000, 10);
    play.says(&[(990, 1_010)], 0);
    play.shows(990, 1);
    // It goes ahead of the clock by 500 millionths at most.
    play.count(1_020);
    play.shows(1_990, 1);
    play.count(5_020);
    play.shows(5_992, 1);
    play.count(1_005_020);
    play.shows(1_006_000, 1);
    // A reply behind it: the hand stands still, and isn't sound.
    let mut play = Play::new(2, 0, 0);
    play.hear(0, 1_000, 10);
    play.count(20_000);
    play.shows(21_000, 1);
    play.hear(1, 20_995, 0);
    play.says(&[(20_995, 20_995)], 0);
    play.shows(21_000, 0);
    play.count(20_005);
    play.shows(21_000, 1);

    // Of two equally long runs the hand wants to be in the earlier.
    let mut play = Play::new(3, 1, 0);
    play.hear(0, 15, 5);
    play.shows(0, 1);
    play.hear(1, 24, 6);
    play.hear(2, 34, 6);
    play.says(&[(18, 20), (28, 30)], 0);
    play.shows(18, 1);
    play.count(1_000_000);
    play.shows(1_000_019, 1);

    // Time runs past the ceiling.
    let mut play = Play::new(1, 0, 0);
    play.count(CEILING);
    play.says(&[(CEILING, CEILING)], 0);
    play.count(CEILING + 1);
    assert!(play.notices(7));
    play.count(u64::MAX);
    assert!(play.notices(7));
    play.says(&[(0, CEILING)], 0);
}
