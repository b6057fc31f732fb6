//! The box without its bytes: requests, replies, moments, events, what may be, and the hand.
use std::collections::VecDeque;

use crate::hand::{may_be, Hand};
use crate::spans::{choices, Back, Bound, Row, Run, Step, CEILING};
use crate::text::Lines;

/// At the beginning true time is at most this.
const FIRST_GREATEST: u64 = 1 << 61;
/// So many moments are made after a request while it is pending, and after it was closed while it is known.
const MOST_SINCE: u64 = 64;
const MOST_PENDING: usize = 16;
/// A request is pending for so many ticks.
const REQUEST_AGE: u64 = 10_000_000;
const MOST_MOMENTS: usize = 1024;
const MOMENT_AGE: u64 = 7_200_000_000;
const MOST_EVENTS: usize = 256;
const EVENT_AGE: u64 = 3_600_000_000;

pub type Nonce = [u8; 32];

/// Why a message is refused, or a notice, by its number.
#[derive(Clone, Copy, Debug, PartialEq, Eq)]
#[repr(u8)]
pub enum Refusal {
    Malformed = 1,
    OutOfRange = 2,
    UnknownNonce = 3,
    WrongSignature = 4,
    TooLate = 5,
    UnknownEvent = 6,
    NoWorldLeft = 7,
    ClockWentBack = 8,
    OldestMomentGone = 9,
    Full = 10,
}

/// How many servers there are, how many of them may be faulty, and by how many millionths the local clock may drift.
#[derive(Clone, Copy, Debug)]
pub struct Rules {
    pub servers: u8,
    pub faulty: u8,
    pub drift: u32,
}

/// A request that may still be answered.
struct Request {
    server: u8,
    nonce: Nonce,
    count: u64,
    /// The number of its moment.
    moment: u64,
}

/// A request that can't be answered any more, and is still known.
struct Closed {
    server: u8,
    nonce: Nonce,
    /// How many moments had been made when it was closed.
    made: u64,
}

/// A moment: how far true time goes on to it, and what a reply says of it.
struct Moment {
    count: u64,
    step: Step,
    bound: Option<Bound>,
}

struct Event {
    count: u64,
    moment: u64,
}

/// Where a reply's nonce is known from.
pub enum Match {
    Pending(usize),
    Closed,
}

pub struct Station {
    rules: Rules,
    choices: Vec<u16>,
    /// The local clock's count, and that of the last moment.
    count: u64,
    last: u64,
    /// How many moments were made so far. The first has the number 1.
    made: u64,
    /// The kept moments; the last of them is number `made`.
    moments: VecDeque<Moment>,
    events: VecDeque<Event>,
    pending: Vec<Request>,
    closed: VecDeque<Closed>,
    /// The spans before the oldest kept moment, before the oldest pending request's moment, and after the last moment.
    base: Row,
    mark: Row,
    now: Row,
    /// The number of the moment before which `mark` stands. It has no meaning while no request is pending.
    mark_before: u64,
    /// The choices' places, sorted by the lower ends of their spans now.
    order: Vec<u8>,
    runs: Vec<Run>,
    named: u16,
    hand: Hand,
    /// Notices of the last moment.
    oldest_gone: bool,
    no_world: bool,
}

impl Station {
    pub fn new(rules: Rules) -> Station {
        let choices = choices(rules.servers, rules.faulty);
        let row = Row::upto(FIRST_GREATEST);
        Station {
            rules,
            order: (0..choices.len() as u8).collect(),
            choices,
            count: 0,
            last: 0,
            made: 0,
            moments: VecDeque::with_capacity(MOST_MOMENTS + 1),
            events: VecDeque::new(),
            pending: Vec::with_capacity(MOST_PENDING),
            closed: VecDeque::new(),
            base: row.clone(),
            mark: row.clone(),
            now: row,
            mark_before: 1,
            runs: Vec::new(),
            named: 0,
            hand: Hand::default(),
            oldest_gone: false,
            no_world: false,
        }
    }

    pub fn rules(&self) -> Rules {
        self.rules
    }

    pub fn count(&self) -> u64 {
        self.count
    }

    pub fn runs(&self) -> &[Run] {
        &self.runs
    }

    pub fn named(&self) -> u16 {
        self.named
    }

    // The clock and showings

    /// Sets the clock, and closes requests that are too old by it.
    pub fn set_count(&mut self, count: u64) -> Result<(), Refusal> {
        if count < self.count {
            return Err(Refusal::ClockWentBack);
        }
        self.count = count;
        let old = self.pending.iter().take_while(|request| count - request.count > REQUEST_AGE).count();
        self.close_oldest(old);
        Ok(())
    }

    /// A showing waits while its moment would be one too many since a pending request.
    pub fn showing_is_put_off(&self) -> bool {
        self.pending.first().is_some_and(|request| self.is_full(request))
    }

    pub fn show(&mut self) {
        self.make_moment(None);
        self.finish_moment(false);
    }

    // Requests

    /// Whether a server can be asked now.
    pub fn may_ask(&self, server: u8) -> Result<(), Refusal> {
        if server >= self.rules.servers {
            return Err(Refusal::OutOfRange);
        }
        if self.pending.len() - self.full_requests() >= MOST_PENDING {
            return Err(Refusal::Full);
        }
        Ok(())
    }

    pub fn ask(&mut self, server: u8, nonce: Nonce) {
        self.close_full_requests();
        let moment = self.made + 1;
        if self.pending.is_empty() {
            self.mark = self.now.clone();
            self.mark_before = moment;
        }
        self.pending.push(Request { server, nonce, count: self.count, moment });
        self.make_moment(None);
        self.finish_moment(false);
    }

    fn since(&self, request: &Request) -> u64 {
        self.made - request.moment
    }

    fn is_full(&self, request: &Request) -> bool {
        self.since(request) >= MOST_SINCE
    }

    /// How many pending requests the next moment closes: they are the oldest ones.
    fn full_requests(&self) -> usize {
        self.pending.iter().take_while(|request| self.is_full(request)).count()
    }

    fn close_full_requests(&mut self) {
        self.close_oldest(self.full_requests());
    }

    fn close_oldest(&mut self, how_many: usize) {
        if how_many == 0 {
            return;
        }
        let made = self.made;
        self.closed.retain(|closed| made - closed.made <= MOST_SINCE);
        for Request { server, nonce, .. } in self.pending.drain(..how_many) {
            self.closed.push_back(Closed { server, nonce, made });
        }
        self.advance_mark();
    }

    /// Moves the mark on to the oldest pending request.
    fn advance_mark(&mut self) {
        let Some(oldest) = self.pending.first() else { return };
        let until = oldest.moment;
        for number in self.mark_before..until {
            let moment = &self.moments[self.place(number)];
            self.mark.go(&self.choices, moment.step, moment.bound);
        }
        self.mark_before = until;
    }

    // Replies

    /// The pending request that a reply is for, or else whether it is for a closed one.
    pub fn find(&self, server: u8, nonce: &[u8]) -> Option<Match> {
        if let Some(place) = self.pending.iter().position(|request| request.server == server && request.nonce == nonce) {
            return Some(if self.is_full(&self.pending[place]) { Match::Closed } else { Match::Pending(place) });
        }
        let known = |closed: &Closed| self.made - closed.made <= MOST_SINCE && closed.server == server && closed.nonce == nonce;
        if self.closed.iter().any(known) { Some(Match::Closed) } else { None }
    }

    /// The oldest request to this server at this count that the next moment doesn't close.
    pub fn find_asked_at(&self, server: u8, count: u64) -> Option<usize> {
        self.pending.iter().position(|request| request.server == server && request.count == count && !self.is_full(request))
    }

    /// Accepts a reply to a pending request, by its place, and gives the count of its asking.
    pub fn accept(&mut self, place: usize, least: u64, greatest: u64) -> u64 {
        let closing = self.full_requests();
        self.close_full_requests();
        let request = self.take_oldest_alike(place - closing);
        let asked = self.place(request.moment);
        self.moments[asked].bound = Some(Bound::AtMost(request.server, greatest));
        self.make_moment(Some(Bound::AtLeast(request.server, least)));
        self.go_through_again();
        self.advance_mark();
        self.finish_moment(true);
        request.count
    }

    /// Requests of one server at one count are one to the record: the oldest of them is answered, and its nonce stays with the one that was meant.
    fn take_oldest_alike(&mut self, place: usize) -> Request {
        let (server, count) = (self.pending[place].server, self.pending[place].count);
        let alike = |request: &Request| request.server == server && request.count == count;
        let oldest = self.pending.iter().position(alike).unwrap_or(place);
        let nonce = self.pending[oldest].nonce;
        self.pending[place].nonce = nonce;
        self.pending.remove(oldest)
    }

    /// Works the spans now out again from the mark.
    fn go_through_again(&mut self) {
        self.now.clone_from(&self.mark);
        for number in self.mark_before..=self.made {
            let moment = &self.moments[self.place(number)];
            self.now.go(&self.choices, moment.step, moment.bound);
        }
        self.now.sort(&mut self.order);
    }

    // Events

    pub fn may_mark(&mut self) -> Result<(), Refusal> {
        self.forget_old_events();
        if self.events.len() >= MOST_EVENTS { Err(Refusal::Full) } else { Ok(()) }
    }

    pub fn mark(&mut self) {
        self.close_full_requests();
        self.events.push_back(Event { count: self.count, moment: self.made + 1 });
        self.make_moment(None);
        self.finish_moment(false);
    }

    /// The least and the greatest time that it may have been at a kept event.
    pub fn said_of(&mut self, count: u64) -> Result<Run, Refusal> {
        self.forget_old_events();
        let event = self.events.iter().find(|event| event.count == count).ok_or(Refusal::UnknownEvent)?;
        let place = self.place(event.moment);
        let mut forward = self.base.clone();
        for moment in self.moments.range(..=place) {
            forward.go(&self.choices, moment.step, moment.bound);
        }
        let mut back = Back::new(&self.choices);
        for moment in self.moments.range(place + 1..).rev() {
            if let Some(bound) = moment.bound {
                back.cut(&self.choices, bound);
            }
            back.pass(moment.step);
        }
        back.meet(&forward).ok_or(Refusal::UnknownEvent)
    }

    fn forget_old_events(&mut self) {
        let oldest_kept = self.oldest_kept();
        while self.events.front().is_some_and(|event| event.moment < oldest_kept || self.count - event.count > EVENT_AGE) {
            self.events.pop_front();
        }
    }

    // Moments

    /// The number of the oldest kept moment.
    fn oldest_kept(&self) -> u64 {
        self.made + 1 - self.moments.len() as u64
    }

    fn place(&self, number: u64) -> usize {
        (number - self.oldest_kept()) as usize
    }

    /// Makes a moment at the clock's count. The spans now go on to it; a reply's bounds are left to the caller.
    fn make_moment(&mut self, bound: Option<Bound>) {
        while self.moments.front().is_some_and(|moment| self.count - moment.count > MOMENT_AGE) {
            self.forget_oldest_moment();
        }
        let step = Step::new(self.rules.drift, self.count - self.last);
        self.now.pass(step);
        self.made += 1;
        self.moments.push_back(Moment { count: self.count, step, bound });
        self.oldest_gone = self.moments.len() > MOST_MOMENTS;
        if self.oldest_gone {
            self.forget_oldest_moment();
        }
    }

    fn forget_oldest_moment(&mut self) {
        if let Some(moment) = self.moments.pop_front() {
            self.base.go(&self.choices, moment.step, moment.bound);
        }
    }

    /// Works out what may be now, begins anew if nothing may, and moves the hand.
    fn finish_moment(&mut self, heard: bool) {
        let ticks = self.count - self.last;
        self.last = self.count;
        self.read_now();
        self.no_world = self.runs.is_empty();
        if self.no_world {
            self.begin_anew();
            self.hand.lost(ticks);
        } else if heard {
            self.hand.heard(&self.runs, ticks);
        } else {
            self.hand.passed(&self.runs, ticks);
        }
    }

    fn read_now(&mut self) {
        self.named = self.now.read(&self.choices, &self.order, &mut self.runs);
    }

    fn begin_anew(&mut self) {
        self.close_oldest(self.pending.len());
        self.moments.clear();
        self.events.clear();
        self.base = Row::upto(CEILING);
        self.now = Row::upto(CEILING);
        self.read_now();
    }

    /// Writes what the last moment left: what may be and who is named, the hand, and notices.
    pub fn write_moment(&self, out: &mut Lines) {
        out.byte(4);
        out.number(self.count);
        out.byte(self.runs.len() as u8);
        for run in &self.runs {
            out.number(run.from);
            out.number(run.to);
        }
        out.bytes(&self.named.to_be_bytes());
        out.end();
        if let Some(time) = self.hand.time {
            out.byte(22);
            out.number(time);
            out.byte(may_be(&self.runs, time) as u8);
            out.end();
        }
        if self.oldest_gone {
            out.refusal(Refusal::OldestMomentGone as u8);
        }
        if self.no_world {
            out.refusal(Refusal::NoWorldLeft as u8);
        }
    }
}
