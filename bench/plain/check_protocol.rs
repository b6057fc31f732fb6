//! What a box takes and refuses, by lists of all that ever happened: nothing is forgotten, and nothing is kept up to date.
use clockbox::machine::{number, read_message, read_settings, Message};
use clockbox::night::sign;
use clockbox::station::{Nonce, Rules};
use clockbox::text::read_line;

#[derive(Clone, Copy, PartialEq)]
enum State {
    Pending,
    /// When so many moments had been made.
    Closed(usize),
    Answered,
}

struct Request {
    server: u8,
    nonce: Nonce,
    count: u64,
    /// How many moments had been made with its own.
    moment: usize,
    state: State,
}

/// What is to come of a message: a refusal, nothing at all, a moment whose first line has this kind, or a line about an event.
#[derive(Debug, PartialEq)]
enum Outcome {
    Refused(u8),
    Nothing,
    Moment(u8),
    Said,
}

pub struct Protocol {
    rules: Rules,
    keys: Option<Vec<[u8; 32]>>,
    count: u64,
    /// The counts of all moments, and the place of the first since the beginning or since no world was left.
    moments: Vec<u64>,
    first: usize,
    /// Marks by the places of their moments.
    marks: Vec<usize>,
    requests: Vec<Request>,
}

impl Protocol {
    pub fn new(rules: Rules) -> Protocol {
        Protocol { rules, keys: None, count: 0, moments: Vec::new(), first: 0, marks: Vec::new(), requests: Vec::new() }
    }

    /// Compares what was written for a message with what is to come of it.
    pub fn check(&mut self, text: &[u8], written: &[Vec<u8>]) {
        let mut bytes = vec![0; text.len() / 2];
        let message = read_line(text, &mut bytes).and_then(|length| read_message(&bytes[..length]));
        let outcome = message.map_or(Outcome::Refused(1), |message| self.outcome(message, written));
        let found = match written.first().map(Vec::as_slice) {
            None => Outcome::Nothing,
            Some([21, refusal]) => Outcome::Refused(*refusal),
            Some([6, ..]) => Outcome::Said,
            Some(line) => Outcome::Moment(line[0]),
        };
        assert_eq!(found, outcome);
        if let Outcome::Moment(_) = outcome {
            self.made_moment(written);
        }
    }

    fn outcome(&mut self, message: Message, written: &[Vec<u8>]) -> Outcome {
        match message {
            Message::Settings(rest) if self.keys.is_none() => self.settings(rest),
            Message::Settings(_) => Outcome::Refused(1),
            _ if self.keys.is_none() => Outcome::Refused(1),
            Message::Count(count) => self.counted(count),
            Message::Ask(server) => self.ask(server, written),
            Message::Mark => self.mark(),
            Message::Event(count) => self.event(count),
            Message::Reply(reply) => self.reply(reply),
        }
    }

    fn settings(&mut self, rest: &[u8]) -> Outcome {
        if read_settings(rest).is_err() {
            return Outcome::Refused(2);
        }
        self.keys = Some(rest[6..].chunks(32).map(|key| key.try_into().expect("a key")).collect());
        Outcome::Nothing
    }

    fn since(&self, request: &Request) -> usize {
        self.moments.len() - request.moment
    }

    fn is_pending(request: &&Request) -> bool {
        request.state == State::Pending
    }

    fn counted(&mut self, count: u64) -> Outcome {
        if count < self.count {
            return Outcome::Refused(8);
        }
        self.count = count;
        self.close(|_, request| count - request.count > 10_000_000);
        let waits = self.requests.iter().filter(Self::is_pending).any(|request| self.since(request) == 64);
        if waits { Outcome::Nothing } else { Outcome::Moment(4) }
    }

    fn close(&mut self, which: impl Fn(usize, &Request) -> bool) {
        let made = self.moments.len();
        for request in self.requests.iter_mut().filter(|request| request.state == State::Pending) {
            if which(made - request.moment, request) {
                request.state = State::Closed(made);
            }
        }
    }

    fn ask(&mut self, server: u8, written: &[Vec<u8>]) -> Outcome {
        if server >= self.rules.servers {
            return Outcome::Refused(2);
        }
        let left = self.requests.iter().filter(Self::is_pending).filter(|request| self.since(request) < 64).count();
        if left >= 16 {
            return Outcome::Refused(10);
        }
        self.close(|since, _| since == 64);
        let nonce = written[0][2..34].try_into().expect("a nonce");
        self.requests.push(Request { server, nonce, count: self.count, moment: self.moments.len() + 1, state: State::Pending });
        Outcome::Moment(1)
    }

    fn is_kept(&self, mark: usize) -> bool {
        mark >= self.first && mark + 1_024 >= self.moments.len() && self.count - self.moments[mark] <= 3_600_000_000
    }

    /// The counts of the events that are kept.
    fn events(&self) -> Vec<u64> {
        self.marks.iter().filter(|&&mark| self.is_kept(mark)).map(|&mark| self.moments[mark]).collect()
    }

    fn mark(&mut self) -> Outcome {
        if self.events().len() >= 256 {
            return Outcome::Refused(10);
        }
        self.close(|since, _| since == 64);
        self.marks.push(self.moments.len());
        Outcome::Moment(5)
    }

    fn event(&self, count: u64) -> Outcome {
        if self.events().contains(&count) { Outcome::Said } else { Outcome::Refused(6) }
    }

    fn reply(&mut self, reply: &[u8; 110]) -> Outcome {
        let (server, midpoint, radius) = (reply[1], number(&reply[34..42]), number(&reply[42..46]));
        if server >= self.rules.servers || midpoint > 1 << 62 || radius > 1 << 31 {
            return Outcome::Refused(2);
        }
        let nonce: Nonce = reply[2..34].try_into().expect("a nonce");
        let made = self.moments.len();
        let is_meant = |request: &Request| request.server == server && request.nonce == nonce;
        let pending = self.requests.iter().position(|request| is_meant(request) && request.state == State::Pending);
        let is_known = |request: &Request| matches!(request.state, State::Closed(then) if made - then <= 64);
        if pending.is_none() && !self.requests.iter().any(|request| is_meant(request) && is_known(request)) {
            return Outcome::Refused(3);
        }
        let key = self.keys.as_ref().expect("settings")[server as usize];
        if sign(&key, server, &nonce, midpoint, radius as u32) != reply {
            return Outcome::Refused(4);
        }
        match pending {
            Some(place) if self.since(&self.requests[place]) < 64 => self.accept(place),
            _ => Outcome::Refused(5),
        }
    }

    fn accept(&mut self, place: usize) -> Outcome {
        self.close(|since, _| since == 64);
        let (server, count) = (self.requests[place].server, self.requests[place].count);
        let is_alike = |request: &Request| request.state == State::Pending && request.server == server && request.count == count;
        let oldest = self.requests.iter().position(is_alike).expect("at least the one that is meant");
        self.requests[place].nonce = self.requests[oldest].nonce;
        self.requests[oldest].state = State::Answered;
        Outcome::Moment(3)
    }

    /// A moment was made: looks at its notices, and begins anew if no world was left.
    fn made_moment(&mut self, written: &[Vec<u8>]) {
        let has = |notice: u8| written.iter().any(|line| line[..] == [21, notice]);
        let young = self.moments[self.first..].iter().filter(|&&count| self.count - count <= 7_200_000_000).count();
        assert_eq!(has(9), young >= 1_024);
        self.moments.push(self.count);
        if has(7) {
            self.first = self.moments.len();
            self.close(|_, _| true);
        }
    }
}
