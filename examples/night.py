#!/usr/bin/env python3
"""A short night with real packets and a real clock: starts time servers, runs the box against them, and shows what it says.

With a terminal, Enter marks an event; a moment later the box is asked when that was.
"""

import argparse
import datetime
import os
import pathlib
import selectors
import socket
import subprocess
import sys
import time

HERE = pathlib.Path(__file__).resolve().parent
BOX = HERE.parent / "target" / "bin" / "box"

# Seconds between requests, between lines that are shown, and from a mark to the question about it.
ASK_EVERY = 0.4
SHOW_EVERY = 1.0
QUESTION_AFTER = 2.0
# The clock is given to the box at least this often.
COUNT_EVERY = 0.25

# In microseconds.
A_YEAR = 365 * 86400 * 1_000_000

NOTICES = {
    1: "the box could not read a message",
    2: "the box refused a message: out of range",
    3: "a reply was refused: its nonce isn't known",
    4: "a reply was refused: wrong signature",
    5: "a reply was refused: too late",
    6: "the event isn't kept any more",
    7: "NO WORLD IS LEFT: more servers are faulty than was said, or the clock is worse. The box begins anew.",
    8: "the local clock went back",
    9: None,  # the oldest moment went: nothing that a person needs to know
    10: "there is no room for another request or event",
}


def number(data):
    return int.from_bytes(data, "big")


def as_utc(microseconds):
    """Microseconds since 1970 as date and time, or as a number where there is no such date."""
    try:
        moment = datetime.datetime(1970, 1, 1) + datetime.timedelta(microseconds=microseconds)
    except OverflowError:
        return f"{microseconds} us"
    return moment.isoformat(sep=" ", timespec="microseconds")


def as_length(microseconds):
    if microseconds < 10_000:
        return f"{microseconds} us"
    if microseconds < 10_000_000:
        return f"{microseconds / 1000:.1f} ms"
    return f"{microseconds / 1_000_000:.1f} s"


class Servers:
    """The servers that were started, and where they listen."""

    def __init__(self, options):
        self.keys = [os.urandom(32) for _ in range(options.servers)]
        self.processes = []
        self.addresses = []
        for server in range(options.servers):
            self.start(options, server)

    def start(self, options, server):
        command = [sys.executable, str(HERE / "server.py"), "--server", str(server), "--key", self.keys[server].hex()]
        command += ["--radius", str(options.radius), "--lie", str(options.lie.get(server, 0)), "--delay", str(options.delay.get(server, 5))]
        command += ["--while-input"]
        process = subprocess.Popen(command, stdin=subprocess.PIPE, stdout=subprocess.PIPE, text=True, start_new_session=True)
        self.processes.append(process)
        port = process.stdout.readline()
        if not port:
            raise SystemExit(f"server {server} did not start")
        self.addresses.append(("127.0.0.1", int(port)))

    def stop(self):
        """A server ends when its input does, so none is left even if this program is killed."""
        for process in self.processes:
            process.stdin.close()
        for process in self.processes:
            process.wait()


class Box:
    """The box as a child process: messages in, lines out."""

    def __init__(self, path, record):
        self.process = subprocess.Popen([str(path)], stdin=subprocess.PIPE, stdout=subprocess.PIPE, bufsize=0, start_new_session=True)
        self.start = time.monotonic_ns()
        self.rest = b""
        self.record = record

    def send(self, *parts):
        self.process.stdin.write(b"".join(parts).hex().encode() + b"\n")

    def count(self):
        """Gives the box its clock's count. Before a reply this has to come, so that the reply isn't taken for an earlier moment."""
        count = (time.monotonic_ns() - self.start) // 1000
        self.send(b"\x11", count.to_bytes(8, "big"))
        return count

    def lines(self):
        """The lines that the box has written by now, as bytes; None if it has ended."""
        data = os.read(self.process.stdout.fileno(), 65536)
        if not data:
            return None
        if self.record:
            self.record.write(data)
        *whole, self.rest = (self.rest + data).split(b"\n")
        return [bytes.fromhex(line.decode()) for line in whole]

    def close(self):
        """No more messages: gives the lines that are left, and the status."""
        self.process.stdin.close()
        left = []
        while (lines := self.lines()) is not None:
            left += lines
        return left, self.process.wait()


class Screen:
    """What the box says, for a person."""

    def __init__(self):
        self.runs = []
        self.named = []
        self.shown = None
        self.next = 0

    def reckoned(self, line):
        count = line[9]
        ends = [number(line[10 + 8 * i : 18 + 8 * i]) for i in range(2 * count)]
        self.runs = list(zip(ends[::2], ends[1::2]))
        bits = number(line[-2:])
        self.named = [server for server in range(16) if bits >> server & 1]

    def hand(self, line):
        """Shows the hand now and then, and whenever something else than the time is new."""
        sound = line[9] == 1
        state = (sound, len(self.runs), self.named)
        if state != self.shown or time.monotonic() >= self.next:
            self.print_hand(number(line[1:9]), sound)
            self.shown = state
            self.next = time.monotonic() + SHOW_EVERY

    def print_hand(self, hand, sound):
        least, greatest = self.runs[0][0], self.runs[-1][1]
        text = f"{as_utc(hand)} UTC   it may be {as_length(hand - least)} earlier, {as_length(greatest - hand)} later"
        if not sound:
            text = f"{as_utc(hand)} UTC   NOT SOUND: it must be earlier"
        elif greatest - least > A_YEAR:
            text = f"{as_utc(hand)} UTC   hardly anything is known yet"
        for (_, end), (begin, _) in zip(self.runs, self.runs[1:]):
            text += f"; not the {as_length(begin - end)} from {as_utc(end)[11:]} on"
        if self.named:
            text += "; faulty: " + ", ".join(f"server {server}" for server in self.named)
        print(text, flush=True)

    def event(self, line):
        least, greatest = number(line[9:17]), number(line[17:25])
        print(f"    the event was from {as_utc(least)} to {as_utc(greatest)} UTC: known to {as_length(greatest - least)}", flush=True)

    def notice(self, line):
        text = NOTICES.get(line[1], f"refusal {line[1]}")
        if text:
            print(f"    {text}", flush=True)


class Night:
    """The box, its servers and the person before it."""

    def __init__(self, options, servers, box):
        self.options = options
        self.servers = servers
        self.box = box
        self.screen = Screen()
        self.socket = socket.socket(socket.AF_INET, socket.SOCK_DGRAM)
        self.socket.bind(("127.0.0.1", 0))
        self.socket.setblocking(False)
        self.turn = 0
        self.questions = []
        self.selector = selectors.DefaultSelector()
        self.selector.register(self.socket, selectors.EVENT_READ, self.hear)
        self.selector.register(box.process.stdout, selectors.EVENT_READ, self.read_box)
        if sys.stdin.isatty():
            self.selector.register(sys.stdin, selectors.EVENT_READ, self.pressed)

    def settings(self):
        options = self.options
        head = bytes([16, options.servers, options.faulty]) + options.drift.to_bytes(4, "big")
        return head + b"".join(self.servers.keys)

    # What can happen

    def hear(self):
        """Datagrams came: each is a message to the box, after the count at which it came."""
        while True:
            try:
                datagram, _ = self.socket.recvfrom(2048)
            except BlockingIOError:
                return
            except OSError:
                continue
            if datagram:
                self.box.count()
                self.box.send(datagram)

    def read_box(self):
        lines = self.box.lines()
        if lines is None:
            raise SystemExit("the box has ended")
        for line in lines:
            self.take(line)

    def take(self, line):
        kind = line[0]
        if kind == 1:
            self.socket.sendto(line, self.servers.addresses[line[1]])
        elif kind == 4:
            self.screen.reckoned(line)
        elif kind == 6:
            self.screen.event(line)
        elif kind == 21:
            self.screen.notice(line)
        elif kind == 22:
            self.screen.hand(line)

    def pressed(self):
        if not sys.stdin.readline():
            self.selector.unregister(sys.stdin)
            return
        self.mark()

    # What is done

    def mark(self):
        count = self.box.count()
        self.box.send(b"\x13")
        self.questions.append((time.monotonic() + QUESTION_AFTER, count))
        print("    an event is marked", flush=True)

    def ask(self):
        """Asks the servers in turn."""
        self.box.count()
        self.box.send(bytes([18, self.turn % self.options.servers]))
        self.turn += 1

    def ask_about_events(self, now):
        while self.questions and self.questions[0][0] <= now:
            _, count = self.questions.pop(0)
            self.box.send(b"\x14", count.to_bytes(8, "big"))

    def run(self):
        """Until the time is over. Without a terminal one event is marked halfway."""
        self.box.send(self.settings())
        begin = time.monotonic()
        end = begin + self.options.seconds
        next_ask = next_count = begin
        mark_at = None if sys.stdin.isatty() else begin + self.options.seconds / 2
        while (now := time.monotonic()) < end:
            if now >= next_ask:
                self.ask()
                next_ask = now + ASK_EVERY
            if now >= next_count:
                self.box.count()
                next_count = now + COUNT_EVERY
            if mark_at is not None and now >= mark_at:
                self.mark()
                mark_at = None
            self.ask_about_events(now)
            wait = min(next_ask, next_count, end) - time.monotonic()
            for key, _ in self.selector.select(max(0, wait)):
                key.data()

    def finish(self):
        self.ask_about_events(float("inf"))
        lines, status = self.box.close()
        for line in lines:
            if line[0] != 1:
                self.take(line)
        self.selector.close()
        self.socket.close()
        return status


def pair(text):
    """SERVER:NUMBER"""
    server, _, value = text.partition(":")
    return int(server), int(value)


def read_options():
    parser = argparse.ArgumentParser(description=__doc__.splitlines()[0])
    parser.add_argument("--seconds", type=float, default=20, help="how long it runs (20)")
    parser.add_argument("--servers", type=int, default=5, choices=range(1, 11), metavar="N", help="how many servers there are, 1 to 10 (5)")
    parser.add_argument("--faulty", type=int, default=2, metavar="F", help="how many of them may be faulty, below N (2)")
    parser.add_argument("--drift", type=int, default=100, help="by how many millionths the local clock may drift, up to 1000 (100)")
    parser.add_argument("--radius", type=int, default=1000, help="how exact the servers say that they are, in microseconds (1000)")
    parser.add_argument("--lie", type=pair, action="append", default=[], metavar="SERVER:MICROSECONDS", help="a server that is wrong by so much; may be given again")
    parser.add_argument("--delay", type=pair, action="append", default=[], metavar="SERVER:MILLISECONDS", help="how long datagrams to and from a server take (5); may be given again")
    parser.add_argument("--box", type=pathlib.Path, default=BOX, metavar="PATH", help="the box program (target/bin/box)")
    parser.add_argument("--record", metavar="NAME", help="writes NAME.settings and NAME.record, which the program `record` works out again")
    options = parser.parse_args()
    options.lie, options.delay = dict(options.lie), dict(options.delay)
    if not 0 <= options.faulty < options.servers:
        parser.error("fewer servers may be faulty than there are")
    if not 0 <= options.drift <= 1000:
        parser.error("the drift is from 0 to 1000")
    if not options.box.exists():
        parser.error(f"there is no box at {options.box}: build it first, or name one with --box")
    return options


def play(options, servers, record):
    box = Box(options.box, record)
    night = Night(options, servers, box)
    if options.record:
        pathlib.Path(options.record + ".settings").write_text(night.settings().hex() + "\n")
    try:
        night.run()
    except KeyboardInterrupt:
        print()
    return night.finish()


def main():
    options = read_options()
    record = open(options.record + ".record", "wb") if options.record else None
    servers = Servers(options)
    try:
        return play(options, servers, record)
    finally:
        servers.stop()
        if record:
            record.close()


if __name__ == "__main__":
    sys.exit(main())
