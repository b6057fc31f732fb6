#!/usr/bin/env python3
"""A time server over UDP: each datagram is one message, a request in and a reply out.

It prints the port that it listens on, and answers until it is stopped. It can be made to lie.
"""

import argparse
import hashlib
import hmac
import os
import socket
import sys
import threading
import time

REQUEST = 1
REPLY = 2
REQUEST_LENGTH = 34
MOST_TIME = 2**62
MOST_RADIUS = 2**31


def now():
    """Microseconds since 1970-01-01, without leap seconds."""
    return time.time_ns() // 1000


def signature(key, message):
    """The stand-in for a signature: HMAC-SHA-256 and 32 zero bytes."""
    return hmac.new(key, message, hashlib.sha256).digest() + bytes(32)


def reply(key, request, midpoint, radius):
    """The 110 bytes that answer a request."""
    midpoint = max(0, min(midpoint, MOST_TIME))
    message = bytes([REPLY]) + request[1:] + midpoint.to_bytes(8, "big") + radius.to_bytes(4, "big")
    return message + signature(key, message)


def is_for(server, datagram):
    return len(datagram) == REQUEST_LENGTH and datagram[0] == REQUEST and datagram[1] == server


def answer(options, sock, request, address):
    """Answers one request. It is on its way for a while before and after the reply is made."""
    time.sleep(options.delay / 1000)
    message = reply(options.key, request, now() + options.lie, options.radius)
    time.sleep(options.delay / 1000)
    try:
        sock.sendto(message, address)
    except OSError:
        pass  # the one who asked is gone


def serve(options, sock):
    while True:
        datagram, address = sock.recvfrom(2048)
        if is_for(options.server, datagram):
            threading.Thread(target=answer, args=(options, sock, datagram, address), daemon=True).start()


def end_with_input():
    """Waits for the end of standard input, and ends the program."""
    sys.stdin.buffer.read()
    os._exit(0)


def radius(text):
    value = int(text)
    if not 0 <= value <= MOST_RADIUS:
        raise argparse.ArgumentTypeError("a radius is from 0 to 2^31")
    return value


def key(text):
    value = bytes.fromhex(text)
    if len(value) != 32:
        raise argparse.ArgumentTypeError("a key has 32 bytes")
    return value


def read_options():
    parser = argparse.ArgumentParser(description=__doc__.splitlines()[0])
    parser.add_argument("--server", type=int, default=0, help="its number, from 0 on")
    parser.add_argument("--key", type=key, required=True, help="its key, 64 hexadecimal digits")
    parser.add_argument("--port", type=int, default=0, help="the port on loopback; any free one if it isn't given")
    parser.add_argument("--lie", type=int, default=0, metavar="MICROSECONDS", help="how far its time is ahead of the true time (or behind, below 0)")
    parser.add_argument("--radius", type=radius, default=1000, metavar="MICROSECONDS", help="how exact it says that it is")
    parser.add_argument("--delay", type=float, default=0, metavar="MILLISECONDS", help="how long a datagram is on its way, there and back each")
    parser.add_argument("--while-input", action="store_true", help="ends when its standard input does")
    return parser.parse_args()


def main():
    options = read_options()
    sock = socket.socket(socket.AF_INET, socket.SOCK_DGRAM)
    sock.bind(("127.0.0.1", options.port))
    print(sock.getsockname()[1], flush=True)
    if options.while_input:
        threading.Thread(target=end_with_input, daemon=True).start()
    try:
        serve(options, sock)
    except KeyboardInterrupt:
        pass
    return 0


if __name__ == "__main__":
    sys.exit(main())
