#!/usr/bin/env python3
"""Writes the lines that the program digest_vectors is run on, and the answers to them by Python's hashlib and hmac."""
import hashlib
import hmac
from pathlib import Path

crate = Path(__file__).resolve().parent.parent / "crates" / "digest_vectors"


def sequence(n, seed):
    """n bytes that a seed determines, of all values."""
    x = seed
    out = bytearray()
    for _ in range(n):
        x = (x * 6364136223846793005 + 1442695040888963407) % 2**64
        out.append(x >> 56)
    return bytes(out)


lines = []
answers = []
messages = [sequence(n, n + 1) for n in range(201)]
messages += [bytes(64), bytes(1000), b"\xff" * 119, b"\xff" * 128, sequence(4096, 7)]
for message in messages:
    lines.append(message.hex())
    answers.append(hashlib.sha256(message).hexdigest())
for k in [0, 1, 20, 31, 32, 33, 63, 64, 65, 127, 128, 129, 131, 200]:
    for n in [0, 1, 55, 56, 63, 64, 65, 119, 120, 128]:
        key = sequence(k, 1000 + k)
        message = sequence(n, 2000 + n)
        lines.append(key.hex() + " " + message.hex())
        answers.append(hmac.new(key, message, hashlib.sha256).hexdigest())
(crate / "stdin").write_text("\n".join(lines) + "\n")
(crate / "stdout").write_text("\n".join(answers) + "\n")
