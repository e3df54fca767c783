#!/usr/bin/env python3
"""What remembered nonces take in memory, and how long the sweep of one second's nonces holds the state.

    bench/kept_nonces.py [N..]

For each N, 60,000 and 600,000 where none is given, and for nonces of 22 and of 64 characters: `gnap replay` is given N polls of a value that names no grant,
each with another nonce, whose signatures are of 600 seconds, so N / 600 of a second. Its memory is the largest resident set then, less that of the same with
no poll.

Then the polls go on one at a time, each once the reply to the one before is there: 60 of the second of the others, and 60 each a second later than
the one before, which takes out the nonces of one second. Printed are the median and the greatest time of each kind. The program is ./gnap, or the one that
GNAP names. It reads the polls from a pipe, so it answers each as it comes.
"""

import base64
import json
import os
import random
import statistics
import subprocess
import sys
import time

from signed_http import SETUP, TOP

SECONDS = 600
TRIES = 60


def nonce(length):
    return base64.urlsafe_b64encode(random.randbytes(48)).decode()[:length]


def poll(at, created, length):
    return json.dumps({"at": at, "call": "continue", "created": created, "key": "c1", "nonce": nonce(length), "value": "x"}) + "\n"


class Replay:
    """A replay that reads from a pipe."""

    def __init__(self):
        program = os.environ.get("GNAP", os.path.join(TOP, "gnap"))
        self.process = subprocess.Popen([program, "replay", "/dev/stdin"], stdin=subprocess.PIPE, stdout=subprocess.PIPE)
        self.process.stdin.write((SETUP + "\n").encode())

    def took(self, lines):
        """The seconds from these lines to the last of their replies."""
        start = time.perf_counter()
        self.process.stdin.write("".join(lines).encode())
        self.process.stdin.flush()
        for _ in lines:
            reply = self.process.stdout.readline()
            if b"invalid_continuation" not in reply:
                raise SystemExit(f"not the reply: {reply!r}")
        return time.perf_counter() - start

    def memory(self):
        """The largest resident set, in bytes."""
        with open(f"/proc/{self.process.pid}/status") as told:
            return next(int(line.split()[1]) * 1024 for line in told if line.startswith("VmHWM:"))

    def end(self):
        self.process.stdin.close()
        if self.process.wait() != 0:
            raise SystemExit(f"status {self.process.returncode}")


def told(name, times):
    return f"{name} {statistics.median(times) * 1e3:.2f} ms, at most {max(times) * 1e3:.2f}"


def measured(many, length):
    replay = Replay()
    replay.took([poll(1000, 1000, length)])
    empty = replay.memory()
    for first in range(0, many, 100):
        replay.took([poll(1000, 1000 + i % SECONDS, length) for i in range(first, min(first + 100, many))])
    taken = replay.memory() - empty
    print(f"{many:,} nonces of {length} characters: {taken / 1e6:.1f} MB, {taken / many:.0f} bytes a nonce, {taken / many / length / 2:.2f} times two texts")
    same = [replay.took([poll(1000, 1700, length)]) for _ in range(TRIES)]
    later = [replay.took([poll(1301 + i, 1700, length)]) for i in range(TRIES)]
    print(f"  {told('a poll took', same)}; {told(f'one that takes {many // SECONDS:,} nonces out', later)}", flush=True)
    replay.end()


def main():
    random.seed(1)
    for many in [int(word) for word in sys.argv[1:]] or [60_000, 600_000]:
        for length in (22, 64):
            measured(many, length)


if __name__ == "__main__":
    sys.exit(main())
