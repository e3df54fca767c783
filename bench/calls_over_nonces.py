#!/usr/bin/env python3
"""What a grant request of a replay costs, in instructions, while few and while many nonces are remembered, and what the sweep of a second's nonces costs.

    bench/calls_over_nonces.py [N[:SECONDS]..]

For each N, 0, 6,000, 60,000, 60,000:60 and 600,000 where none is given: `gnap replay` under callgrind, which counts nothing at first, is given N polls of a
value that names no grant. Each has a nonce of 22 characters that stays remembered, and the signatures are of SECONDS, 600 where that isn't said. Then callgrind
counts: 600 grant requests; 60 polls of the second of the others; and 60 polls each a second later than the one before, which takes out the nonces of one
second, N / SECONDS. Printed are the mean of a grant request, how much more that is than with the first N, and how much more a poll takes that takes nonces out.

The program is crates/gnap/out/gnap, or the one that GNAP names: a program that knows no nonces takes the same calls. It can't be the script ./gnap, since
valgrind doesn't follow that to the program.
"""

import base64
import glob
import json
import os
import random
import re
import subprocess
import sys
import tempfile
import time

from signed_http import SETUP, TOP

CALLS, TRIES = 600, 60
# The moment of the signatures of what is counted: nothing of that is taken out.
LATE = 1700


def line(at, created, **what):
    nonce = base64.urlsafe_b64encode(random.randbytes(16)).decode().rstrip("=")
    return json.dumps({"at": at, "created": created, "key": "c1", "nonce": nonce} | what) + "\n"


def poll(at, created):
    return line(at, created, call="continue", value="x")


def begin():
    return line(1000, LATE, call="begin", body={"access_token": {"access": ["photos"]}, "client": "c1"})


class Counted:
    """A replay that reads from a pipe, under callgrind."""

    def __init__(self, folder):
        self.counts, self.dumps = f"{folder}/counts", 0
        program = os.environ.get("GNAP", os.path.join(TOP, "crates/gnap/out/gnap"))
        under = ["valgrind", "--tool=callgrind", "--instr-atstart=no", f"--callgrind-out-file={self.counts}", "-q"]
        self.process = subprocess.Popen(under + [program, "replay", "/dev/stdin"], stdin=subprocess.PIPE, stdout=subprocess.PIPE)
        self.process.stdin.write((SETUP + "\n").encode())

    def answer(self, lines, wanted):
        """Has these lines answered, all of which fit into a pipe."""
        self.process.stdin.write("".join(lines).encode())
        self.process.stdin.flush()
        for _ in lines:
            reply = self.process.stdout.readline()
            if wanted not in reply:
                raise SystemExit(f"not the reply: {reply!r}")

    def control(self, *words):
        subprocess.run(["callgrind_control", *words, str(self.process.pid)], check=True, capture_output=True)

    def instructions(self, lines, wanted):
        """The mean of these lines, each given once the reply to the one before is there."""
        for one in lines:
            self.answer([one], wanted)
        self.control("-d")
        self.dumps += 1
        path = f"{self.counts}.{self.dumps}"
        for _ in range(100):
            found = glob.glob(path) and re.search(r"^(?:summary|totals): (\d+)", open(path).read(), re.M)
            if found:
                return int(found[1]) / len(lines)
            time.sleep(0.1)
        raise SystemExit("callgrind dumped no counts")

    def end(self):
        self.process.stdin.close()
        if self.process.wait() != 0:
            raise SystemExit(f"status {self.process.returncode}")


def measured(folder, many, seconds):
    """What a grant request takes, and the sweep of a second."""
    replay = Counted(folder)
    replay.answer([poll(1000, LATE)], b"invalid_continuation")
    for first in range(0, many, 100):
        some = range(first, min(first + 100, many))
        replay.answer([poll(1000, 1000 + i % seconds) for i in some], b"invalid_continuation")
    replay.control("-i", "on")
    grant = replay.instructions([begin() for _ in range(CALLS)], b'"access_token":')
    same = replay.instructions([poll(1000, LATE) for _ in range(TRIES)], b"invalid_continuation")
    later = replay.instructions([poll(1301 + i, LATE) for i in range(TRIES)], b"invalid_continuation")
    replay.end()
    return grant, later - same


def main():
    random.seed(1)
    first = None
    for word in sys.argv[1:] or ["0", "6000", "60000", "60000:60", "600000"]:
        many, seconds = (int(part) for part in (word if ":" in word else f"{word}:600").split(":"))
        with tempfile.TemporaryDirectory() as folder:
            grant, sweep = measured(folder, many, seconds)
        first = first or grant
        print(f"{many:,} nonces: {grant:,.0f} instructions for a grant request, {grant - first:+,.0f};", end=" ")
        print(f"{sweep:,.0f} for the sweep of {many // seconds:,}", flush=True)


if __name__ == "__main__":
    sys.exit(main())
