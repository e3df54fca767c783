#!/usr/bin/env python3
"""What a signed grant request at `gnap as` costs, in instructions, while few and while many nonces are remembered.

    bench/requests_over_nonces.py [N..]

For each N, 0, 6,000, 60,000 and 600,000 where none is given: `gnap as` with one worker under callgrind, which counts nothing at first. It is sent N signed
polls of a value that names no grant, each with a nonce of 22 characters, whose signatures are of 290 seconds. Then callgrind counts, and 200 grant requests
are sent on one connection, and 600 on another, each once the reply to the one before is there. A grant request's instructions are the difference, by 400: from
the first byte that is read to the last that is written. Printed are those of each N, and how many nonces a second were taken before.

The program is crates/gnap/out/gnap, or the one that GNAP names: one that knows no nonces takes the same requests. It can't be the script ./gnap, since
valgrind doesn't follow that to the program. Under valgrind some 400 polls a second are taken on a busy machine, so 600,000 take long.
"""

import glob
import os
import re
import subprocess
import sys
import tempfile
import time

from signed_http import TOP, Served, first_reply, fresh_nonce, grant_request, signed_request

# How many requests a connection carries at most, and so many seconds the signatures are of.
ON_A_CONNECTION = 1_000
SECONDS = 290
FEW, MANY = 200, 600


def poll(now, i):
    return signed_request("POST", "/continue", "c1", b"", "x", created=now + i % SECONDS, nonce=fresh_nonce())


def replies(conn, many):
    """The statuses and bodies of so many replies."""
    held = bytearray()
    for _ in range(many):
        while (reply := first_reply(held)) is None:
            piece = conn.recv(1 << 20)
            if not piece:
                raise SystemExit("a connection ended before its replies")
            held += piece
        del held[:reply[3]]
        yield reply[0], reply[2]


def fill(served, many):
    """Sends so many polls, each of which the server remembers."""
    now = int(time.time())
    for first in range(0, many, ON_A_CONNECTION):
        part = range(first, min(first + ON_A_CONNECTION, many))
        with served.first_connection() as conn:
            for begin in range(0, len(part), 50):
                some = part[begin:begin + 50]
                conn.sendall(b"".join(poll(now, i) for i in some))
                for status, body in replies(conn, len(some)):
                    if b"invalid_continuation" not in body:
                        raise SystemExit(f"not the reply to a poll: {status} {body!r}")


def begin(served, many, request=grant_request):
    """Sends so many grant requests, each once the reply to the one before is there, and gives the last reply's body."""
    with served.first_connection() as conn:
        for _ in range(many):
            conn.sendall(request())
            for status, body in replies(conn, 1):
                if status != 200:
                    raise SystemExit(f"not the reply to a grant request: {status} {body!r}")
    return body


def instructions_in(dump):
    """The instructions of a dump."""
    return int(re.search(r"^(?:summary|totals): (\d+)", dump, re.M)[1])


def allocations_in(dump):
    """How often a dump has malloc, calloc and realloc called."""
    names = dict(re.findall(r"^c?fn=(\(\d+\)) (.+)$", dump, re.M))
    calls = re.findall(r"^cfn=(\(\d+\)).*\ncalls=(\d+)", dump, re.M)
    return sum(int(times) for name, times in calls if names[name] in ("malloc", "calloc", "realloc"))


def code_misses_in(dump):
    """How many lines of code a dump has fetched that weren't in the first cache."""
    names = re.search(r"^events: (.+)$", dump, re.M)[1].split()
    counts = re.search(r"^(?:summary|totals): (.+)$", dump, re.M)[1].split()
    return int(counts[names.index("I1mr")])


def counted(folder, process, number, count=instructions_in):
    """What is counted since the last dump."""
    subprocess.run(["callgrind_control", "-d", str(process)], check=True, capture_output=True)
    path = os.path.join(folder, f"counts.{number}")
    for _ in range(100):
        dump = open(path).read() if glob.glob(path) else ""
        if re.search(r"^(?:summary|totals): \d", dump, re.M):
            return count(dump)
        time.sleep(0.1)
    raise SystemExit("callgrind dumped no counts: " + " ".join(os.listdir(folder)))


def cost_of(folder, served, request=grant_request, count=instructions_in):
    """A grant request's instructions, or what else is counted, of a server under callgrind that listens."""
    begin(served, 1, request)
    subprocess.run(["callgrind_control", "-i", "on", str(served.process.pid)], check=True, capture_output=True)
    counts = []
    for number, times in enumerate((FEW, MANY), 1):
        begin(served, times, request)
        counts.append(counted(folder, served.process.pid, number, count))
    return (counts[1] - counts[0]) / (MANY - FEW)


def under_callgrind(folder):
    return ["valgrind", "--tool=callgrind", "--instr-atstart=no", f"--callgrind-out-file={folder}/counts", "-q"]


def measured(many):
    with tempfile.TemporaryDirectory() as folder:
        served = Served(1, 1_000_000, under=under_callgrind(folder), stderr=subprocess.DEVNULL)
        try:
            start = time.time()
            fill(served, many)
            speed = many / max(time.time() - start, 0.001)
            # It listens by now, so callgrind hears what it is told.
            return cost_of(folder, served), speed
        finally:
            served.stop()


def main():
    os.environ.setdefault("GNAP", os.path.join(TOP, "crates/gnap/out/gnap"))
    first = None
    for many in [int(word) for word in sys.argv[1:]] or [0, 6_000, 60_000, 600_000]:
        cost, speed = measured(many)
        first = first or cost
        print(f"{many:,} nonces: {cost:,.0f} instructions for a grant request, {cost - first:+,.0f}; {speed:,.0f} polls a second before", flush=True)


if __name__ == "__main__":
    sys.exit(main())
