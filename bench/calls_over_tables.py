#!/usr/bin/env python3
"""What a call of a replay costs while few and while many grants are live, and what memory the state takes.

    bench/calls_over_tables.py [calls] [sweep] [memory]

For n of 1,000, 10,000 and 65,000: a file of n grant requests, all live to its end, and 2n introspections that name the tokens in a mixed order. Each file
is replayed five times, and the best time counts. An introspection's time is what the whole file takes more than its grant requests alone, by 2n; a grant
request's is what those take more than an empty file, by n. The sweep at which 65,000 grants end, with a token and a nonce each, is how long a call's reply takes
that comes alone once all are over. Then a file of 200,000 lines is replayed once, and the memory of the full state of 65,536 grants is compared with the bytes
of the texts that it must keep, for a right in full as in RFC 9635's examples and for a name. Where words are given, only what they name is measured. The
program is ./gnap, or the one that GNAP names.
"""

import base64
import contextlib
import json
import os
import statistics
import subprocess
import sys
import tempfile
import threading
import time

NAME = "photos"
IN_FULL = {
    "type": "photo-api",
    "actions": ["read", "write", "dolphin"],
    "locations": ["https://server.example.net/", "https://resource.local/other"],
    "datatypes": ["metadata", "images"],
}
SETUP = {
    "base": "https://as.example",
    "front": "https://front.example",
    "keys": [
        {"ask": [], "auto": [NAME, IN_FULL], "id": "c1", "role": "client", "secret": "c2VjcmV0LWtleS1vZi1jMQ=="},
        {"id": "r1", "role": "server", "secret": "c2VjcmV0LWtleS1vZi1yMQ==", "serves": [NAME, IN_FULL["type"]]},
    ],
}
# A granted request draws three values: the token's, its management value and the continuation value.
VALUES = 3
SWEEPS = 15


def texts_in(right):
    if isinstance(right, str):
        return [right]
    return [text for value in right.values() for text in ([value] if isinstance(value, str) else value)]


def kept(right):
    """The bytes of text that a grant and its token must keep: the key and the right's texts twice each, and three values of 32 bytes."""
    return 2 * len("c1") + 2 * sum(len(text) for text in texts_in(right)) + VALUES * 32


def line(value):
    return json.dumps(value, separators=(",", ":"), sort_keys=True) + "\n"


def grant_request(right):
    return line({"at": 1000, "body": {"access_token": {"access": [right]}, "client": "c1"}, "call": "begin", "key": "c1"})


def introspection(serial, at=1000):
    value = base64.urlsafe_b64encode(serial.to_bytes(8, "big") + bytes(16)).decode()
    return line({"at": at, "body": {"access_token": value, "resource_server": "r1"}, "call": "introspect", "key": "r1"})


def file_of(grants, introspections, behind):
    """A step that has no factor in common with the grants' number mixes the order. The lines behind come at last."""
    lines = [line(SETUP)] + [grant_request(NAME)] * grants
    lines += [introspection(1 + VALUES * (i * 48_611 % grants)) for i in range(introspections)]
    return "".join(lines + behind)


def replayed(program, folder, grants, introspections, times, behind=()):
    """The best time, in seconds, once every reply was as it has to be."""
    path = os.path.join(folder, "calls.jsonl")
    with open(path, "w") as out:
        out.write(file_of(grants, introspections, list(behind)))
    best = None
    for _ in range(times):
        start = time.perf_counter()
        done = subprocess.run([program, "replay", path], stdout=subprocess.PIPE, check=True)
        took = time.perf_counter() - start
        best = took if best is None else min(best, took)
        if done.stdout.count(b'"active":true') != introspections or done.stdout.count(b"\n") != grants + introspections + len(behind):
            raise SystemExit("not the replies")
    return best


@contextlib.contextmanager
def piped(program, folder):
    """A replay that reads what is written into a pipe: its process, and the pipe."""
    pipe = os.path.join(folder, "pipe")
    os.mkfifo(pipe)
    try:
        with subprocess.Popen([program, "replay", pipe], stdout=subprocess.PIPE) as replay, open(pipe, "wb", buffering=0) as calls:
            yield replay, calls
    finally:
        os.remove(pipe)


def memory(program, folder, grants, right):
    """The greatest resident memory, in bytes, of a replay that has answered so many grant requests and waits for more."""
    with piped(program, folder) as (replay, calls):
        calls.write(line(SETUP).encode())
        for _ in range(grants):
            calls.write(grant_request(right).encode())
            replay.stdout.readline()
        with open(f"/proc/{replay.pid}/status") as status:
            kilobytes = next(int(entry.split()[1]) for entry in status if entry.startswith("VmHWM"))
    return kilobytes * 1024


def sweep(program, folder, grants):
    """The seconds from a call that comes once so many grants are over to its reply, less those of the same call once more, which sweeps nothing."""
    late = introspection(1, at=10**9).encode()

    def answered(replay, calls):
        start = time.perf_counter()
        calls.write(late)
        if b'"active":false' not in replay.stdout.readline():
            raise SystemExit("not the reply")
        return time.perf_counter() - start

    with piped(program, folder) as (replay, calls):
        # The pipe holds less than the replies take, so both go on at once.
        writer = threading.Thread(target=calls.write, args=(file_of(grants, 0, []).encode(),))
        writer.start()
        for _ in range(grants):
            replay.stdout.readline()
        writer.join()
        took = answered(replay, calls)
        return took - answered(replay, calls)


def tell_sweep(program, folder):
    swept = sorted(sweep(program, folder, 65_000) for _ in range(SWEEPS))
    middle = statistics.median(swept)
    print(f"the sweep at which 65,000 grants end: {swept[0] * 1e3:.1f} ms at best, {middle * 1e3:.1f} by the median of {SWEEPS}", flush=True)


def tell_calls(program, folder):
    empty = replayed(program, folder, 1, 0, 5)
    for grants in (1_000, 10_000, 65_000):
        alone = replayed(program, folder, grants, 0, 5)
        whole = replayed(program, folder, grants, 2 * grants, 5)
        request = (alone - empty) / grants * 1e6
        introspected = (whole - alone) / (2 * grants) * 1e6
        print(f"{grants:6} grants live: a grant request {request:.1f} µs, an introspection {introspected:.1f} µs", flush=True)
    took = replayed(program, folder, 65_000, 135_000, 1)
    print(f"200,000 lines: {took:.1f} s", flush=True)


def tell_memory(program, folder):
    for name, right in (("a right in full", IN_FULL), ("a name", NAME)):
        few, full = memory(program, folder, 1, right), memory(program, folder, 65_536, right)
        bytes_each = (full - few) / 65_536
        ratio = bytes_each / kept(right)
        print(f"65,536 grants with {name}: {full / 1e6:.1f} MB, {bytes_each:.0f} bytes each, {ratio:.2f} times the {kept(right)} of its texts", flush=True)


TELLERS = {"calls": tell_calls, "sweep": tell_sweep, "memory": tell_memory}


def main(words):
    if not set(words) <= set(TELLERS):
        print(__doc__, file=sys.stderr)
        return 2
    program = os.environ.get("GNAP", "./gnap")
    with tempfile.TemporaryDirectory() as folder:
        for name, tell in TELLERS.items():
            if not words or name in words:
                tell(program, folder)
    return 0


if __name__ == "__main__":
    sys.exit(main(sys.argv[1:]))
