#!/usr/bin/env python3
"""What sets of rights cost at `gnap sets`: instructions while few and while many are registered, memory, and what a full table answers.

    bench/resource_sets.py [N..]
    bench/resource_sets.py times [N..]
    bench/resource_sets.py memory [N..]
    bench/resource_sets.py rules

A set is one right of the type `photos` with another identifier, so that the compact text of its rights has as many bytes as is said. Its server is r1, and so
is who asks what references mean.

The first has, for each N, 1,000 and 65,536 where none is given, N sets of 64 bytes registered at `gnap sets` with one worker under callgrind, which counts
nothing at first. Then callgrind counts, and 200 registrations of known sets are sent on one connection and 600 on another, each once the reply to the one
before is there; and so are resolutions of their references. Which sets they are is drawn, the same at each run. The instructions of one are the difference,
by 400: from the first byte that is read to the last that is written.

The second takes the same N and no valgrind. Printed is the processor time that the server took, by the system's count, for each of 3,000 registrations of known
sets and of 3,000 resolutions, sent 50 in one piece.

The third has N sets registered, 65,536 where none is given, of 64 bytes and then, at a new process, of 4,096. Printed is the largest resident set, less that
before, and by how much that is more than the texts of the rights.

The fourth has 65,536 sets registered, and looks at what is answered to known sets, to one more, to rights that aren't served, and to resolutions; then, at
a new process with two workers, whether a set that two connections register at once, 500 times each, has one reference.

The program is ./gnap, or the one that GNAP names; for the first crates/gnap/out/gnap, since valgrind doesn't follow the script ./gnap to the program. Under
valgrind some hundred registrations a second are taken on a busy machine.
"""

import glob
import json
import os
import random
import subprocess
import sys
import tempfile
import threading
import time

from requests_over_nonces import FEW, MANY, ON_A_CONNECTION, counted, replies
from signed_http import TOP, Served, signed_post

MOST = 65_536
SHORT, LONG = 64, 4_096
AT_ONCE = 50


def rights(number, length):
    """The compact text of a set's rights, which has so many bytes."""
    rest = length - len('[{"identifier":"","type":"photos"}]')
    return f'[{{"identifier":"{number:0{rest}}","type":"photos"}}]'


def registration(access):
    return signed_post("/resource", "r1", f'{{"access":{access},"resource_server":"r1"}}'.encode())


def resolution(reference):
    return signed_post("/resolve", "r1", json.dumps({"resource_reference": reference}).encode())


def exchanged(served, requests, at_once=1):
    """The statuses and bodies of the replies to requests on one connection, of which so many are sent in one piece."""
    with served.first_connection() as conn:
        for first in range(0, len(requests), at_once):
            some = requests[first:first + at_once]
            conn.sendall(b"".join(some))
            for status, body in replies(conn, len(some)):
                yield status, json.loads(body)


def told(served, requests, member, at_once=1):
    """What a member of each reply is."""
    found = []
    for status, body in exchanged(served, requests, at_once):
        if status != 200:
            raise SystemExit(f"not the reply: {status} {body}")
        found.append(body[member])
    return found


def fill(served, many, length):
    """Registers the sets of so many numbers, and gives their references."""
    references = []
    for first in range(0, many, ON_A_CONNECTION):
        numbers = range(first, min(first + ON_A_CONNECTION, many))
        references += told(served, [registration(rights(number, length)) for number in numbers], "resource_reference", AT_ONCE)
    if len(set(references)) != many:
        raise SystemExit(f"{many} sets have {len(set(references))} references")
    return references


def instructions(many):
    with tempfile.TemporaryDirectory() as folder:
        under = ["valgrind", "--tool=callgrind", "--instr-atstart=no", f"--callgrind-out-file={folder}/counts", "-q"]
        served = Served(1, 1_000_000, under=under, command="sets", stderr=subprocess.DEVNULL)
        try:
            start = time.time()
            references = fill(served, many, SHORT)
            speed = many / (time.time() - start)
            subprocess.run(["callgrind_control", "-i", "on", str(served.process.pid)], check=True, capture_output=True)
            counts = []
            for times in (FEW, MANY, FEW, MANY):
                known = random.Random(1).choices(range(many), k=times)
                if len(counts) < 2:
                    asked = told(served, [registration(rights(number, SHORT)) for number in known], "resource_reference")
                    wanted = [references[number] for number in known]
                else:
                    asked = told(served, [resolution(references[number]) for number in known], "access")
                    wanted = [json.loads(rights(number, SHORT)) for number in known]
                if asked != wanted:
                    raise SystemExit("a set has another reference, or a reference another meaning")
                counts.append(counted(folder, served.process.pid, len(counts) + 1))
        finally:
            served.stop()
        return [(counts[at + 1] - counts[at]) / (MANY - FEW) for at in (0, 2)], speed


def count(numbers):
    os.environ.setdefault("GNAP", os.path.join(TOP, "crates/gnap/out/gnap"))
    first = None
    for many in numbers:
        costs, speed = instructions(many)
        first = first or costs
        names = ("known registration", "resolution")
        said = [f"{cost:,.0f} instructions for a {name}, {cost / before:.3f} times" for name, cost, before in zip(names, costs, first)]
        print(f"{many:,} sets: {'; '.join(said)}; {speed:,.0f} registrations a second before", flush=True)


def processor_time(served):
    """The seconds of a processor that the process took so far."""
    nanos = 0
    for path in glob.glob(f"/proc/{served.process.pid}/task/*/schedstat"):
        with open(path) as file:
            nanos += int(file.read().split()[0])
    return nanos / 1e9


def time_known(many):
    """What one registration of a known set and one resolution take, in seconds."""
    served = Served(1, 1_000_000, command="sets", stderr=subprocess.DEVNULL)
    try:
        references = fill(served, many, SHORT)
        known = random.Random(1).choices(range(many), k=3 * ON_A_CONNECTION)
        times = []
        for kind in ("resource_reference", "access"):
            took = 0
            for first in range(0, len(known), ON_A_CONNECTION):
                some = known[first:first + ON_A_CONNECTION]
                asked = [resolution(references[n]) if kind == "access" else registration(rights(n, SHORT)) for n in some]
                before = processor_time(served)
                told(served, asked, kind, AT_ONCE)
                took += processor_time(served) - before
            times.append(took / len(known))
        return times
    finally:
        served.stop()


def tell_times(numbers):
    first = None
    for many in numbers:
        times = time_known(many)
        first = first or times
        names = ("known registration", "resolution")
        said = [f"{took * 1e6:.1f} µs for a {name}, {took / before:.2f} times" for name, took, before in zip(names, times, first)]
        print(f"{many:,} sets: {'; '.join(said)}", flush=True)


def peak(served):
    """The largest resident set, in bytes."""
    with open(f"/proc/{served.process.pid}/status") as file:
        return next(int(line.split()[1]) * 1024 for line in file if line.startswith("VmHWM:"))


def weigh(many, length):
    served = Served(1, 1_000_000, command="sets", stderr=subprocess.DEVNULL)
    try:
        # What a request of this length takes is taken before.
        list(exchanged(served, [resolution("x" * length)] * AT_ONCE, AT_ONCE))
        empty = peak(served)
        fill(served, many, length)
        taken = peak(served) - empty
    finally:
        served.stop()
    texts = many * length
    print(f"{many:,} sets of {length:,} bytes, {texts / 1e6:.1f} MB: {taken / 1e6:.1f} MB, {taken / texts:.3f} times", end="")
    print(f", {taken / many - length:.0f} bytes a set beside its text", flush=True)


def expect(what, came, wanted):
    if came != wanted:
        raise SystemExit(f"{what}: {came}, and not {wanted}")


def error(code):
    return 400, {"error": {"code": code}}


def look_when_full():
    served = Served(1, 1_000_000, command="sets", stderr=subprocess.DEVNULL)
    try:
        references = fill(served, MOST, SHORT)
        for number in (0, 1, MOST // 2, MOST - 1):
            known = [(200, {"resource_reference": references[number]}), (200, {"access": json.loads(rights(number, SHORT)), "resource_server": "r1"})]
            asked = [registration(rights(number, SHORT)), resolution(references[number])]
            expect("a known set of a full table", list(exchanged(served, asked)), known)
        more = [registration(rights(MOST, SHORT)), registration('["mail"]'), registration(rights(0, SHORT)), registration(rights(MOST, SHORT))]
        wanted = [error("request_denied"), error("invalid_access"), (200, {"resource_reference": references[0]}), error("request_denied")]
        expect("one more set", list(exchanged(served, more)), wanted)
    finally:
        served.stop()
    print(f"{MOST:,} sets have references of their own; one more is request_denied, known ones are told", flush=True)


def look_at_two():
    served = Served(2, 1_000_000, command="sets", stderr=subprocess.DEVNULL)
    came = [[], []]
    try:
        with served.first_connection():
            pass
        both = threading.Barrier(2)

        def register(at):
            asked = [registration('["photos"]')] * 500
            both.wait()
            came[at] = list(exchanged(served, asked, AT_ONCE))
        threads = [threading.Thread(target=register, args=(at,)) for at in range(2)]
        for thread in threads:
            thread.start()
        for thread in threads:
            thread.join()
    finally:
        served.stop()
    all_replies = came[0] + came[1]
    expect("how many replies", len(all_replies), 1_000)
    expect("a set that two register", all_replies, [(200, {"resource_reference": all_replies[0][1]["resource_reference"]})] * 1_000)
    print("two connections registered one set, 500 times each, and all 1,000 replies are equal", flush=True)


def main():
    mode, *words = sys.argv[1:] if sys.argv[1:2] in (["times"], ["memory"], ["rules"]) else [None, *sys.argv[1:]]
    numbers = [int(word) for word in words]
    if mode == "rules":
        look_when_full()
        look_at_two()
    elif mode == "times":
        tell_times(numbers or [1_000, MOST])
    elif mode == "memory":
        for many in numbers or [MOST]:
            for length in (SHORT, LONG):
                weigh(many, length)
    else:
        count(numbers or [1_000, MOST])


if __name__ == "__main__":
    sys.exit(main())
