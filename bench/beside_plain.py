#!/usr/bin/env python3
"""How fast `gnap` is beside the same server by hand in plain Rust, bench/plain: signed requests over TCP, and calls without HTTP.

    bench/beside_plain.py [PROGRAM [ROUNDS]]
    bench/beside_plain.py alike [PROGRAM]
    bench/beside_plain.py instructions [PROGRAM]

rustc compiles the plain server and the client of bench/plain into a temporary folder, by -O alone. Then the servers take turns, so many rounds each, 9 where
no number is given. Each round starts a server anew. With 16 workers, 16 connections of the client send 3,000 requests each: signed introspections of one token,
which are the same request again and again or have a nonce each, or signed grant requests, of which a server has room for 65,536. And `load` puts 100,000 grants
through, by 1 worker and by 4, the start of the program counted in. Client and servers share the machine's processors.

Printed are, for each of these, requests or calls a second by the median of the rounds, and `gnap`'s by the plain server's: above 1 `gnap` is the faster one.
Then what the server itself took of the processors for one, with the system's part, and the plain server's by `gnap`'s. On a busy machine this says more, since
it has nothing of the client's part and of the time in which others ran.

With the word `alike` nothing is measured: both are sent the same requests, good ones and refused ones, and their replies are compared, but for drawn values
and moments. The status is 1 where two differ. This comes first where it is measured too.

With the word `instructions` callgrind counts those of one request, from the first byte that is read to the last that is written, as
`bench/requests_over_nonces.py` counts, and of one of the 6 calls of a grant, with 1 worker; so the system's part isn't in. Then it counts how often a request has
malloc, calloc and realloc called, and how many lines of code, of 64 bytes, it fetches anew where a cache of 32 KB has code and one worker alone runs. It takes
valgrind.

The program is PROGRAM, the proved one of crates/gnap where none is named. Where rustc or the program isn't there the status is 2.
"""

import json
import os
import re
import resource
import shutil
import statistics
import subprocess
import sys
import tempfile
import time

from loads import told
from requests_over_nonces import allocations_in, code_misses_in, cost_of, instructions_in, under_callgrind
from signed_http import BEGIN, TOP, Served, first_reply, fresh_nonce, grant_request, introspection, signed_post

PLAIN = os.path.join(TOP, "bench/plain")
PROVED = os.path.join(TOP, "crates/gnap/out/gnap")
WORKERS = 16
# Of each connection.
REQUESTS = 3_000
# The first caches of many processors: bytes, ways, bytes of a line. One on which callgrind runs isn't asked.
CACHES = ["--cache-sim=yes", "--I1=32768,8,64", "--D1=32768,8,64", "--LL=1048576,16,64"]
GRANTS = 100_000
CALLS = 6 * GRANTS
ROUNDS = 9


class Difference(Exception):
    """Two replies that had to be alike, or one that had to be another one."""


def compiled(folder):
    """The plain server and the client, compiled."""
    paths = []
    for name in ("server", "client"):
        path = os.path.join(folder, name)
        subprocess.run(["rustc", "--edition", "2021", "-O", os.path.join(PLAIN, f"{name}.rs"), "-o", path], check=True)
        paths.append(path)
    return paths


# ---- the same replies

def asked(body, key="c1", nonce=True, path="/gnap", **options):
    text = body if isinstance(body, bytes) else json.dumps(body).encode()
    return signed_post(path, key, text, nonce=fresh_nonce() if nonce else None, **options)


def grant(token, **members):
    return asked({"access_token": token, "client": "c1", **members})


def question(**members):
    return asked({"resource_server": "r1", **members}, "r1", False, "/introspect")


def edited(request, old, new):
    if request.count(old) != 1:
        raise SystemExit(f"not once: {old!r}")
    return request.replace(old, new)


def grant_requests():
    once = grant_request()
    photos = {"access": ["photos"]}
    return [
        once, once, grant([{**photos, "label": "a"}, {**photos, "label": "b\u00fc\"\\\n"}]), grant({**photos, "flags": ["bearer", "x"]}),
        asked({"access_token": photos, "client": {"key": "c1"}}), grant({"access": ["mail"]}), grant({"access": ["photos", "mail"]}), grant({"access": []}),
        grant(photos, subject={"sub_id_formats": ["opaque"]}), grant(photos, subject={}), grant(photos, more=1.5), grant(photos, more=[{"x": -0.0}]),
        grant({**photos, "flags": ["a", "a"]}), grant([photos]), grant([{**photos, "label": "a"}, {**photos, "label": "a"}]), grant([]), grant({}), grant(1),
        asked({"access_token": photos}), asked({"access_token": photos, "client": "d1"}), asked({"client": "c1"}),
        asked({"access_token": {**photos, "flags": ["a", "a"]}, "client": "d1"}),
        asked(b"{"), asked(b"[]"), asked(b'{"client":"x","client":"c1","access_token":{"access":["\\u0070hotos"]}}'),
        asked(b'{"access_token":{"access":["photos"]},"client":"c1"} x'), asked(BEGIN, nonce=False), asked(BEGIN, key="r1"), asked(BEGIN, created=1_000),
    ]


def signatures():
    """Requests whose signature or digest is at fault, or odd and good."""
    first = lambda: asked(BEGIN, nonce=True)
    return [
        edited(first(), b"Signature: sig1=:", b"Signature: sig1=:AAAA"), edited(first(), b"Signature: sig1=:", b"Signature: sig2=:"),
        edited(first(), b"Signature: ", b"Signed: "), edited(first(), b"Signature-Input: ", b"Input: "), edited(first(), b'tag="gnap"', b'tag="other"'),
        edited(first(), b'keyid="c1"', b'keyid="zz"'), edited(first(), b' "content-digest")', b")"), edited(first(), b'"@method" ', b""),
        edited(first(), b"photos", b"photoz"), edited(first(), b"Content-Digest: sha-256=:", b"Content-Digest: sha-256=:AAAA"),
        edited(first(), b"Signature-Input: ", b"Signature-Input: ,"), edited(first(), b"Signature-Input: ", b"Signature-Input:  other=(), "),
        edited(first(), b"Signature-Input: ", b"Signature-Input: other=1\r\nsignature-input:\t"),
        edited(first(), b"Host: ", b"Authorization: GNAP x\r\nHost: "),
        edited(first(), b"POST /gnap ", b"POST /gnap?x "), b"GET /x HTTP/1.1\r\n\r\n", b"\r\nPOST /gnap HTTP/1.1\r\nHost: x\r\n\r\n",
        b"POST /gnap HTTP/1.0\r\n\r\n", b"POST /gnap HTTP/1.1\r\nConnection: keep-alive, Close\r\n\r\n", b"POST /gnap\r\n\r\n",
        b"POST /gnap HTTP/1.1\r\n a: b\r\n\r\n",
        b"POST /gnap HTTP/1.1\r\nContent-Length: 65537\r\n\r\n", b"POST /gnap HTTP/1.1\r\nContent-Length: 1\r\nContent-Length: 1\r\n\r\nx",
        b"POST /gnap HTTP/1.1\r\nTransfer-Encoding: chunked\r\n\r\n", b"POST /gnap HTTP/1.1\r\n" + b"a: b\r\n" * 65 + b"\r\n",
    ]


def questions(token, bearer):
    return [
        introspection(token), introspection(bearer), introspection("x"), introspection(""), question(access_token=token, proof="httpsig"),
        question(access_token=token, proof="bearer"), question(access_token=bearer, proof="bearer"), question(access_token=token, proof="x"),
        question(access_token=token, access=["photos"]), question(access_token=token, access=["mail"]), question(access_token=token, access=[]), question(),
        question(access_token=token, resource_server={"key": "r1"}), question(access_token=token, resource_server="c1"),
        asked({"access_token": token}, "r1", False, "/introspect"), asked({"access_token": token, "resource_server": "r1"}, "c1", True, "/introspect"),
    ]


def whole_reply(served, request):
    """The head and the body of the reply to one request on a connection of its own, which the peer closes for writing."""
    with served.connect() as conn:
        conn.sendall(request)
        conn.shutdown(1)
        held = bytearray()
        while piece := conn.recv(65_536):
            held += piece
    return bytes(held)


def masked(reply):
    """A reply without its drawn values and its moments."""
    return re.sub(rb'"(exp|iat)":\d+', rb'"\1":0', re.sub(rb'"value":"[\w-]{32}"', b'"value":"V"', reply))


def compare(servers, requests):
    """Sends requests to both servers, where each has its own."""
    for each in zip(*requests):
        replies = [masked(whole_reply(served, request)) for served, request in zip(servers, each)]
        if replies[0] != replies[1]:
            raise Difference(f"{each[0]!r} is answered {replies[0]!r}, and by the plain server {replies[1]!r}")


def token_of(served, request):
    status, body = served.first_exchange(request)
    if status != 200:
        raise Difference(f"no grant: {status} {body!r}")
    return json.loads(body)["access_token"]["value"]


def are_alike(programs):
    servers = [Served(4, 1_000, program=program, stderr=subprocess.DEVNULL) for program in programs]
    try:
        tokens = [(token_of(served, grant_request()), token_of(served, grant({"access": ["photos"], "flags": ["bearer"]}))) for served in servers]
        same = grant_requests() + signatures()
        compare(servers, [same, same])
        compare(servers, [questions(*pair) for pair in tokens])
        print(f"{len(same) + len(questions('', ''))} requests are answered alike", flush=True)
    finally:
        for served in servers:
            served.stop()


# ---- measures

def processor_time(process):
    """The nanoseconds of all threads of a process."""
    total = 0
    for thread in os.listdir(f"/proc/{process}/task"):
        with open(f"/proc/{process}/task/{thread}/schedstat") as file:
            total += int(file.read().split()[0])
    return total


def requests_round(program, client, kind):
    """Requests a second, and the seconds of the server's processors for one."""
    served = Served(WORKERS, 1_000_000, program=program, stderr=subprocess.DEVNULL)
    try:
        token = token_of(served, grant_request())
        what = [kind, "c1", "photos"] if kind == "grants" else [kind, "r1", token]
        before = processor_time(served.process.pid)
        address = f"{served.address[0]}:{served.address[1]}"
        done = subprocess.run([client, served.config, address, str(WORKERS), str(REQUESTS), *what], stdout=subprocess.PIPE, text=True)
        took = (processor_time(served.process.pid) - before) / 1e9
        if done.returncode:
            raise Difference("the client failed")
    finally:
        served.stop()
    return float(done.stdout.split()[-3]), took / (WORKERS * REQUESTS)


def load_round(program, workers):
    """Calls a second, and the seconds of the processors for one."""
    before = resource.getrusage(resource.RUSAGE_CHILDREN)
    begin = time.perf_counter()
    done = subprocess.run([program, "load", str(GRANTS), "7", str(workers)], stdout=subprocess.PIPE, text=True, check=True)
    took = time.perf_counter() - begin
    after = resource.getrusage(resource.RUSAGE_CHILDREN)
    if done.stdout != told(GRANTS):
        raise Difference(f"not what a load has to tell: {done.stdout!r}")
    return CALLS / took, (after.ru_utime + after.ru_stime - before.ru_utime - before.ru_stime) / CALLS


def measure(name, programs, rounds, one_round):
    taken = [[], []]
    for number in range(rounds):
        # Each comes first in every other round.
        for place in ((0, 1), (1, 0))[number % 2]:
            taken[place].append(one_round(programs[place]))
    speeds = [statistics.median(speed for speed, _ in each) for each in taken]
    times = [statistics.median(used for _, used in each) for each in taken]
    cells = [f"{speed:,.0f}" for speed in speeds] + [f"{speeds[0] / speeds[1]:.2f}"]
    cells += [f"{took * 1e6:.2f} µs" for took in times] + [f"{times[1] / times[0]:.2f}"]
    print(f"| {name} | {' | '.join(cells)} |", flush=True)


def measure_all(programs, client, rounds):
    print(f"{os.cpu_count()} processors, a load of {os.getloadavg()[0]:.1f} before, {rounds} rounds")
    print("| | `gnap` a second | plain | ratio | `gnap`, processor of one | plain | ratio |\n|---|---|---|---|---|---|---|")
    measure(f"signed introspections over TCP, {WORKERS} workers", programs, rounds, lambda program: requests_round(program, client, "introspections"))
    measure("the same with a nonce each", programs, rounds, lambda program: requests_round(program, client, "introspections-with-nonces"))
    measure(f"signed grant requests over TCP, {WORKERS} workers", programs, rounds, lambda program: requests_round(program, client, "grants"))
    for workers in (1, 4):
        measure(f"calls of `load`, {workers} worker{'s' * (workers > 1)}", programs, rounds, lambda program: load_round(program, workers))


# ---- instructions

def load_instructions(program, grants):
    with tempfile.TemporaryDirectory() as folder:
        path = os.path.join(folder, "counts")
        under = ["valgrind", "--tool=callgrind", f"--callgrind-out-file={path}", "-q"]
        subprocess.run([*under, program, "load", str(grants), "7", "1"], check=True, capture_output=True)
        with open(path) as file:
            return int(re.search(r"^(?:summary|totals): (\d+)", file.read(), re.M)[1])


def request_cost(program, kind, count=instructions_in, words=()):
    with tempfile.TemporaryDirectory() as folder:
        served = Served(1, 1_000_000, under=[*under_callgrind(folder), *words], program=program, stderr=subprocess.DEVNULL)
        try:
            token = token_of(served, grant_request())
            requests = {
                "grants": grant_request,
                "introspections": lambda: introspection(token),
                "introspections-with-nonces": lambda: introspection(token, fresh_nonce()),
            }
            return cost_of(folder, served, requests[kind], count)
        finally:
            served.stop()


def count(name, programs, cost):
    ours, plain = (cost(program) for program in programs)
    print(f"| {name} | {ours:,.0f} | {plain:,.0f} | {plain / ours:.2f} |", flush=True)


def count_all(programs):
    print("| instructions of | `gnap` | plain | ratio |\n|---|---|---|---|")
    count("a signed introspection", programs, lambda program: request_cost(program, "introspections"))
    count("the same with a nonce", programs, lambda program: request_cost(program, "introspections-with-nonces"))
    count("a signed grant request", programs, lambda program: request_cost(program, "grants"))
    few, many = 1_000, 3_000
    count("a call of `load`", programs, lambda program: (load_instructions(program, many) - load_instructions(program, few)) / (6 * (many - few)))
    print("\n| allocations of | `gnap` | plain | ratio |\n|---|---|---|---|")
    count("a signed introspection", programs, lambda program: request_cost(program, "introspections", allocations_in))
    count("the same with a nonce", programs, lambda program: request_cost(program, "introspections-with-nonces", allocations_in))
    count("a signed grant request", programs, lambda program: request_cost(program, "grants", allocations_in))
    print("\n| lines of code fetched anew by | `gnap` | plain | ratio |\n|---|---|---|---|")
    count("a signed introspection", programs, lambda program: request_cost(program, "introspections", code_misses_in, CACHES))
    count("the same with a nonce", programs, lambda program: request_cost(program, "introspections-with-nonces", code_misses_in, CACHES))
    count("a signed grant request", programs, lambda program: request_cost(program, "grants", code_misses_in, CACHES))


def main():
    words = sys.argv[1:]
    what = words.pop(0) if words[:1] in (["alike"], ["instructions"]) else None
    program = os.path.abspath(words[0]) if words else PROVED
    if not shutil.which("rustc"):
        print("rustc isn't there, so the plain server can't be compiled", file=sys.stderr)
        return 2
    if not os.access(program, os.X_OK):
        print(f"{program} isn't there; ./build makes the proved program", file=sys.stderr)
        return 2
    with tempfile.TemporaryDirectory() as folder:
        server, client = compiled(folder)
        programs = (program, server)
        try:
            are_alike(programs)
            if what == "instructions":
                count_all(programs)
            elif what is None:
                measure_all(programs, client, int(words[1]) if len(words) > 1 else ROUNDS)
        except Difference as fault:
            print(fault, file=sys.stderr)
            return 1
    return 0


if __name__ == "__main__":
    sys.exit(main())
