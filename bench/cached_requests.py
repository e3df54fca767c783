#!/usr/bin/env python3
"""How many requests `gnap rs` answers in a second on one connection, with a cache and without; what one costs beside few and beside many kept replies; and
what memory a full cache takes.

    bench/cached_requests.py [CONNECTIONS]
    bench/cached_requests.py sizes [CONNECTIONS]
    bench/cached_requests.py instructions
    bench/cached_requests.py memory

The first sends 900 requests with one bound token, each signed, in one piece on a connection, 10 connections where no number is given, and takes the best;
`gnap as` is beside it, with one worker. The others have a server that is played here, which says that any token is live.

`sizes` has two programs keep 16 and 16,384 replies. It sends to each in turn 900 requests whose replies are kept, with 16 tokens, and takes the best of each.

`instructions` has callgrind count those of such a request, sent once the reply to the one before is there, and those of a signed introspection at `gnap as`.
They are the difference between 48 requests and 144, by 96. valgrind doesn't follow the script ./gnap to the program, so GNAP names one here.

`memory` has 16,384 replies kept, which have 13,500 bytes with their questions, and prints the largest resident set.

The program is ./gnap, or the one that GNAP names.
"""

import contextlib
import glob
import json
import os
import socket
import socketserver
import subprocess
import sys
import tempfile
import threading
import time

from requests_over_nonces import counted, replies
from signed_http import SECRETS, TOP, Served, first_reply, grant_request, introspection, signed_request, text_of

BASE = "https://rs.example"
ON_A_CONNECTION = 900
REPLIES = 16_384
LONGEST = 13_500
# How many tokens come by requests whose replies are kept, and how many of these requests are counted.
TOKENS = 16
FEW, MANY = 48, 144
LIVE = {"access": ["photos"], "active": True, "exp": 4_000_000_000, "iat": 1_000, "instance_id": "c1", "iss": "https://as.example/gnap"}
RS_SETUP = json.dumps({
    "base": BASE, "server": "https://as.example", "id": "r1", "secret": text_of(SECRETS["r1"]),
    "keys": [{"id": "c1", "secret": text_of(SECRETS["c1"])}],
    "routes": [{"method": "GET", "path": "/photos", "right": "photos", "text": "hello"}],
})


def free_address():
    with socket.socket() as probe:
        probe.bind(("127.0.0.1", 0))
        return probe.getsockname()


class Guarding:
    """`gnap rs` at a free port, before a server at an address, with a cache of so many replies or with none, behind the words of a program that runs it. The
    options are those of `subprocess.Popen`."""

    def __init__(self, server, cache=None, under=(), **options):
        self.folder = tempfile.TemporaryDirectory()
        config = os.path.join(self.folder.name, "setup.json")
        with open(config, "w") as file:
            file.write(RS_SETUP)
        self.address = free_address()
        listen, at = (f"{host}:{port}" for host, port in (self.address, server))
        program = os.environ.get("GNAP", os.path.join(TOP, "gnap"))
        words = ["rs", config, listen, at, "1000000", *([] if cache is None else [str(cache)])]
        self.process = subprocess.Popen([*under, program, *words], **options)

    def connect(self):
        while self.process.poll() is None:
            try:
                return socket.create_connection(self.address, timeout=60)
            except ConnectionRefusedError:
                time.sleep(0.05)
        raise SystemExit("gnap rs doesn't listen")

    def peak(self):
        """The largest resident set, in bytes."""
        with open(f"/proc/{self.process.pid}/status") as file:
            return next(int(line.split()[1]) * 1024 for line in file if line.startswith("VmHWM:"))

    def stop(self):
        self.process.kill()
        self.process.wait()
        self.folder.cleanup()


def exchange_all(conn, requests):
    """Sends all requests in one piece, and reads a 200 to each."""
    sender = threading.Thread(target=conn.sendall, args=(b"".join(requests),))
    sender.start()
    held, left = bytearray(), len(requests)
    while left:
        reply = first_reply(held)
        if reply is None:
            piece = conn.recv(1 << 20)
            if not piece:
                raise SystemExit("a connection ended before its replies")
            held += piece
            continue
        if reply[0] != 200:
            raise SystemExit(f"not the reply: {bytes(held[:reply[3]])!r}")
        del held[:reply[3]]
        left -= 1
    sender.join()


def best_time(server, token, connections, cache):
    """The seconds of one request, on the best connection."""
    guarding = Guarding(server, cache)
    try:
        times = []
        for _ in range(connections):
            requests = [signed_request("GET", "/photos", "c1", b"", value=token, base=BASE)] * ON_A_CONNECTION
            with guarding.connect() as conn:
                start = time.perf_counter()
                exchange_all(conn, requests)
                times.append((time.perf_counter() - start) / ON_A_CONNECTION)
        return min(times)
    finally:
        guarding.stop()


def compare(connections):
    served = Served(1, 1_000_000)
    try:
        status, body = served.first_exchange(grant_request())
        if status != 200:
            raise SystemExit(f"no grant: {status}")
        token = json.loads(body)["access_token"]["value"]
        asked, cached = (best_time(served.address, token, connections, cache) for cache in (None, 16))
    finally:
        served.stop()
    print(f"asked each time: {asked * 1e6:7.1f} µs, {1 / asked:8.0f} a second")
    print(f"with a cache:    {cached * 1e6:7.1f} µs, {1 / cached:8.0f} a second, {asked / cached:.1f} times as many")


# ---- a server that is played

class Answering(socketserver.BaseRequestHandler):
    """Says of any token what its server gives for a question of this length."""

    def handle(self):
        held = b""
        while b"\r\n\r\n" not in held or len(held) < held.index(b"\r\n\r\n") + 4 + length_of(held):
            piece = self.request.recv(65536)
            if not piece:
                return
            held += piece
        self.server.asked += 1
        self.request.sendall(self.server.reply_to(length_of(held)))


class Playing(socketserver.ThreadingTCPServer):
    daemon_threads = True
    request_queue_size = 64

    def __init__(self, reply_to):
        super().__init__(("127.0.0.1", 0), Answering)
        self.reply_to = reply_to
        self.asked = 0


@contextlib.contextmanager
def playing(reply_to):
    with Playing(reply_to) as server:
        threading.Thread(target=server.serve_forever, daemon=True).start()
        try:
            yield server
        finally:
            server.shutdown()


@contextlib.contextmanager
def guarding_before(reply_to, under=(), **options):
    """`gnap rs` with the largest cache, and the server that is played before it."""
    with playing(reply_to) as server:
        guarding = Guarding(server.server_address, REPLIES, under, **options)
        try:
            yield guarding, server
        finally:
            guarding.stop()


def length_of(request):
    head = request.split(b"\r\n\r\n")[0].lower()
    return int(next(line for line in head.split(b"\r\n") if line.startswith(b"content-length:"))[15:])


def reply_with(body):
    text = json.dumps(body).encode()
    return b"HTTP/1.1 200 OK\r\nContent-Length: %d\r\n\r\n" % len(text) + text


def bound_reply(_):
    return reply_with({**LIVE, "key": "c1"})


def long_reply(length):
    """A reply that has 13,500 bytes with a question of this length."""
    bearer = {**LIVE, "flags": ["bearer"]}
    short = reply_with({**bearer, "x": ""})
    for rest in range(LONGEST - length - len(short) - 4, LONGEST):
        reply = reply_with({**bearer, "x": "a" * rest})
        if len(reply) + length == LONGEST:
            return reply
    raise SystemExit("no such reply")


# ---- kept replies

def bound(token):
    return signed_request("GET", "/photos", "c1", b"", value=f"{token:032}", base=BASE)


def bearer(token):
    return b"GET /photos HTTP/1.1\r\nAuthorization: Bearer %032d\r\n\r\n" % token


def fill(guarding, request, many):
    """Has so many replies kept, those to the tokens below 16 last."""
    for last in range(many, 0, -ON_A_CONNECTION):
        with guarding.connect() as conn:
            exchange_all(conn, [request(token) for token in reversed(range(max(last - ON_A_CONNECTION, 0), last))])


class Kept:
    """Requests with 16 tokens, whose replies are kept beside those of others."""

    def __init__(self, guarding, server, many):
        self.guarding, self.server = guarding, server
        fill(guarding, bound, many)

    def measured(self, measure):
        """What it gives, where nothing was asked meanwhile: the replies stayed fresh."""
        for _ in range(10):
            fill(self.guarding, bound, TOKENS)
            asked = self.server.asked
            result = measure()
            if self.server.asked == asked:
                return result
        raise SystemExit("the replies don't stay fresh for so long: too much else runs")

    def exchange_all(self):
        """The seconds of one request, of many in one piece."""
        requests = [bound(token) for token in range(TOKENS)] * (ON_A_CONNECTION // TOKENS)
        with self.guarding.connect() as conn:
            start = time.perf_counter()
            exchange_all(conn, requests)
            return (time.perf_counter() - start) / len(requests)

    def exchange(self, times):
        exchange_each(self.guarding.connect(), [bound(number % TOKENS) for number in range(times)])


def sizes(connections):
    with guarding_before(bound_reply) as few, guarding_before(bound_reply) as many:
        kept = [Kept(*few, TOKENS), Kept(*many, REPLIES)]
        times = [[each.measured(each.exchange_all) for each in kept] for _ in range(connections)]
    least = [min(column) for column in zip(*times)]
    for count, best in zip((TOKENS, REPLIES), least):
        print(f"beside {count:6,} replies: {best * 1e6:7.1f} µs")
    print(f"{least[1] / least[0]:.2f} times as long")


# ---- instructions

def exchange_each(conn, requests):
    """Sends each request once the reply to the one before is there, and reads a 200 to each."""
    with conn:
        for request in requests:
            conn.sendall(request)
            for status, body in replies(conn, 1):
                if status != 200:
                    raise SystemExit(f"not the reply: {status} {body!r}")


@contextlib.contextmanager
def callgrind():
    """The words that have callgrind count nothing at first, and the folder of its counts."""
    with tempfile.TemporaryDirectory() as folder:
        yield ["valgrind", "--tool=callgrind", "--instr-atstart=no", f"--callgrind-out-file={folder}/counts", "-q"], folder


def instructions(folder, process, exchange):
    """The instructions of one exchange."""
    subprocess.run(["callgrind_control", "-i", "on", str(process.pid)], check=True, capture_output=True)
    counts = []
    for times in (FEW, MANY):
        exchange(times)
        counts.append(counted(folder, process.pid, 1 + len(glob.glob(f"{folder}/counts.*"))))
    return (counts[1] - counts[0]) / (MANY - FEW)


def of_introspections():
    with callgrind() as (under, folder):
        served = Served(1, 1_000_000, under=under, stderr=subprocess.DEVNULL)
        try:
            status, body = served.first_exchange(grant_request())
            if status != 200:
                raise SystemExit(f"no grant: {status}")
            value = json.loads(body)["access_token"]["value"]
            return instructions(folder, served.process, lambda times: exchange_each(served.connect(), [introspection(value)] * times))
        finally:
            served.stop()


def of_kept(many):
    with callgrind() as (under, folder), guarding_before(bound_reply, under, stderr=subprocess.DEVNULL) as (guarding, server):
        kept = Kept(guarding, server, many)
        return kept.measured(lambda: instructions(folder, guarding.process, kept.exchange))


def count():
    asked = of_introspections()
    print(f"a signed introspection at gnap as: {asked:,.0f} instructions", flush=True)
    few, many = of_kept(TOKENS), of_kept(REPLIES)
    print(f"a request beside {TOKENS} kept replies: {few:,.0f} instructions, {few / asked:.2f} times as many")
    print(f"beside {REPLIES:,}: {many:,.0f} instructions, {many / few:.3f} times as many")


# ---- memory

def memory():
    with guarding_before(long_reply) as (guarding, _):
        guarding.connect().close()
        empty = guarding.peak()
        fill(guarding, bearer, REPLIES)
        full, texts = guarding.peak(), REPLIES * LONGEST
    print(f"{REPLIES} replies, {texts} bytes with their questions: {full} bytes, {empty} of them before, {full / texts:.2f} times")


def main(words):
    if words == ["memory"]:
        memory()
    elif words == ["instructions"]:
        count()
    elif words[:1] == ["sizes"]:
        sizes(int(words[1]) if words[1:] else 10)
    else:
        compare(int(words[0]) if words else 10)


if __name__ == "__main__":
    main(sys.argv[1:])
