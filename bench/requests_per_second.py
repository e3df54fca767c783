#!/usr/bin/env python3
"""How many signed introspections `gnap as` answers in a second, and how long the slowest one in a hundred takes.

    bench/requests_per_second.py [SECONDS]

For 1, 16 and 64 connections at a time, and for as many workers as connections, 4 and 1, each for so many seconds, 4 where none are given. A
connection carries 100 requests, each sent once the reply to the one before is there, and is then opened anew; so it waits where fewer workers
than connections are. The program is ./gnap, or the one that GNAP names. Peers and server share the machine's processors.
"""

import json
import multiprocessing
import os
import selectors
import sys
import time

from signed_http import Served, first_reply, grant_request, introspection

ON_A_CONNECTION = 100


class Peer:
    """One connection at a time: when its request went out, what came, and how many requests it has left."""

    def __init__(self, served, request, chooser):
        self.served, self.request, self.chooser = served, request, chooser
        self.open()

    def open(self):
        self.conn = self.served.connect()
        self.conn.setblocking(False)
        self.left = ON_A_CONNECTION
        self.chooser.register(self.conn, selectors.EVENT_READ, self)
        self.send()

    def send(self):
        self.held = bytearray()
        self.sent = time.perf_counter()
        self.conn.send(self.request)

    def read(self):
        """How long the reply took, once it is whole."""
        piece = self.conn.recv(65536)
        if not piece:
            raise SystemExit("a connection ended before its reply")
        self.held += piece
        reply = first_reply(self.held)
        if reply is None:
            return None
        took = time.perf_counter() - self.sent
        if reply[0] != 200 or b'"active":true' not in reply[2] or reply[3] != len(self.held):
            raise SystemExit(f"not the reply: {bytes(self.held)!r}")
        self.left -= 1
        if self.left:
            self.send()
        else:
            self.chooser.unregister(self.conn)
            self.conn.close()
            self.open()
        return took


def peers_at_work(served, request, count, begin, until, results):
    chooser = selectors.DefaultSelector()
    for _ in range(count):
        Peer(served, request, chooser)
    times = []
    while (now := time.perf_counter()) < until:
        for key, _ in chooser.select(0.05):
            took = key.data.read()
            if took is not None and begin <= now:
                times.append(took)
    results.put(times)


def measure(connections, workers, seconds):
    served = Served(workers, 1_000_000)
    try:
        status, body = served.first_exchange(grant_request())
        if status != 200:
            raise SystemExit(f"no grant: {status}")
        request = introspection(json.loads(body)["access_token"]["value"])
        begin = time.perf_counter() + 0.5
        results = multiprocessing.Queue()
        parts = min(connections, max(1, (os.cpu_count() or 2) - 1))
        shares = [connections // parts + (part < connections % parts) for part in range(parts)]
        children = [multiprocessing.Process(target=peers_at_work, args=(served, request, share, begin, begin + seconds, results)) for share in shares]
        for child in children:
            child.start()
        times = sorted(took for _ in children for took in results.get())
        for child in children:
            child.join()
    finally:
        served.stop()
    slow = times[len(times) * 99 // 100]
    print(f"{connections:2} connections, {workers:2} workers: {len(times) / seconds:8.0f} requests a second, the slowest one in a hundred {slow * 1000:8.2f} ms", flush=True)


def main():
    seconds = float(sys.argv[1]) if len(sys.argv) > 1 else 4.0
    for connections in (1, 16, 64):
        for workers in dict.fromkeys((connections, 4, 1)):
            measure(connections, workers, seconds)


if __name__ == "__main__":
    main()
