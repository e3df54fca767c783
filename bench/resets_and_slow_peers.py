#!/usr/bin/env python3
"""64 workers and 64 connections at a time, some of which are reset or slow: each whole request has its one reply.

    bench/resets_and_slow_peers.py

`gnap as` gets 64 workers with 4 connections each. 256 connections come from 64 threads. The first one of each thread sends its second request
only once all 64 have a reply, which takes 64 workers at once; each later one is of one kind of the list KINDS. Where a connection isn't reset, its requests are grant requests, and introspections of tokens that other connections were given; it has to bring just one reply for
each, in order, and then end. All tokens that were handed out have to differ. In the end `gnap as` has to end with status 0, since all its
connections came. The program is ./gnap, or the one that GNAP names.
"""

import json
import random
import socket
import struct
import threading
import time

from signed_http import Served, first_reply, grant_request, introspection

WORKERS = 64
QUOTA = 4
REQUESTS = 6


def replies_to_the_end(conn, pause=0.0, most=65536):
    """All replies that come until the peer ends the connection, and the bytes behind the last whole one."""
    held, found = bytearray(), []
    while piece := conn.recv(most):
        held += piece
        while reply := first_reply(held):
            found.append((reply[0], reply[2]))
            del held[:reply[3]]
        time.sleep(pause)
    return found, bytes(held)


def in_turn(conn, requests, between=lambda: None):
    found = []
    for request in requests:
        if found:
            between()
        conn.sendall(request)
        held = bytearray()
        while (reply := first_reply(held)) is None:
            held += conn.recv(65536)
        found.append((reply[0], reply[2]))
    conn.shutdown(socket.SHUT_WR)
    more, rest = replies_to_the_end(conn)
    return found + more, rest


ALL_REPLIED = threading.Barrier(64)


def all_served(conn, requests):
    """Sends the second request once each of the 64 connections has its first reply."""
    return in_turn(conn, requests[:2], lambda: ALL_REPLIED.wait(timeout=30))


def all_at_once(conn, requests):
    conn.sendall(b"".join(requests))
    conn.shutdown(socket.SHUT_WR)
    return replies_to_the_end(conn)


def slowly_sent(conn, requests):
    text = b"".join(requests)
    for at in range(0, len(text), 97):
        conn.sendall(text[at:at + 97])
        time.sleep(0.005)
    conn.shutdown(socket.SHUT_WR)
    return replies_to_the_end(conn)


def slowly_read(conn, requests):
    conn.sendall(b"".join(requests))
    conn.shutdown(socket.SHUT_WR)
    return replies_to_the_end(conn, 0.003, 61)


def reset(conn):
    conn.setsockopt(socket.SOL_SOCKET, socket.SO_LINGER, struct.pack("ii", 1, 0))


def reset_in_a_head(conn, requests):
    conn.sendall(requests[0][:50])
    reset(conn)


def reset_in_a_body(conn, requests):
    conn.sendall(requests[0] + requests[1][:-5])
    time.sleep(0.01)
    reset(conn)


def reset_before_the_reply(conn, requests):
    conn.sendall(requests[0])
    reset(conn)


def reset_at_once(conn, requests):
    reset(conn)


KINDS = [in_turn, all_at_once, slowly_sent, slowly_read, reset_in_a_head, reset_in_a_body, reset_before_the_reply, reset_at_once]


class Run:
    def __init__(self):
        self.served = Served(WORKERS, QUOTA)
        self.lock = threading.Lock()
        self.tokens = []
        self.faults = []
        self.replied = 0
        self.count = {kind.__name__: 0 for kind in [all_served, *KINDS]}

    def requests(self):
        """Grant requests, and an introspection of a token behind each; and what each has to be answered with."""
        requests, wanted = [], []
        for _ in range(REQUESTS // 2):
            requests += [grant_request(), introspection(random.choice(self.tokens))]
            wanted += [b'"access_token"', b'"active":true']
        return requests, wanted

    def one(self, kind):
        requests, wanted = self.requests()
        with self.served.connect() as conn:
            answer = kind(conn, requests)
        with self.lock:
            self.count[kind.__name__] += 1
            if answer is None:
                return
            found, rest = answer
            right = [status == 200 and mark in body for (status, body), mark in zip(found, wanted)]
            wanted_count = 2 if kind is all_served else len(requests)
            if rest or len(found) != wanted_count or not all(right):
                self.faults.append((kind.__name__, found, rest))
            self.replied += len(found)
            for status, body in found:
                if b'"access_token"' in body:
                    self.tokens.append(json.loads(body)["access_token"]["value"])

    def work(self, kinds):
        for kind in kinds:
            try:
                self.one(kind)
            except (OSError, threading.BrokenBarrierError) as fault:
                with self.lock:
                    self.faults.append((kind.__name__, repr(fault), b""))


def main():
    begin = time.perf_counter()
    run = Run()
    status, body = run.served.first_exchange(grant_request())
    run.tokens.append(json.loads(body)["access_token"]["value"])
    # The connection of the first grant request is one of all.
    kinds = [KINDS[place % len(KINDS)] for place in range(WORKERS * QUOTA - 65)]
    random.Random(7).shuffle(kinds)
    threads = [threading.Thread(target=run.work, args=([all_served, *kinds[k::64]],)) for k in range(64)]
    for thread in threads:
        thread.start()
    for thread in threads:
        thread.join()
    ended = run.served.process.wait(timeout=60)
    print(", ".join(f"{name}: {count}" for name, count in run.count.items()))
    print(f"{run.replied} requests on connections that weren't reset, one reply to each; {len(run.tokens)} tokens, of which {len(set(run.tokens))} differ")
    print(f"status {ended} after {time.perf_counter() - begin:.1f} s")
    for fault in run.faults[:10]:
        print("FAULT", *fault)
    if run.faults or ended or len(set(run.tokens)) != len(run.tokens):
        raise SystemExit(1)


if __name__ == "__main__":
    main()
