#!/usr/bin/env python3
"""How long a connection waits for `gnap as` behind slow, idle and too many others, what signals and a want of descriptors do, and how long `gnap client` waits
for a connection that nobody answers.

    bench/slow_and_idle_peers.py

Takes some 90 seconds, and ends with status 1 where a wait is longer than docs/PROMISES.md says. The program is ./gnap, or the one that GNAP names.
What it says on standard error is shown.
"""

import json
import os
import resource
import signal
import socket
import subprocess
import sys
import tempfile
import threading
import time

from signed_http import BASE, SECRETS, TOP, Served, first_reply, text_of

CLIENT = {"server": BASE, "resource": "https://rs.example", "id": "c1", "secret": text_of(SECRETS["c1"])}
LINE = {"at": 1_000, "do": "begin", "nonce": "n1", "body": {"access_token": {"access": ["photos"]}, "client": "c1"}}
REQUEST = b"GET /x HTTP/1.1\r\nHost: as.example\r\n\r\n"
FAULTS = []


def reply_on(conn):
    held = bytearray()
    while first_reply(held) is None:
        piece = conn.recv(4096)
        if not piece:
            return None
        held += piece
    return first_reply(held)[0]


def asked(served):
    """A connection that has had its reply, and how long that took."""
    start = time.monotonic()
    conn = served.connect()
    conn.settimeout(100)
    conn.sendall(REQUEST)
    if reply_on(conn) is None:
        raise SystemExit("no reply")
    return conn, time.monotonic() - start


def show(what, seconds, most):
    print(f"{what:<70} {seconds:6.2f} s, at most {most} s", flush=True)
    if seconds > most:
        FAULTS.append(what)


def demand(what, holds):
    print(f"{what:<70} {'yes' if holds else 'NO'}", flush=True)
    if not holds:
        FAULTS.append(what)


def started(workers, quota, **options):
    served = Served(workers, quota, **options)
    served.first_connection().close()
    return served


def idle():
    served = started(4, 1000)
    four = [asked(served)[0] for _ in range(4)]
    fifth, waited = asked(served)
    show("the fifth connection behind four that had their reply just now", waited, 2)
    for conn in [*four, fifth]:
        conn.close()
    four = [asked(served)[0] for _ in range(4)]
    time.sleep(3)
    fifth, waited = asked(served)
    show("the fifth connection behind four that had it 3 seconds ago", waited, 1)
    for conn in [*four, fifth]:
        conn.close()
    four = [asked(served)[0] for _ in range(4)]
    time.sleep(5)
    for conn in four:
        conn.sendall(REQUEST)
    demand("four that had it 5 seconds ago are kept where nobody waits", all(reply_on(conn) == 404 for conn in four))
    served.stop()


def signals():
    served = started(1, 3)
    conn = served.connect()
    conn.sendall(REQUEST[:10])
    for _ in range(20):
        os.kill(served.process.pid, signal.SIGSTOP)
        time.sleep(0.02)
        os.kill(served.process.pid, signal.SIGCONT)
        time.sleep(0.03)
    conn.sendall(REQUEST[10:])
    demand("a read that twenty stops interrupt is no fault", reply_on(conn) == 404)
    served.stop()


def descriptors():
    served = started(16, 1000, preexec_fn=lambda: resource.setrlimit(resource.RLIMIT_NOFILE, (12, 12)))
    conns = [served.connect() for _ in range(30)]
    time.sleep(15)
    for conn in conns:
        conn.close()
    waited = asked(served)[1]
    show("a connection after 15 seconds without a descriptor", waited, 1)
    with open(f"/proc/{served.process.pid}/status") as file:
        threads = next(int(line.split()[1]) for line in file if line.startswith("Threads:"))
    demand("and no worker has ended", threads == 16)
    served.stop()


def slow():
    served = started(64, 1000)
    conns = [served.connect() for _ in range(64)]
    done = threading.Event()

    def drip():
        rest = REQUEST[:1]
        while not done.is_set():
            for conn in conns:
                try:
                    conn.send(rest)
                except OSError:
                    pass
            rest = b"x"
            done.wait(1)

    peers = threading.Thread(target=drip)
    peers.start()
    time.sleep(1)
    waited = asked(served)[1]
    done.set()
    peers.join()
    show("a connection behind 64 that send a byte a second, at 64 workers", waited, 61)
    served.stop()


def unanswered():
    """A listener whose queue is full drops what would make a further connection."""
    with socket.socket() as listener, socket.socket() as first, tempfile.TemporaryDirectory() as folder:
        listener.bind(("127.0.0.1", 0))
        listener.listen(0)
        host, port = listener.getsockname()
        first.connect((host, port))
        config, script = os.path.join(folder, "client.json"), os.path.join(folder, "script")
        for path, value in ((config, CLIENT), (script, LINE)):
            with open(path, "w") as file:
                json.dump(value, file)
        start = time.monotonic()
        ended = subprocess.run([os.environ.get("GNAP", os.path.join(TOP, "gnap")), "client", config, f"{host}:{port}", script], stdout=subprocess.PIPE)
        waited = time.monotonic() - start
    show("an exchange of gnap client at an address that answers nothing", waited, 61)
    demand("and it tells that the link failed", ended.returncode == 7 and b"LinkFault" in ended.stdout)


meanwhile = threading.Thread(target=unanswered)
meanwhile.start()
idle()
signals()
descriptors()
slow()
meanwhile.join()
sys.exit(1 if FAULTS else 0)
