#!/usr/bin/env python3
"""Odd messages and odd files: the program answers each of them as its documents say, and answers a good request behind them.

    bench/fuzz_messages.py [MESSAGES [FILES [SEED [SECONDS]]]]

Whole messages are changed by a random generator of the seed: bits, bytes, numbers and field lines are changed, taken out, repeated, put in or cut, and pieces
of several messages are joined. Each result goes to `gnap as` on a connection of its own, of this machine alone. What comes back has to be replies of
docs/HTTP.md one behind another, and nothing else; after each hundred a grant request and the introspection of its token have to be answered as ever.
Then files with a field, a message, a setup or calls are changed likewise, and the program reads each by one of its commands; it has to end with a status
of docs/FORMATS.md, section 9, that this command has.

It stops after SECONDS. Printed are how often each status came, and each difference with its number; the same seed makes the same inputs, but for
signatures, which have the time in them. The status is 1 where there was a difference. The program is ./gnap, or the one that GNAP names.
"""

import collections
import json
import os
import random
import re
import socket
import subprocess
import sys
import tempfile
import time

import signed_http
from signed_http import SETUP, TOP, Served, fresh_nonce, grant_request, introspection

WORKERS = 4
EVERY = 100
PHRASES = {200: "OK", 204: "No Content", 400: "Bad Request", 401: "Unauthorized", 404: "Not Found", 405: "Method Not Allowed",
           413: "Payload Too Large", 501: "Not Implemented", 503: "Service Unavailable"}
HEAD = re.compile(
    rb"HTTP/1\.1 (?P<status>\d{3}) (?P<phrase>[A-Za-z ]+)\r\n"
    rb"(?P<json>Content-Type: application/json\r\n)?"
    rb"Cache-Control: no-store\r\n"
    rb"(?P<allow>Allow: [A-Z]+(, [A-Z]+)*\r\n)?"
    rb"(?P<challenge>WWW-Authenticate: GNAP\r\n)?"
    rb"(?P<close>Connection: close\r\n)?"
    rb"(Content-Length: (?P<length>0|[1-9]\d*)\r\n)?"
    rb"\r\n")
CODES = {"invalid_client", "invalid_request", "invalid_flag", "invalid_access", "invalid_continuation", "too_many_attempts", "too_fast",
         "invalid_interaction", "user_denied", "unknown_user", "request_denied", "unknown_interaction", "invalid_rotation",
         "invalid_resource_server"}
PIECES = [b"\r\n", b"\n", b"\r", b"\0", b" ", b"\t", b":", b",", b";", b"=", b'"', b"%", b"?1", b"@1", b"\xff", b"HTTP/1.0", b"Content-Length: 5\r\n",
          b"Transfer-Encoding: chunked\r\n", b"Connection: close\r\n", b"Content-Encoding: gzip\r\n", b"sig1=();tag=\"gnap\", ", b"0", b"18446744073709551616",
          b"-1", b"1.5", b"{", b"}", b"[", b"]", b"\\u0000", b"null", b'"access":["photos"],', b"a" * 300, b"[" * 200, b"A: b\r\n" * 70]


class Difference(Exception):
    """What came isn't what the documents say."""


# ---- inputs

def changed(source, texts):
    """One of the texts, changed one to four times."""
    text = bytearray(source.choice(texts))
    for _ in range(source.randint(1, 4)):
        place = source.randrange(len(text) + 1)
        end = min(len(text), place + source.choice([1, 1, 2, 8, 64]))
        kind = source.randrange(8)
        if kind == 0 and place < len(text):
            text[place] ^= 1 << source.randrange(8)
        elif kind == 1:
            text[place:end] = b""
        elif kind == 2:
            text[place:place] = source.choice(PIECES)
        elif kind == 3:
            text[place:place] = text[place:end] * source.choice([1, 2, 50])
        elif kind == 4:
            text[place:end] = source.randbytes(end - place)
        elif kind == 5:
            del text[place:]
        elif kind == 6:
            text += source.choice(texts)
        else:
            numbers = list(re.finditer(rb"\d+", text))
            if numbers:
                found = source.choice(numbers)
                text[found.start():found.end()] = source.choice([b"0", b"1", b"00", b"65536", b"65537", b"999999999999999", b"9" * 20])
    return bytes(text[:200_000])


def messages():
    """Whole messages, signed now."""
    plain = [b"GET /x HTTP/1.1\r\n\r\n", b"OPTIONS /gnap HTTP/1.1\r\n\r\n", b"GET /.well-known/gnap-as-rs HTTP/1.1\r\nHost: as.example\r\n\r\n",
             b"PUT /token HTTP/1.0\r\n\r\n", b"POST /continue HTTP/1.1\r\nAuthorization: GNAP AAAA\r\nContent-Length: 0\r\n\r\n"]
    interaction = json.dumps({"access_token": {"access": ["mail"]}, "client": "c1", "interact": {"start": ["redirect", "user_code"]}}).encode()
    return plain + [grant_request(), introspection("AAAA"), signed_http.signed_post("/gnap", "c1", interaction, nonce=fresh_nonce()),
                    signed_http.signed_post("/introspect", "r1", signed_http.BEGIN), signed_http.signed_post("/token", "c1", b"{}", nonce=fresh_nonce())]


# ---- messages

def first_of(held):
    """The status of the first reply, whether it closes, and what stands behind it."""
    head = HEAD.match(held)
    if not head:
        raise Difference(f"no head of a reply: {held[:200]!r}")
    status = int(head["status"])
    if PHRASES.get(status) != head["phrase"].decode():
        raise Difference(f"no status that is used: {head[0]!r}")
    if (status == 401) != bool(head["challenge"]) or (status == 405) != bool(head["allow"]) or (status == 204) != (head["length"] is None):
        raise Difference(f"fields of another status: {head[0]!r}")
    length = int(head["length"] or 0)
    body, behind = held[head.end():head.end() + length], held[head.end() + length:]
    if len(body) < length or bool(head["json"]) != bool(length):
        raise Difference(f"another body than its head says: {head[0]!r}")
    if length and not isinstance(json.loads(body), dict):
        raise Difference(f"no object: {body!r}")
    if status in (400, 401) and length and json.loads(body)["error"]["code"] not in CODES:
        raise Difference(f"no code: {body!r}")
    if status in (413, 501, 503) and (length or not head["close"]):
        raise Difference(f"no fixed reply: {head[0]!r}")
    return status, bool(head["close"]), behind


def statuses_of(held):
    """The statuses of all replies, the last of which alone may close."""
    found = []
    while held:
        status, closes, held = first_of(held)
        found.append(status)
        if closes and held:
            raise Difference(f"bytes behind the last reply: {held[:200]!r}")
    return found


def exchanged(served, sent):
    """All bytes that come back for these."""
    with served.connect() as conn:
        held = bytearray()
        try:
            conn.sendall(sent)
            conn.shutdown(socket.SHUT_WR)
        except OSError:
            pass  # it was closed behind a last reply, which may still be read
        try:
            while piece := conn.recv(65_536):
                held += piece
        except ConnectionResetError:
            return None  # what was sent behind a last request isn't read, and the system may then reset the connection
        return bytes(held)


def try_good_requests(served):
    held = exchanged(served, grant_request())
    if statuses_of(held or b"") != [200]:
        raise Difference(f"a good grant request isn't granted: {held!r}")
    value = json.loads(held[held.index(b"\r\n\r\n") + 4:])["access_token"]["value"]
    held = exchanged(served, introspection(value))
    if statuses_of(held or b"") != [200] or not json.loads(held[held.index(b"\r\n\r\n") + 4:])["active"]:
        raise Difference(f"its token isn't active: {held!r}")


def try_messages(source, count, deadline):
    served = Served(WORKERS, min(1_000_000, 2 * count + 100), stderr=subprocess.DEVNULL)
    found, differences, tried = collections.Counter(), [], 0
    try:
        served.first_connection().close()
        for tried in range(1, count + 1):
            if time.monotonic() > deadline:
                tried -= 1
                break
            if tried % EVERY == 1:
                texts = messages()
            sent = changed(source, texts)
            try:
                held = exchanged(served, sent)
                found.update(["reset"] if held is None else map(str, statuses_of(held) or ["nothing"]))
                if tried % EVERY == 0 or tried == count:
                    try_good_requests(served)
            except (Difference, ValueError, KeyError, OSError) as fault:
                differences.append(f"message {tried}: {fault!r}: {sent[:300]!r}")
                if served.process.poll() is not None:
                    differences.append(f"gnap as ended with {served.process.returncode}")
                    break
    finally:
        served.stop()
    return tried, found, differences


# ---- files

# Words of a command, with FILE for the changed file and CONFIG for the setup, what the file has before it is changed, and the statuses.
COMMANDS = [
    (["field", "item", "FILE"], [b"@1659578233;a=1", b'%"f%c3%bc"', b'"a\\"b";c', b":YWI=:;x=?0", b"-12.5"], {0, 7}),
    (["field", "list", "FILE"], [b"a, (b c);d=1, 2;e", b'("a" :YQ==:);f=@1, %"x"'], {0, 7}),
    (["field", "dictionary", "FILE"], [b'sig1=("@method" "@path");created=1;tag="gnap", a=2, b;c', b"sha-256=:YQ==:"], {0, 7}),
    (["verify", "CONFIG", "1000", "FILE"], None, {0, 7}),
    (["sign", "CONFIG", "c1", "1000", "FILE"], None, {0, 7}),
    (["verify", "FILE", "1000", "CONFIG"], [SETUP.encode()], {3, 7}),
    (["replay", "FILE"], [f"{SETUP}\n{json.dumps({'at': 1000, 'key': 'c1', 'call': 'begin', 'body': json.loads(signed_http.BEGIN)})}\n\n".encode()], {0, 3}),
]


def try_file(source, folder):
    words, texts, statuses = source.choice(COMMANDS)
    paths = {name: os.path.join(folder, name) for name in ("FILE", "CONFIG")}
    with open(paths["FILE"], "wb") as file:
        file.write(changed(source, texts or messages()))
    with open(paths["CONFIG"], "w") as file:
        file.write(SETUP)
    program = os.environ.get("GNAP", os.path.join(TOP, "gnap"))
    ended = subprocess.run([program] + [paths.get(word, word) for word in words], capture_output=True, timeout=60)
    if ended.returncode not in statuses:
        raise Difference(f"status {ended.returncode}")
    if (ended.returncode == 0) == ended.stderr.endswith(f"gnap: status {ended.returncode}\n".encode()):
        raise Difference(f"told on standard error: {ended.stderr!r}")
    return f"{words[0]} {ended.returncode}"


def try_files(source, count, deadline):
    found, differences, tried = collections.Counter(), [], 0
    with tempfile.TemporaryDirectory() as folder:
        for tried in range(1, count + 1):
            if time.monotonic() > deadline:
                tried -= 1
                break
            try:
                found[try_file(source, folder)] += 1
            except (Difference, subprocess.TimeoutExpired) as fault:
                with open(os.path.join(folder, "FILE"), "rb") as file:
                    differences.append(f"file {tried}: {fault!r}: {file.read()[:300]!r}")
    return tried, found, differences


def main():
    words = [int(word) for word in sys.argv[1:]]
    many, files, seed, seconds = words + [20_000, 5_000, 1, 300][len(words):]
    deadline = time.monotonic() + seconds
    differences = []
    for name, count, attempt in (("messages", many, try_messages), ("files", files, try_files)):
        tried, found, odd = attempt(random.Random(f"{name} {seed}"), count, deadline)
        print(f"{name}: {tried} tried, seed {seed}, {len(odd)} differences")
        for answer, times in sorted(found.items()):
            print(f"  {answer}: {times}")
        differences += odd
    for difference in differences[:50]:
        print(difference)
    return 1 if differences else 0


if __name__ == "__main__":
    sys.exit(main())
