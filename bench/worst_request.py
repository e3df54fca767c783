#!/usr/bin/env python3
"""What the dearest requests that a stranger without a key can send cost at `gnap as`, in instructions, and how many ordinary signed requests that is.

    bench/worst_request.py [CASE..]

`gnap as` with one worker runs under callgrind, which counts nothing at first. Of each case, all or those that are named, it is sent 1 request and then 5, each
once the reply to the one before is there; a connection that is closed behind a reply is opened anew. A request's instructions are the difference, by 4: from
the first byte that is read to the last that is written. An ordinary one is a signed grant request that is granted, counted over 40.

The cases fill what the server reads of a head, 16,384 bytes, with many names in `Signature-Input` or `Signature`, with items or with covered fields; or they
have many field lines, a long target, empty lines, or a body of 65,536 bytes with many members. None has a signature that is right, though an id of a key is no
secret. The last two cases, `signed-members` and `signed-right`, are no stranger's: a client signs those bodies.

Printed are the bytes, the status of the reply, the instructions, and their ratio to the ordinary request. The program is crates/gnap/out/gnap, or the one that
GNAP names; valgrind doesn't follow the script ./gnap to the program.
"""

import itertools
import os
import string
import subprocess
import sys
import tempfile
import time

from requests_over_nonces import counted, under_callgrind
from signed_http import BEGIN, TOP, Served, first_reply, fresh_nonce, grant_request, signed_post

FEW, MANY = 1, 5
ORDINARY = 40
MOST_HEAD = 16_384
MOST_BODY = 65_536
COVERED = '("@method" "@target-uri" "content-digest")'
WRONG = f"Signature: sig1=:{'A' * 43}=:"
LETTERS_AND_DIGITS = string.ascii_lowercase + string.digits


def names(length=3, before="", letters=string.ascii_lowercase):
    """Names in ascending order."""
    return (before + "".join(letters_of) for letters_of in itertools.product(letters, repeat=length))


def filled(front, pieces, joint, back=b"", most=MOST_HEAD):
    """The front, as many pieces as have room with the back, and the back."""
    text = bytearray(front)
    for number, piece in enumerate(pieces):
        more = (joint if number else "").encode() + piece.encode()
        if len(text) + len(more) + len(back) > most:
            break
        text += more
    return bytes(text + back)


def parts():
    """The head of a grant request up to its signature's fields, and what stands behind these."""
    request = grant_request()
    head, _, body = request.partition(b"\r\n\r\n")
    lines = [line for line in head.split(b"\r\n") if not line.startswith(b"Signature")]
    return b"\r\n".join(lines) + b"\r\n", b"\r\n\r\n" + body


def with_input(front, pieces, joint, end="", fields=""):
    """A request whose `Signature-Input` is as long as can be, behind more fields, with a signature that is wrong."""
    head, back = parts()
    behind = f"{end}\r\n{WRONG}".encode()
    made = filled(head + f"{fields}Signature-Input: {front}".encode(), pieces, joint, behind, MOST_HEAD - 4)
    return made + back


def params(key="c1"):
    return f';created={int(time.time())};keyid="{key}";tag="gnap"'


def listed(key="c1"):
    return f"sig1={COVERED}{params(key)}"


def many_items(item):
    """A list of one item, as often as it has room."""
    return with_input("sig1=(", itertools.repeat(item), " ", ")" + params())


def with_signature(pieces, joint):
    head, back = parts()
    return filled(head + f"Signature-Input: {listed()}\r\nSignature: ".encode(), pieces, joint, b"", MOST_HEAD - 4) + back


def covering_fields():
    """57 long fields, each of which is covered."""
    known = list(itertools.islice(names(2), 57))
    fields = "".join(f"{name}: {'x' * 230}\r\n" for name in known)
    return with_input(f"sig1={COVERED[:-1]} ", (f'"{name}"' for name in known), " ", ")" + params(), fields)


def covering_absent_fields():
    """57 fields, each of which is covered, and behind them as many that aren't there as can be named."""
    known = list(itertools.islice(names(2), 57))
    pieces = (f'"{name}"' for name in itertools.chain(known, names(3)))
    return with_input(f"sig1={COVERED[:-1]} ", pieces, " ", ")" + params(), "".join(f"{name}:\r\n" for name in known))


def covering_long_field():
    head, back = parts()
    behind = f'\r\nSignature-Input: sig1={COVERED[:-1]} "long"){params()}\r\n{WRONG}'.encode()
    return filled(head + b"Long: ", itertools.repeat("x"), "", behind, MOST_HEAD - 4) + back


def members_body():
    """A grant request of as many bytes as are read, with members that aren't looked at."""
    return filled(BEGIN[:-1] + b",", (f'"{name}":1' for name in names(3)), ",", b"}", MOST_BODY)


def right_body():
    """A grant request of as many bytes as are read, for one right with members that it has no field for."""
    front = b'{"client":"c1","access_token":{"access":[{"type":"photos",'
    return filled(front, (f'"{name}":1' for name in names(3)), ",", b"}]}}", MOST_BODY)


def unsigned(request):
    """The request with another signature, which is wrong."""
    before, mark, code = request.partition(b"Signature: sig1=:")
    return before + mark + (b"B" if code[:1] == b"A" else b"A") + code[1:]


def without_signature():
    head, back = parts()
    return head[:-2] + back


# Each makes a request anew.
CASES = {
    "unsigned": without_signature,
    "wrong": lambda: unsigned(grant_request()),
    "members": lambda: with_input("", names(), ","),
    "members-descending": lambda: with_input("", reversed(list(itertools.islice(names(), 4_000))), ","),
    "members-bytes": lambda: with_input("", (f"{name}=::" for name in names()), ","),
    "members-params": lambda: with_input("", (f"{name};a" for name in names()), ","),
    "members-alike": lambda: with_input("", names(2, "a" * 13, LETTERS_AND_DIGITS), ","),
    "members-long": lambda: with_input("", names(2, "a" * 60, LETTERS_AND_DIGITS), ","),
    "members-again": lambda: with_input("", itertools.chain(itertools.islice(names(), 2_000), itertools.cycle(["acw"])), ","),
    "lists": lambda: with_input("", (f"{name}=()" for name in names()), ","),
    "params": lambda: with_input(listed() + ";", names(), ";"),
    "params-unknown-key": lambda: with_input(listed("zz") + ";", names(), ";"),
    "params-alike": lambda: with_input(listed() + ";", names(2, "a" * 13, LETTERS_AND_DIGITS), ";"),
    "items": lambda: many_items("a"),
    "items-params": lambda: many_items("a;a"),
    "strings": lambda: many_items('""'),
    "strings-params": lambda: many_items('"";a'),
    "covered-absent": covering_absent_fields,
    "covered-fields": covering_fields,
    "covered-long": covering_long_field,
    "signature-members": lambda: with_signature(names(), ","),
    "signature-long": lambda: with_signature(itertools.chain(["sig1=:"], itertools.repeat("AAAA")), ""),
    "fields": lambda: filled(b"POST /gnap HTTP/1.1\r\n", itertools.repeat("a:\r\n"), "", b"\r\n"),
    "longest-value": lambda: filled(b"POST /gnap HTTP/1.1\r\na: ", itertools.repeat("x"), "", b"\r\n\r\n"),
    "longest-target": lambda: filled(b"POST /", itertools.repeat("x"), "", b" HTTP/1.1\r\n\r\n"),
    "empty-lines": lambda: filled(b"", itertools.repeat("\r\n"), "", b"POST /gnap HTTP/1.1\r\n\r\n"),
    "connection": lambda: filled(b"POST /gnap HTTP/1.1\r\nConnection: ", itertools.repeat("a"), ",", b"\r\n\r\n"),
    "body-members": lambda: unsigned(signed_post("/gnap", "c1", members_body(), nonce=fresh_nonce())),
    "signed-members": lambda: signed_post("/gnap", "c1", members_body(), nonce=fresh_nonce()),
    "signed-right": lambda: signed_post("/gnap", "c1", right_body(), nonce=fresh_nonce()),
}


def send_all(served, requests):
    """Sends the requests, each once the reply to the one before is there, and gives the last reply's status."""
    conn, status = served.first_connection(), None
    for request in requests:
        conn.sendall(request)
        held = bytearray()
        while (reply := first_reply(held)) is None:
            piece = conn.recv(65_536)
            if not piece:
                raise SystemExit(f"no reply, but {bytes(held)!r}")
            held += piece
        status = reply[0]
        if b"connection: close" in reply[1]:
            conn.close()
            conn = served.connect()
    conn.close()
    return status


class Counting:
    """`gnap as` under callgrind, which counts on demand."""

    def __init__(self, folder):
        self.folder, self.dumps = folder, 0
        self.served = Served(1, 1_000_000, under=under_callgrind(folder), stderr=subprocess.DEVNULL)
        send_all(self.served, [grant_request()])
        subprocess.run(["callgrind_control", "-i", "on", str(self.served.process.pid)], check=True, capture_output=True)

    def instructions(self, requests):
        """Those since the last ones, and the status of the last reply."""
        status = send_all(self.served, requests)
        self.dumps += 1
        return counted(self.folder, self.served.process.pid, self.dumps), status

    def cost(self, make, few=FEW, many=MANY):
        self.instructions([make()])
        less, _ = self.instructions([make() for _ in range(few)])
        more, status = self.instructions([make() for _ in range(many)])
        return (more - less) / (many - few), status


def main():
    os.environ.setdefault("GNAP", os.path.join(TOP, "crates/gnap/out/gnap"))
    chosen = sys.argv[1:] or list(CASES)
    if any(name not in CASES for name in chosen):
        raise SystemExit("cases: " + " ".join(CASES))
    with tempfile.TemporaryDirectory() as folder:
        counting = Counting(folder)
        try:
            ordinary, status = counting.cost(grant_request, ORDINARY, 2 * ORDINARY)
            print("| request | bytes | status | instructions | ratio |\n|---|---|---|---|---|")
            print(f"| an ordinary one | {len(grant_request())} | {status} | {ordinary:,.0f} | 1 |", flush=True)
            for name in chosen:
                cost, status = counting.cost(CASES[name])
                print(f"| {name} | {len(CASES[name]()):,} | {status} | {cost:,.0f} | {cost / ordinary:.2f} |", flush=True)
        finally:
            counting.served.stop()


if __name__ == "__main__":
    sys.exit(main())
