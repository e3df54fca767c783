#!/usr/bin/env python3
"""Each request for memory is refused once: the program says that memory ran out, and what stands after that is right.

    bench/refused_memory.py

A small library, compiled by `cc`, stands before the system's `malloc` and `realloc` and refuses the call of one number. `gnap replay`, `gnap as` and `gnap rs`
are run anew for each number, from 1 on, until a run asks for less memory than that.

A replay of a grant, introspections, a rotation and a cancellation has to end with 0 and all answers, or with 6 and whole answers from the first on. At
`gnap as` with one worker the same is asked over HTTP, each request on a connection of its own. It may end with 6 before it listens. Else the refusal may
show once, as a 503 in place of a reply, or as a connection that brings nothing; that request is sent again, and has to be answered as ever, or as one whose
first entry stands (docs/HTTP.md). A grant request is sent again by the same bytes, and once more when it was answered: they act once. The requests behind it
have to be answered as ever. With PAIRS the same is asked of a grant request for a derived token: after a refusal at one of its two entries it is answered as ever
when it comes again by the same bytes, or refused as one whose second entry stands; and one whose parent isn't live is denied.

`gnap rs` keeps one reply, of a server that is played here. It is asked for a resource with a token, with the same again, with a wrong signature, with another
token, with the first again, and with none. It may end with 6 before it listens. Else one request may be refused; it is sent again, and answered as ever. What
was kept stays: where nothing is to be asked, nothing is. Where a question is to be asked, it is asked once, or twice where its reply wasn't kept.

Printed is how many refusals had which outcome, and each difference; the status is 1 where there was one. The program is ./gnap, or the one that GNAP names.
"""

import collections
import json
import os
import subprocess
import sys
import tempfile

from cached_requests import Guarding, bound, bound_reply, playing
from signed_http import PAIRS, SETUP, TOP, Served, derivation, first_reply, fresh_nonce, grant_request, signed_request

SHIM = r"""
#include <fcntl.h>
#include <stdatomic.h>
#include <stdlib.h>
#include <unistd.h>

extern void *__libc_malloc(size_t);
extern void *__libc_realloc(void *, size_t);
static atomic_long left;

__attribute__((constructor)) static void begin(void) { atomic_store(&left, atol(getenv("REFUSED_CALL"))); }
static int is_refused(void) {
    if (atomic_fetch_sub(&left, 1) != 1) return 0;
    close(creat(getenv("REFUSED_TOLD"), 0600));
    return 1;
}
void *malloc(size_t size) { return is_refused() ? NULL : __libc_malloc(size); }
void *realloc(void *old, size_t size) { return is_refused() ? NULL : __libc_realloc(old, size); }
"""
MOST = 20_000
# The connections of a run: ten requests, one that is sent again, and a second grant request where the entry of the first one stands without a reply.
CONNECTIONS = 13


class Difference(Exception):
    """What came isn't what the documents say."""


class Refusing:
    """A folder with the library, and the environment of a run in which the call of a number is refused."""

    def __init__(self, folder):
        self.folder = folder
        self.library = os.path.join(folder, "refusing.so")
        self.told = os.path.join(folder, "told")
        subprocess.run(["cc", "-O1", "-shared", "-fPIC", "-o", self.library, "-xc", "-"], input=SHIM.encode(), check=True)

    def environment(self, number):
        if os.path.exists(self.told):
            os.remove(self.told)
        return {**os.environ, "LD_PRELOAD": self.library, "REFUSED_CALL": str(number), "REFUSED_TOLD": self.told}

    def was_past_the_last(self):
        """Whether the run that has ended asked for memory less often than the number."""
        return not os.path.exists(self.told)


# ---- a replay

def line(key, call, body, value=None):
    return json.dumps({"at": 1000, "key": key, "call": call, **({"value": value} if value else {}), **({"body": body} if body else {})})


def replay_file(folder, program):
    """The path of a file of calls. Its values are those that a replay without words hands out."""
    path = os.path.join(folder, "calls")
    with open(path, "w") as file:
        file.write(SETUP + "\n" + line("c1", "begin", {"access_token": {"access": ["photos"]}, "client": "c1"}) + "\n")
    first = json.loads(subprocess.run([program, "replay", path], capture_output=True, check=True).stdout.split(b" ", 1)[1])
    token, door = first["access_token"], first["continue"]["access_token"]["value"]
    asked = {"access_token": token["value"], "resource_server": "r1"}
    with open(path, "a") as file:
        for call in (line("r1", "introspect", asked), line("c1", "rotate", None, token["manage"]["access_token"]["value"]),
                     line("r1", "introspect", asked), line("c1", "cancel", None, door), line("r1", "introspect", asked)):
            file.write(call + "\n")
    return path


def replays(folder, program, refusing):
    path = replay_file(folder, program)
    whole = subprocess.run([program, "replay", path], capture_output=True, check=True).stdout
    found, differences = collections.Counter(), []
    for number in range(1, MOST):
        ended = subprocess.run([program, "replay", path], capture_output=True, env=refusing.environment(number), timeout=60)
        if refusing.was_past_the_last():
            return found, differences
        lines = ended.stdout.splitlines(keepends=True)
        is_right = ended.stdout == whole if ended.returncode == 0 else (
            ended.returncode == 6 and whole.startswith(ended.stdout) and all(text.endswith(b"\n") for text in lines))
        found[f"status {ended.returncode}"] += 1
        if not is_right:
            differences.append(f"replay {number}: status {ended.returncode}: {ended.stdout[-200:]!r}")
    return found, differences


# ---- the authorization server

class Run:
    """One run of requests at `gnap as`, of which one may be refused memory."""

    def __init__(self, served):
        self.served = served
        self.refused = 0
        self.connections = 0

    def sent(self, request):
        """The status and the body of what comes, None where nothing does."""
        with self.served.first_connection() as conn:
            self.connections += 1
            conn.sendall(request())
            held = bytearray()
            while (reply := first_reply(held)) is None:
                piece = conn.recv(65_536)
                if not piece:
                    return None
                held += piece
            return reply[0], reply[2]

    def answer(self, request, again=()):
        """The status and the body of the reply. Where memory was refused it is sent once more; the codes are those of a request whose first entry stands."""
        reply = self.sent(request)
        if reply is not None and reply[0] != 503:
            return reply
        self.refused += 1
        reply = self.sent(request)
        if self.refused > 1 or reply is None or reply[0] not in (200, 204, 400, 401):
            raise Difference(f"{reply} after want of memory")
        if reply[0] in (400, 401) and json.loads(reply[1])["error"]["code"] not in again:
            raise Difference(f"{reply} after want of memory")
        return reply

    def is_active(self, value):
        body = json.dumps({"access_token": value, "resource_server": "r1"}).encode()
        status, text = self.answer(lambda: signed_request("POST", "/introspect", "r1", body))
        if status != 200:
            raise Difference(f"an introspection is answered {status}")
        return json.loads(text)["active"]

    def granted(self, new_request=grant_request):
        """A grant, by bytes that act once."""
        request = new_request()
        before = self.refused
        status, text = self.answer(lambda: request, ["invalid_client"])
        if status == 401 and self.refused > before:
            return self.granted(new_request)
        if status != 200:
            raise Difference(f"a grant request is answered {status}")
        status, _ = self.answer(lambda: request, ["invalid_client"])
        if status != 401:
            raise Difference(f"a grant request that was answered is answered {status} when it comes again")
        return json.loads(text)

    def put_through(self):
        """A grant whose token is asked about, rotated, asked about, and no longer active once the grant is cancelled; then another grant."""
        grant = self.granted()
        old = grant["access_token"]
        if not self.is_active(old["value"]):
            raise Difference("a new token isn't active")
        manage = old["manage"]["access_token"]["value"]
        status, _ = self.answer(lambda: signed_request("POST", "/token", "c1", b"", manage, nonce=fresh_nonce()), ["invalid_rotation"])
        if status not in (200, 400) or self.is_active(old["value"]):
            raise Difference("a rotated token is active")
        door = grant["continue"]["access_token"]["value"]
        status, _ = self.answer(lambda: signed_request("DELETE", "/continue", "c1", b"", door, nonce=fresh_nonce()), ["invalid_continuation"])
        if status not in (204, 400) or self.is_active(old["value"]):
            raise Difference("a token of a cancelled grant is active")
        if not self.is_active(self.granted()["access_token"]["value"]):
            raise Difference("a later token isn't active")

    def derive(self):
        """A token that is derived from a live one is active; from a value that is none of a token nothing is derived."""
        parent = self.granted()["access_token"]
        derived = self.granted(lambda: derivation(parent["value"]))["access_token"]
        if derived["expires_in"] > parent["expires_in"] or not self.is_active(derived["value"]):
            raise Difference("a derived token isn't active, or lasts longer than its parent")
        status, text = self.answer(lambda: derivation("x"), ["request_denied"])
        if status != 400 or json.loads(text)["error"]["code"] != "request_denied":
            raise Difference(f"a derivation from nothing is answered {status}")


def served_runs(refusing, put_through, pairs=None):
    name = "as" if pairs is None else "as with PAIRS"
    found, differences = collections.Counter(), []
    for number in range(1, MOST):
        served = Served(1, CONNECTIONS, pairs=pairs, env=refusing.environment(number), stderr=subprocess.DEVNULL)
        run = Run(served)
        try:
            put_through(run)
            outcome = f"{run.refused} requests refused"
        except Difference as fault:
            outcome = "different"
            differences.append(f"{name} {number}: {fault}")
        except (SystemExit, OSError):
            outcome = f"status {served.process.wait(10)}"
            if served.process.returncode != 6:
                differences.append(f"{name} {number}: {outcome}")
        # The connections that are left end the program.
        try:
            while run.connections < CONNECTIONS and served.process.poll() is None:
                run.sent(lambda: b"GET /x HTTP/1.1\r\n\r\n")
            served.process.wait(10)
        except (SystemExit, OSError, subprocess.TimeoutExpired):
            pass
        served.stop()
        if refusing.was_past_the_last():
            return found, differences
        found[outcome] += 1
    return found, differences


# ---- a resource server with a cache

def with_other_signature(request):
    before, mark, code = request.partition(b"Signature: sig1=:")
    return before + mark + (b"B" if code[:1] == b"A" else b"A") + code[1:]


# Each request, the status of its reply, and whether its token is asked about where one reply is kept.
GUARDED = [
    (lambda: bound(1), 200, True), (lambda: bound(1), 200, False), (lambda: with_other_signature(bound(1)), 401, False), (lambda: bound(2), 200, True),
    (lambda: bound(1), 200, True), (lambda: b"GET /photos HTTP/1.1\r\n\r\n", 401, False),
]


def status_of(guarding, request):
    """The status of what comes, None where nothing does."""
    with guarding.connect() as conn:
        conn.sendall(request)
        held = bytearray()
        while (reply := first_reply(held)) is None:
            piece = conn.recv(65_536)
            if not piece:
                return None
            held += piece
        return reply[0]


def guard_all(guarding, server):
    """How many requests were refused memory."""
    refused = 0
    for request, status, is_asked in GUARDED:
        before, most = server.asked, int(is_asked)
        came = status_of(guarding, request())
        if came in (None, 503):
            refused, most = refused + 1, 2 * most
            came = status_of(guarding, request())
        asked = server.asked - before
        if came != status or refused > 1 or not is_asked <= asked <= most:
            raise Difference(f"{came} in place of {status}, with {asked} questions, after {refused} refusals")
    return refused


def guarded_runs(refusing):
    found, differences = collections.Counter(), []
    with playing(bound_reply) as server:
        for number in range(1, MOST):
            guarding = Guarding(server.server_address, 1, env=refusing.environment(number), stderr=subprocess.DEVNULL)
            try:
                outcome = f"{guard_all(guarding, server)} requests refused"
            except Difference as fault:
                outcome = "different"
                differences.append(f"rs {number}: {fault}")
            except (SystemExit, OSError):
                outcome = f"status {guarding.process.wait(10)}"
                if guarding.process.returncode != 6:
                    differences.append(f"rs {number}: {outcome}")
            guarding.stop()
            if refusing.was_past_the_last():
                break
            found[outcome] += 1
    return found, differences


def main():
    program = os.environ.get("GNAP", os.path.join(TOP, "gnap"))
    differences = []
    with tempfile.TemporaryDirectory() as folder:
        refusing = Refusing(folder)
        for name, (found, odd) in (("replay", replays(folder, program, refusing)), ("as", served_runs(refusing, Run.put_through)),
                                    ("as with PAIRS", served_runs(refusing, Run.derive, PAIRS)), ("rs", guarded_runs(refusing))):
            print(f"{name}: {sum(found.values())} refusals, {len(odd)} differences")
            for outcome, times in sorted(found.items()):
                print(f"  {outcome}: {times}")
            differences += odd
    for difference in differences[:50]:
        print(difference)
    return 1 if differences else 0


if __name__ == "__main__":
    sys.exit(main())
