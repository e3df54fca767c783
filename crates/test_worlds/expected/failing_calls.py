"""Cases in which one call of a run fails, for each call of a kind: an accept of one request's run, and a read, a write or an exchange of a whole story.

The story is that of a grant whose token is used. A client, the front and a resource server send their requests to one authorization server, each on a
connection of its own, over four workers in turn. Each part of it is a case. What doesn't come back is sent once more five seconds later.
"""

import json
from dataclasses import dataclass

from as_server import Service
from client_cases import CONFIG_TEXT, FINISH, deed
from client_cases import case as client_case
from client_side import Client, carried_out, read_config
from http_cases import SETUP, call, case, head, latin
from http_forms import next_request
from json_forms import read_setup
from resource_cases import RS_TEXT
from resource_cases import case as resource_case
from resource_side import ResourceServer, read_resource_setup
from rights import compact
from scripts import asks

WORKERS = 4
BOTH = asks("photos", "mail", interact={"start": ["redirect"], "finish": FINISH})
UNSIGNED = b"POST /gnap HTTP/1.1\r\nContent-Length: 2\r\n\r\n{}"
ADDED = b"\r\nUser-Agent: x\r\nAccept: */*\r\nX-Forwarded-For: 192.0.2.1"


def accepts():
    plain = case("an unsigned request", [[UNSIGNED]], [1_000])
    yield plain
    for number in range(1, len(plain["gears"][0]["connections"]) + 2):
        yield case(f"an unsigned request: accept {number} fails", [[UNSIGNED]], [1_000], bad_accepts=[number])


@dataclass(frozen=True)
class Failure:
    """The call that fails: a read or a write of a server's connection, or an exchange over a link. Connections, their calls and exchanges are counted from 1."""
    what: str
    where: str
    place: int
    number: int = 1

    def __str__(self):
        if self.what == "exchange":
            return f"exchange {self.place} of the {self.where}"
        return f"{self.what} {self.number} of connection {self.place} of the {self.where}"


class Peer:
    """A server, and what its connections bring."""

    def __init__(self, name, service, failure):
        self.name, self.service, self.failure = name, service, failure
        self.brought, self.moments = [], []

    def fails(self, what):
        return self.failure == Failure(what, self.name, len(self.brought))

    def connect(self, request, at):
        """What is written to a connection that brings a request."""
        self.brought.append(request)
        self.moments.append(None if self.fails("read") else at)
        if self.fails("read"):
            return b""
        reply = self.service.reply(next_request(request)[0], at, [])[0]
        return b"" if self.fails("write") else reply

    def reads(self):
        """For each connection how many reads it has: one more at its end, where its request isn't the last one."""
        return [1 if next_request(request)[0].last else 2 for request in self.brought]

    def faults(self, places):
        """What a gear has of the failure, whose connections are those at these places, counted from 0. An exchange fails at the link."""
        if self.failure is None or self.failure.what == "exchange" or self.failure.where != self.name or self.failure.place - 1 not in places:
            return {}
        return {f"bad_{self.failure.what}s": [[self.failure.number] if place == self.failure.place - 1 else [] for place in places]}

    def gear(self, first, step=1):
        """The connections from this one on, counted from 0, each so many behind the one before it."""
        places = range(first, len(self.brought), step)
        moments = [self.moments[place] for place in places if self.moments[place] is not None]
        return {"connections": [latin(self.brought[place]) for place in places], "moments": moments, **self.faults(places)}


class Path:
    """A link, and the replies that came over it."""

    def __init__(self, name, failure):
        self.name, self.failure = name, failure
        self.asked, self.given = 0, []

    def exchange(self, request, at, peer):
        self.asked += 1
        if self.failure == Failure("exchange", self.name, self.asked):
            return None
        self.given.append(peer.connect(request, at))
        return self.given[-1]

    def faults(self):
        fails = self.failure is not None and (self.failure.what, self.failure.where) == ("exchange", self.name)
        return {"bad_exchanges": [self.failure.place]} if fails else {}


class Story:
    """What all of them do and are answered."""

    def __init__(self, failure=None):
        self.client = Client(read_config(CONFIG_TEXT.encode()))
        self.server = Peer("server", Service(read_setup(compact(SETUP).encode())), failure)
        self.resource = Peer("resource server", ResourceServer(read_resource_setup(RS_TEXT.encode()), self.introspect), failure)
        self.requests, self.questions = Path("client", failure), Path("resource server", failure)
        self.lines, self.used, self.at = [], [], 0

    def introspect(self, question):
        return self.questions.exchange(question, self.at, self.server)

    def exchange(self, request):
        """What comes back to the client. The requests to the resource server go by a terminator of TLS, which adds fields."""
        if b"\r\nHost: rs.example\r\n" not in request:
            return self.requests.exchange(request, self.at, self.server)
        self.used.append(request.replace(b"\r\n", ADDED + b"\r\n", 1))
        return self.requests.exchange(self.used[-1], self.at, self.resource)

    def tell(self, do, at, again=True, **takes):
        """Has the client do this."""
        self.lines.append(deed(do, at, **takes))
        self.at = at
        printed, _ = carried_out(self.client, compact(self.lines[-1]).encode(), len(self.lines), self.exchange)
        if again and printed.endswith(("LinkFault\n", "NotInGrammar\n")):
            self.tell(do, at + 5, False, **takes)

    def front(self, name, at, body):
        """What the front is answered."""
        reply = self.server.connect(call(name, "f1", at, body), at) or self.server.connect(call(name, "f1", at + 5, body), at + 5)
        return json.loads(reply.partition(b"\r\n\r\n")[2])

    def use(self, request, at):
        """Somebody sends these bytes to the resource server."""
        for self.at in (at, at + 5):
            if self.resource.connect(request, self.at):
                return

    def go(self):
        self.tell("begin", 1_000, body=BOTH)
        handle = json.loads(self.requests.given[-1].partition(b"\r\n\r\n")[2])["interact"]["redirect"].rpartition("/")[2]
        self.front("look", 1_010, {"handle": handle})
        decided = self.front("decide", 1_020, {"handle": handle, "subject": "alice", "verdict": "grant"})
        if "uri" in decided:
            back = dict(pair.split("=") for pair in decided["uri"].partition("?")[2].split("&"))
            self.tell("finish", 1_030, hash=back["hash"], reference=back["interact_ref"])
        self.tell("use", 1_040, token=0, method="GET", path="/photos")
        for used in self.used[-1:]:
            self.use(head(*(line for line in used.split(b"\r\n")[:-2] if not line.startswith(b"Signature"))), 1_050)
        self.tell("cancel", 1_060)
        for used in self.used[-1:]:
            self.use(used, 1_070)
        return self

    def cases(self, name):
        yield client_case(name, self.lines, self.requests.given, **self.requests.faults())
        gears = [self.server.gear(first, WORKERS) for first in range(WORKERS)]
        words = ["as", "setup", "a", str(WORKERS), str(len(gears[0]["connections"]))]
        yield {"name": name, "words": words, "files": [["setup", compact(SETUP)]], "gears": gears, "in_order": True}
        if self.resource.brought:
            served = resource_case(name, [[]] * len(self.resource.brought), self.questions.given, **self.questions.faults())
            yield {**served, "gears": [self.resource.gear(0)]}

    def calls(self):
        """The calls of the story, each as one that may fail."""
        for peer in (self.server, self.resource):
            for place, reads in enumerate(peer.reads(), 1):
                yield from (Failure("read", peer.name, place, number) for number in range(1, reads + 1))
                yield Failure("write", peer.name, place)
        for path in (self.requests, self.questions):
            yield from (Failure("exchange", path.name, place) for place in range(1, path.asked + 1))


def cases():
    yield from accepts()
    name = "four workers, and a token that is used, used without a signature, and used after the end of its grant"
    whole = Story().go()
    yield from whole.cases(name)
    for failure in whole.calls():
        yield from Story(failure).go().cases(f"four workers, and {failure} fails")
