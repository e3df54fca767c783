"""Words for scripted runs: a run is a setup and steps, and each step has the answer that the documents give."""

from dataclasses import dataclass
from typing import Optional

from calls import Server
from json_forms import read_setup
from machine import MARK_SECONDS, value_text
from rights import compact

BASE = "https://as.example"
FRONT = "https://front.example"


@dataclass
class Step:
    at: int
    key: str
    call: str
    value: Optional[str]
    body: Optional[dict]
    answer: str
    draw: Optional[list] = None

    def line(self, **more):
        members = {"at": self.at, "call": self.call, "key": self.key}
        members.update({name: given for name, given in
                        (("value", self.value), ("body", self.body), ("draw", self.draw)) if given is not None})
        return compact({**members, **more})


@dataclass
class Run:
    name: str
    setup: dict
    steps: list

    def signed_at(self):
        """When each step's call is signed: at its moment, or now where the step goes back so far that its signature would be too old."""
        server = Server(read_setup(compact(self.setup).encode()))
        for step in self.steps:
            now = server.machine.now
            yield step.at if now <= step.at + MARK_SECONDS else now
            server.answer(step.at, step.draw or [], step.call, step.key, step.value or "", step.body)

    def lines(self):
        for step, created in zip(self.steps, self.signed_at()):
            yield step.line() if created == step.at else step.line(created=created)

    def file(self):
        return "".join(line + "\n" for line in [compact(self.setup), *self.lines()])

    def answers(self):
        return "".join(step.answer + "\n" for step in self.steps)


def client(key, secret, auto, ask):
    return {"id": key, "role": "client", "secret": secret, "auto": auto, "ask": ask}


def server(key, secret, serves):
    return {"id": key, "role": "server", "secret": secret, "serves": serves}


def setup_of(*keys):
    return {"base": BASE, "front": FRONT, "keys": list(keys)}


R1 = server("r1", "c2VjcmV0LWtleS1vZi1yMQ==", ["photos", "mail"])
R2 = server("r2", "c2VjcmV0LWtleS1vZi1yMg==", ["calendar"])
F1 = {"id": "f1", "role": "front", "secret": "c2VjcmV0LWtleS1vZi1mMQ=="}
C2 = client("c2", "c2VjcmV0LWtleS1vZi1jMg==", ["photos"], [])
SETUP = setup_of(client("c1", "c2VjcmV0LWtleS1vZi1jMQ==", ["photos"], ["mail"]), C2, R1, R2, F1)


def V(serial, first=0, second=0):
    """The value of a serial and two words."""
    return value_text(serial, first, second)


def ok(body):
    return "200 " + compact(body)


def refused(code):
    status = 401 if code in ("invalid_client", "invalid_resource_server", "invalid_continuation") else 400
    return str(status) + " " + compact({"error": {"code": code}})


DONE = "204"
INACTIVE = ok({"active": False})


def token(serial, rights, expires_in=3600, **further):
    """The token of a serial, whose management value has the serial after it."""
    manage = {"access_token": {"value": V(serial + 1)}, "uri": BASE + "/token"}
    return {"access": rights, "expires_in": expires_in, "manage": manage, "value": V(serial), **further}


def door(serial):
    return {"access_token": {"value": V(serial)}, "uri": BASE + "/continue", "wait": 5}


def granted(tokens, serial, **further):
    return ok({"access_token": tokens, "continue": door(serial), **further})


def continuing(serial):
    return ok({"continue": door(serial)})


def rotated(one):
    return ok({"access_token": one})


def active(rights, iat, exp, key="c1", **further):
    binding = {} if "flags" in further else {"key": key}
    return ok({"access": rights, "active": True, "exp": exp, "iat": iat, "instance_id": key,
               "iss": BASE + "/gnap", **binding, **further})


def pending(serial, expires_in=600, instance=None, **interact):
    """A round whose continuation value has this serial."""
    named = {} if instance is None else {"instance_id": instance}
    return ok({"continue": door(serial), "interact": {"expires_in": expires_in, **interact}, **named})


def redirect(serial):
    return FRONT + "/i/" + V(serial)


def asks(*rights, client="c1", **further):
    """A grant request for one token."""
    return {"access_token": {"access": list(rights)}, "client": client, **further}


def looks_at(serial, server="r1", **further):
    """An introspection of a token's value."""
    return {"access_token": V(serial), "resource_server": server, **further}


def step(at, key, call, *rest, draw=None):
    """`rest` is the presented value where there is one, the body where there is one, and the answer."""
    *given, answer = rest
    value = next((one for one in given if isinstance(one, str)), None)
    body = next((one for one in given if isinstance(one, dict)), None)
    return Step(at, key, call, value, body, answer, draw)
