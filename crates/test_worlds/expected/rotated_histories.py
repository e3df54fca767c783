"""Random histories in which tokens move from key to key, with marks as in marked_histories. Rotations name no key, the token's own, another client's, a
resource server's, the front's and one that nobody has, of tokens that are bound to a key and of bearer tokens. They are asked by the token's key and by the
other client's, and so are the rotations, revocations, modifications and cancellations behind them. The answers are the model's.

Each history is a replay, and some of them are signed over one connection too, where the key that a rotation names mostly signs over the first signature.
"""

import random

from json_forms import read_setup
from line_cases import replay_of
from machine import MARK_SECONDS
from marked_histories import MarkedGenerator
from records import Mark
from rights import compact
from run_cases import signed_request
from scripts import Step

SEEDS = range(273, 313)
SIGNED = SEEDS[:10]
LENGTH = 24
CLIENTS = ("c1", "c2")
NAMED = ["none"] * 5 + ["own"] * 2 + ["other"] * 6 + ["r1", "f1", "c9"]
MOVES = ["rotate"] * 8 + ["revoke"] * 3 + ["introspect"] * 2 + ["modify"] * 3 + ["cancel", "continue"]
ENDING = ("rotate", "revoke", "modify", "cancel")
FOLLOWING = ["introspect", "rotate", "revoke", "modify", "modify"]
KINDS = {"rotate": "manage", "revoke": "manage", "modify": "door", "cancel": "door", "continue": "door"}
# What has to come: a call of a live token, whether by its key, the key that it names, whether of a bearer token, and the answer.
WANTED = {
    *[("rotate", True, named, False, "done") for named in ("none", "own", "other")], ("rotate", True, "none", True, "done"),
    *[("rotate", True, named, bearer, "invalid_rotation") for named in ("r1", "f1", "c9") for bearer in (False, True)],
    *[("rotate", True, named, True, "invalid_rotation") for named in ("own", "other")],
    *[("rotate", False, named, bearer, "invalid_client") for named in ("none", "own", "other") for bearer in (False, True)],
    *[("revoke", own, "none", bearer, "done" if own else "invalid_client") for own in (False, True) for bearer in (False, True)],
}


def other_than(key):
    return CLIENTS[key == CLIENTS[0]]


class RotatingGenerator(MarkedGenerator):
    """Knows whose each value is, and makes mostly calls of tokens."""

    repeated = 10

    def __init__(self, seed):
        super().__init__(seed)
        self.with_user = False
        self.key_of = {}
        self.earlier = None  # the newest token before a call that may have ended it
        self.following = 0  # so many calls are about a token that was moved
        self.steps = []
        self.came = set()

    def moment(self):
        """Mostly a little later, so that tokens live on."""
        if self.chance(15):
            return super().moment()
        self.at += self.random.choice((0, 1, 5))
        return self.at

    def mark(self, at):
        """Mostly with a nonce that wasn't used."""
        if self.chance(20):
            return super().mark(at)
        return Mark(b"m%d" % len(self.steps), max(at, self.server.machine.now) if self.chance(90) else at)

    def asks(self):
        """Tokens of which a quarter are bearer tokens."""
        def one(**label):
            return {"access": ["photos"], **label, **({"flags": ["bearer"]} if self.chance(25) else {})}
        return one() if self.chance(70) else [one(label="a"), one(label="b")]

    def call(self):
        if self.earlier and self.chance(60):
            return "introspect", "r1", None, {"access_token": self.earlier, "resource_server": "r1"}
        if self.following:
            self.following -= 1
            return self.move(self.random.choice(FOLLOWING), 50)
        if not self.key_of or self.chance(15):
            key = "c1" if self.chance(80) else "c2"
            return "begin", key, None, {"access_token": self.asks(), "client": key}
        return super().call() if self.chance(10) else self.move(self.random.choice(MOVES), 75)

    def move(self, call, right):
        """A call of a token or of its grant; of so many in a hundred the key is the right one."""
        if call == "introspect":
            return call, "r1", None, self.body(call, "r1")
        value = self.value(KINDS[call])
        own = self.key_of.get(value, "c1")
        key = own if self.chance(right) else other_than(own)
        return call, key, value, self.rotation(own) if call == "rotate" else self.body(call, key)

    def rotation(self, own):
        """The body of a rotation of a token that this key has."""
        named = self.random.choice(NAMED)
        return None if named == "none" else {"key": {"own": own, "other": other_than(own)}.get(named, named)}

    def next_step(self):
        at, call, key, value, body, mark = step = super().next_step()
        self.steps.append((Step(at, key, call, value, body, ""), mark))
        self.presented = self.live_token(call, value, max(at, self.server.machine.now), key, mark)
        return step

    def live_token(self, call, value, now, key, mark):
        """The live token that the value names, in a call whose mark isn't refused."""
        token = self.server.machine.managed.get(value)
        passes = self.server.machine.remembered.get((key, mark.nonce), -1) < now <= mark.created + MARK_SECONDS
        is_live = token and not token.retired and now < token.until and token.grant.state(now) == "approved"
        return token if call in ("rotate", "revoke") and passes and is_live else None

    def hear(self, call, key, value, body, form):
        kinds = ("manage", "door")
        tokens = self.observer.seen["token"]
        self.earlier = tokens[-1] if tokens and call in ENDING else None
        before = [len(self.observer.seen[kind]) for kind in kinds]
        super().hear(call, key, value, body, form)
        named = (body or {}).get("key") if call == "rotate" else None
        if named and "access_token" in (form or {}):
            self.following = 3
        for kind, count in zip(kinds, before):
            self.key_of.update({new: named or key for new in self.observer.seen[kind][count:]})
        token = self.presented
        if token:
            of_key = {None: "none", token.key: "own", other_than(token.key): "other"}.get(named, named)
            self.came.add((call, key == token.key, of_key, token.ask.bearer, (form or {}).get("error", {}).get("code", "done")))


def signed_case(seed, generator):
    """The calls of a history over one connection. One in ten keys that rotations name doesn't sign."""
    chance = random.Random(seed)
    setup_text = compact(generator.setup)
    setup = read_setup(setup_text.encode())
    sent = [signed_request(step, setup, mark.created, mark.nonce.decode(), chance.randrange(10) > 0) for step, mark in generator.steps]
    gear = {"connections": [b"".join(sent).decode("latin-1")], "moments": [step.at for step, _ in generator.steps], "draws": []}
    return {"name": f"rotated history {seed}, signed", "words": ["as", "s", "a", "1", "1"], "gears": [gear],
            "files": [["s", setup_text.encode().decode("latin-1")]]}


def cases():
    came = set()
    for seed in SEEDS:
        generator = RotatingGenerator(seed)
        yield replay_of("rotated history %d" % seed, "\n".join(generator.lines(LENGTH)).encode())
        came |= generator.came
        if seed in SIGNED:
            yield signed_case(seed, generator)
    assert WANTED <= came, WANTED - came
