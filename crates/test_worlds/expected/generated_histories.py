"""Random histories by a seed: good calls and hostile ones, of all ten kinds, at and around every limit.

The generator sees replies alone, as a client would; the answers are the model's.
"""

import random

from calls import Server
from json_forms import read_setup
from replays import printed
from rights import compact
from scripts import C2, F1, R1, R2, Run, Step, client, server, setup_of

OBJECT_RIGHTS = [
    {"type": "t", "actions": ["read", "write"], "locations": ["a", "b"]},
    {"type": "t", "actions": ["read"], "locations": ["a"]},
    {"type": "t", "actions": ["write"], "locations": ["b", "a"], "x": {"n": [1, None], "m": "\u00fc"}},
    {"type": "t"},
    {"type": "u", "identifier": "i", "datatypes": ["d", "e"], "privileges": ["p"]},
    {"type": "u", "identifier": "i", "datatypes": ["e"], "privileges": ["p"]},
]
PLAIN = setup_of(client("c1", "c2VjcmV0LWtleS1vZi1jMQ==", ["photos"], ["mail", "files"]), C2, R1, R2, F1)
OBJECTS = setup_of(
    client("c1", "c2VjcmV0LWtleS1vZi1jMQ==", ["photos", OBJECT_RIGHTS[0], OBJECT_RIGHTS[4]], ["mail", OBJECT_RIGHTS[2]]),
    client("c2", C2["secret"], OBJECT_RIGHTS[:2], [OBJECT_RIGHTS[3], "photos"]),
    server("r1", R1["secret"], ["photos", "t", ""]), server("r2", R2["secret"], ["u", "mail"]), F1,
)
REFERENCES = ["photos", "mail", "files", "calendar"]
ENDS = (0, 1, 4, 5, 6, 59, 599, 600, 601, 1199, 1200, 1201, 3599, 3600, 3601)
GRANT_END = 2_592_000


class Observer:
    """What was seen in replies, newest last."""

    def __init__(self):
        self.seen = {name: [] for name in ("door", "manage", "token", "handle", "code", "reference")}
        self.moments = []
        self.last = {}

    def see(self, moment, body):
        self.moments.append(moment)
        self.last = body or {}
        self.look_into(self.last)

    def look_into(self, body):
        if "continue" in body:
            self.seen["door"].append(body["continue"]["access_token"]["value"])
        tokens = body.get("access_token", [])
        for token in [tokens] if isinstance(tokens, dict) else tokens:
            if "value" in token:
                self.seen["token"].append(token["value"])
                self.seen["manage"].append(token["manage"]["access_token"]["value"])
        interact = body.get("interact", {})
        if "redirect" in interact:
            self.seen["handle"].append(interact["redirect"].rpartition("/")[2])
        for code in [interact.get("user_code"), interact.get("user_code_uri", {}).get("code")]:
            if code:
                self.seen["code"].append(code)
        if "handle" in body:
            self.seen["handle"].append(body["handle"])
        if "interact_ref=" in body.get("uri", ""):
            self.seen["reference"].append(body["uri"].rpartition("=")[2])
        if '"interact_ref":"' in body.get("body", ""):
            self.seen["reference"].append(body["body"].split('"')[-2])


class Generator:
    def __init__(self, seed, with_user=True):
        self.random = random.Random(seed)
        self.with_user = with_user
        self.setup = self.random.choice((PLAIN, OBJECTS))
        self.observer = Observer()
        self.at = self.random.choice((0, 1000, 1_000_000))

    def chance(self, percent):
        return self.random.randrange(100) < percent

    def value(self, kind):
        """A value from earlier replies: mostly the newest of its kind, else an old one, one of another kind, or none."""
        seen = self.observer.seen[kind]
        if seen and self.chance(80):
            return seen[-1]
        if seen and self.chance(70):
            return self.random.choice(seen)
        others = [value for values in self.observer.seen.values() for value in values]
        return self.random.choice(others) if others and self.chance(60) else self.random.choice(("", "x", "A" * 32))

    def moment(self):
        """Mostly a little later, at times at or beside a limit that an earlier call began, at times earlier."""
        moments = self.observer.moments
        if moments and self.chance(25):
            self.at = max(0, self.random.choice(moments) + self.random.choice(ENDS))
        elif moments and self.chance(4):
            self.at = self.random.choice(moments) + GRANT_END - self.random.choice((3599, 600, 1, 0))
        elif self.chance(10):
            self.at = max(0, self.at - self.random.choice((1, 5, 600)))
        else:
            self.at += self.random.choice((0, 1, 4, 5, 5, 5, 6))
        return self.at

    def words(self):
        most = 2 ** 64 - 1
        word = self.random.choice((lambda: 0, lambda: most, lambda: self.random.randrange(2 ** 64)))
        if self.chance(50):
            return None
        last = self.random.choice((0, 20 ** 8 - 1, 20 ** 8, self.random.randrange(2 ** 64)))
        return [word() for _ in range(self.random.randrange(4))] if self.chance(50) else [0] * 47 + [last]

    def rights(self, most=3):
        row = self.setup["keys"][0]
        pool = row["auto"] + (row["ask"] if self.with_user else [])
        if self.chance(20):
            pool = REFERENCES + (OBJECT_RIGHTS if self.setup is OBJECTS else [])
        if self.chance(4):
            pool = pool + ["calendar", {"type": "t", "actions": ["read"], "locations": []}, "", 1]
        return [self.random.choice(pool) for _ in range(self.random.randrange(1, most + 1))]

    def asks(self):
        def one(label):
            ask = {"access": self.rights(2)}
            if label:
                ask["label"] = label
            if self.chance(25):
                ask["flags"] = self.random.choice((["bearer"], ["bearer"], ["durable"], ["bearer", "x"], [], ["x", "x"]))
            return ask
        if self.chance(70):
            return one("l0" if self.chance(30) else None)
        labels = ["l%d" % place for place in range(self.random.choice((1, 2, 2, 3, 8)))]
        if self.chance(10):
            labels.append(self.random.choice(("l0", None, "")))
        return [one(label) for label in labels]

    def interact(self):
        start = self.random.choice((["redirect"], ["redirect", "user_code"], ["user_code"], ["user_code_uri"], ["redirect"], []))
        found = {"start": start}
        if self.chance(40):
            found["finish"] = {"method": self.random.choice(("redirect", "push")), "nonce": self.random.choice(("n", "m\n")),
                               "uri": self.random.choice(("https://client.example/cb", "http://c:8080/x?y=1"))}
            if self.chance(30):
                found["finish"]["hash_method"] = self.random.choice(("sha-256", "sha-512"))
        return found

    def request(self, key):
        body = {"access_token": self.asks(), "client": key if self.chance(80) else {"key": key}}
        if self.chance(5):
            body["client"] = self.random.choice(("c1", "c2", "r1", 1, {}))
        if self.chance(10):
            body["subject"] = {"sub_id_formats": self.random.choice((["opaque"], ["email"]))}
            if self.chance(20):
                del body["access_token"]
        if self.chance(10):
            body["user"] = self.random.choice(("u1", {"sub_ids": [{"format": "opaque", "id": "u2"}]}, {"sub_ids": []}))
        if self.with_user and self.chance(75):
            body["interact"] = self.interact()
        return body

    def next_steps(self):
        """The calls with which a client or a front would go on after the last reply."""
        last = self.observer.last
        if "interact" in last:
            return ["decide"] * 3 + ["look", "continue"] if "redirect" in last["interact"] else ["find_code"]
        if "handle" in last:
            return ["decide"]
        if "finish" in last:
            return ["continue"]
        if "access_token" in last and "continue" in last:
            return ["introspect", "rotate", "revoke", "continue", "modify", "cancel"]
        if "access_token" in last:
            return ["introspect", "rotate", "look", "decide"] if self.with_user else ["introspect", "rotate", "revoke"]
        return ["decide", "introspect", "continue"] if self.with_user else ["introspect", "continue", "modify"]

    def call(self):
        """The name, the key, the presented value and the body of a next call."""
        kinds = ["begin"] * 5 + ["continue"] * 6 + ["modify"] * 3 + ["cancel"] + ["rotate"] * 3 + ["revoke"] * 2 + ["introspect"] * 5
        if self.with_user:
            kinds += ["look"] * 2 + ["find_code"] * 2 + ["decide"] * 5
        call = self.random.choice(kinds)
        if self.chance(50):
            call = self.random.choice(self.next_steps())
        if not self.observer.seen["door"]:
            call = "begin"
        right_key = "r1" if call == "introspect" else "f1" if call in ("look", "find_code", "decide") else "c1"
        key = right_key if self.chance(90) else self.random.choice(("c1", "c2", "r1", "r2", "f1", "c9"))
        kind = {"continue": "door", "modify": "door", "cancel": "door", "rotate": "manage", "revoke": "manage"}.get(call)
        return call, key, self.value(kind) if kind else None, self.body(call, key)

    def body(self, call, key):
        if call in ("begin", "modify"):
            return self.request(key)
        if call == "continue":
            told = self.observer.last.get("finish") in ("redirect", "push")
            return {"interact_ref": self.value("reference")} if self.chance(80 if told else 10) else None
        if call == "rotate":
            return {"key": "c2"} if self.chance(10) else None
        if call == "introspect":
            body = {"access_token": self.value("token"), "resource_server": key}
            if self.chance(20):
                body["proof"] = self.random.choice(("httpsig", "bearer"))
            if self.chance(20):
                body["access"] = self.rights()
            return body
        if call == "look":
            return {"handle": self.value("handle")}
        if call == "find_code":
            return {"code": self.random.choice((str.lower, str))(self.value("code"))}
        return self.decision() if call == "decide" else None

    def decision(self):
        body = {"handle": self.value("handle"), "verdict": self.random.choice(["grant"] * 7 + ["deny", "unknown"])}
        if self.chance(20):
            body["access"] = self.rights()
        if self.chance(30):
            body["subject"] = "s1"
        return body

    def history(self, name, length):
        """A run of so many calls."""
        machine = Server(read_setup(compact(self.setup).encode()))
        steps = []
        for _ in range(length):
            call, key, value, body = self.call()
            at, words = self.moment(), self.words()
            status, form, reached = machine.answer(at, words or [], call, key, value or "", body)
            if reached:
                self.observer.see(machine.machine.now, form)
            steps.append(Step(at, key, call, value, body, printed(status, form)[:-1], words))
        return Run(name, self.setup, steps)


# Seeds of histories in which together each kind of answer to each call comes, most of them several times.
SEEDS = (
    3, 13, 44, 151, 198, 339, 395, 466, 721, 724, 779, 806, 871, 887, 910, 912, 1004, 1020, 1108, 1158,
    1318, 1355, 1542, 1589, 1641, 1642, 1646, 1669, 1735, 1898, 2135, 2181, 2270, 2373, 2388, 2420, 2423, 2428, 2921, 2940,
)


def history(seed, with_user=True):
    generator = Generator(seed, with_user)
    calls = generator.random.choice((5, 6, 7, 8, 9))
    return generator.history("generated history %d" % seed, calls)


def runs(seeds=SEEDS, with_user=True):
    return [history(seed, with_user) for seed in seeds]
