"""Runs with rights as objects, several tokens, labels, flags and bearer tokens, at every limit and one past it; and setups with such rights."""

import run_cases
from http_cases import introspection
from rights import compact
from scripts import SETUP, V, Run, Step

BOTH = {"type": "t", "actions": ["read", "write"], "locations": ["a"]}
ONLY_READ = {"type": "t", "actions": ["read"], "locations": ["b"]}
RICH = {
    "type": "é", "actions": ["a", "a"], "locations": [""], "datatypes": ["d"], "privileges": ["p", "q"], "identifier": "",
    "x": {"b": [1, None], "a": "é\n\u0001\u007f\u2028\U0001f600\"\\/", "": [[], {}, 2 ** 64 - 1, -2 ** 63]},
}
AUTO = ["photos", BOTH, ONLY_READ, RICH, {"type": "n" * 256}]


def setup_with(auto, serves):
    first, *others = SETUP["keys"]
    keys = [{**first, "auto": auto}, *(dict(key, serves=serves) if key["id"] == "r1" else key for key in others)]
    return {**SETUP, "keys": keys}


OBJECTS = setup_with(AUTO, ["photos", "t", "é"])


def run(name, calls, setup=OBJECTS):
    """A run whose answers the model alone gives: at which moment, by which key, which call, the presented value, and the body."""
    return Run(name, setup, [Step(*call, answer="") for call in calls])


def begin(access, at=1_000, client="c1", **members):
    return at, "c1", "begin", None, {"access_token": {"access": access, **members}, "client": client}


def introspect(value, at=1_001, server="r1", **more):
    return at, server, "introspect", None, introspection(value, server, **more)


def right(**members):
    return {"type": "t", **members}


def covering():
    yield run("wanted rights are covered by the union alone", [
        begin([BOTH, ONLY_READ]),
        introspect(V(1), access=[right(actions=["read"], locations=["a", "b"])]),
        introspect(V(1), access=[right(actions=["write"], locations=["b"])]),
        introspect(V(1), access=[right()]),
        introspect(V(1), access=[right(actions=["read"])]),
        introspect(V(1), access=[right(actions=["read"], locations=["a"], identifier="")]),
        introspect(V(1), access=[right(actions=["read"], locations=["a"], datatypes=["d"])]),
        introspect(V(1), access=[right(actions=["read"], locations=["a"], x=1)]),
        introspect(V(1), access=["t"]),
        introspect(V(1), access=[right(actions=["write", "read", "write"], locations=["a"]), ONLY_READ]),
    ])
    yield run("asked rights are covered by what the client gets at once", [
        begin([right(actions=["read"], locations=["b", "a"])]),
        begin([right(actions=["write"], locations=["b"])]),
        begin([right()]),
        begin(["t"]),
        begin([{"type": "photos"}]),
        begin([RICH]),
        begin([{**RICH, "actions": ["a"], "privileges": ["q"]}]),
        begin([{**RICH, "x": dict(reversed(RICH["x"].items()))}]),
        begin([{**RICH, "x": {**RICH["x"], "b": [1]}}]),
        begin([{**RICH, "y": 1}]),
        begin([{name: value for name, value in RICH.items() if name != "identifier"}]),
        begin([{**RICH, "identifier": "i"}]),
        begin([{"type": "n" * 256}]),
    ])
    yield run("a server sees the part that it serves", [
        begin(["photos", RICH, BOTH, {"type": "n" * 256}]), introspect(V(1)), introspect(V(1), server="r2"),
        introspect(V(1), access=["photos", RICH]), introspect(V(1), access=[{"type": "n" * 256}]),
        introspect(V(1), server="r2", access=["photos"]),
        (1_001, "r1", "introspect", None, introspection(V(1), "r2")),
    ])


def limits():
    wide = ["w"] * 16
    fits = {"type": "t", "actions": wide, "locations": ["a"] * 16, "datatypes": ["d"] * 4}
    names = [f"r{place}" for place in range(17)]
    long = ["x" * 254] * 15
    rest = 4_096 - len(compact([*long, ""]))
    setup = setup_with([fits, *names, "x" * 254, "x" * rest, "x" * (rest + 1)], ["t"])
    yield run("rights at their limits and one past them", [
        begin([fits]),
        begin([{**fits, "privileges": ["p", "p"]}]),
        begin([{**fits, "actions": wide + ["w"]}]),
        begin([{**fits, "actions": []}]),
        begin([{**fits, "actions": ["w", 1]}]),
        begin([{**fits, "identifier": 1}]),
        begin([{**fits, "type": ""}]),
        begin([{"actions": wide}]),
        begin([1]),
        begin(names[:16]),
        begin(names),
        begin([]),
        begin(["m" * 256]),
        begin(["m" * 257]),
        begin([""]),
        begin([{"type": "m" * 257}]),
        begin([{"type": "t", "x": 1.5}]),
        begin([*long, "x" * rest]),
        begin([*long, "x" * (rest + 1)]),
    ], setup)


def several():
    photos = {"access": ["photos"]}

    def begin_all(asks, client="c1", **more):
        return 1_000, "c1", "begin", None, {"access_token": asks, "client": client, **more}

    labels = [{**photos, "label": f"l{place}"} for place in range(9)]
    yield run("several tokens in one request", [
        begin_all([{**photos, "label": "a"}, {**photos, "label": "b", "flags": ["bearer"]}], {"key": "c1"}),
        introspect(V(1)), introspect(V(1), proof="httpsig"), introspect(V(1), proof="bearer"),
        introspect(V(3)), introspect(V(3), proof="httpsig"), introspect(V(3), proof="bearer"),
        introspect(V(3), proof="mtls"), introspect(V(2)), introspect(V(5)),
        (1_002, "c1", "rotate", V(4), None), introspect(V(6), proof="bearer"), introspect(V(3), proof="bearer"),
        (1_003, "c1", "revoke", V(2), None), introspect(V(1)),
        (1_004, "c1", "modify", V(5), {"access_token": [{**photos, "label": "c"}]}), introspect(V(6)), introspect(V(8)),
        (1_005, "c1", "modify", V(10), {"access_token": {**photos, "label": "d", "flags": ["bearer"]}}),
    ])
    yield run("labels", [
        begin_all([{**photos, "label": "a"}, {**photos, "label": "a"}]),
        begin_all([{**photos, "label": "a"}, photos]),
        begin_all([photos]),
        begin_all([{**photos, "label": ""}]),
        begin_all([{**photos, "label": 1}]),
        begin_all([{**photos, "label": "l" * 64}]),
        begin_all([{**photos, "label": "l" * 65}]),
        begin_all([{**photos, "label": "é" * 32}]),
        begin_all([{**photos, "label": "é" * 33}]),
        begin_all({**photos, "label": "a"}),
        begin_all({**photos, "label": None}),
        begin_all(labels[:8]),
        begin_all(labels),
        begin_all([]),
        begin_all(None),
    ])
    yield run("flags", [
        begin_all({**photos, "flags": ["bearer", "bearer"]}),
        begin_all({**photos, "flags": ["durable"]}),
        begin_all({**photos, "flags": ["durable", "x", "bearer"]}),
        begin_all({**photos, "flags": ["x", "x"]}),
        begin_all({**photos, "flags": ["x", "x"], "label": 1}),
        begin_all({**photos, "flags": []}),
        begin_all({**photos, "flags": "bearer"}),
        begin_all({**photos, "flags": ["bearer", 1]}),
        begin_all([{**photos, "label": "a"}, {**photos, "label": "b", "flags": ["x", "x"]}]),
        begin_all({**photos, "flags": ["x", "x"]}, "c2"),
    ])
    yield run("clients and resource servers as objects", [
        begin_all(photos, {"key": "c1"}), begin_all(photos, {"key": "c1", "display": {}}), begin_all(photos, {"key": "c2"}), begin_all(photos, {}),
        begin_all(photos, {"key": {"proof": "httpsig"}}), begin_all(photos, "no id"),
        (1_001, "r1", "introspect", None, {"access_token": V(1), "resource_server": {"key": "r1"}}),
        (1_001, "r1", "introspect", None, {"access_token": V(1), "resource_server": {"key": "r2"}}),
        (1_001, "r1", "introspect", None, {"access_token": V(1), "resource_server": {"id": "r1"}}),
        (1_001, "r1", "introspect", None, {"access_token": 1, "resource_server": "r1"}),
        (1_001, "r1", "introspect", None, {"resource_server": "r1"}),
    ])


def setups():
    """Setups whose rights are objects, and those whose rights are at fault."""
    for name, auto in [
        ("a right without a type", [{"actions": ["a"]}]), ("17 values", [{"type": "t", "actions": ["a"] * 17}]),
        ("1,025 atoms or more", [{"type": "t", "actions": ["a"] * 16, "locations": ["b"] * 16, "datatypes": ["c"] * 5}]),
        ("a right that is a number", [1]), ("a right of 257 bytes", ["a" * 257]), ("a number that is a fraction", [{"type": "t", "x": 0.5}]),
        ("a right in full", [RICH]),
    ]:
        text = run_cases.latin(compact(setup_with(auto, ["é"])))
        yield {"name": "setup: " + name, "words": ["as", "setup", "a", "1", "0"], "files": [["setup", text]], "gears": [{"connections": []}]}


def cases():
    yield from run_cases.cases([*covering(), *limits(), *several()])
    yield from setups()
