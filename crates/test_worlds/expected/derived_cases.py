"""Cases of `as` with PAIRS: tokens that are derived from others (RFC 9767, section 4), and files that have no pairs."""

from http_cases import NOT_FOUND, PHOTOS, call, case, head, introspection
from scripts import SETUP, V, asks, client, setup_of
from rights import compact

D1_SECRET = b"secret-key-of-d1"
D1 = client("d1", "c2VjcmV0LWtleS1vZi1kMQ==", ["calendar"], ["mail"])
SETUP_WITH_D1 = setup_of(*SETUP["keys"], D1)
D1_R1 = {"client": "d1", "server": "r1"}
PAIRS = {"pairs": [D1_R1]}
PARENT = call("begin", "c1", 1_000, PHOTOS)
OTHER = call("begin", "c2", 2_002, asks("photos", client="c2"))


def derived(name, connections, moments=(), draws=(), pairs=PAIRS, setup=SETUP_WITH_D1, **more):
    plain = case("pairs: " + name, connections, moments, draws, setup, **more)
    text = pairs if isinstance(pairs, str) else compact(pairs)
    return {**plain, "words": [*plain["words"], "pairs"], "files": [*plain["files"], ["pairs", text]]}


def by_d1(name, at, body=None, value=None, **how):
    return call(name, "d1", at, body, value, secret=D1_SECRET, **how)


def begins(at, *rights, **further):
    """A grant request of d1."""
    return by_d1("begin", at, asks(*(rights or ["calendar"]), client="d1", **further))


def derives(at, parent, *rights, **further):
    return begins(at, *rights, existing_access_token=parent, **further)


def told(at, serial, server="r2"):
    return call("introspect", server, at, introspection(V(serial), server))


def terms():
    yield derived("a token is derived, and ends with its parent", [[
        PARENT, derives(2_000, V(1)), told(4_599, 4), told(4_600, 4),
    ]], [1_000, 2_000, 4_599, 4_600])
    yield derived("each entry has its words, and both have one moment", [[
        PARENT, derives(2_000, V(1, 1, 2)), call("introspect", "r2", 2_001, introspection(V(4, 5, 6), "r2")), OTHER,
    ]], [1_000, 2_000, 2_001, 2_002], [[1, 2], [3, 4], [5, 6], [7, 8], [9, 10]])
    yield derived("what comes of the grant later ends with the parent too", [[
        PARENT, derives(2_000, V(1)), by_d1("rotate", 2_001, value=V(5)),
        by_d1("modify", 2_006, asks("calendar", client="d1"), V(6)), told(4_599, 9), told(4_600, 9), by_d1("continue", 4_600, value=V(11)),
    ]], [1_000, 2_000, 2_001, 2_006, 4_599, 4_600, 4_600])
    yield derived("a token that is derived from a derived one", [[
        PARENT, derives(2_000, V(1), "calendar"), call("begin", "c2", 2_500, asks("photos", client="c2", existing_access_token=V(4))), told(4_599, 7, "r1"), told(4_600, 7, "r1"),
    ]], [1_000, 2_000, 2_500, 4_599, 4_600], pairs={"pairs": [D1_R1, {"client": "c2", "server": "r2"}]})
    yield derived("a parent that is revoked later ends nothing", [[
        PARENT, derives(2_000, V(1)), call("revoke", "c1", 2_001, value=V(2)), told(2_002, 4),
    ]], [1_000, 2_000, 2_001, 2_002])
    yield derived("a parent whose grant is cancelled later ends nothing", [[
        PARENT, derives(2_000, V(1)), call("cancel", "c1", 2_001, value=V(3)), told(2_002, 4), told(4_600, 4),
    ]], [1_000, 2_000, 2_001, 2_002, 4_600])
    ask = {"interact": {"start": ["user_code"]}}
    yield derived("a user is asked, and the token ends with the parent", [[
        PARENT, derives(4_000, V(1), "mail", **ask), call("find_code", "f1", 4_001, {"code": "BBBBBBBB"}),
        call("decide", "f1", 4_002, {"handle": V(5), "verdict": "grant", "subject": "alice"}), by_d1("continue", 4_005, value=V(4)),
        told(4_599, 6, "r1"), told(4_600, 6, "r1"),
    ]], [1_000, 4_000, 4_001, 4_002, 4_005, 4_599, 4_600])
    yield derived("a round that ends with the parent", [[
        PARENT, derives(4_000, V(1), "mail", **ask), derives(4_500, V(1), "mail", **ask), call("find_code", "f1", 4_599, {"code": "BBBBBBBB"}),
        call("find_code", "f1", 4_600, {"code": "BBBBBBBB"}), by_d1("continue", 4_600, value=V(4)),
    ]], [1_000, 4_000, 4_500, 4_599, 4_600, 4_600])


def parents():
    yield derived("a parent up to its end, and at it", [[PARENT, derives(4_599, V(1)), derives(4_600, V(1))]], [1_000, 4_599, 4_600])
    yield derived("a parent that is refused has one entry", [[PARENT, derives(2_000, V(9)), OTHER]], [1_000, 2_000, 2_002], [[1, 2], [3, 4], [5, 6], [7, 8]])
    yield derived("without a parent there is none", [[PARENT, begins(2_000), OTHER]], [1_000, 2_000, 2_002], [[1, 2], [3, 4], [5, 6], [7, 8]])
    for name, parent in [
        ("of no byte", ""), ("of 64 bytes", "x" * 64), ("of 65 bytes", "x" * 65), ("of 32 letters of two bytes", "\u00e9" * 32),
        ("of 33 letters of two bytes", "\u00e9" * 33), ("that is no string", 7), ("that is an object", {"value": V(1)}), ("that is null", None),
    ]:
        yield derived(f"a parent {name}", [[PARENT, derives(2_000, parent), OTHER]], [1_000, 2_000, 2_002], [[1, 2], [3, 4], [5, 6], [7, 8]])
    twice = compact(asks("calendar", client="d1", existing_access_token=V(9))).encode()[:-1] + b',"existing_access_token":"' + V(1).encode() + b'"}'
    yield derived("of two parents the last one counts", [[PARENT, by_d1("begin", 2_000, twice)]], [1_000, 2_000])
    bearer = {"access_token": {"access": ["photos"], "flags": ["bearer"]}, "client": "c1"}
    yield derived("a parent that is a bearer token", [[call("begin", "c1", 1_000, bearer), derives(2_000, V(1))]], [1_000, 2_000])
    yield derived("a parent's management value, and its grant's continuation value", [[PARENT, derives(2_000, V(2)), derives(2_000, V(3))]], [1_000, 2_000])
    yield derived("a parent that is revoked before", [[PARENT, call("revoke", "c1", 1_001, value=V(2)), derives(2_000, V(1))]], [1_000, 1_001, 2_000])
    yield derived("a parent that moved to another value", [[
        PARENT, call("rotate", "c1", 1_001, value=V(2)), derives(2_000, V(1)), derives(2_000, V(4)),
    ]], [1_000, 1_001, 2_000])
    yield derived("a parent that the pair's server doesn't serve", [[PARENT, derives(2_000, V(1))]], [1_000, 2_000], pairs={"pairs": [{**D1_R1, "server": "r2"}]})
    yield derived("a client in no pair may name a parent", [[call("begin", "c1", 1_000, {**PHOTOS, "existing_access_token": V(9)})]], [1_000])
    yield case("pairs: without PAIRS a parent isn't looked at", [[begins(1_000), derives(1_000, V(9)), derives(1_000, 7)]], [1_000], setup=SETUP_WITH_D1)


def requests():
    other = {"secret": b"another-secret-01"}
    body = asks("calendar", client="d1", existing_access_token=V(1))
    yield derived("faults of the request come before its parent", [[
        PARENT, derives(2_000, 7, interact=7), derives(2_000, V(1), interact=7), by_d1("begin", 2_000, {**PHOTOS, "existing_access_token": V(1)}),
        call("begin", "d1", 2_000, body, **other), call("begin", "d1", 2_000, body, secret=D1_SECRET, nonce=None), by_d1("begin", 2_000, b"{"),
        by_d1("begin", 2_000), call("begin", "r1", 2_000, {**body, "client": "r1"}), NOT_FOUND, head(b"PUT /gnap HTTP/1.1"),
    ]], [1_000, 2_000])
    yield derived("a request that comes twice asks about its parent twice", [[PARENT, *[derives(2_000, V(1, 1, 2))] * 2, OTHER]], [1_000, 2_000, 2_000, 2_002],
                  [[1, 2], [3, 4], [5, 6], [7, 8], [9, 10], [11, 12]])
    yield derived("a request that was denied for its parent may come again", [[
        derives(1_000, V(1)), PARENT, derives(1_000, V(1)), derives(1_000, V(1)),
    ]], [1_000])
    yield derived("a derivation that is denied for its rights", [[PARENT, derives(2_000, V(1), "photos"), derives(2_001, V(1))]], [1_000, 2_000, 2_001])
    yield derived("other calls of a pair's client", [[
        PARENT, derives(2_000, V(1)), by_d1("introspect", 2_001, introspection(V(1), "d1"), nonce=None), by_d1("continue", 2_005, value=V(6)),
        by_d1("modify", 2_011, asks("calendar", client="d1", existing_access_token=V(99)), V(7)), by_d1("revoke", 2_012, value=V(5)), by_d1("cancel", 2_013, value=V(7)),
    ]], [1_000, 2_000, 2_001, 2_005, 2_011, 2_012, 2_013])
    closing = derives(2_000, V(1)).replace(b"\r\n", b"\r\nConnection: close\r\n", 1)
    yield derived("the last message of a connection", [[PARENT], [closing, told(2_001, 4)], [told(2_001, 4)]], [1_000, 2_000, 2_001])
    yield derived("a write that fails: both entries stand", [[PARENT], [derives(2_000, V(1))], [told(2_001, 4)]], [1_000, 2_000, 2_001], bad_writes=[[], [1]])
    yield derived("a derivation, cut after each byte", [[derives(1_000, V(1))]], [1_000], cut=True)


def many_clients(count):
    """A setup with so many clients more, and a pair for each."""
    keys = [client(f"k{number}", "c2VjcmV0LWtleS1vZi1kMQ==", ["calendar"], []) for number in range(count)]
    return setup_of(*SETUP["keys"], *keys), {"pairs": [{"client": key["id"], "server": "r1"} for key in keys]}


def texts():
    for name, text in [
        ("no byte", ""), ("no JSON", "{"), ("an array", "[]"), ("no member", "{}"), ("no pairs", {"pairs": []}), ("pairs that are no array", {"pairs": {}}),
        ("a number that isn't whole", '{"pairs":[{"client":"d1","server":"r1"}],"x":0.5}'), ("a further member", {**PAIRS, "x": 1}),
        ("a pair that is no object", {"pairs": ["d1"]}), ("a pair without a client", {"pairs": [{"server": "r1"}]}),
        ("a pair without a server", {"pairs": [{"client": "d1"}]}), ("a client that is no string", {"pairs": [{**D1_R1, "client": 1}]}),
        ("a client that the setup doesn't have", {"pairs": [{**D1_R1, "client": "d2"}]}), ("a server as client", {"pairs": [{**D1_R1, "client": "r2"}]}),
        ("a client as server", {"pairs": [{**D1_R1, "server": "c1"}]}), ("a front as server", {"pairs": [{**D1_R1, "server": "f1"}]}),
        ("a client twice", {"pairs": [D1_R1, {**D1_R1, "server": "r2"}]}), ("a pair twice", {"pairs": [D1_R1, D1_R1]}),
        ("a member of a pair that isn't known", {"pairs": [{**D1_R1, "x": 1}]}), ("two clients of one server", {"pairs": [{**D1_R1, "client": "c2"}, D1_R1]}),
        ("the member twice: the last one counts", '{"pairs":[],"pairs":[{"client":"d1","server":"r1"}]}'),
        ("a client twice in a pair: the last one counts", '{"pairs":[{"client":"r2","client":"d1","server":"r1"}]}'),
    ]:
        yield derived("PAIRS with " + name, [[PARENT, derives(2_000, V(1))]], [1_000, 2_000], pairs=text)
    for count in (256, 257):
        setup, pairs = many_clients(count)
        last = asks("calendar", client=f"k{count - 1}", existing_access_token=V(1))
        yield derived(f"PAIRS with {count} pairs", [[PARENT, call("begin", f"k{count - 1}", 2_000, last, secret=D1_SECRET)]], [1_000, 2_000], pairs=pairs, setup=setup)
    for count in (1_048_576, 1_048_577):
        yield derived(f"PAIRS of {count:,} bytes", [[NOT_FOUND]], pairs=compact(PAIRS) + chr(256), runs=[[" ", count - len(compact(PAIRS))]])


def outside():
    plain = derived("", [[NOT_FOUND]])
    setup, pairs = plain["files"]
    words = plain["words"]
    for name, change in [
        ("a setup that is none, before PAIRS", {"files": [["setup", "{}"], pairs]}), ("a setup that is none, and no file PAIRS", {"files": [["setup", "{}"]]}),
        ("no file PAIRS", {"files": [setup]}), ("PAIRS that is none, and no address", {"files": [setup, ["pairs", "{}"]], "words": [*words[:2], "b", *words[3:]]}),
        ("PAIRS can't be opened", {"bad_opens": [2]}), ("the address can't be listened at", {"bad_opens": [3]}), ("PAIRS can't be read", {"bad_reads": [[], [1]]}),
        ("another address", {"words": [*words[:2], "b", *words[3:]]}), ("PAIRS that is an option", {"words": [*words[:5], "-pairs"]}),
        ("PAIRS of no byte", {"words": [*words[:5], ""]}), ("no worker", {"words": [*words[:3], "0", *words[4:]]}), ("six words", {"words": [*words, "x"]}),
        ("the same file twice", {"words": [*words[:5], "setup"]}), ("`sets` takes no PAIRS", {"words": ["sets", *words[1:]]}),
    ]:
        yield {**plain, "name": "pairs: " + name, **change}
    yield derived("the door fails after one connection", [[PARENT], [derives(2_000, V(1))]], [1_000, 2_000], bad_accepts=[2])
    both = derived("two workers at one machine", [[b""]])
    gears = [{"connections": [(PARENT + derives(1_000, V(9))).decode("latin-1")], "moments": [1_000]},
             {"connections": [derives(1_000, V(9)).decode("latin-1") * 3], "moments": [1_000], "draws": [[7]] * 9}]
    yield {**both, "words": ["as", "setup", "a", "2", "1", "pairs"], "gears": gears}


def cases():
    for part in (terms, parents, requests, texts, outside):
        yield from part()
