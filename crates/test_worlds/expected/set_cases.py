"""Cases of `sets`: sets of rights that are registered, references that are resolved, and all that can be wrong with such requests."""

from http_cases import BASE, NOT_FOUND, SECRETS, case as server_case, head, latin, request
from http_forms import sent
from scripts import F1, R1, R2, V, setup_of
from signatures import signed

# Both servers serve photos.
SHARING = setup_of(R1, {**R2, "serves": ["photos"]}, F1)
FULL = {"actions": ["read", "send"], "type": "mail", "x": {"b": 1, "a": [None]}}


def case(name, connections, moments=(1_000,), draws=(), **more):
    """A case of `sets` with one worker."""
    served = server_case("sets: " + name, connections, moments, draws, **more)
    return {**served, "words": ["sets", *served["words"][1:]]}


def by(key, path, body, method=b"POST", at=1_000, **how):
    """A request to a path, signed by a key; `how` are arguments of `signed`."""
    how = {"secret": SECRETS.get(key, b""), "nonce": None, **how}
    return sent(signed(request(method, path, body), BASE, key, created=at, **how))


def registration(access, server="r1", **more):
    return {"access": access, "resource_server": server, **more}


def registered(key, access, **how):
    return by(key, b"/resource", registration(access, key), **how)


def resolved(key, reference, **how):
    return by(key, b"/resolve", {"resource_reference": reference}, **how)


def meanings():
    yield case("a set, the same again, what isn't served, and what references mean", [[
        registered("r1", ["photos"]), registered("r1", ["photos"]), registered("r1", ["calendar"]), resolved("f1", V(1)), resolved("f1", V(2)),
        resolved("c1", V(1)), resolved("r1", V(1)), resolved("r2", V(1)),
    ]])
    yield case("another order, a right twice, and other members are other sets", [[
        registered("r1", ["photos", "mail"]), registered("r1", ["mail", "photos"]), registered("r1", ["photos", "photos"]), registered("r1", ["photos"]),
        registered("r1", [FULL]), registered("r1", [{**FULL, "actions": ["send", "read"]}]), registered("r1", [{"x": {"a": [None], "b": 1}, **FULL}]),
        registered("r1", [{**FULL, "x": {"b": 2, "a": [None]}}]), registered("r1", [{"type": "mail", "actions": ["read", "send"]}]),
        registered("r1", ["mail"]), registered("r1", [{"type": "mail"}]), *(resolved("r1", V(serial)) for serial in range(1, 12)),
    ]])
    yield case("the same rights of another server are another set", [[
        registered("r1", ["photos"]), registered("r2", ["photos"]), registered("r1", ["photos"]), registered("r2", ["photos"]),
        *(resolved(asker, V(serial)) for asker in ("r1", "r2", "f1") for serial in (1, 2)),
    ]], setup=SHARING)
    yield case("a signed body that comes again, also with a nonce", [[
        *[registered("r1", ["photos"], nonce="n1")] * 2, *[resolved("f1", V(1), nonce="n1")] * 2, *[resolved("f1", V(1))] * 2,
    ]])
    words = [[2 ** 64 - 1, 1, 5], [7, 8], [9], [3, 4]]
    yield case("the words of a call are its own, and a known set draws too", [[
        registered("r1", ["photos"]), registered("r1", ["photos"]), registered("r2", ["calendar"]), resolved("r1", V(1, 2 ** 64 - 1, 1)),
        registered("r1", ["mail"]), NOT_FOUND, resolved("r2", V(2, 9)), resolved("r2", V(2)),
    ]], draws=words)
    yield case("a reference that is no value", [[resolved("f1", text) for text in ("", "x", V(0), V(1), V(1) + "A", "\u00e9", "A" * 300)]])
    yield case("a moment tells a set nothing", [[
        registered("r1", ["photos"], at=2_000), registered("r1", ["photos"]), resolved("f1", V(1), at=253_402_300_799),
    ]], [2_000, 1_000, 253_402_300_799])
    yield {**case("two workers at one machine", [[registered("r1", ["photos"])] * 3]), "words": ["sets", "setup", "a", "2", "1"], "gears": [
        {"connections": [latin(registered("r1", ["photos"]) * 3)], "moments": [1_000]},
        {"connections": [latin(resolved("f1", "x") * 3)], "moments": [1_000], "draws": [[7]] * 9},
    ]}
    # All calls draw the same words, so one more set would show by its serial alone, whichever worker is first.
    yield {**case("two workers register one set, each 500 times", [[b""]]), "words": ["sets", "setup", "a", "2", "1"], "gears": [
        {"connections": [chr(256)], "moments": [1_000]} for _ in range(2)
    ], "runs": [[latin(registered("r1", ["photos"])), 500]]}


def refusals():
    photos = registration(["photos"])
    yield case("who may ask", [[
        *(by(key, b"/resource", registration(["photos"], key)) for key in ("c1", "f1", "r9")), resolved("c1", V(1)), resolved("r9", V(1)),
        sent(request(b"POST", b"/resource", photos)), sent(request(b"POST", b"/resolve", {"resource_reference": V(1)})),
        by("r1", b"/resource", photos, secret=SECRETS["r2"]), by("r1", b"/resource", photos, at=1), by("r1", b"/resource", photos, nonce="n1"),
    ]])
    yield case("for another server than the signer", [[
        by("r1", b"/resource", registration(["photos"], "r2")), by("r1", b"/resource", registration(["photos"], {"key": "r2"})),
        by("r1", b"/resource", registration(["photos"], {"key": "r1"})), by("r2", b"/resource", registration(["photos"], "r2")),
    ]])
    yield case("bodies of a registration", [[by("r1", b"/resource", body) for body in (
        b"", b"{", b"[]", {}, {"resource_server": "r1"}, {"access": ["photos"]}, registration([]), registration("photos"), registration({"photos": 1}),
        registration([1]), registration([""]), registration(["photos"] * 16), registration(["photos"] * 17), registration(["photos"], 1),
        registration(["photos"], {}), registration(["photos"], "a b"), registration([{"type": "photos", "x": 1.5}]), registration([], "r2"),
        registration(["photos"], x=1), registration(["photos"], x=1.5), registration(["photos"], "r2", x=1.5),
    )]])
    yield case("bodies of a resolution", [[by("f1", b"/resolve", body) for body in (
        b"", b"{", b"[]", {}, {"resource_reference": 1}, {"resource_reference": None}, {"resource_reference": "x", "y": 1},
        {"resource_reference": V(1), "y": 0.5},
    )]])
    rest = len('[{"type":"photos","x":""}]')
    yield case("rights of 4,096 bytes, and of one more", [[
        registered("r1", [{"type": "photos", "x": "b" * (count - rest)}]) for count in (4_096, 4_097)
    ]])
    yield case("a body that isn't the one that was signed", [[registered("r1", ["photos"]).replace(b"photos", b"albums")]])


def routes():
    for method, target in [
        ("GET", "/resource"), ("post", "/resource"), ("GET", "/resolve"), ("DELETE", "/resolve?x"), ("POST", "/resource/"), ("POST", "/gnap"),
        ("POST", "/introspect"), ("GET", "/.well-known/gnap-as-rs"), ("POST", "/"), ("POST", "/?/resource"),
    ]:
        yield case(f"route: {method} {target}", [[head(f"{method} {target} HTTP/1.1".encode())]])
    yield case("route: a signed query", [[by("r1", b"/resource?x=1", registration(["photos"]))]])


def ends():
    body = registration(["photos"])
    yield case("a registration that closes, and one behind it", [[
        sent(signed(request(b"POST", b"/resource", body, [(b"connection", b"close")]), BASE, "r1", SECRETS["r1"], 1_000)), registered("r1", ["photos"]),
    ], [resolved("f1", V(1))]])
    yield case("a set stands whose reply can't be written", [[registered("r1", ["photos"])], [resolved("f1", V(1))]], bad_writes=[[1]])
    yield case("a registration and a resolution, cut after each byte", [[registered("r1", ["photos"]), resolved("f1", V(1))]], cut=True)


def words():
    plain = case("", [[NOT_FOUND]])
    for name, words_given in [
        ("no file of that name", ["other", "a", "1", "1"]), ("another address", ["setup", "b", "1", "1"]), ("no worker", ["setup", "a", "0", "1"]),
        ("65 workers", ["setup", "a", "65", "1"]), ("a quota above 1,000,000", ["setup", "a", "1", "1000001"]), ("an option", ["-setup", "a", "1", "1"]),
        ("one word too few", ["setup", "a", "1"]), ("one word too many", ["setup", "a", "1", "1", "1"]), ("a quota of 0", ["setup", "a", "1", "0"]),
    ]:
        yield {**plain, "name": "sets: words: " + name, "words": ["sets", *words_given]}
    yield {**plain, "name": "sets: a setup that is none", "files": [["setup", "{}"]]}
    yield case("the address can't be listened at", [[NOT_FOUND]], bad_opens=[2])
    yield case("the door fails after one connection", [[registered("r1", ["photos"])], [NOT_FOUND]], bad_accepts=[2])


def cases():
    for part in (meanings, refusals, routes, ends, words):
        yield from part()
