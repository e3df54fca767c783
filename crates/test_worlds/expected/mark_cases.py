"""Lines and messages whose signatures tell a nonce and a moment. The answers are taken from docs/FORMATS.md (section 4), docs/HTTP.md and docs/SIGNATURES.md."""

from http_cases import PHOTOS, SECRETS, call, case, introspection, plain, signed_by_c1
from http_forms import sent
from line_cases import ACTIVE, CALL_LINE_BYTES, DENIED, INVALID, STRANGER, padded, replay_of
from line_cases import file_of as file_of_lines
from scripted_grants import BEGUN
from scripted_interactions import BY_CODE, BY_REDIRECT, GONE, MAIL_CODE, MAIL_TOLD, UNKNOWN, decide, shown
from scripts import DONE, INACTIVE, V, asks, continuing, granted, looks_at, ok, refused, step, token

BY_C2 = asks("photos", client="c2")


def begin(at=1000, key="c1", **told):
    """The line of a grant request, with what its signature says of itself."""
    return step(at, key, "begin", BY_C2 if key == "c2" else PHOTOS, "").line(**told)


def line(at, key, name, *rest, **told):
    return step(at, key, name, *rest, "").line(**told)


def tokens(serial):
    """The answer to a grant request, whose token has this serial."""
    return granted(token(serial, ["photos"]), serial + 2)


def poll(at, value, **told):
    return line(at, "c1", "continue", value, **told)


LONG = "a" * 64
LONG_LETTERS = "\u00e9" * 32

# Each group is one file: its lines after the setup line, each with its answer; None where nothing is printed.
GROUPS = {
    "a repeated line is refused, and its nonce is free when it is forgotten": [
        (begin(nonce="n1"), BEGUN.answer), (begin(1001, created=1000, nonce="n1"), STRANGER), (begin(1301, created=1000, nonce="n1"), STRANGER),
        (begin(1301, created=1301, nonce="n1"), tokens(4)),
    ],
    "a refusal remembers the nonce too": [
        (line(1000, "c1", "begin", MAIL_CODE), BY_CODE), (poll(1004, V(1), nonce="n2"), refused("too_fast")),
        (poll(1005, V(1), nonce="n2", created=1004), STRANGER), (poll(1005, V(1), nonce="n3"), continuing(3)),
    ],
    "a repeated cancellation is taken for what it asks": [
        (BEGUN.line(), BEGUN.answer), (line(1002, "c1", "cancel", V(3), nonce="n4"), DONE), (line(1002, "c1", "cancel", V(3), nonce="n4"), GONE),
    ],
    "nonces are those of a key": [
        (begin(nonce="n1"), tokens(1)), (begin(key="c2", nonce="n1"), tokens(4)), (begin(key="c2", nonce="n1"), STRANGER),
        (begin(nonce="N1"), tokens(7)), (line(1000, "f1", "look", {"handle": "x"}, nonce="n1"), UNKNOWN),
        (line(1000, "f1", "look", {"handle": "x"}, nonce="n1"), STRANGER), (line(1000, "f1", "find_code", {"code": "BBBBBBBB"}, nonce="n1"), STRANGER),
    ],
    "a nonce is remembered for 300 seconds from its creation on": [
        (begin(created=1300, nonce="n1"), tokens(1)), *[(begin(at, created=1300, nonce="n1"), STRANGER) for at in (1300, 1301, 1599, 1600)],
        (begin(1600, created=1600, nonce="n1"), STRANGER), (begin(1601, created=1300, nonce="n1"), STRANGER),
        (begin(1601, created=1601, nonce="n1"), tokens(4)),
    ],
    "a signature is taken up to 300 seconds after its creation": [
        (begin(created=700), tokens(1)), (begin(created=699), STRANGER), (begin(created=0), STRANGER), (begin(created=253_402_300_799), tokens(4)),
        (begin(1301, created=1001), tokens(7)), (begin(1000), STRANGER), (begin(1001), tokens(10)), (line(1000, "c1", "revoke", V(2), created=1000), STRANGER),
        (line(1000, "c1", "revoke", V(2), created=1001), DONE),
    ],
    "cancellations and revocations leave no nonce": [
        (begin(nonce="n1"), tokens(1)), (line(1000, "c1", "revoke", V(2), nonce="n1"), STRANGER), (line(1000, "c1", "cancel", V(3), nonce="n1"), STRANGER),
        (line(1000, "c1", "revoke", V(2), nonce="n2"), DONE), (line(1000, "c1", "revoke", V(2), nonce="n2"), DONE),
        (line(1000, "c1", "cancel", V(3), nonce="n2"), DONE), (begin(nonce="n2"), tokens(4)), (begin(nonce="n2"), STRANGER),
    ],
    "a refused mark counts no wrong reference": [
        (line(1000, "c1", "begin", MAIL_TOLD), BY_REDIRECT), (poll(1004, V(1), nonce="n2"), refused("too_fast")),
        (line(1004, "c1", "continue", V(1), {"interact_ref": "x"}, nonce="n2"), STRANGER),
        *[(line(1004, "c1", "continue", V(1), {"interact_ref": "x"}), refused("invalid_interaction"))] * 4,
        (line(1004, "c1", "continue", V(1), {"interact_ref": "x"}, nonce="n2"), STRANGER),
        (line(1004, "c1", "continue", V(1), {"interact_ref": "x"}), refused("too_many_attempts")),
    ],
    "a refused mark is told before the value that is used up": [
        (line(1000, "c1", "begin", MAIL_CODE), BY_CODE), (poll(1005, V(1), nonce="n2"), continuing(3)), (poll(1005, V(1), nonce="n2"), STRANGER),
        (poll(1005, V(1), nonce="n3"), GONE), (poll(1005, V(1), nonce="n3"), STRANGER), (poll(1010, V(3), nonce="n4"), continuing(4)),
    ],
    "a line without a nonce has its moment and its number": [
        (begin(), tokens(1)), ("", None), (padded(begin(), CALL_LINE_BYTES + 1), "413"), ("{", INVALID), (line(1000, "c1", "begin"), INVALID),
        (begin(), tokens(4)), (begin(nonce="1000-9"), tokens(7)), (begin(), STRANGER), (begin(), tokens(10)), (begin(nonce="1000-2"), STRANGER),
        (begin(nonce="1000-7"), STRANGER), (begin(nonce="1000-10"), STRANGER), (begin(nonce="1000-3"), tokens(13)), (begin(nonce="1000-4"), tokens(16)),
        (begin(nonce="1000-5"), tokens(19)), (begin(nonce="1000-6"), tokens(22)), (begin(nonce="1000-8"), tokens(25)), (begin(nonce="1000-02"), tokens(28)),
    ],
    "nonces and moments that aren't of their form": [
        *[(begin(nonce=nonce), INVALID) for nonce in ("", LONG + "a", LONG_LETTERS + "a", 1, None, ["n"])],
        *[(begin(created=created), INVALID) for created in (-1, 253_402_300_800, "1000", None, 2 ** 64)],
        (begin()[:-1] + ',"created":1000.0}', INVALID), (begin(nonce=LONG), tokens(1)), (begin(nonce=LONG), STRANGER), (begin(nonce=LONG[1:]), tokens(4)),
        (begin(nonce=LONG_LETTERS), tokens(7)), (begin(nonce=LONG_LETTERS), STRANGER), (begin(nonce=" \u0000/"), tokens(10)),
        (begin(nonce="").replace('"begin"', '"dance"'), INVALID), (begin(nonce="n").replace('"begin"', '"dance"'), "404"),
        (begin(created=-1).replace('"begin"', '"dance"'), INVALID), (begin(nonce=1, created=1).replace('"c1"', '"c9"'), INVALID),
        *[(begin(nonce=nonce).replace('"begin"', '"dance"'), answer) for nonce, answer in ((LONG, "404"), (LONG + "a", INVALID), (1, INVALID))],
        (line(1000, "r1", "introspect", looks_at(1), created=-1), INVALID), (line(1000, "r1", "introspect", looks_at(1), nonce=LONG), ACTIVE),
        *[(line(1000, "r1", "introspect", looks_at(1), nonce=nonce), INVALID) for nonce in ("", LONG + "a", 1)],
    ],
    "an introspection uses neither": [
        (BEGUN.line(), BEGUN.answer), *[(line(1001, "r1", "introspect", looks_at(1), nonce="n1", created=0), ACTIVE)] * 2,
        *[(line(4599, "r1", "introspect", looks_at(1), nonce="1000-2", created=1000), ACTIVE)] * 2,
    ],
    "a direct answer remembers nothing": [
        (begin(nonce="n1").replace('"client":"c1"', '"client":"c2"'), STRANGER), (begin(nonce="n1").replace('"photos"', '""'), INVALID),
        (begin(nonce="n1").replace('"key":"c1"', '"key":"r1"'), STRANGER), (begin(nonce="n1"), tokens(1)),
    ],
    "a refused mark lets time go on, and draws nothing": [
        (BEGUN.line(), BEGUN.answer), (begin(4600, created=1000), STRANGER), (line(1001, "r1", "introspect", looks_at(1), ""), INACTIVE), (begin(4600), tokens(4)),
        (begin(4600, created=1000, nonce="n1"), STRANGER), (begin(4600, nonce="n1"), tokens(7)),
    ],
    "a denied request remembers its nonce": [
        (line(1000, "c1", "begin", asks("secrets"), nonce="n1"), DENIED), (begin(nonce="n1"), STRANGER), (begin(nonce="n2"), tokens(1)),
    ],
    "the front decides once": [
        (line(1000, "c1", "begin", MAIL_CODE, nonce="n1"), BY_CODE), (line(1001, "f1", "look", {"handle": V(2)}, nonce="n1"), shown(599, {"access": ["mail"]})),
        (line(1001, "f1", "decide", decide(2, "deny"), nonce="n1"), STRANGER), (line(1001, "f1", "decide", decide(2, "grant"), nonce="n2"), ok({"finish": "none"})),
        (line(1001, "f1", "decide", decide(2, "grant"), nonce="n2"), STRANGER), (line(1001, "f1", "decide", decide(2, "deny"), nonce="n3"), UNKNOWN),
        (line(1005, "c1", "continue", V(1), nonce="n2"), granted(token(3, ["mail"]), 5)),
    ],
}


# over HTTP

def at_1000(name, *connections, moments=(1_000,)):
    return case("nonce: " + name, connections, moments)


def begun(at=1_000, **told):
    return call("begin", "c1", at, PHOTOS, **told)


def messages():
    yield at_1000("a request without one, with one, and the same bytes on another connection", [begun(nonce=None), begun(nonce="n1")], [begun(nonce="n1")])
    yield at_1000("the same bytes on one connection, and others with the nonce", [begun(nonce="n1")] * 2 + [begun(nonce="n1"), begun(1_001, nonce="n1")])
    yield at_1000("that of another key", [begun(nonce="n1"), call("begin", "c2", 1_000, BY_C2, nonce="n1"), begun(nonce="n1")])
    for name, how in [
        ("none", {"nonce": None}), ("a Token", {"more": {"nonce": ("Token", "n1")}}), ("a byte sequence", {"more": {"nonce": ("Binary", b"n1")}}),
        ("an Integer", {"more": {"nonce": ("Integer", 1)}}), ("no value", {"more": {"nonce": ("Boolean", True)}}), ("an empty one", {"nonce": ""}),
        ("64 characters", {"nonce": LONG}), ("65 characters", {"nonce": LONG + "a"}), ("behind the tag", {"nonce": None, "more": {"nonce": ("String", "n1")}}),
    ]:
        yield at_1000(name, [begun(**how)] * 2)
    yield at_1000("a signature that isn't accepted leaves none", [begun(nonce="n1", secret=SECRETS["c2"]), begun(nonce="n1")])
    yield at_1000("a moment before 1970", [call("begin", "c1", -5, PHOTOS, nonce="n1")], [call("begin", "c1", 0, PHOTOS, nonce="n1")], moments=[290])
    yield at_1000("none, and no body", [call("begin", "c1", 1_000, b"{", nonce=None), call("begin", "c1", 1_000, b"{", nonce="n1"), begun(nonce="n1")])
    yield at_1000("the front's requests need one", [call("look", "f1", 1_000, {"handle": V(1)}, nonce=nonce) for nonce in (None, "n1", "n1")])
    looks = [call("introspect", "r1", 1_000, introspection(V(1)), nonce=nonce) for nonce in (None, None, "n1", "n1")]
    yield at_1000("a resource server's needs none", [begun(nonce="n1"), *looks])
    ahead = begun(1_300, nonce="n1")
    yield at_1000("it lasts from the creation on", *[[ahead]] * 6, [begun(1_601, nonce="n1")] * 2, moments=[1_000, 1_300, 1_301, 1_599, 1_600, 1_601])
    yield at_1000("the same bytes a second later and 301 seconds later, and then a new request with it",
                  [begun(nonce="n1")] * 3, [begun(1_301, nonce="n1")] * 2, moments=[1_000, 1_001, 1_301])
    other = signed_by_c1(signed_by_c1(plain(), nonce="n1"), nonce="n2", label="sig2", tag="other")
    yield at_1000("that of another tag isn't looked at", [sent(other), sent(signed_by_c1(plain(), nonce="n2")), sent(other)])
    twice = sent(signed_by_c1(signed_by_c1(plain(), nonce="n1"), nonce="n2", label="sig2"))
    yield at_1000("two signatures of the tag leave none", [twice, begun(nonce="n1"), begun(nonce="n2"), twice])
    by_front = [("look", {"handle": V(2)}), ("find_code", {"code": "BBBBBBBB"}), ("decide", decide(2, "grant"))]
    yield at_1000("each request of the front needs one", [
        call("begin", "c1", 1_000, MAIL_CODE), *[call(name, "f1", 1_000, body, nonce=nonce) for name, body in by_front for nonce in (None, f"n-{name}")]])


def polled(at, serial, nonce, body=None):
    return call("continue", "c1", at, body, V(serial), nonce=nonce)


def continuations():
    """Continuations and cancellations over HTTP, whose bytes come again."""
    wrong, early = {"interact_ref": "x"}, polled(1_004, 1, "n2")
    yield at_1000("a refusal leaves it", [call("begin", "c1", 1_000, MAIL_CODE), early, early, polled(1_005, 1, "n3"), early],
                  moments=[1_000, 1_004, 1_005])
    yield at_1000("a refused one counts no wrong reference", [
        call("begin", "c1", 1_000, MAIL_TOLD), early, polled(1_004, 1, "n2", wrong), *[polled(1_004, 1, f"w{count}", wrong) for count in range(4)],
        polled(1_004, 1, "w3", wrong), polled(1_004, 1, "w4", wrong), polled(1_004, 1, "w5", wrong)], moments=[1_000, 1_004])
    used = polled(1_005, 1, "n2")
    yield at_1000("a refused one is told before the value that is used up", [
        call("begin", "c1", 1_000, MAIL_CODE), used, used, *[polled(1_005, 1, "n3")] * 2, polled(1_010, 3, "n4"),
    ], moments=[1_000, 1_005, 1_005, 1_005, 1_005, 1_010])
    cancelled, revoked = (call(name, "c1", 1_002, value=V(serial), nonce=nonce) for name, serial, nonce in (("cancel", 3, "n4"), ("revoke", 2, "n5")))
    yield at_1000("cancellations and revocations leave none, and are asked for it", [
        begun(nonce="n1"), call("revoke", "c1", 1_002, value=V(2), nonce="n1"), call("cancel", "c1", 1_002, value=V(3), nonce="n1"),
        revoked, revoked, cancelled, cancelled, begun(1_002, nonce="n4"), begun(1_002, nonce="n5"), cancelled], moments=[1_000, 1_002])



def cases():
    yield from (replay_of("mark: " + name, file_of_lines(lines)) for name, lines in GROUPS.items())
    yield from messages()
    yield from continuations()
