"""Scripted runs without interaction. The answers are taken from the documents, and the model has to give them too."""

from scripts import (
    BASE, C2, DONE, F1, INACTIVE, R1, R2, SETUP, Run, V, active, asks, client, continuing, granted, looks_at, ok,
    refused, rotated, server, setup_of, step, token,
)

PHOTOS = asks("photos")
BEGUN = step(1000, "c1", "begin", PHOTOS, granted(token(1, ["photos"]), 3))
INVALID = refused("invalid_request")
DENIED = refused("request_denied")

# rights in full

READ_A = {"type": "t", "actions": ["read", "write"], "locations": ["a"]}
READ_B = {"type": "t", "actions": ["read"], "locations": ["b"]}
READ_AB = {"type": "t", "actions": ["read"], "locations": ["a", "b"]}
WRITE_B = {"type": "t", "actions": ["write"], "locations": ["b"]}
FURTHER = {"type": "u", "limit": {"b": [1, 2], "a": None}, "datatypes": ["", "x", ""], "identifier": ""}
UNION = setup_of(
    client("c1", "c2VjcmV0LWtleS1vZi1jMQ==", [READ_A, READ_B, FURTHER, "photos"], []),
    C2, server("r1", "c2VjcmV0LWtleS1vZi1yMQ==", ["t", "photos"]), server("r2", R2["secret"], ["u"]), F1,
)


def several(*tokens, **further):
    return {"access_token": list(tokens), "client": "c1", **further}


def labelled(label, *rights, **further):
    return {"access": list(rights), "label": label, **further}


RUNS = [
    Run("a token lasts an hour, and time doesn't go back", SETUP, [
        BEGUN,
        step(1001, "r1", "introspect", looks_at(1), active(["photos"], 1000, 4600)),
        step(4599, "r1", "introspect", looks_at(1), active(["photos"], 1000, 4600)),
        step(4600, "r1", "introspect", looks_at(1), INACTIVE),
        step(4599, "r1", "introspect", looks_at(1), INACTIVE),
        step(4600, "c1", "rotate", V(2), refused("invalid_rotation")),
        step(4600, "c1", "revoke", V(2), DONE),
        step(4600, "c1", "modify", V(3), PHOTOS, granted(token(4, ["photos"]), 6)),
        step(4600, "c1", "revoke", V(2), INVALID),
    ]),
    Run("refusals before the machine", SETUP, [
        step(1000, "c9", "begin", PHOTOS, refused("invalid_client")),
        step(1000, "r1", "begin", PHOTOS, refused("invalid_client")),
        step(1000, "c1", "introspect", looks_at(1), refused("invalid_resource_server")),
        step(1000, "r1", "introspect", looks_at(1, server="r2"), refused("invalid_resource_server")),
        step(1000, "c1", "begin", {"client": "c1"}, INVALID),
        step(1000, "c1", "begin", INVALID),
        step(1000, "c1", "begin", asks("photos", client="c2"), refused("invalid_client")),
        step(1000, "c1", "begin", asks("secrets"), DENIED),
        step(1000, "c1", "begin", asks("mail"), DENIED),
        step(9000, "c2", "modify", INVALID),
        step(1000, "r1", "introspect", looks_at(1), INACTIVE),
        BEGUN,
        step(9000, "c9", "revoke", V(2), refused("invalid_client")),
        step(1001, "r1", "introspect", looks_at(1), active(["photos"], 1000, 4600)),
    ]),
    Run("words make the values", SETUP, [
        step(1000, "c1", "begin", PHOTOS, draw=[2 ** 64 - 1, 2 ** 64 - 1, 0, 1, 2], *[
            ok({"access_token": {"access": ["photos"], "expires_in": 3600, "manage": {
                "access_token": {"value": V(2, 0, 1)}, "uri": BASE + "/token"},
                "value": "AAAAAAAAAAH_____________________"},
                "continue": {"access_token": {"value": V(3, 2, 0)}, "uri": BASE + "/continue", "wait": 5}})]),
    ]),
    Run("rights are covered together, and an absent dimension is no wildcard", UNION, [
        step(1000, "c1", "begin", asks(READ_AB), granted(token(1, [READ_AB]), 3)),
        step(1000, "c1", "begin", asks(WRITE_B), DENIED),
        step(1000, "c1", "begin", asks({"type": "t"}), DENIED),
        step(1000, "c1", "begin", asks({"type": "t", "actions": ["read"]}), DENIED),
        step(1000, "c1", "begin", asks(dict(READ_B, identifier="i")), DENIED),
        step(1000, "c1", "begin", asks(dict(READ_B, further=1)), DENIED),
        step(1000, "c1", "begin", asks("t"), DENIED),
        step(1000, "c1", "begin", asks(READ_A, FURTHER, "photos", READ_A),
             granted(token(4, [READ_A, FURTHER, "photos", READ_A]), 6)),
        step(1001, "r1", "introspect", looks_at(4), active([READ_A, "photos", READ_A], 1000, 4600)),
        step(1001, "r2", "introspect", looks_at(4, server="r2"), active([FURTHER], 1000, 4600)),
        step(1001, "c1", "begin", asks(dict(FURTHER, limit={"a": None, "b": [2, 1]})), DENIED),
        step(1001, "c1", "begin", asks(dict(FURTHER, datatypes=["x"])),
             granted(token(7, [dict(FURTHER, datatypes=["x"])]), 9)),
        step(1001, "r1", "introspect", looks_at(4, access=[READ_AB]), INACTIVE),
        step(1001, "r1", "introspect", looks_at(4, access=[dict(READ_A, actions=["write"]), "photos"]),
             active([READ_A, "photos", READ_A], 1000, 4600)),
        step(1001, "r1", "introspect", looks_at(4, access=[{"type": "t"}]), INACTIVE),
        step(1001, "r1", "introspect", looks_at(4, access=[{"type": "u"}]), refused("invalid_access")),
        step(1001, "r1", "introspect", looks_at(4, access=["u"]), refused("invalid_access")),
    ]),
    Run("several tokens, labels, flags and bearer tokens", SETUP, [
        step(1000, "c1", "begin", several(labelled("a", "photos"), labelled("b", "photos", flags=["bearer"]),
                                          client={"key": "c1"}),
             granted([token(1, ["photos"], label="a"), token(3, ["photos"], label="b", flags=["bearer"])], 5,
                     instance_id="c1")),
        step(1000, "r1", "introspect", looks_at(3), active(["photos"], 1000, 4600, flags=["bearer"])),
        step(1000, "r1", "introspect", looks_at(3, proof="bearer"), active(["photos"], 1000, 4600, flags=["bearer"])),
        step(1000, "r1", "introspect", looks_at(3, proof="httpsig"), INACTIVE),
        step(1000, "r1", "introspect", looks_at(1, proof="bearer"), INACTIVE),
        step(1000, "r1", "introspect", looks_at(1, proof="httpsig"), active(["photos"], 1000, 4600)),
        step(1000, "r1", "introspect", looks_at(1, proof="mtls"), INVALID),
        step(1000, "c1", "begin", several(labelled("a", "photos"), labelled("a", "photos")), INVALID),
        step(1000, "c1", "begin", several(labelled("a", "photos"), {"access": ["photos"]}), INVALID),
        step(1000, "c1", "begin", several(*[labelled(str(n), "photos") for n in range(9)]), INVALID),
        step(1000, "c1", "begin", several(), INVALID),
        step(1000, "c1", "begin", {"access_token": labelled("b", "photos", flags=["bearer", "bearer"]), "client": "c1"},
             refused("invalid_flag")),
        step(1000, "c1", "begin", {"access_token": labelled("b", "photos", flags=["x", "x"]), "client": "c2"},
             refused("invalid_client")),
        step(1000, "c1", "begin", {"access_token": {"access": ["photos"], "flags": ["durable"]}, "client": "c1"},
             granted(token(6, ["photos"]), 8)),
        step(1000, "c1", "begin", several(labelled("a", "photos")), granted([token(9, ["photos"], label="a")], 11)),
        step(1001, "c1", "rotate", V(4), rotated(token(12, ["photos"], label="b", flags=["bearer"]))),
        step(1001, "r1", "introspect", looks_at(3), INACTIVE),
        step(1001, "r1", "introspect", looks_at(12, proof="bearer"), active(["photos"], 1001, 4601, flags=["bearer"])),
        step(1002, "c1", "begin", several(*[labelled(str(n), "photos") for n in range(8)]),
             granted([token(14 + 2 * n, ["photos"], label=str(n)) for n in range(8)], 30)),
    ]),
    Run("a resource server hears of what it serves alone", SETUP, [
        BEGUN,
        step(1002, "r2", "introspect", looks_at(1, server="r2"), INACTIVE),
        step(1002, "r2", "introspect", looks_at(1, server="r2", access=["photos"]), refused("invalid_access")),
        step(1002, "r1", "introspect", looks_at(1, server="r2"), refused("invalid_resource_server")),
        step(1002, "r1", "introspect", looks_at(1, server={"key": "r1"}, access=["photos"]),
             active(["photos"], 1000, 4600)),
        step(1002, "r1", "introspect", looks_at(1, access=["photos", "mail"]), INACTIVE),
        step(1002, "r1", "introspect", looks_at(2), INACTIVE),
        step(1002, "r1", "introspect", looks_at(1, access=[]), INVALID),
        step(1002, "r1", "introspect", {"resource_server": "r1"}, INVALID),
    ]),
    Run("a continuation value works once, and polls wait", SETUP, [
        BEGUN,
        step(1004, "c1", "continue", V(3), refused("too_fast")),
        step(1005, "c2", "continue", V(3), refused("invalid_client")),
        step(1005, "c1", "continue", V(3), continuing(4)),
        step(1010, "c1", "continue", V(3), refused("invalid_continuation")),
        step(1010, "c2", "continue", V(3), refused("invalid_continuation")),
        step(1009, "c1", "continue", V(4), continuing(5)),
        step(1014, "c1", "continue", V(5), refused("too_fast")),
        step(1015, "c1", "continue", V(5), {"interact_ref": 1}, INVALID),
        step(1015, "c1", "continue", V(5), {}, continuing(6)),
        step(1015, "c1", "continue", refused("invalid_continuation")),
        step(1015, "r1", "introspect", looks_at(1), active(["photos"], 1000, 4600)),
    ]),
    Run("a reference for an approved grant ends it", SETUP, [
        BEGUN,
        step(1001, "c1", "continue", V(3), {"interact_ref": "x"}, refused("too_many_attempts")),
        step(1001, "r1", "introspect", looks_at(1), INACTIVE),
        step(1001, "c1", "continue", V(3), refused("invalid_continuation")),
        step(1001, "c1", "rotate", V(2), refused("invalid_rotation")),
        step(1001, "c1", "revoke", V(2), INVALID),
    ]),
    Run("rotation and revocation", SETUP, [
        BEGUN,
        step(1001, "c2", "rotate", V(2), refused("invalid_client")),
        step(1001, "c2", "revoke", V(2), refused("invalid_client")),
        step(1001, "c1", "rotate", V(2), {"key": "c 2"}, INVALID),
        step(1002, "c1", "rotate", V(2), rotated(token(4, ["photos"]))),
        step(1002, "r1", "introspect", looks_at(1), INACTIVE),
        step(1002, "r1", "introspect", looks_at(4), active(["photos"], 1002, 4602)),
        step(1002, "c1", "rotate", V(2), refused("invalid_rotation")),
        step(1002, "c2", "rotate", V(2), refused("invalid_rotation")),
        step(1002, "c1", "rotate", V(5), {"key": "r1"}, refused("invalid_rotation")),
        step(1002, "c1", "revoke", V(5), DONE),
        step(1002, "c1", "revoke", V(5), {"any": "body"}, DONE),
        step(1002, "r1", "introspect", looks_at(4), INACTIVE),
        step(1002, "c1", "rotate", V(5), refused("invalid_rotation")),
        step(1002, "c1", "revoke", V(2), INVALID),
        step(1005, "c1", "continue", V(3), continuing(6)),
    ]),
    Run("modification and cancellation", SETUP, [
        BEGUN,
        step(1001, "c2", "modify", V(3), PHOTOS, refused("invalid_client")),
        step(1001, "c1", "modify", V(3), PHOTOS, granted(token(4, ["photos"]), 6)),
        step(1001, "r1", "introspect", looks_at(1), INACTIVE),
        step(1001, "c1", "modify", V(3), PHOTOS, refused("invalid_continuation")),
        step(1001, "c1", "modify", V(6), asks("mail"), DENIED),
        step(1001, "r1", "introspect", looks_at(4), active(["photos"], 1001, 4601)),
        step(1001, "c1", "modify", V(6), PHOTOS, granted(token(7, ["photos"]), 9)),
        step(1001, "c2", "cancel", V(9), refused("invalid_client")),
        step(1001, "c1", "cancel", V(9), DONE),
        step(1001, "c1", "cancel", V(9), refused("invalid_continuation")),
        step(1001, "r1", "introspect", looks_at(7), INACTIVE),
        step(1001, "c1", "revoke", V(8), INVALID),
        step(1001, "c1", "modify", V(9), PHOTOS, refused("invalid_continuation")),
    ]),
    Run("a modification names no client, and may ask in another way", SETUP, [
        BEGUN,
        step(1001, "c1", "modify", V(3), {"access_token": [labelled("x", "photos")], "client": "c2", "user": 7},
             granted([token(4, ["photos"], label="x")], 6)),
        step(1002, "c1", "modify", V(6), {"access_token": {"access": ["photos"], "flags": ["bearer"]}},
             granted(token(7, ["photos"], flags=["bearer"]), 9)),
        step(1003, "c1", "revoke", V(8), DONE),
        step(1003, "c1", "modify", V(9), {"subject": {"sub_id_formats": ["opaque"]}}, DENIED),
        step(1003, "c1", "revoke", V(8), DONE),
        step(1003, "c1", "modify", V(9), PHOTOS, granted(token(10, ["photos"]), 12)),
        step(1003, "c1", "revoke", V(8), INVALID),
    ]),
    Run("a grant ends after 30 days, and its tokens with it", SETUP, [
        BEGUN,
        step(2592900, "c1", "modify", V(3), PHOTOS, granted(token(4, ["photos"], expires_in=100), 6)),
        step(2592950, "c1", "rotate", V(5), rotated(token(7, ["photos"], expires_in=50))),
        step(2592999, "r1", "introspect", looks_at(7), active(["photos"], 2592950, 2593000)),
        step(2592999, "c1", "continue", V(6), continuing(9)),
        step(2593000, "r1", "introspect", looks_at(7), INACTIVE),
        step(2593000, "c1", "rotate", V(8), refused("invalid_rotation")),
        step(2593000, "c1", "revoke", V(8), INVALID),
        step(2593000, "c2", "modify", V(9), PHOTOS, refused("invalid_continuation")),
    ]),
]

# a replay has no signatures, so what a second one has to say of a new key isn't asked of its lines

REPLAYS = [
    Run("a token is moved to another client's key", SETUP, [
        BEGUN,
        step(1001, "c2", "rotate", V(2), {"key": "c2"}, refused("invalid_client")),
        step(1001, "c1", "rotate", V(2), {"key": "r1"}, refused("invalid_rotation")),
        step(1001, "c1", "rotate", V(2), {"key": "f1"}, refused("invalid_rotation")),
        step(1001, "c1", "rotate", V(2), {"key": "c9"}, refused("invalid_rotation")),
        step(1002, "c1", "rotate", V(2), {"key": "c2"}, rotated(token(4, ["photos"]))),
        step(1003, "r1", "introspect", looks_at(1), INACTIVE),
        step(1003, "r1", "introspect", looks_at(4), active(["photos"], 1002, 4602, key="c2")),
        step(1003, "c1", "rotate", V(5), refused("invalid_client")),
        step(1003, "c1", "rotate", V(5), {"key": "c1"}, refused("invalid_client")),
        step(1003, "c1", "rotate", V(5), {"key": "r1"}, refused("invalid_client")),
        step(1003, "c1", "rotate", V(2), {"key": "c2"}, refused("invalid_rotation")),
        step(1003, "c2", "rotate", V(5), rotated(token(6, ["photos"]))),
        step(1003, "r1", "introspect", looks_at(6), active(["photos"], 1003, 4603, key="c2")),
        step(1004, "c1", "revoke", V(7), refused("invalid_client")),
        step(1004, "r1", "introspect", looks_at(6), active(["photos"], 1003, 4603, key="c2")),
        step(1004, "c2", "revoke", V(7), DONE),
        step(1004, "c1", "revoke", V(7), refused("invalid_client")),
        step(1004, "r1", "introspect", looks_at(6), INACTIVE),
        step(1004, "c2", "rotate", V(7), {"key": "c1"}, refused("invalid_rotation")),
    ]),
    Run("a token is moved to another key and back, and the grant stays the first client's", SETUP, [
        BEGUN,
        step(1001, "c1", "rotate", V(2), {"key": "c1"}, rotated(token(4, ["photos"]))),
        step(1001, "r1", "introspect", looks_at(4), active(["photos"], 1001, 4601)),
        step(1001, "c1", "rotate", V(5), {"key": "c2"}, rotated(token(6, ["photos"]))),
        step(1002, "c2", "rotate", V(7), {"key": "c1"}, rotated(token(8, ["photos"]))),
        step(1002, "c2", "revoke", V(9), refused("invalid_client")),
        step(1002, "c1", "rotate", V(9), {"key": "c2"}, rotated(token(10, ["photos"]))),
        step(1002, "c2", "modify", V(3), PHOTOS, refused("invalid_client")),
        step(1002, "r1", "introspect", looks_at(10), active(["photos"], 1002, 4602, key="c2")),
        step(1002, "c1", "modify", V(3), PHOTOS, granted(token(12, ["photos"]), 14)),
        step(1002, "r1", "introspect", looks_at(10), INACTIVE),
        step(1002, "c2", "revoke", V(11), INVALID),
        step(1002, "r1", "introspect", looks_at(12), active(["photos"], 1002, 4602)),
        step(1003, "c1", "rotate", V(13), {"key": "c2"}, rotated(token(15, ["photos"]))),
        step(1003, "c1", "cancel", V(14), DONE),
        step(1003, "r1", "introspect", looks_at(15), INACTIVE),
        step(1003, "c2", "rotate", V(16), refused("invalid_rotation")),
    ]),
    Run("a bearer token is moved to no key", SETUP, [
        step(1000, "c1", "begin", {"access_token": labelled("b", "photos", flags=["bearer"]), "client": "c1"},
             granted(token(1, ["photos"], label="b", flags=["bearer"]), 3)),
        step(1001, "c1", "rotate", V(2), {"key": "c2"}, refused("invalid_rotation")),
        step(1001, "c1", "rotate", V(2), {"key": "c1"}, refused("invalid_rotation")),
        step(1001, "c2", "rotate", V(2), {"key": "c2"}, refused("invalid_client")),
        step(1001, "c1", "rotate", V(2), rotated(token(4, ["photos"], label="b", flags=["bearer"]))),
    ]),
]
