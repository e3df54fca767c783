"""Scripted runs with interaction: rounds, the calls of the consent front, decisions. The answers are taken from the
documents, and the model has to give them too.
"""

from calls import interaction_hash
from rights import compact
from scripts import (
    BASE, C2, DONE, F1, FRONT, INACTIVE, R1, R2, SETUP, Run, V, active, asks, client, continuing, door, granted,
    looks_at, ok, pending, redirect, refused, server, setup_of, step, token,
)

NONCE = "VJLO6A4CATR0KRO"
CALLBACK = "https://client.example/cb"
INVALID = refused("invalid_request")
DENIED = refused("request_denied")
UNKNOWN = refused("unknown_interaction")
GONE = refused("invalid_continuation")
NO_FINISH = ok({"finish": "none"})
PHOTOS = asks("photos")


def by(*start, **finish):
    """A way to interact."""
    return {"start": list(start), **({"finish": finish} if finish else {})}


def told(serial, method="redirect", uri=CALLBACK, long=False, nonce=3):
    """What the front is told of a decision whose reference has this serial."""
    hash_text = interaction_hash(long, NONCE, V(nonce), V(serial), BASE + "/gnap")
    if method == "push":
        return ok({"body": compact({"hash": hash_text, "interact_ref": V(serial)}), "finish": "push", "uri": uri})
    joint = "&" if "?" in uri else "?"
    return ok({"finish": "redirect", "uri": uri + joint + "hash=" + hash_text + "&interact_ref=" + V(serial)})


def decide(serial, verdict, **further):
    return {"handle": V(serial), "verdict": verdict} | further


def reference(serial):
    return {"interact_ref": V(serial)}


FINISHED = by("redirect", method="redirect", nonce=NONCE, uri=CALLBACK)
MAIL_TOLD = asks("mail", interact=FINISHED)
MAIL_CODE = asks("mail", interact=by("user_code"))
BY_REDIRECT = pending(1, finish=V(3), redirect=redirect(2))
BY_CODE = pending(1, user_code="BBBBBBBB")


def shown(expires_in, *tokens, client="c1", subject=False, **further):
    return ok({"access_token": list(tokens), "client": client, "expires_in": expires_in, "subject": subject, **further})


MANY = setup_of(
    client("c1", "c2VjcmV0LWtleS1vZi1jMQ==", ["photos"], ["mail", {"type": "files", "actions": ["read", "write"]}]),
    C2, server("r1", R1["secret"], ["photos", "mail", "files"]), R2, F1,
)
READ = {"type": "files", "actions": ["read"]}
WRITE = {"type": "files", "actions": ["write"]}

RUNS = [
    Run("a decision told by redirect", SETUP, [
        step(1000, "c1", "begin", MAIL_TOLD, BY_REDIRECT),
        step(1009, "c1", "decide", decide(2, "grant"), refused("invalid_client")),
        step(1010, "f1", "decide", decide(2, "grant"), told(4)),
        step(1010, "f1", "decide", decide(2, "deny"), UNKNOWN),
        step(1010, "f1", "look", {"handle": V(2)}, UNKNOWN),
        step(1011, "c2", "continue", V(1), reference(4), refused("invalid_client")),
        step(1011, "c1", "continue", V(1), reference(4), granted(token(5, ["mail"]), 7)),
        step(1012, "c1", "continue", V(1), GONE),
        step(1012, "c2", "continue", V(7), refused("invalid_client")),
        step(1012, "r1", "introspect", looks_at(5), active(["mail"], 1011, 4611)),
        step(1012, "c1", "continue", V(7), reference(4), refused("too_many_attempts")),
        step(1012, "r1", "introspect", looks_at(5), INACTIVE),
    ]),
    Run("a decision told by push, by SHA-512, and a redirect behind a query", SETUP, [
        step(1000, "c1", "begin", asks("mail", interact=by("redirect", method="push", nonce=NONCE, uri=CALLBACK)),
             BY_REDIRECT),
        step(1000, "f1", "decide", decide(2, "grant"), told(4, "push")),
        step(1000, "c1", "begin", asks("mail", interact=by(
            "redirect", method="push", nonce=NONCE, uri="http://c:8080/x?y=1", hash_method="sha-512")),
             pending(5, finish=V(7), redirect=redirect(6))),
        step(1000, "f1", "decide", decide(6, "deny"), told(8, "push", "http://c:8080/x?y=1", True, nonce=7)),
        step(1000, "c1", "begin", asks("mail", interact=by(
            "redirect", method="redirect", nonce=NONCE, uri=CALLBACK + "?x=1", hash_method="sha-256")),
             pending(9, finish=V(11), redirect=redirect(10))),
        step(1000, "f1", "decide", decide(10, "unknown"), told(12, uri=CALLBACK + "?x=1", nonce=11)),
        step(1000, "c1", "continue", V(5), reference(8), refused("user_denied")),
        step(1000, "c1", "continue", V(9), reference(8), refused("invalid_interaction")),
        step(1000, "c1", "continue", V(9), reference(12), refused("unknown_user")),
        step(1000, "c1", "continue", V(1), reference(4), granted(token(13, ["mail"]), 15)),
    ]),
    Run("polls of a round wait", SETUP, [
        step(1000, "c1", "begin", MAIL_CODE, BY_CODE),
        step(1004, "c1", "continue", V(1), refused("too_fast")),
        step(1005, "c1", "continue", V(1), continuing(3)),
        step(1005, "c1", "continue", V(1), GONE),
        step(1009, "c1", "continue", V(3), refused("too_fast")),
        step(1009, "c1", "continue", V(3), {"interact_ref": ""}, refused("invalid_interaction")),
    ]),
    Run("the time for a decision is over", SETUP, [
        step(1000, "c1", "begin", MAIL_CODE, BY_CODE),
        step(1001, "f1", "find_code", {"code": "bbbb-bbbb"}, ok({"handle": V(2)})),
        step(1001, "f1", "find_code", {"code": " B b-bb\u0020bb-Bb "}, ok({"handle": V(2)})),
        step(1001, "f1", "find_code", {"code": "BBBBBBBC"}, UNKNOWN),
        step(1001, "f1", "find_code", {"code": "BBBBBBBY"}, INVALID),
        step(1001, "f1", "find_code", {"code": "BBBBBBB"}, INVALID),
        step(1001, "c1", "find_code", {"code": "BBBBBBBB"}, refused("invalid_client")),
        step(1599, "r1", "look", {"handle": V(2)}, refused("invalid_client")),
        step(1599, "f1", "look", {"handle": V(1)}, UNKNOWN),
        step(1599, "f1", "look", {}, INVALID),
        step(1599, "f1", "look", {"handle": V(2)}, shown(1, {"access": ["mail"]})),
        step(1600, "f1", "look", {"handle": V(2)}, UNKNOWN),
        step(1600, "f1", "find_code", {"code": "BBBBBBBB"}, UNKNOWN),
        step(1600, "f1", "decide", decide(2, "grant"), UNKNOWN),
        step(1600, "c1", "continue", V(1), refused("invalid_interaction")),
        step(1600, "c1", "continue", V(1), GONE),
    ]),
    Run("a round is over", SETUP, [
        step(1000, "c1", "begin", MAIL_CODE, BY_CODE),
        step(2200, "c1", "continue", V(1), GONE),
    ]),
    Run("a decision is collected until the round is over", SETUP, [
        step(1000, "c1", "begin", MAIL_CODE, BY_CODE),
        step(1599, "f1", "decide", decide(2, "grant"), NO_FINISH),
        step(1000, "c1", "begin", MAIL_CODE, pending(3, user_code="BBBBBBBB")),
        step(2198, "f1", "decide", decide(4, "grant"), NO_FINISH),
        step(2199, "c1", "continue", V(1), granted(token(5, ["mail"]), 7)),
        step(2799, "c1", "continue", V(3), GONE),
    ]),
    Run("codes of live interactions are passed over", SETUP, [
        step(1000, "c1", "begin", MAIL_CODE, pending(1, user_code="ZZZZZZZZ"), draw=[0] * 47 + [25599999999]),
        step(1000, "c1", "begin", MAIL_CODE, pending(3, user_code="BBBBBBBB"), draw=[0] * 47 + [25599999999]),
        step(1000, "c1", "begin", MAIL_CODE, pending(5, user_code="BBBBBBBC"), draw=[0] * 47 + [51199999999]),
        step(1001, "f1", "decide", decide(2, "grant"), NO_FINISH),
        step(1001, "c1", "begin", MAIL_CODE, pending(7, user_code="ZZZZZZZZ"), draw=[0] * 47 + [2 * 20 ** 8 - 1]),
        step(1001, "f1", "find_code", {"code": "ZZZZZZZZ"}, ok({"handle": V(8)})),
        step(1001, "f1", "find_code", {"code": "BBBBBBBC"}, ok({"handle": V(6)})),
        step(1002, "c1", "modify", V(7), asks("mail", interact=by("user_code_uri")),
             pending(9, user_code_uri={"code": "BBBBBBBD", "uri": FRONT + "/code"}), draw=[0] * 47 + [20 ** 8 - 1]),
        step(1002, "f1", "find_code", {"code": "ZZZZZZZZ"}, UNKNOWN),
        step(1002, "f1", "look", {"handle": V(8)}, UNKNOWN),
    ]),
    Run("a redirect has no code", SETUP, [
        step(1000, "c1", "begin", asks("mail", interact=by("redirect")), pending(1, redirect=redirect(2))),
        step(1000, "f1", "find_code", {"code": "BBBBBBBB"}, UNKNOWN),
        step(1000, "f1", "look", {"handle": V(2)}, shown(600, {"access": ["mail"]})),
        step(1000, "c1", "begin", asks("mail", interact=by("app", "redirect", "user_code", "user_code_uri")),
             pending(3, redirect=redirect(4), user_code="BBBBBBBB",
                     user_code_uri={"code": "BBBBBBBB", "uri": FRONT + "/code"})),
        step(1000, "c1", "begin", asks("mail", interact=by()), DENIED),
        step(1000, "c1", "begin", asks("mail", interact=by("app")), DENIED),
        step(1000, "c1", "begin", asks("photos", interact=by("redirect")), granted(token(5, ["photos"]), 7)),
        step(1000, "c2", "begin", asks("mail", client="c2", interact=by("redirect")), DENIED),
    ]),
    Run("the fifth wrong reference ends a grant", SETUP, [
        step(1000, "c1", "begin", MAIL_TOLD, BY_REDIRECT),
        step(1000, "f1", "decide", decide(2, "grant"), told(4)),
        step(1004, "c1", "continue", V(1), refused("too_fast")),
        step(1005, "c1", "continue", V(1), INVALID),
        *[step(1005, "c1", "continue", V(1), {"interact_ref": "x"}, refused("invalid_interaction"))] * 4,
        step(1005, "c1", "continue", V(1), {"interact_ref": "x"}, refused("too_many_attempts")),
        step(1005, "c1", "continue", V(1), reference(4), GONE),
    ]),
    Run("a new round counts wrong references anew", SETUP, [
        step(1000, "c1", "begin", MAIL_TOLD, BY_REDIRECT),
        *[step(1000, "c1", "continue", V(1), {"interact_ref": "x"}, refused("invalid_interaction"))] * 4,
        step(1001, "c1", "modify", V(1), MAIL_TOLD, pending(4, finish=V(6), redirect=redirect(5))),
        step(1001, "f1", "decide", decide(2, "grant"), UNKNOWN),
        *[step(1001, "c1", "continue", V(4), {"interact_ref": "x"}, refused("invalid_interaction"))] * 4,
        step(1600, "f1", "decide", decide(5, "grant"), told(7, nonce=6)),
        step(1600, "c1", "continue", V(4), reference(7), granted(token(8, ["mail"]), 10)),
    ]),
    Run("an undecided round ends at its time, under a reference too", SETUP, [
        step(1000, "c1", "begin", MAIL_TOLD, BY_REDIRECT),
        step(1599, "c1", "continue", V(1), {"interact_ref": ""}, refused("invalid_interaction")),
        step(1600, "c1", "continue", V(1), {"interact_ref": ""}, refused("invalid_interaction")),
        step(1600, "c1", "continue", V(1), {"interact_ref": ""}, GONE),
    ]),
    Run("the user grants a part", SETUP, [
        step(1000, "c1", "begin", asks("mail", "photos", interact=by("user_code")), BY_CODE),
        step(1001, "f1", "decide", decide(2, "grant", access=["mail", "files"]), INVALID),
        step(1001, "f1", "decide", decide(2, "maybe"), INVALID),
        step(1001, "f1", "decide", {"verdict": "grant"}, INVALID),
        step(1002, "f1", "decide", decide(2, "grant", access=["mail"]), NO_FINISH),
        step(1005, "c1", "continue", V(1), granted(token(3, ["mail"]), 5)),
        step(1006, "c1", "modify", V(5), asks("mail"), granted(token(6, ["mail"]), 8)),
        step(1006, "c1", "modify", V(8), asks("photos"), granted(token(9, ["photos"]), 11)),
        step(1006, "c1", "modify", V(11), asks("mail", "photos"), granted(token(12, ["mail", "photos"]), 14)),
    ]),
    Run("the user denies", SETUP, [
        step(1000, "c1", "begin", MAIL_CODE, BY_CODE),
        step(1001, "f1", "decide", decide(2, "deny", access=["anything"]), NO_FINISH),
        step(1004, "c1", "continue", V(1), refused("too_fast")),
        step(1005, "c1", "continue", V(1), refused("user_denied")),
        step(1005, "c1", "continue", V(1), GONE),
    ]),
    Run("the user is unknown", SETUP, [
        step(1000, "c1", "begin", MAIL_CODE, BY_CODE),
        step(1001, "f1", "decide", decide(2, "unknown"), NO_FINISH),
        step(1005, "c1", "continue", V(1), refused("unknown_user")),
        step(1005, "c1", "continue", V(1), GONE),
    ]),
    Run("the user grants nothing", SETUP, [
        step(1000, "c1", "begin", MAIL_CODE, BY_CODE),
        step(1001, "f1", "decide", decide(2, "grant", access=[]), NO_FINISH),
        step(1005, "c1", "continue", V(1), ok({"continue": door(3)})),
        step(1010, "c1", "continue", V(3), continuing(4)),
        step(1010, "c1", "modify", V(4), asks("mail"), DENIED),
        step(1010, "c1", "cancel", V(4), DONE),
    ]),
    Run("an identifier of the user, and a user that the client named", SETUP, [
        step(1000, "c1", "begin", {"client": {"key": "c1"}, "subject": {"sub_id_formats": ["iss_sub", "opaque"]},
                                   "user": {"sub_ids": [1, {"format": "email", "id": "e"},
                                                        {"format": "opaque", "id": "u1"}]},
                                   "interact": by("redirect")},
             pending(1, instance="c1", redirect=redirect(2))),
        step(1000, "f1", "look", {"handle": V(2)}, shown(600, subject=True, user="u1")),
        step(1001, "f1", "decide", decide(2, "grant", subject="s\u00e9\"1"), NO_FINISH),
        step(1005, "c1", "continue", V(1), ok({"continue": door(3), "subject": {
            "sub_ids": [{"format": "opaque", "id": "s\u00e9\"1"}]}})),
        step(1006, "c1", "modify", V(3), {"subject": {"sub_id_formats": ["opaque"]}}, DENIED),
        step(1006, "c1", "begin", asks("photos", subject={"sub_id_formats": ["opaque"]}), DENIED),
        step(1006, "c1", "begin", asks("mail", subject={"sub_id_formats": ["email"]}, user="u2",
                                       interact=by("redirect")), pending(4, redirect=redirect(5))),
        step(1006, "f1", "look", {"handle": V(5)}, shown(600, {"access": ["mail"]}, user="u2")),
        step(1006, "f1", "decide", decide(5, "grant", subject="s1"), NO_FINISH),
        step(1011, "c1", "continue", V(4), granted(token(6, ["mail"]), 8)),
        step(1011, "c1", "begin", {"client": "c1", "subject": {"sub_id_formats": ["email"]},
                                   "interact": by("redirect")}, INVALID),
    ]),
    Run("several tokens of which the user grants some", MANY, [
        step(1000, "c1", "begin", {"client": "c1", "interact": by("redirect"), "access_token": [
            {"access": ["mail", READ], "label": "a", "flags": ["bearer"]}, {"access": [WRITE], "label": "b"},
            {"access": ["photos", WRITE, READ], "label": "c"}]}, pending(1, redirect=redirect(2))),
        step(1000, "f1", "look", {"handle": V(2)}, shown(
            600, {"access": ["mail", READ], "flags": ["bearer"], "label": "a"}, {"access": [WRITE], "label": "b"},
            {"access": ["photos", WRITE, READ], "label": "c"})),
        step(1000, "f1", "decide", decide(2, "grant", access=[dict(READ, actions=["read", "delete"])]), INVALID),
        step(1000, "f1", "decide", decide(2, "grant", access=[READ, READ]), NO_FINISH),
        step(1005, "c1", "continue", V(1), granted([
            token(3, [READ], label="a", flags=["bearer"]), token(5, [READ], label="c")], 7)),
        step(1006, "r1", "introspect", looks_at(3, proof="bearer"), active([READ], 1005, 4605, flags=["bearer"])),
        step(1007, "c1", "modify", V(7), asks(WRITE, interact=FINISHED), pending(8, finish=V(10), redirect=redirect(9))),
        step(1007, "r1", "introspect", looks_at(3), INACTIVE),
        step(1007, "c1", "revoke", V(4), INVALID),
        step(1008, "f1", "decide", decide(9, "grant"), told(11, nonce=10)),
        step(1008, "c1", "continue", V(8), reference(11), granted(token(12, [WRITE]), 14)),
        step(1009, "c1", "modify", V(14), asks(READ), DENIED),
        step(1009, "c1", "modify", V(14), asks(WRITE, "photos"), granted(token(15, [WRITE, "photos"]), 17)),
    ]),
    Run("a modification of a pending grant can be granted at once", SETUP, [
        step(1000, "c1", "begin", MAIL_TOLD, BY_REDIRECT),
        step(1000, "c1", "modify", V(1), asks("mail"), DENIED),
        step(1000, "c1", "modify", V(1), PHOTOS, granted(token(4, ["photos"]), 6)),
        step(1000, "f1", "look", {"handle": V(2)}, UNKNOWN),
        step(1000, "r1", "introspect", looks_at(4), active(["photos"], 1000, 4600)),
        step(2592900, "c1", "modify", V(6), MAIL_CODE, pending(7, expires_in=100, user_code="BBBBBBBB")),
        step(2592900, "r1", "introspect", looks_at(4), INACTIVE),
        step(2592999, "f1", "look", {"handle": V(8)}, shown(1, {"access": ["mail"]})),
        step(2592999, "f1", "decide", decide(8, "grant"), NO_FINISH),
        step(2593000, "c1", "continue", V(7), GONE),
    ]),
    Run("finish URIs and the faults of an interaction", SETUP, [
        *[step(1000, "c1", "begin", asks("mail", interact=interact), INVALID) for interact in (
            by("redirect", method="redirect", nonce=NONCE, uri="ftp://a/b"),
            by("redirect", method="redirect", nonce=NONCE, uri=CALLBACK + "#c"),
            by("redirect", method="redirect", nonce=NONCE, uri=""),
            by("redirect", method="redirect", nonce="", uri=CALLBACK),
            by("redirect", method="redirect", nonce="n" * 257, uri=CALLBACK),
            by("redirect", method="redirect", nonce=NONCE, uri=CALLBACK + "?" + "a" * 2023),
            by("redirect", method="post", nonce=NONCE, uri=CALLBACK),
            by("redirect", method="push", nonce=NONCE),
            by("redirect", method="push", nonce=NONCE, uri=CALLBACK, hash_method="sha-384"),
            {"finish": {"method": "push", "nonce": NONCE, "uri": CALLBACK}}, {"start": "redirect"}, {"start": [1]})],
        step(1000, "c1", "begin", asks("mail", interact={"start": ["redirect"], "hints": 7}),
             pending(1, redirect=redirect(2))),
        step(1000, "c1", "begin", asks("mail", interact=by("redirect", method="push", nonce="n" * 256,
                                                           uri=CALLBACK + "?" + "a" * 2022)),
             pending(3, finish=V(5), redirect=redirect(4))),
        step(1000, "c1", "begin", asks("mail", interact=by("redirect", method="redirect", nonce=NONCE,
                                                           uri="https://client.example")),
             pending(6, finish=V(8), redirect=redirect(7))),
        step(1000, "f1", "decide", decide(7, "grant"), told(9, uri="https://client.example/", nonce=8)),
        step(1000, "c1", "begin", asks("mail", interact=by("redirect", method="redirect", nonce=NONCE,
                                                           uri="HTTPS://Client.Example:443/Cb")),
             pending(10, finish=V(12), redirect=redirect(11))),
        step(1000, "f1", "decide", decide(11, "grant"), told(13, uri="https://client.example/Cb", nonce=12)),
    ]),
    Run("a modification and a cancellation drop a decision", SETUP, [
        step(1000, "c1", "begin", MAIL_TOLD, BY_REDIRECT),
        step(1001, "f1", "decide", decide(2, "grant"), told(4)),
        step(1002, "c1", "modify", V(1), MAIL_CODE, pending(5, user_code="BBBBBBBB")),
        step(1003, "c1", "continue", V(5), reference(4), refused("invalid_interaction")),
        step(1007, "c1", "continue", V(5), continuing(7)),
        step(1008, "f1", "decide", decide(6, "grant"), NO_FINISH),
        step(1009, "c1", "cancel", V(7), DONE),
        step(1012, "c1", "continue", V(7), GONE),
        step(1012, "c1", "begin", MAIL_CODE, pending(8, user_code="BBBBBBBB")),
        step(1012, "c1", "cancel", V(8), DONE),
        step(1012, "f1", "find_code", {"code": "BBBBBBBB"}, UNKNOWN),
        step(1012, "f1", "decide", decide(9, "grant"), UNKNOWN),
    ]),
    Run("a second decision gives a new consent", MANY, [
        step(1000, "c1", "begin", asks("mail", READ, interact=by("redirect")), pending(1, redirect=redirect(2))),
        step(1000, "f1", "decide", decide(2, "grant"), NO_FINISH),
        step(1005, "c1", "continue", V(1), granted(token(3, ["mail", READ]), 5)),
        step(1005, "c1", "modify", V(5), asks(WRITE, "mail", interact=by("redirect")), pending(6, redirect=redirect(7))),
        step(1005, "f1", "decide", decide(7, "grant", access=[WRITE]), NO_FINISH),
        step(1010, "c1", "continue", V(6), granted(token(8, [WRITE]), 10)),
        step(1010, "c1", "modify", V(10), asks("mail"), DENIED),
        step(1010, "c1", "modify", V(10), asks(READ), DENIED),
        step(1010, "c1", "modify", V(10), asks(WRITE), granted(token(11, [WRITE]), 13)),
    ]),
    Run("limits of decisions and of users", SETUP, [
        *[step(1000, "c1", "begin", asks("mail", user=user, interact=by("redirect")), INVALID) for user in (
            "", "u" * 257, "\u00fc" * 129, 1, None, {}, {"sub_ids": {}}, {"sub_ids": []}, {"sub_ids": [1, {"format": "x"}]},
            {"sub_ids": [{"format": "opaque"}]}, {"sub_ids": [{"format": "opaque", "id": ""}, {"format": "opaque", "id": "u"}]},
            {"sub_ids": [{"format": "opaque", "id": "u" * 257}]})],
        *[step(1000, "c1", "begin", asks("mail", subject=subject, interact=by("redirect")), INVALID) for subject in (
            1, None, {}, {"sub_id_formats": "opaque"}, {"sub_id_formats": ["opaque", 1]})],
        step(1000, "c1", "begin", asks("mail", user="\u00fc" * 128, subject={"sub_id_formats": []}, interact=by("redirect")),
             pending(1, redirect=redirect(2))),
        step(1000, "f1", "look", {"handle": V(2)}, shown(600, {"access": ["mail"]}, user="\u00fc" * 128)),
        *[step(1000, "f1", "decide", decide(2, "grant") | members, INVALID) for members in (
            {"access": ["mail"] * 586}, {"access": "mail"}, {"access": [""]}, {"access": [{"actions": ["read"]}]},
            {"subject": ""}, {"subject": "s" * 257}, {"subject": 1}, {"verdict": "Grant"}, {"verdict": None}, {"handle": 2})],
        step(1000, "f1", "decide", INVALID),
        step(1000, "f1", "decide", decide(2, "grant", access=["mail"] * 585, subject="s" * 256), NO_FINISH),
        step(1005, "c1", "continue", V(1), granted(token(3, ["mail"]), 5)),
    ]),
]
