"""Cases of `as` over HTTP: requests signed and sent, and all that can be wrong with them."""

import base64
import hashlib
import json

from http_forms import sent
from rights import compact
from run_cases import ROUTES
from scripts import BASE, SETUP, V, asks
from signatures import Request, signed

SECRETS = {key["id"]: base64.b64decode(key["secret"]) for key in SETUP["keys"]}
PHOTOS = asks("photos")
NOT_FOUND = b"GET /x HTTP/1.1\r\n\r\n"


def introspection(value, server="r1", **more):
    return {"access_token": value, "resource_server": server, **more}


def request(method, target, body=b"", fields=()):
    """A request without a signature."""
    if not isinstance(body, bytes):
        body = compact(body).encode()
    kept = [(b"host", b"as.example"), *fields]
    if body:
        kept.append((b"content-type", b"application/json"))
    return Request(method, target, kept, body)


def nonce_of(message, at):
    """A nonce for a request: another one for each other request."""
    parts = (message.method, message.target, message.joined(b"authorization") or b"", message.body, b"%d" % at)
    return "n-" + hashlib.sha256(b"\n".join(parts)).hexdigest()[:8]


def call(name, key, at, body=None, value=None, **how):
    """The bytes of a signed call; `how` are arguments of `signed`. All but introspections carry a nonce."""
    method, target = (part.encode() for part in ROUTES[name])
    fields = [] if value is None else [(b"authorization", b"GNAP " + value.encode())]
    message = request(method, target, b"" if body is None else body, fields)
    how = {"secret": SECRETS.get(key, b""), "nonce": None if name == "introspect" else nonce_of(message, at), **how}
    return sent(signed(message, BASE, key, created=at, **how))


def latin(*parts):
    return b"".join(parts).decode("latin-1")


def case(name, connections, moments=(), draws=(), setup=SETUP, **more):
    """A case of `as` with one worker. What is given of a gear's faults goes to the gear."""
    gear = {"connections": [latin(*requests) for requests in connections], "moments": list(moments), "draws": list(draws)}
    gear.update({part: more.pop(part) for part in ("bad_accepts", "bad_reads", "rooms", "bad_writes") if part in more})
    return {
        "name": name, "words": ["as", "setup", "a", "1", str(len(connections))], "files": [["setup", compact(setup)]], "gears": [gear], **more,
    }


def head(*lines):
    return b"\r\n".join([*lines, b"", b""])


def whole_runs():
    begin = call("begin", "c1", 1_000, PHOTOS)
    active = call("introspect", "r1", 1_001, introspection(V(1)))
    words = [[2 ** 64 - 1, 1, 2, 3, 4, 5] + [0] * 41 + [77], [6, 7, 8]]
    yield case("a grant request and the introspection of its token, in one piece", [[begin, active]], [1_000, 1_001])
    yield case("a grant request and the introspection of its token, over two connections", [[begin], [active]], [1_000, 1_001])
    yield case("a direct answer draws no words and tells the machine no moment", [[
        NOT_FOUND, call("introspect", "c1", 1_000, introspection("x")), begin, NOT_FOUND,
        call("introspect", "r1", 1_000, introspection(V(1, 2 ** 64 - 1, 1))), call("continue", "c1", 1_000, value=V(3, 4, 5)),
        call("modify", "c1", 1_000, PHOTOS, V(3, 4, 5)),
    ]], [9_000, 1_000, 1_000, 9_000, 1_000, 1_004, 1_005], words)
    yield case("the clock may go back, and now doesn't", [[
        begin, call("introspect", "r1", 4_599, introspection(V(1))), call("introspect", "r1", 4_600, introspection(V(1))),
        call("introspect", "r1", 4_599, introspection(V(1))),
    ]], [1_000, 4_599, 4_600, 4_599])
    last = 253_402_300_799
    yield case("the last moment", [[
        call("begin", "c1", last, PHOTOS), call("introspect", "r1", last, introspection(V(1))), call("continue", "c1", last, value=V(3)),
    ]], [last])
    yield case("a grant that is continued, modified, rotated, revoked and cancelled", [[
        begin, call("continue", "c1", 1_004, value=V(3)), call("continue", "c1", 1_005, value=V(3)),
        call("continue", "c1", 1_010, {}, V(4)), call("modify", "c1", 1_011, PHOTOS, V(5)),
        call("introspect", "r1", 1_011, introspection(V(1))), call("rotate", "c1", 1_012, value=V(7)),
        call("rotate", "c1", 1_012, {"key": "r1"}, V(10)), call("rotate", "c1", 1_012, {"key": 7}, V(10)),
        call("introspect", "r1", 1_012, introspection(V(9), proof="httpsig")), call("revoke", "c1", 1_013, value=V(10)),
    ], [
        call("introspect", "r1", 1_013, introspection(V(9))), call("revoke", "c1", 1_013, value=V(7)),
        call("continue", "c2", 1_014, value=V(8)), call("cancel", "c1", 1_014, value=V(8)),
        call("cancel", "c1", 1_014, value=V(8)), call("continue", "c1", 1_020, {"interact_ref": "x"}, V(8)),
    ]], [1_000, 1_004, 1_005, 1_010, 1_011, 1_011, 1_012, 1_012, 1_012, 1_012, 1_013, 1_013, 1_013, 1_014, 1_014, 1_014, 1_020])


def presented_values():
    begin = call("begin", "c1", 1_000, PHOTOS)
    door = V(3).encode()
    for name, fields in [
        ("the scheme may be in any case", [(b"authorization", b"gNaP " + door)]),
        ("two SP behind the scheme: the second is of the value", [(b"authorization", b"GNAP  " + door)]),
        ("a value past ASCII", [(b"authorization", b"GNAP \xff\xfe")]),
        ("another scheme presents nothing", [(b"authorization", b"Bearer " + door)]),
        ("no Authorization field presents nothing", []),
        ("two Authorization fields present nothing", [(b"authorization", b"GNAP " + door)] * 2),
    ]:
        message = signed_by_c1(request(b"DELETE", b"/continue", fields=fields))
        yield case(name, [[begin, sent(message)]], [1_000])


NAMES = ["@method", "@target-uri", "content-digest"]
TEXT = compact(PHOTOS).encode()


def plain(*fields):
    return request(b"POST", b"/gnap", TEXT, fields)


def signed_by_c1(message, nonce="n1", **how):
    return signed(message, BASE, "c1", SECRETS["c1"], 1_000, nonce, **how)


GOOD = signed_by_c1(plain())


def changed(old, new):
    """The signed request with other bytes in one place."""
    before = sent(GOOD)
    assert before.count(old) == 1
    return before.replace(old, new)


def at_moments():
    for moment in (700, 699, 1_300, 1_301):
        yield case(f"signature: created at 1,000, read at {moment}", [[sent(GOOD)]], [moment])


def changed_requests():
    code = dict(GOOD.fields)[b"signature"]
    other = b"sig1=:" + (b"A" if code[6:7] != b"A" else b"B") + code[7:]
    signed_put = signed_by_c1(request(b"PUT", b"/gnap", TEXT))
    for name, bytes_sent in [
        ("one bit of the signature is changed", changed(code, other)),
        ("the last byte of the body is changed", changed(TEXT, TEXT[:-1] + b" ")),
        ("the target is changed", changed(b"/gnap", b"/gnap?")),
        ("the method isn't the signed one", sent(Request(b"POST", b"/gnap", signed_put.fields, TEXT))),
        ("more blanks in the list than its canonical text has", changed(b'("@method" "@target-uri"', b'(  "@method"   "@target-uri"')),
        ("a blank before a parameter", changed(b";created", b"; created")),
        ("a blank behind the signature", changed(code, code + b" ")),
        ("zeros before a number", changed(b"created=1000", b"created=001000")),
        ("a parameter twice: the last one counts, in the place of the first", changed(
            b';created=1000;keyid="c1";nonce="n1";tag="gnap"', b';created=1;keyid="c1";nonce="n1";tag="gnap";created=1000')),
        ("a label twice: the last one counts", changed(b"sig1=(", b"sig1=1, sig1=(")),
        ("a parameter of the signature", changed(code, code + b";x=1")),
        ("a signature that is a list", changed(code, b"sig1=(" + code[5:] + b")")),
        ("without the padding of the byte sequence", changed(code, code[:-2] + b":")),
        ("no signature", sent(plain())),
        ("no Signature-Input", sent(Request(b"POST", b"/gnap", [pair for pair in GOOD.fields if pair[0] != b"signature-input"], TEXT))),
    ]:
        yield case("signature: " + name, [[bytes_sent]], [1_000])


def changed_bits():
    """A signed grant request, over and over, with another bit changed each time: in the request line, the values of the signature's two fields and of the
    digest, or the body.

    Only `HTTP/1.0` is covered by nothing; where that comes, the request is granted and its nonce taken, so it comes last of all.
    """
    whole = sent(GOOD)
    first, *fields = whole.partition(b"\r\n\r\n")[0].split(b"\r\n")
    values = [field.partition(b": ")[2] for field in fields if field.lower().startswith((b"content-digest", b"signature"))]
    lines = [first, *values, TEXT]
    starts = [whole.index(line) for line in lines]
    ends = [start + len(line) for start, line in zip(starts, lines)]
    pieces = [whole[one:other] for one, other in zip([0, *ends], [*ends, len(whole)])]
    texts = []
    for place, (piece, line) in enumerate(zip(pieces, lines)):
        for at in range(len(piece) - len(line), len(piece)):
            for bit in range(8):
                changed_piece = piece[:at] + bytes([piece[at] ^ 1 << bit]) + piece[at + 1:]
                if changed_piece.startswith(b"POST /gnap HTTP/1.0"):
                    continue
                parts = [latin(changed_piece) if number == place else chr(256 + number) for number in range(len(pieces))]
                texts.append("".join(parts))
    texts += ["".join(chr(256 + number) for number in range(len(pieces))).replace(chr(256), latin(pieces[0].replace(b"HTTP/1.1", b"HTTP/1.0")), 1)]
    row = case("each bit changed that a signed grant request has in its first line, its signature, its digest and its body", [[b""]] * len(texts), [1_000])
    row["gears"][0]["connections"] = texts
    row["runs"] = [[latin(piece), 1] for piece in pieces]
    yield row


def odd_parameters():
    """Parameters whose text isn't the canonical one that the signature base has."""
    for name, value, canonical, text in [
        ("true", ("Boolean", True), b";x", b";x=?1"),
        ("a Decimal", ("Decimal", 1_500), b";x=1.5", b";x=1.500"),
        ("a negative Decimal", ("Decimal", -20), b";x=-0.02", b";x=-00.020"),
        ("a byte sequence", ("Binary", b"a"), b";x=:YQ==:", b";x=:YQ:"),
        ("a Token", ("Token", "*a/b:c'~"), b";x=*a/b:c'~", b";x=*a/b:c'~"),
        ("an empty String", ("String", ""), b';x=""', b';  x=""'),
        ("minus zero", ("Integer", 0), b";x=0", b";x=-0"),
    ]:
        before = sent(signed_by_c1(plain(), more={"x": value}))
        assert before.count(canonical) == 1
        yield case("signature: a parameter that is " + name, [[before.replace(canonical, text)]], [1_000])


def signed_otherwise():
    for name, how in [
        ("the key isn't known", {"key": "c9", "secret": SECRETS["c1"]}),
        ("another key's secret", {"secret": SECRETS["c2"]}),
        ("the key is a resource server's", {"key": "r1"}),
        ("the key is the front's", {"key": "f1"}),
        ("another tag", {"tag": "gnaq"}),
        ("no tag", {"more": {"tag": None}}),
        ("no created", {"more": {"created": None}}),
        ("no keyid", {"more": {"keyid": None}}),
        ("alg is hmac-sha256", {"more": {"alg": ("String", "hmac-sha256")}}),
        ("another alg", {"more": {"alg": ("String", "rsa-pss-sha512")}}),
        ("alg is no String", {"more": {"alg": ("Token", "hmac-sha256")}}),
        ("it expires now", {"more": {"expires": ("Integer", 1_000)}}),
        ("it expired", {"more": {"expires": ("Integer", 999)}}),
        ("a nonce with odd characters", {"nonce": "n\"o\\nce"}),
        ("another label", {"label": "x"}),
        ("the method isn't covered", {"names": NAMES[1:]}),
        ("the target isn't covered", {"names": ["@method", "@authority", "@path", "@query", "@scheme", "content-digest"]}),
        ("the digest isn't covered", {"names": NAMES[:2]}),
        ("more is covered", {"names": ["content-type", "host", "@authority", "@path", "@query", "@scheme", *reversed(NAMES)]}),
    ]:
        yield case("signature: " + name, [[call("begin", at=1_000, body=PHOTOS, **{"key": "c1", **how})]], [1_000])


def other_messages():
    wrong_digest = (b"content-digest", b"sha-256=:AAAA:")
    presented = (b"authorization", b"GNAP x")
    odd = plain((b"x", b"\xff\t\"a"), (b"y", b""), (b"x", b"b"), (b"x", b""))
    for name, message in [
        ("fields of several lines, of no bytes and of bytes past ASCII are covered", signed_by_c1(odd, names=["y", *NAMES, "x"])),
        ("one of another tag beside", signed_by_c1(GOOD, label="sig2", tag="other")),
        ("two of the tag", signed_by_c1(GOOD, label="sig2")),
        ("no digest of the body", signed_by_c1(plain(), names=NAMES[:2], with_digest=False)),
        ("the digest is signed and isn't the body's", signed_by_c1(plain(wrong_digest))),
        ("Authorization isn't covered", signed_by_c1(request(b"DELETE", b"/continue", fields=[presented]), names=NAMES[:2])),
        ("a digest of an empty body that isn't its digest", signed_by_c1(request(b"DELETE", b"/continue", fields=[wrong_digest]))),
    ]:
        yield case("signature: " + name, [[sent(message)]], [1_000])


def digests():
    short, long = (name + b"=:" + base64.b64encode(digest(TEXT).digest()) + b":"
                   for name, digest in ((b"sha-256", hashlib.sha256), (b"sha-512", hashlib.sha512)))
    for name, *lines in [
        ("sha-512 alone", long), ("both", short + b", " + long), ("both, in two lines", long, short), ("one of the two is wrong", short, b"sha-512=:AAAA:"),
        ("an unknown one beside", b"md5=:AAAA:, " + short), ("an unknown one alone", b"md5=:AAAA:"), ("one with a parameter", short + b";x"),
        ("one that is a String", b'sha-256="a"'), ("twice, the last one right", b"sha-256=1, " + short), ("no dictionary", b"sha-256=:"), ("empty", b""),
        ("in capitals", short.replace(b"sha", b"SHA")),
    ]:
        yield case("digest: " + name, [[sent(signed_by_c1(plain(*((b"content-digest", line) for line in lines))))]], [1_000])


def bodies():
    photos = json.dumps(PHOTOS).encode()
    for name, key, route, body in [
        ("it names another client", "c2", "begin", PHOTOS),
        ("it names another resource server", "r1", "introspect", introspection("x", "r2")),
        ("it isn't JSON", "c1", "begin", b"{"),
        ("it is an array", "c1", "begin", b"[]"),
        ("it isn't UTF-8", "c1", "begin", b"{\"client\":\"\xff\"}"),
        ("it is empty", "c1", "begin", None),
        ("a number is a fraction", "c1", "begin", {**PHOTOS, "x": [1.5]}),
        ("the last of two members counts", "c1", "begin", b'{"client":1.5,"access_token":{"access":["photos"]},"client":"c1"}'),
        ("127 levels", "c1", "begin", {**PHOTOS, "x": json.loads("[" * 126 + "]" * 126)}),
        ("128 levels", "c1", "begin", {**PHOTOS, "x": json.loads("[" * 127 + "]" * 127)}),
        ("an escaped client", "c1", "begin", photos.replace(b'"c1"', b'"\\u00631"')),
        ("half of a surrogate pair", "c1", "begin", photos[:-1] + b',"x":"\\ud83d"}'),
        ("a whole surrogate pair", "c1", "begin", photos[:-1] + b',"x":"\\ud83d\\ude00"}'),
        ("a control byte in a text", "c1", "begin", photos[:-1] + b',"x":"\n"}'),
        ("a byte order mark before it", "c1", "begin", b"\xef\xbb\xbf" + photos),
        ("a comma behind the last member", "c1", "begin", photos[:-1] + b",}"),
        ("the greatest and the least number", "c1", "begin", photos[:-1] + b',"x":[18446744073709551615,-9223372036854775808]}'),
        ("a number above the greatest", "c1", "begin", photos[:-1] + b',"x":18446744073709551616}'),
        ("a number below the least", "c1", "begin", photos[:-1] + b',"x":-9223372036854775809}'),
        ("minus zero", "c1", "begin", photos[:-1] + b',"x":-0}'),
        ("an exponent", "c1", "begin", photos[:-1] + b',"x":1e3}'),
        ("a number past all floats", "c1", "begin", photos[:-1] + b',"x":1e999}'),
        ("NaN", "c1", "begin", photos[:-1] + b',"x":NaN}'),
        ("blanks around", "c1", "begin", b" \r\n\t" + photos + b" "),
        ("a continuation's is blank", "c1", "continue", b" "),
        ("a continuation's is null", "c1", "continue", b"null"),
        ("a cancellation's isn't looked at", "c1", "cancel", b"{"),
        ("a revocation's isn't looked at", "c1", "revoke", b"{"),
        ("of another role's call it isn't looked at", "r1", "begin", b"{"),
    ]:
        yield case("body: " + name, [[call(route, key, 1_000, body)]], [1_000])


def long_bodies():
    frame = compact({**PHOTOS, "x": ""}).encode()
    for count in (65_536, 65_537):
        body = frame[:-2] + b"a" * (count - len(frame)) + frame[-2:]
        bytes_sent = call("begin", "c1", 1_000, body)
        filled = case(f"body: {count} bytes", [[bytes_sent, NOT_FOUND]], [1_000])
        text = filled["gears"][0]["connections"][0]
        run = "a" * (count - len(frame))
        filled["gears"][0]["connections"][0] = text.replace(run, chr(256))
        filled["runs"] = [["a", len(run)]]
        yield filled


def cases():
    for part in (
        whole_runs, presented_values, at_moments, changed_requests, changed_bits, odd_parameters, signed_otherwise, other_messages, digests, bodies, long_bodies,
    ):
        yield from part()
