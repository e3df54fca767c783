"""Cases of `as` over HTTP: rotations that name a key, which has to sign too. Written from docs/HTTP.md and docs/SIGNATURES.md."""

import base64

from http_cases import PHOTOS, SECRETS, call, case, introspection, request
from http_forms import sent
from scripts import BASE, V
from signatures import Request, digest_field, mac, signed, signed_again

BYTES, LIST = ("signature", "sig1"), ("signature-input", "sig1")
BEGIN = call("begin", "c1", 1_000, PHOTOS)
LOOK = call("introspect", "r1", 1_001, introspection(V(1)))
BEARER = {"access_token": {"access": ["photos"], "flags": ["bearer"]}, "client": "c1"}


def rotation(named=None, label="sig1", value=2, key="c1", nonce="n2"):
    """A rotation of a token, to this key where there is one, signed by the key that has it; the management value has this serial."""
    body = b"" if named is None else {"key": named}
    message = request(b"POST", b"/token", body, [(b"authorization", b"GNAP " + V(value).encode())])
    return signed(message, BASE, key, SECRETS[key], 1_001, nonce, label=label)


def again(message, key, created=1_001, secret=None, covers=(BYTES, LIST), label="sig2"):
    """The message, signed by this key too."""
    return signed_again(message, BASE, key, SECRETS[secret or key], created, covers, label)


def turned(message):
    """The message with its last two fields before the two that are before them."""
    fields = message.fields
    return Request(message.method, message.target, fields[:-4] + fields[-2:] + fields[-4:-2], message.body)


def in_one_line(message):
    """The message with each of the two fields of its signatures in one line."""
    names = (b"signature-input", b"signature")
    others = [(name, value) for name, value in message.fields if name not in names]
    return Request(message.method, message.target, others + [(name, message.joined(name)) for name in names], message.body)


# what c2 signs, written out

FIRST_LIST = '("@method" "@target-uri" "content-digest" "authorization");created=1001;keyid="c1";nonce="n2";tag="gnap"'
SECOND_TEXT = """"@method": POST
"@target-uri": https://as.example/token
"content-digest": %s
"authorization": GNAP AAAAAAAAAAIAAAAAAAAAAAAAAAAAAAAA
%s
"@signature-params": %s"""
BYTES_LINE = '"signature";key="sig1": %s'
LIST_LINE = '"signature-input";key="sig1": ' + FIRST_LIST


def written_out(*covered):
    """The rotation to c2 whose second signature covers these lines of signatures behind the rest, over the text as it is written above."""
    message = rotation("c2")
    first = dict(message.fields)[b"signature"].decode().removeprefix("sig1=")
    names = " ".join(line.partition(": ")[0] for line in covered)
    second = f'("@method" "@target-uri" "content-digest" "authorization" {names});created=1001;keyid="c2";tag="gnap-rotate"'
    lines = "\n".join(line.replace("%s", first) for line in covered)
    text = SECOND_TEXT % (digest_field(message.body).decode(), lines, second)
    code = base64.b64encode(mac(SECRETS["c2"], text.encode()))
    message.fields.extend([(b"signature-input", b"sig2=" + second.encode()), (b"signature", b"sig2=:" + code + b":")])
    return message


def rotations():
    to_c2 = rotation("c2")
    return [
        ("c2 signs over c1", again(to_c2, "c2")),
        ("the text that c2 signs", written_out(BYTES_LINE, LIST_LINE)),
        ("the text that c2 signs, without the first one's bytes", written_out(LIST_LINE)),
        ("the text that c2 signs, with the first one's bytes twice", written_out(BYTES_LINE, LIST_LINE, BYTES_LINE)),
        ("the two signatures in one line of each field", in_one_line(again(to_c2, "c2"))),
        ("the second signature before the first", turned(again(to_c2, "c2"))),
        ("the first signature under another label", again(rotation("c2", "a"), "c2", covers=(("signature", "a"), ("signature-input", "a")))),
        ("the second signature under another label", again(to_c2, "c2", label="b")),
        ("it covers the whole field of lists too", again(to_c2, "c2", covers=(("signature-input", None), BYTES, LIST))),
        ("it covers its own list too", again(to_c2, "c2", covers=(BYTES, LIST, ("signature-input", "sig2")))),
        ("no second signature", to_c2),
        ("it doesn't cover the first one's bytes", again(to_c2, "c2", covers=(LIST,))),
        ("it doesn't cover the first one's list", again(to_c2, "c2", covers=(BYTES,))),
        ("it covers its own list in place of the first one's", again(to_c2, "c2", covers=(BYTES, ("signature-input", "sig2")))),
        ("it covers the whole field of lists in place of the first one's", again(to_c2, "c2", covers=(BYTES, ("signature-input", None)))),
        ("c2 is named, and c1 signs twice", again(to_c2, "c1")),
        ("c1 is named, and c2 signs", again(rotation("c1"), "c2")),
        ("c1 is named, and signs twice", again(rotation("c1"), "c1")),
        ("a resource server's key", again(rotation("r1"), "r1")),
        ("a key that nobody has", again(rotation("c9"), "c9", secret="c1")),
        ("another secret", again(to_c2, "c2", secret="c1")),
        ("a second signature 300 seconds old", again(to_c2, "c2", created=701)),
        ("a second signature 301 seconds old", again(to_c2, "c2", created=700)),
        ("c2 asks for a token of c1", again(rotation("c2", key="c2"), "c2")),
    ]


def of_one_connection(name, *messages, moments=(1_000, 1_001)):
    return case("rotation to a key: " + name, [messages], moments)


def moved_tokens():
    """The token of a grant is moved to c2's key, and both clients go on with it."""
    to_c2 = sent(again(rotation("c2"), "c2"))

    def of(name, key, serial, body=None):
        return call(name, key, 1_002, body, V(serial))

    def look(serial):
        return call("introspect", "r1", 1_002, introspection(V(serial)))

    def to_itself(value):
        return sent(again(rotation("c2", value=value, key="c2"), "c2"))

    def moved(name, *messages):
        return of_one_connection(name, BEGIN, to_c2, LOOK, *messages, moments=(1_000, 1_001, 1_001, 1_002))

    yield moved("the token is the new key's from then on", look(4), of("rotate", "c1", 5), of("rotate", "c2", 5))
    yield moved("the new key alone rotates and revokes the token", look(4), of("rotate", "c1", 5), of("rotate", "c2", 5), look(6),
                of("revoke", "c1", 7), look(6), of("revoke", "c2", 7), of("revoke", "c1", 7), look(6), of("rotate", "c2", 7), to_itself(7))
    yield moved("the grant stays the first key's", of("modify", "c2", 3, PHOTOS), of("cancel", "c2", 3), look(4), of("modify", "c1", 3, PHOTOS), look(4),
                of("rotate", "c2", 5), of("revoke", "c2", 5), look(6), of("cancel", "c1", 8), look(6))
    back = again(rotation("c1", value=5, key="c2"), "c1")
    yield moved("the token comes back to the first key", sent(back), look(6), of("revoke", "c2", 7), look(6), of("revoke", "c1", 7), look(6))
    yield moved("the same bytes, and their nonce in another rotation", to_c2, to_itself(5), sent(again(rotation("c2", value=5), "c2")), look(4))


def cases():
    for name, message in rotations():
        yield of_one_connection(name, BEGIN, sent(message), LOOK)
    yield from moved_tokens()
    for name, body, message in [
        ("a bearer token, and another key", BEARER, again(rotation("c2"), "c2")),
        ("a bearer token, and its own key", BEARER, again(rotation("c1"), "c1")),
        ("a bearer token, and no key", BEARER, rotation()),
        ("none is named, and the second signature isn't looked at", PHOTOS, again(rotation(), "c2", secret="c1")),
    ]:
        yield of_one_connection(name, call("begin", "c1", 1_000, body), sent(message), LOOK)
