"""Cases of what fails outside, of the words after the program's name, and of files with a request that is signed or verified."""

from http_cases import NAMES, NOT_FOUND, PHOTOS, call, case, head, introspection, latin, request, signed_by_c1
from http_forms import request_bytes
from rfc_message import MESSAGE, SECRET_TEXT, SIGNATURE_FIELDS
from rights import compact
from scripts import SETUP, V, client, setup_of
from signatures import Request

SETUP_TEXT = compact(SETUP)
PLAIN = case("", [[NOT_FOUND]])
BEGIN = call("begin", "c1", 1_000, PHOTOS)
ACTIVE = call("introspect", "r1", 1_001, introspection(V(1)))


def devices():
    yield case("a second write that fails: the entry stands", [[NOT_FOUND, BEGIN, NOT_FOUND], [ACTIVE]], [1_000, 1_000, 1_001], bad_writes=[[2]])
    yield case("a first write that fails", [[BEGIN], [ACTIVE]], [1_000, 1_001], bad_writes=[[1]])
    yield case("room for a beginning of the reply", [[BEGIN, NOT_FOUND], [ACTIVE]], [1_000, 1_001], rooms=[100])
    yield case("a read that fails", [[BEGIN], [NOT_FOUND]], [1_000], bad_reads=[[1]])
    yield case("the door fails at once", [[NOT_FOUND]], bad_accepts=[1])
    yield case("the door fails after one connection", [[NOT_FOUND], [NOT_FOUND]], bad_accepts=[2])
    yield case("the door fails after all connections", [[NOT_FOUND]], bad_accepts=[2])
    yield case("the setup can't be opened", [[NOT_FOUND]], bad_opens=[1])
    yield case("the address can't be listened at", [[NOT_FOUND]], bad_opens=[2])
    yield {**PLAIN, "name": "the setup can't be read", "bad_reads": [[1]]}
    yield {**PLAIN, "name": "a setup that is none", "files": [["setup", "{}"]]}
    for count in (1_048_576, 1_048_577):
        runs = [[" ", count - len(SETUP_TEXT)]]
        yield {**PLAIN, "name": f"a setup of {count} bytes", "files": [["setup", SETUP_TEXT + chr(256)]], "runs": runs}
        yield {"name": f"a replay whose setup has {count} bytes", "words": ["replay", "f"], "files": [["f", SETUP_TEXT + chr(256) + "\n{"]], "runs": runs}
    begin = compact({"at": 1_000, "call": "begin", "key": "c1", "body": PHOTOS})
    text = "\n".join([SETUP_TEXT, begin, "{", "{"])
    for fails in (1, 2, 3):
        name = f"a replay whose output fails at write {fails}"
        yield {"name": name, "words": ["replay", "calls"], "files": [["calls", text]], "bad_writes": [fails]}


def workers():
    """Several workers, of which one calls the machine in a way that others can tell."""
    unknown = call("introspect", "r1", 1_000, introspection("x")) * 3
    yield {**PLAIN, "name": "two workers at one machine", "words": ["as", "setup", "a", "2", "2"], "gears": [
        {"connections": [latin(BEGIN), latin(NOT_FOUND)], "moments": [1_000], "draws": [[1, 2, 3, 4, 5, 6]]},
        {"connections": [latin(unknown), latin(unknown)], "moments": [1_000], "draws": [[7]] * 9},
    ]}
    yield {**PLAIN, "name": "three workers", "words": ["as", "setup", "a", "3", "1"], "gears": [
        {"connections": [latin(NOT_FOUND)]}, {"connections": []}, {"connections": [latin(head(b"GET /gnap HTTP/1.0"))]},
    ]}
    yield {**PLAIN, "name": "a quota of 0 and a gear without a connection", "words": ["as", "setup", "a", "1", "0"], "gears": [{"connections": []}]}


def words():
    for name, words in [
        ("no file of that name", ["as", "other", "a", "1", "1"]),
        ("another address", ["as", "setup", "b", "1", "1"]),
        ("more workers than gears", ["as", "setup", "a", "2", "1"]),
        ("a quota below the connections", ["as", "setup", "a", "1", "0"]),
        ("a quota above the connections", ["as", "setup", "a", "1", "1000000"]),
        ("no worker", ["as", "setup", "a", "0", "1"]),
        ("65 workers", ["as", "setup", "a", "65", "1"]),
        ("a quota above 1,000,000", ["as", "setup", "a", "1", "1000001"]),
        ("a number with a leading zero", ["as", "setup", "a", "01", "1"]),
        ("a number with a sign", ["as", "setup", "a", "+1", "1"]),
        ("an empty number", ["as", "setup", "a", "", "1"]),
        ("a number past 64 bits", ["as", "setup", "a", "1", "18446744073709551617"]),
        ("an option", ["as", "-setup", "a", "1", "1"]),
        ("an empty word", ["as", "setup", "", "1", "1"]),
        ("one word too few", ["as", "setup", "a", "1"]),
        ("one word too many", ["as", "setup", "a", "1", "1", "1", "1"]),
        ("a replay without a file", ["replay"]),
        ("a replay of a file that isn't there", ["replay", "other"]),
        ("a replay of a setup alone", ["replay", "setup"]),
        ("--help", ["--help"]),
        ("no words", []),
        ("an unknown command", ["serve", "setup"]),
    ]:
        yield {**PLAIN, "name": "words: " + name, "words": words}


def loads():
    for words_given in ("10 7 1", "10 7 4", "3 0 64", "100 18446744073709551615 2", "0 7 1", "100001 7 1", "1 18446744073709551616 1", "1 7 0", "1 7 65", "1 7", "1 7 1 1", "01 7 1"):
        yield {"name": "load " + words_given, "words": ["load", *words_given.split()]}
    yield {"name": "a load that can't be told", "words": ["load", "5", "7", "2"], "bad_writes": [1]}


HELLO = request(b"POST", b"/gnap", b'{"hello": "world"}')
UNSIGNED = request_bytes(HELLO)
SIGNED = request_bytes(signed_by_c1(HELLO, None))


def over(name, words_given, text, **more):
    """A case over a setup and a request."""
    return {"name": name, "words": words_given, "files": [["setup", SETUP_TEXT], ["request", latin(text)]], **more}


def signing():
    for key, created in [("c1", "1000"), ("r1", "0"), ("f1", "253402300799"), ("c9", "1000"), ("c1", "253402300800"), ("c1", "01000")]:
        yield over(f"sign: by {key} at {created}", ["sign", "setup", key, created, "request"], UNSIGNED)
    for nonce in ("n1", "aZ09._-", "0" * 64, "0" * 65, "", "-n1", "a b", "a/b", "\u00e9", "n\n"):
        yield over(f"sign: with the nonce {nonce!r}", ["sign", "setup", "c1", "1000", "request", nonce], UNSIGNED)
    yield over("sign: with a nonce and a further word", ["sign", "setup", "c1", "1000", "request", "n1", "n2"], UNSIGNED)
    yield over("sign: with a nonce, over a signed one", ["sign", "setup", "c1", "1000", "request", "n1"], SIGNED)
    yield over("sign: a nonce that is none is found before a setup", ["sign", "other", "c1", "1000", "request", "a/b"], UNSIGNED)
    wrong_digest = request(b"POST", b"/gnap", HELLO.body, [(b"Content-Digest", b"sha-256=:AAAA:")])
    for name, text in [
        ("a signed one", SIGNED),
        ("without a body", head(b"DELETE /continue HTTP/1.1", b"Authorization: GNAP x")),
        ("HTTP/1.0", head(b"GET /gnap?a=b HTTP/1.0")),
        ("two fields of a name", head(b"GET /gnap HTTP/1.1", b"A: b ", b"a:\tc")),
        ("bytes behind it", UNSIGNED + b"x"),
        ("a second one", UNSIGNED * 2),
        ("nothing", b""),
        ("an unfinished one", UNSIGNED[:-1]),
        ("no head", b"GET\r\n\r\n"),
        ("a coded one", head(b"GET / HTTP/1.1", b"Content-Encoding: x")),
        ("a body that is too large", head(b"GET / HTTP/1.1", b"Content-Length: 65537")),
        ("a digest that isn't the body's", request_bytes(wrong_digest)),
    ]:
        yield over("sign: " + name, ["sign", "setup", "c1", "1000", "request"], text)


def verifying():
    for now in ("1000", "1300", "1301", "700", "699"):
        yield over(f"verify: at {now}", ["verify", "setup", now, "request"], SIGNED)
    items = b'("@method" "@target-uri" "content-digest")'
    code = dict(signed_by_c1(HELLO, None).fields)[b"signature"]
    other = b"sig1=:" + (b"A" if code[6:7] != b"A" else b"B") + code[7:]
    for name, text in [
        ("no signature", UNSIGNED),
        ("bytes behind it", SIGNED + b"\n"),
        ("a changed body", SIGNED[:-1] + b" "),
        ("a changed signature", SIGNED.replace(code, other)),
        ("the digest isn't covered", request_bytes(signed_by_c1(HELLO, None, names=NAMES[:2]))),
        ("two of the tag", request_bytes(signed_by_c1(signed_by_c1(HELLO, None), None, label="b"))),
        ("another tag", request_bytes(signed_by_c1(HELLO, None, tag="x"))),
        ("no dictionary", SIGNED.replace(b"sig1=(", b"sig1=[")),
        ("no list", SIGNED.replace(b"sig1=" + items, b"sig1")),
        ("an item that is no String", SIGNED.replace(b'("@method"', b"(a")),
        ("a component that isn't there", SIGNED.replace(b'("@method"', b'("x"')),
        ("a component in capitals", SIGNED.replace(b'("@method"', b'("Host"')),
        ("a component with a parameter", SIGNED.replace(b'("@method"', b'("@method";req')),
        ("a derived component that isn't known", SIGNED.replace(b'("@method"', b'("@status"')),
        ("a component twice", SIGNED.replace(b'("@method"', b'("@target-uri"')),
        ("an unknown key", SIGNED.replace(b'keyid="c1"', b'keyid="c8"')),
        ("it is early", SIGNED.replace(b"created=1000", b"created=-1")),
        ("it expired", SIGNED.replace(b";tag", b";expires=999;tag")),
        ("an alg", SIGNED.replace(b";tag", b';alg="x";tag')),
        ("a created that is no Integer", SIGNED.replace(b"created=1000", b"created=1000.0")),
    ]:
        yield over("verify: " + name, ["verify", "setup", "1000", "request"], text)
    for name, more in [
        ("the output fails", {"bad_writes": [1]}),
        ("the setup can't be opened", {"bad_opens": [1]}),
        ("the request can't be opened", {"bad_opens": [2]}),
        ("the setup can't be read", {"bad_reads": [[1]]}),
        ("the request can't be read", {"bad_reads": [[], [1]]}),
    ]:
        yield over("verify: " + name, ["verify", "setup", "1000", "request"], SIGNED, **more)
    yield over("verify: a setup that is none, and no request", ["verify", "request", "1000", "other"], SIGNED)


def rfc_message():
    """The message of RFC 9421 has a signature without a tag. It is signed by the same key with one."""
    setup = compact({**setup_of(client("test-shared-secret", SECRET_TEXT, [], [])), "base": "https://example.com"})
    text = request_bytes(Request(MESSAGE.method, MESSAGE.target, MESSAGE.fields + SIGNATURE_FIELDS, MESSAGE.body))
    files = [["setup", setup], ["request", latin(text)], ["unsigned", latin(request_bytes(MESSAGE))]]
    yield {"name": "verify: the message of RFC 9421", "words": ["verify", "setup", "1618884473", "request"], "files": files}
    yield {"name": "sign: the message of RFC 9421", "words": ["sign", "setup", "test-shared-secret", "1618884473", "unsigned"], "files": files}


def cases():
    for part in (devices, workers, words, loads, signing, verifying, rfc_message):
        yield from part()
