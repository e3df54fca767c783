"""Cases of `rs`: requests that present tokens. What is answered to introspections is what the model of the authorization server gives to them, or a reply
that is written here; and a whole story of a client, both servers and the front, of which each part is a case.
"""

import base64
import json

from as_server import Service
from client_cases import MAIL, Meeting
from client_cases import case as client_case
from http_cases import PHOTOS, SECRETS, SETUP, call, head, latin
from http_cases import case as server_case
from http_forms import next_request, reply_bytes, sent
from json_forms import read_setup
from resource_side import ResourceServer, read_resource_setup
from rights import compact
from scripts import BASE, V
from signatures import Request, signed

TEXTS = {key["id"]: key["secret"] for key in SETUP["keys"]}
RS = "https://rs.example"
FULL = {"actions": ["read", "send"], "type": "mail"}
ROUTES = [
    {"method": "GET", "path": "/photos", "right": "photos", "text": "hello"},
    {"method": "PUT", "path": "/mail", "right": FULL, "text": "\u00e9\n\"\\"},
    {"method": "GET", "path": "/mail", "right": "mail", "text": ""},
]
RS_SETUP = {"base": RS, "server": BASE, "id": "r1", "secret": TEXTS["r1"], "keys": [{"id": key, "secret": TEXTS[key]} for key in ("c1", "c2")], "routes": ROUTES}
RS_TEXT = compact(RS_SETUP)
GNAP = b"GNAP " + V(1).encode()
BEARER = b"Bearer " + V(1).encode()


def case(name, connections, replies=(), moments=(1_000,), **more):
    """A case of `rs`. What is given of a gear's faults goes to the gear."""
    served = server_case("rs: " + name, connections, moments, **more)
    return {**served, "words": ["rs", "s", "a", "a", str(len(connections))], "files": [["s", latin(RS_TEXT.encode())]],
            "replies": [latin(reply) for reply in replies]}


def plain(*authorization, method=b"GET", target=b"/photos"):
    return Request(method, target, [(b"host", b"rs.example"), *((b"authorization", value) for value in authorization)])


def by(key, message, **how):
    return sent(signed(message, RS, key, SECRETS[key], 1_000, **how))


SIGNED = by("c1", plain(GNAP))


def says(**changed):
    """A reply to an introspection: of a live token that is bound to c1, but for these members; those that are None are left out."""
    form = {"access": ["photos"], "active": True, "exp": 4_600, "iat": 1_000, "instance_id": "c1", "iss": BASE + "/gnap", "key": "c1", **changed}
    return reply_bytes(200, compact({name: value for name, value in form.items() if value is not None}).encode())


FREE = says(flags=["bearer"], key=None)
INACTIVE = reply_bytes(200, b'{"active":false}')


class Asked:
    """The authorization server in which c1 holds the token V1, and what it answered."""

    def __init__(self):
        self.service = Service(read_setup(compact(SETUP).encode()))
        self.replies = []
        self.ask(call("begin", "c1", 1_000, PHOTOS))
        self.replies.clear()

    def ask(self, request):
        self.replies.append(self.service.reply(next_request(request)[0], 1_000, [])[0])
        return self.replies[-1]


def of_the_server():
    """What the authorization server itself answers."""
    for name, request in [
        ("signed, with its scheme", SIGNED), ("signed, as a bearer token", by("c1", plain(BEARER))),
        ("signed by another client", by("c2", plain(GNAP))), ("without a signature", sent(plain(GNAP))),
        ("a right that the token hasn't", by("c1", plain(GNAP, target=b"/mail"))),
        ("an unknown value", by("c1", plain(b"GNAP x"))), ("a right that the server doesn't serve", None),
    ]:
        asked = Asked()
        setup = {**RS_SETUP, "routes": [{**ROUTES[0], "right": "calendar"}]} if request is None else RS_SETUP
        request = request or SIGNED
        ResourceServer(read_resource_setup(compact(setup).encode()), asked.ask).reply(next_request(request)[0], 1_000, [])
        yield {**case(name, [[request]], asked.replies), "files": [["s", latin(compact(setup).encode())]]}


def unasked():
    """Requests that are refused before anything is asked."""
    for name, request in [
        ("no route", plain(GNAP, target=b"/x")), ("no route: a path with an end", plain(GNAP, target=b"/photos/")),
        ("no route: a whole address", plain(GNAP, target=RS.encode() + b"/photos")),
        ("no method", plain(GNAP, method=b"POST")), ("no method, of two", plain(GNAP, method=b"POST", target=b"/mail?x")),
        ("no method: HEAD", plain(GNAP, method=b"HEAD")), ("no method: small letters", plain(GNAP, method=b"get")),
        ("no token", plain()), ("two fields", plain(GNAP, GNAP)), ("a value with a space", plain(GNAP + b" x")), ("two spaces", plain(b"GNAP  x")),
        ("no value", plain(b"GNAP ")), ("no space", plain(b"GNAP")), ("a value past ASCII", plain(b"GNAP \xc3\xa9")), ("another scheme", plain(b"Basic x")),
        ("a scheme that begins so", plain(b"GNAPx " + V(1).encode())), ("a tab behind the scheme", plain(b"Bearer\tx")),
    ]:
        yield case(name, [[by("c1", request)]], [says()])


def asked_of():
    """Requests for which a token is introspected, and what is answered to that."""
    head_of = b"HTTP/1.1 200 \r\n\r\n"
    mark = b"Signature: sig1=:"
    longer = SIGNED.replace(mark, mark + b"A")
    before, _, code = SIGNED.partition(mark)
    changed = before + mark + (b"B" if code[:1] == b"A" else b"A") + code[1:]
    for name, request, reply in [
        ("a bound token", SIGNED, says()), ("the scheme in other case", by("c1", plain(b"gNaP " + V(1).encode())), says()),
        ("a query", by("c1", plain(GNAP, target=b"/photos?a=b?")), says()),
        ("a bound token with a wrong signature", changed, says()), ("a bound token with a longer signature", longer, says()),
        ("a bound token without a signature", sent(plain(GNAP)), says()), ("a bound token, signed too early", SIGNED, says()),
        ("a bound token that doesn't cover its value", by("c1", plain(GNAP), names=["@method", "@target-uri"]), says()),
        ("a bound token, under another tag", by("c1", plain(GNAP), tag="x"), says()),
        ("another client's token", SIGNED, says(instance_id="c2", key="c2")), ("the token of a client whose key isn't known", SIGNED, says(instance_id="c3", key="c3")),
        ("a bearer token without a signature", sent(plain(BEARER)), FREE), ("a bearer token, the scheme in other case", sent(plain(b"bEARER x")), FREE),
        ("a bearer token with a wrong signature", changed, FREE),
        ("inactive", SIGNED, INACTIVE), ("inactive, with all else", SIGNED, says(active=False)), ("too narrow", SIGNED, says(access=["mail"])),
        ("too narrow, without a signature", sent(plain(GNAP)), says(access=[])), ("one right of two", SIGNED, says(access=["mail", "photos"])),
        ("a right in full", by("c1", plain(GNAP, method=b"PUT", target=b"/mail")), says(access=[{**FULL, "actions": ["send", "x", "read"]}])),
        ("a part of a right in full", by("c1", plain(GNAP, method=b"PUT", target=b"/mail")), says(access=[{**FULL, "actions": ["read"]}])),
        ("the second route of a path", by("c1", plain(GNAP, target=b"/mail")), says(access=["mail"])),
        ("one byte", SIGNED, b"x"), ("no bytes", SIGNED, b""), ("a refusal", SIGNED, reply_bytes(401, b'{"error":{"code":"invalid_resource_server"}}')),
        ("a busy server", SIGNED, reply_bytes(503, last=True)), ("no object", SIGNED, head_of + b"[]"), ("no JSON", SIGNED, head_of + b"{"),
        ("without `active`", SIGNED, says(active=None)), ("`active` that is no boolean", SIGNED, says(active=1)),
        ("a key and the flag", SIGNED, says(flags=["bearer"])), ("neither", SIGNED, says(key=None)), ("another flag", SIGNED, says(flags=["x"], key=None)),
        ("a key that isn't the instance's", SIGNED, says(instance_id="c2")), ("without an instance", SIGNED, says(instance_id=None)),
        ("without `exp`", SIGNED, says(exp=None)), ("`iat` before 0", SIGNED, says(iat=-1)), ("without `iss`", SIGNED, says(iss=None)),
        ("rights that are none", SIGNED, says(access=[1])), ("a fraction", SIGNED, says().replace(b'4600', b'46.0')), ("further members", SIGNED, says(x={"y": 1})),
        ("a reply in HTTP/1.0", SIGNED, says().replace(b"1.1", b"1.0", 1)), ("a reply that is cut short", SIGNED, says()[:-1]),
    ]:
        moment = 699 if "too early" in name else 1_000
        yield case(name, [[request]], [reply], [moment])


def links():
    yield case("the link fails, and then not", [[SIGNED, SIGNED]], [says()], bad_exchanges=[1])
    yield case("no reply comes", [[SIGNED]])
    yield case("several requests of several connections", [[SIGNED, sent(plain()), SIGNED], [], [sent(plain(BEARER))], [b"x\r\n\r\n", SIGNED]],
               [says(), INACTIVE, FREE], [1_000, 9_000, 1_001, 1_002])
    yield {**case("cut after each byte", [[SIGNED]], [says()]), "cut": True}
    closing = SIGNED.replace(b"\r\n\r\n", b"\r\nConnection: close\r\n\r\n")
    yield case("the connection is to close", [[closing, SIGNED]], [says(), says()])
    yield case("no more can be written", [[SIGNED, SIGNED]], [says(), says()], bad_writes=[[1]])
    yield case("no more can be read", [[SIGNED]], [says()], bad_reads=[[1]])
    yield case("the second connection can't be accepted", [[SIGNED], [SIGNED]], [says(), says()], bad_accepts=[2])


def cached_case(name, cache, connections, replies, moments, **more):
    """A case of `rs` with a cache of this size."""
    served = case("with a cache: " + name, connections, replies, moments, **more)
    return {**served, "words": [*served["words"], str(cache)]}


def at(moment):
    """The request with the bound token, signed at this moment."""
    return sent(signed(plain(GNAP), RS, "c1", SECRETS["c1"], moment))


def with_bit_changed(request):
    """The request, with another bit in the first byte of its signature."""
    before, mark, code = request.partition(b"Signature: sig1=:")
    first = base64.b64decode(code[:4])
    return before + mark + base64.b64encode(bytes([first[0] ^ 1, *first[1:]])) + code[4:]


def of_length(total):
    """A reply about the bearer token 1 that has so many bytes together with its question."""
    server = ResourceServer(read_resource_setup(RS_TEXT.encode()), None)
    question = server.question("photos", "bearer", "1")
    return next(reply for reply in (says(flags=["bearer"], key=None, x="x" * count) for count in range(total)) if len(question) + len(reply) == total)


def cached():
    one, two, three = (sent(plain(b"Bearer %d" % number)) for number in (1, 2, 3))
    yield cached_case("asked once in 30 seconds, and signed each time", 16_384, [[at(1_000)], [at(1_030)], [with_bit_changed(at(1_010))], [at(1_031)]], [says()],
                      [1_000, 1_030, 1_010, 1_031])
    yield cached_case("two tokens in turn at one place", 1, [[one, two, one, two]], [FREE] * 4, [1_000, 1_001, 1_002, 1_003])
    yield cached_case("the clock goes back", 1, [[one, one]], [FREE] * 2, [1_000, 999])
    yield cached_case("until the token ends", 1, [[one, one, one]], [says(flags=["bearer"], key=None, exp=1_020)] * 2, [1_000, 1_019, 1_020])
    yield cached_case("the one used longest ago goes out", 2, [[one, two, one, three, one, two]], [FREE] * 4, range(1_000, 1_006))
    yield cached_case("what comes by the cache doesn't stay longer", 1, [[one, one, one]], [FREE] * 2, [1_000, 1_020, 1_040])
    yield cached_case("each scheme has its own reply", 2, [[by("c1", plain(GNAP)), by("c1", plain(BEARER))] * 2], [says(), FREE], [1_000] * 4)
    yield cached_case("refusals aren't kept", 2, [[one] * 5], [INACTIVE, says(flags=["bearer"], key=None, access=["mail"]), b"x", FREE], [1_000] * 5)
    yield cached_case("a wrong signature keeps nothing", 1, [[with_bit_changed(SIGNED), SIGNED, SIGNED]], [says()] * 2, [1_000] * 3)
    yield cached_case("an old reply goes out, also where the link fails", 1, [[one, one, one]], [FREE] * 2, [1_000, 1_031, 1_030], bad_exchanges=[2])
    yield cached_case("13,500 bytes are kept", 1, [[one, one]], [of_length(13_500)] * 2, [1_000, 1_001])
    yield cached_case("13,501 bytes aren't", 1, [[one, one]], [of_length(13_501)] * 2, [1_000, 1_001])
    yield cached_case("a wrong signature has its reply come first", 2, [[SIGNED, one, with_bit_changed(SIGNED), two, SIGNED, one]], [says(), FREE, FREE, FREE],
                      [1_000] * 6)
    refused = [sent(plain()), sent(plain(b"Bearer 2", target=b"/x")), sent(plain(b"Bearer 2", method=b"POST"))]
    yield cached_case("what has no question leaves the replies", 1, [[one, *refused, one]], [FREE], [1_000] * 5)
    yield cached_case("a kept reply is judged while the link fails", 2, [[one, two, one]], [FREE], [1_000] * 3, bad_exchanges=[2])
    mail = sent(plain(b"Bearer 1", target=b"/mail"))
    both = says(flags=["bearer"], key=None, access=["mail", "photos"])
    yield cached_case("each right has its own reply", 2, [[one, mail, one, mail]], [both] * 2, [1_000] * 4)
    yield cached_case("a token that has ended by its reply", 1, [[one, one]], [says(flags=["bearer"], key=None, exp=1_000)] * 2, [1_000] * 2)
    right = [{**ROUTES[0], "path": path, "text": path} for path in ("/a", "/b")]
    yield {**cached_case("two routes with one right share a reply", 1, [[sent(plain(b"Bearer 1", target=b"/a")), sent(plain(b"Bearer 1", target=b"/b"))]], [FREE],
                         [1_000, 1_001]), "files": [["s", latin(compact({**RS_SETUP, "routes": right}).encode())]]}
    first = cached_case("", 1, [[one]], [FREE], [1_000])
    for size in ("0", "16385", "01", "", "-1", "x"):
        yield {**first, "name": f"rs: with a cache of the size `{size}`", "words": [*first["words"][:-1], size]}


def around():
    plain_case = case("", [[SIGNED]], [says()])
    for words in (["rs", "s", "a", "a"], ["rs", "s", "a", "a", "1", "1", "1"], ["rs", "-s", "a", "a", "1"], ["rs", "s", "", "a", "1"], ["rs", "s", "a", "-", "1"],
                  ["rs", "s", "a", "a", "01"], ["rs", "s", "a", "a", "1000001"], ["rs", "x", "a", "a", "1"], ["rs", "s", "b", "a", "1"], ["rs", "s", "a", "b", "1"]):
        yield {**plain_case, "name": f"rs: the words {words}", "words": words}
    for name, more in [
        ("the setup can't be opened", {"bad_opens": [1]}), ("the link can't be opened", {"bad_opens": [2]}),
        ("the address can't be listened at", {"bad_opens": [3]}), ("the setup can't be read", {"bad_reads": [[1]]}),
        ("two gears", {"gears": plain_case["gears"] * 2}),
    ]:
        yield {**plain_case, "name": "rs: " + name, **more}


def setups():
    route, key = ROUTES[0], RS_SETUP["keys"][0]
    for name, changed in [
        ("without a server", {"server": None}), ("a base with a path", {"base": RS + "/"}), ("an id with a space", {"id": "r 1"}), ("a short secret", {"secret": "c2VjcmV0"}),
        ("a further member", {"x": 1}), ("keys that are none", {"keys": {}}), ("no keys", {"keys": []}), ("a key twice", {"keys": [key, key]}),
        ("a key with a role", {"keys": [{**key, "role": "client"}]}), ("no routes", {"routes": []}), ("1,024 routes", {"routes": many(1_024)}),
        ("1,025 routes", {"routes": many(1_025)}), ("a route twice", {"routes": [route, {**route, "text": "x"}]}),
        ("a method in small letters", {"routes": [{**route, "method": "get"}]}), ("a method of 15 letters", {"routes": [route, {**route, "method": "A" * 15}]}),
        ("a method of 16 letters", {"routes": [route, {**route, "method": "A" * 16}]}), ("no method", {"routes": [{**route, "method": ""}]}),
        ("a path without a slash", {"routes": [{**route, "path": "photos"}]}), ("a right that is an array", {"routes": [{**route, "right": ["photos"]}]}),
        ("a right that is empty", {"routes": [{**route, "right": ""}]}), ("a text that is none", {"routes": [{**route, "text": 1}]}),
        ("a route with a further member", {"routes": [{**route, "x": 1}]}), ("a fraction", {"x": 1.5}), ("without routes", {"routes": None}),
    ]:
        text = compact({member: value for member, value in {**RS_SETUP, **changed}.items() if value is not None})
        yield {**case("a setup: " + name, [[SIGNED]], [says()]), "files": [["s", latin(text.encode())]]}
    for count in (4_096, 4_097):
        yield with_keys(count)


def with_keys(count):
    """A case whose setup has so many keys. The last one is that of c1; a run stands for what is between the ids of the others."""
    ids = [f"k{place}" for place in range(count - 1)]
    secret = f'","secret":"{TEXTS["c2"]}"}}'
    text = latin(compact({**RS_SETUP, "keys": ["others", RS_SETUP["keys"][0]]}).encode())
    text = text.replace('"others"', '{"id":"' + chr(256).join(ids) + secret)
    return {**case(f"a setup: {count:,} keys", [[SIGNED]], [says()]), "files": [["s", text]], "runs": [[secret + ',{"id":"', 1]]}


def many(count):
    return [ROUTES[0]] + [{"method": "GET", "path": f"/{place}", "right": "a", "text": ""} for place in range(count - 1)]


class Story(Meeting):
    """A client, both servers and the front: what each was sent and answered."""

    def __init__(self):
        super().__init__()
        self.used, self.used_at, self.said = [], [], []
        self.guard = ResourceServer(read_resource_setup(RS_TEXT.encode()), self.introspect)

    def introspect(self, request):
        self.said.append(super().ask(request, self.used_at[-1]))
        return self.said[-1]

    def use(self, request, at):
        """A request reaches the resource server."""
        self.used.append(request)
        self.used_at.append(at)
        return self.guard.reply(next_request(request)[0], at, [])[0]

    def ask(self, request, at):
        if b"\r\nHost: rs.example\r\n" not in request:
            return super().ask(request, at)
        line, rest = request.split(b"\r\n", 1)
        # with what a terminator of TLS adds
        return self.use(line + b"\r\nX-Forwarded-For: 192.0.2.1\r\nVia: 1.1 t\r\n" + rest, at)


def story():
    told = Story()
    begun = told.tell("begin", 1_000, body=MAIL)
    handle = json.loads(begun.partition(b"\r\n\r\n")[2])["interact"]["redirect"].rpartition("/")[2]
    told.ask(call("look", "f1", 1_010, {"handle": handle}), 1_010)
    back = told.decide(1_020, begun)
    told.tell("finish", 1_030, hash=back["hash"], reference=back["interact_ref"])
    told.tell("use", 1_040, token=0, method="GET", path="/mail")
    used = told.used[-1]
    told.use(head(*(line for line in used.split(b"\r\n")[:-2] if not line.startswith(b"Signature"))), 1_041)
    told.tell("cancel", 1_050)
    told.use(used, 1_060)
    name = "a token is used, used without the signature, and used after its grant was cancelled"
    yield client_case(name, told.lines, told.given)
    yield server_case(f"the server's part of `{name}`", [[request] for request in told.sent], told.moments)
    yield case(name, [[request] for request in told.used], told.said, told.used_at)


def cases():
    for part in (of_the_server, unasked, asked_of, links, cached, around, setups, story):
        yield from part()
