"""Cases of `as` on messages as such: routes, heads, ends of connections."""

from http_cases import NOT_FOUND, PHOTOS, call, case, head, introspection, latin, request, sent, signed_by_c1
from scripted_interactions import decide
from scripts import V


def routes():
    for method, target in [
        ("OPTIONS", "/gnap"), ("GET", "/gnap"), ("PUT", "/gnap"), ("post", "/gnap"), ("GET", "/x"), ("POST", "/"), ("POST", "/gnap/"), ("GET", "*"),
        ("OPTIONS", "/gnap?a=/x"), ("GET", "/continue"), ("GET", "/token"), ("PATCH", "/token"), ("GET", "/introspect"), ("DELETE", "/introspect"),
        ("GET", "/.well-known/gnap-as-rs"), ("POST", "/.well-known/gnap-as-rs"), ("GET", "/?/gnap"),
        ("POST", "//gnap"), ("POST", "https://as.example/gnap"), ("POST", "/gnap#"), ("POST", "/gnap%20"), ("POST", "/GNAP"), ("GNAP!", "/gnap?"),
        ("GET", "/é".encode().decode("latin-1")),
    ]:
        yield case(f"route: {method} {target}", [[head(f"{method} {target} HTTP/1.1".encode("latin-1"))]])
    yield case("route: a signed query", [[sent(signed_by_c1(request(b"POST", b"/gnap?x=1", PHOTOS)))]], [1_000])


def heads():
    for name, *lines in [
        ("HTTP/1.0 closes", b"GET /x HTTP/1.0"),
        ("HTTP/1.2", b"GET /x HTTP/1.2"),
        ("HTTP/2.0", b"GET /x HTTP/2.0"),
        ("no version", b"GET /x"),
        ("two SP before the target", b"GET  /x HTTP/1.1"),
        ("two SP behind the target", b"GET /x  HTTP/1.1"),
        ("a control byte in the target", b"GET /\x01 HTTP/1.1"),
        ("a DEL in the target", b"GET /\x7f HTTP/1.1"),
        ("no UTF-8 in the target", b"GET /\xff HTTP/1.1"),
        ("a folded field", b"GET /x HTTP/1.1", b"A: b", b" c"),
        ("no colon", b"GET /x HTTP/1.1", b"A"),
        ("an SP before the colon", b"GET /x HTTP/1.1", b"A : b"),
        ("no name", b"GET /x HTTP/1.1", b": b"),
        ("a control byte in a value", b"GET /x HTTP/1.1", b"A: \x00"),
        ("a byte past ASCII in a value", b"GET /x HTTP/1.1", b"A: \xff"),
        ("an empty value", b"GET /x HTTP/1.1", b"A:"),
        ("a CR in a value", b"GET /x HTTP/1.1", b"A: b\rc"),
        ("Connection: close", b"GET /x HTTP/1.1", b"Connection: close"),
        ("close among others, in another case", b"GET /x HTTP/1.1", b"connection: keep-alive,\t CLOSE ,x"),
        ("close in a second field", b"GET /x HTTP/1.1", b"Connection: x", b"Connection: close"),
        ("no close", b"GET /x HTTP/1.1", b"Connection: closed, x close"),
        ("Transfer-Encoding", b"GET /x HTTP/1.1", b"Transfer-Encoding: chunked"),
        ("Content-Encoding", b"GET /x HTTP/1.1", b"Content-Encoding: identity"),
        ("a coding before a wrong length", b"GET /x HTTP/1.1", b"Content-Length: 1x", b"Content-Encoding: identity"),
        ("a length that isn't digits", b"GET /x HTTP/1.1", b"Content-Length: 1x"),
        ("a length with a sign", b"GET /x HTTP/1.1", b"Content-Length: +1"),
        ("an empty length", b"GET /x HTTP/1.1", b"Content-Length:"),
        ("two equal lengths", b"GET /x HTTP/1.1", b"Content-Length: 0", b"Content-Length: 0"),
        ("a length of 5 behind 30 zeros", b"GET /x HTTP/1.1", b"Content-Length: " + b"0" * 30 + b"5"),
        ("the body isn't read as a request", b"GET /x HTTP/1.1", b"Content-Length: 17", b"", b"GET /y HTTP/1.0"),
        ("a last message with a body", b"GET /x HTTP/1.1", b"Content-Length: 4", b"Connection: close"),
        ("HTTP/1.0 closes where it asks to be kept alive", b"GET /x HTTP/1.0", b"Connection: keep-alive"),
        ("Expect", b"GET /x HTTP/1.1", b"Expect: 100-continue"),
        ("a name of odd bytes", b"GET /x HTTP/1.1", b"!#$%&'*+-.^_`|~: a"),
        ("a name with a byte past ASCII", b"GET /x HTTP/1.1", b"\xe4: a"),
        ("two lengths in one field", b"GET /x HTTP/1.1", b"Content-Length: 0, 0"),
        ("leading zeros of a length", b"GET /x HTTP/1.1", b"Content-Length: 000"),
        ("a length of 65,537", b"GET /x HTTP/1.1", b"Content-Length: 65537"),
        ("a length of 2^64", b"GET /x HTTP/1.1", b"Content-Length: 18446744073709551616"),
        ("64 fields", b"GET /x HTTP/1.1", *[b"A: b"] * 64),
        ("65 fields", b"GET /x HTTP/1.1", *[b"A: b"] * 65),
        ("65 fields and a coding", b"GET /x HTTP/1.1", *[b"A: b"] * 64, b"Transfer-Encoding: chunked"),
        ("64 fields, of which one is a length", b"GET /x HTTP/1.1", b"Content-Length: 2", *[b"A: b"] * 63),
        ("65 fields, and one that isn't one", b"GET /x HTTP/1.1", *[b"A: b"] * 65, b"A"),
    ]:
        yield case("head: " + name, [[head(*lines), NOT_FOUND], [NOT_FOUND, head(*lines)]])
    yield case("head: LF alone at the ends of lines", [[b"GET /x HTTP/1.1\nA: b\n\n", NOT_FOUND]])
    yield case("head: empty lines before", [[b"\r\n\n\r\n", NOT_FOUND, b"\r\n", NOT_FOUND]])
    yield case("head: a CR alone before", [[b"\r", NOT_FOUND]])


def long_heads():
    for count in (16_383, 16_384, 16_385, 16_386):
        lines = b"GET /x HTTP/1.1\r\nA: "
        filled = case(f"head: {count} bytes", [[lines, b"\r\n\r\n", NOT_FOUND]])
        filled["gears"][0]["connections"] = [latin(lines) + chr(256) + latin(b"\r\n\r\n", NOT_FOUND)]
        filled["runs"] = [["b", count - len(lines) - 4]]
        yield filled
    blank = case("head: empty lines count", [[b""], [b""]])
    blank["gears"][0]["connections"] = [chr(256) + latin(NOT_FOUND), "\n" + chr(256) + latin(NOT_FOUND)]
    blank["runs"] = [["\n", 16_384 - len(NOT_FOUND)]]
    yield blank
    for name, text in [
        ("empty lines", chr(258)), ("a field", "GET /x HTTP/1.1\r\nA: " + chr(256)), ("a target", "GET /" + chr(256)), ("fields", "GET /x HTTP/1.1\r\n" + chr(257)),
    ]:
        open_head = case(f"head: no end within 16,384 bytes, in {name}", [[b""]])
        open_head["gears"][0]["connections"] = [text]
        open_head["runs"] = [["b", 16_384], ["A: b\r\n", 3_000], ["\r\n", 8_192]]
        yield open_head


def ends():
    for count in (999, 1_000, 1_001):
        many = case(f"{count} messages: the reply to the thousandth is the last", [[b""]])
        many["gears"][0]["connections"] = [chr(256)]
        many["runs"] = [[latin(NOT_FOUND), count]]
        yield many
    yield case("a message behind one that closes isn't answered", [[head(b"GET /x HTTP/1.1", b"Connection: close"), NOT_FOUND]])
    yield case("no bytes", [[b""], [NOT_FOUND]])
    unsigned = sent(request(b"POST", b"/gnap", b"{}"))
    yield case("an unsigned grant request, cut after each byte", [[unsigned]], [1_000], cut=True)
    yield case("a signed grant request and a second one, cut after each byte", [[call("begin", "c1", 1_000, PHOTOS), NOT_FOUND]], [1_000], cut=True)
    yield case("a head that ends at once, cut after each byte", [[b"\nA / HTTP/1.0\n\n"]], cut=True)
    yield case("bytes that are no head, cut after each byte", [[b"GET /\x01\x02 HTTP/1.1\r\n\r\n"]], cut=True)


def cut_requests():
    """A request for each route and method, cut after each byte."""
    bodies = {"begin": PHOTOS, "introspect": introspection(V(1)), "modify": PHOTOS, "look": {"handle": V(2)}, "find_code": {"code": "BBBBBBBB"}, "decide": decide(2, "grant")}
    values = {"continue": V(1), "modify": V(1), "cancel": V(1), "rotate": V(2), "revoke": V(2)}
    keys = {"introspect": "r1", "look": "f1", "find_code": "f1", "decide": "f1"}
    for name in ("begin", "introspect", "continue", "modify", "cancel", "rotate", "revoke", "look", "find_code", "decide"):
        message = call(name, keys.get(name, "c1"), 1_000, bodies.get(name), values.get(name))
        yield case(f"a request for `{name}`, cut after each byte", [[message]], [1_000], cut=True)
    for method, path in (("OPTIONS", "/gnap"), ("GET", "/.well-known/gnap-as-rs")):
        yield case(f"{method} {path}, cut after each byte", [[head(f"{method} {path} HTTP/1.1".encode(), b"Host: as.example")]], cut=True)


def cases():
    for part in (routes, heads, long_heads, ends, cut_requests):
        yield from part()
