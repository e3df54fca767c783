"""Requests and replies of HTTP/1, written from docs/HTTP.md alone: requests found in the bytes of a connection, requests and replies printed."""

from signatures import Request

HEAD_MOST = 16_384
FIELDS_MOST = 64
BODY_MOST = 65_536
TOKEN = frozenset(b"!#$%&'*+-.^_`|~0123456789abcdefghijklmnopqrstuvwxyzABCDEFGHIJKLMNOPQRSTUVWXYZ")
CR, LF, SP, TAB, DEL = b"\r\n \t\x7f"
VERSIONS = (b"HTTP/1.0", b"HTTP/1.1")
PHRASES = {
    200: "OK", 204: "No Content", 400: "Bad Request", 401: "Unauthorized", 403: "Forbidden", 404: "Not Found", 405: "Method Not Allowed",
    413: "Payload Too Large", 501: "Not Implemented", 502: "Bad Gateway", 503: "Service Unavailable",
}


class Refused(Exception):
    """The bytes begin no request: the fault, and the status of the reply to it."""

    def __init__(self, fault):
        super().__init__(fault)
        self.fault = fault
        self.status = {"BadHead": 400, "TooLarge": 413, "Coded": 501}[fault]


class Unfinished(Exception):
    """The bytes end inside a request; `decided` says that they don't end inside its target."""


# Reading

class Head:
    """Reads a head from the front of bytes. `Unfinished` where they end in it, `Refused` where no bytes can follow that make it one."""

    def __init__(self, text):
        self.text = text
        self.place = 0

    def peek(self):
        if self.place == len(self.text):
            raise Unfinished
        return self.text[self.place]

    def next(self):
        byte = self.peek()
        self.place += 1
        return byte

    def expect(self, fits):
        if not fits:
            raise Refused("BadHead")

    def line_end(self):
        """CR LF or LF, where the next byte is one of the two."""
        if self.next() == CR:
            self.expect(self.next() == LF)

    def word(self, allowed, end):
        """Bytes that are allowed, at least one, and one of the ends behind them, which stays."""
        start = self.place
        while self.peek() in allowed:
            self.place += 1
        self.expect(self.place > start and self.peek() in end)
        return self.text[start:self.place]

    def target(self):
        """What stands up to SP, CR or LF. It is looked at when it has ended."""
        start = self.place
        while self.peek() not in (SP, CR, LF):
            self.place += 1
        target = self.text[start:self.place]
        self.expect(self.peek() == SP and target and all(byte > SP and byte != DEL for byte in target))
        try:
            target.decode("utf-8")
        except UnicodeDecodeError:
            self.expect(False)
        return target

    def version(self):
        for place in range(8):
            version = self.text[self.place - place:self.place] + bytes([self.next()])
            self.expect(any(known.startswith(version) for known in VERSIONS))
        self.expect(self.peek() in (CR, LF))
        self.line_end()
        return version

    def field(self):
        name = self.word(TOKEN, b":")
        self.place += 1
        start = self.place
        while self.peek() not in (CR, LF):
            byte = self.next()
            self.expect(byte == TAB or (byte >= SP and byte != DEL))
        value = self.text[start:self.place].strip(b" \t")
        self.line_end()
        return name.lower(), value

    def read(self):
        while self.peek() in (CR, LF):
            self.line_end()
        method = self.word(TOKEN, b" ")
        self.place += 1
        target = self.target()
        self.place += 1
        version = self.version()
        fields = []
        while self.peek() not in (CR, LF):
            fields.append(self.field())
        self.line_end()
        return Request(method, target, fields, last=version == VERSIONS[0])


def body_length(request):
    if len(request.fields) > FIELDS_MOST:
        raise Refused("TooLarge")
    if request.values(b"transfer-encoding") or request.values(b"content-encoding"):
        raise Refused("Coded")
    lengths = request.values(b"content-length")
    if len(lengths) > 1 or not all(length and all(byte in b"0123456789" for byte in length) for length in lengths):
        raise Refused("BadHead")
    length = int(lengths[0]) if lengths else 0
    if length > BODY_MOST:
        raise Refused("TooLarge")
    return length


def closes(request):
    elements = [element.strip(b" \t").lower() for value in request.values(b"connection") for element in value.split(b",")]
    return b"close" in elements


def next_request(text):
    """The request with which the bytes begin, and the bytes behind it."""
    head = Head(text[:HEAD_MOST])
    try:
        request = head.read()
    except Unfinished:
        if len(text) >= HEAD_MOST:
            raise Refused("TooLarge") from None
        raise
    length = body_length(request)
    end = head.place + length
    if len(text) < end:
        raise Unfinished
    request.body = text[head.place:end]
    request.last = request.last or closes(request)
    return request, text[end:]


# Printing

def request_bytes(request, version=b"HTTP/1.1", length=True, line_end=b"\r\n"):
    """A request as a client sends it."""
    lines = [request.method + b" " + request.target + b" " + version]
    lines += [name + b": " + value for name, value in request.fields]
    if length and request.body:
        lines.append(b"Content-Length: " + str(len(request.body)).encode())
    return line_end.join(lines + [b"", b""]) + request.body


def sent(message):
    """The bytes of a request whose names are spelt as clients spell them."""
    names = [("-".join(part.capitalize() for part in name.decode().split("-")).encode(), value) for name, value in message.fields]
    return request_bytes(Request(message.method, message.target, names, message.body))


def reply_bytes(status, body=b"", last=False, allow=None):
    lines = [f"HTTP/1.1 {status} {PHRASES[status]}"]
    if body:
        lines.append("Content-Type: application/json")
    lines.append("Cache-Control: no-store")
    if allow:
        lines.append("Allow: " + allow)
    if status == 401:
        lines.append("WWW-Authenticate: GNAP")
    if last:
        lines.append("Connection: close")
    if status != 204:
        lines.append(f"Content-Length: {len(body)}")
    return "\r\n".join(lines + ["", ""]).encode() + body
