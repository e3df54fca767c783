"""What the scripts of this folder share: a setup, signed requests (RFC 9421), replies off a socket, and `gnap as` or `gnap sets` as a child process."""

import base64
import hashlib
import hmac
import json
import os
import secrets
import socket
import subprocess
import tempfile
import time

TOP = os.path.dirname(os.path.dirname(os.path.abspath(__file__)))
BASE = "https://as.example"
SECRETS = {"c1": b"secret-key-of-c1", "d1": b"secret-key-of-d1", "r1": b"secret-key-of-r1"}
BEGIN = b'{"access_token":{"access":["photos"]},"client":"c1"}'


def text_of(secret):
    return base64.b64encode(secret).decode()


SETUP = json.dumps({"base": BASE, "front": "https://front.example", "keys": [
    {"id": "c1", "role": "client", "secret": text_of(SECRETS["c1"]), "auto": ["photos"], "ask": []},
    {"id": "d1", "role": "client", "secret": text_of(SECRETS["d1"]), "auto": ["photos"], "ask": []},
    {"id": "r1", "role": "server", "secret": text_of(SECRETS["r1"]), "serves": ["photos"]},
]})
# By d1 the resource server derives tokens, where `gnap as` is given this.
PAIRS = json.dumps({"pairs": [{"client": "d1", "server": "r1"}]})


def signed_request(method, path, key, body, value=None, created=None, nonce=None, base=BASE):
    """The bytes of a request that a key of the setup signs, with a body, with a presented value, or without, and with a nonce where there is one; to the server
    with this base."""
    created = int(time.time()) if created is None else created
    covered = [("@method", method), ("@target-uri", base + path)]
    head = [f"{method} {path} HTTP/1.1", "Host: " + base.removeprefix("https://")]
    if body:
        digest = f"sha-256=:{text_of(hashlib.sha256(body).digest())}:"
        covered.append(("content-digest", digest))
        head += ["Content-Type: application/json", f"Content-Length: {len(body)}", f"Content-Digest: {digest}"]
    if value is not None:
        covered.append(("authorization", f"GNAP {value}"))
        head.append(f"Authorization: GNAP {value}")
    names = " ".join(f'"{name}"' for name, _ in covered)
    told = "" if nonce is None else f';nonce="{nonce}"'
    params = f'({names});created={created};keyid="{key}"{told};tag="gnap"'
    signature_base = "".join(f'"{name}": {text}\n' for name, text in covered) + f'"@signature-params": {params}'
    code = text_of(hmac.new(SECRETS[key], signature_base.encode(), hashlib.sha256).digest())
    head += [f"Signature-Input: sig1={params}", f"Signature: sig1=:{code}:"]
    return ("\r\n".join(head) + "\r\n\r\n").encode() + body


def signed_post(path, key, body, created=None, nonce=None):
    """The bytes of a POST with a body, signed by a key of the setup, with a nonce where there is one."""
    return signed_request("POST", path, key, body, created=created, nonce=nonce)


def fresh_nonce():
    return secrets.token_urlsafe(16)


def grant_request():
    """Another one each time, since the server takes a client's nonce once."""
    return signed_post("/gnap", "c1", BEGIN, nonce=fresh_nonce())


def derivation(parent):
    """A grant request for a token that is derived from another one."""
    body = {"access_token": {"access": ["photos"]}, "client": "d1", "existing_access_token": parent}
    return signed_post("/gnap", "d1", json.dumps(body).encode(), nonce=fresh_nonce())


def introspection(value, nonce=None):
    return signed_post("/introspect", "r1", json.dumps({"access_token": value, "resource_server": "r1"}).encode(), nonce=nonce)


def first_reply(held):
    """The status, the head and the body of the reply that the bytes begin with, and how many bytes it has; None where it isn't whole."""
    end = held.find(b"\r\n\r\n")
    if end < 0:
        return None
    head = bytes(held[:end]).lower()
    length = 0
    for line in head.split(b"\r\n")[1:]:
        if line.startswith(b"content-length:"):
            length = int(line[15:])
    whole = end + 4 + length
    if len(held) < whole:
        return None
    return int(head.split(b" ")[1]), head, bytes(held[end + 4:whole]), whole


class Served:
    """`gnap as`, or another command with its words, over a setup at a free port of this machine, behind the words of a program that runs it; with pairs where
    their text is given, and of another program where one is named. The options are those of `subprocess.Popen`."""

    def __init__(self, workers, quota, under=(), command="as", setup=SETUP, pairs=None, program=None, **options):
        self.folder = tempfile.TemporaryDirectory()
        self.config, paired = self.file("setup.json", setup), [] if pairs is None else [self.file("pairs.json", pairs)]
        with socket.socket() as probe:
            probe.bind(("127.0.0.1", 0))
            self.address = probe.getsockname()
        listen = f"{self.address[0]}:{self.address[1]}"
        program = program or os.environ.get("GNAP", os.path.join(TOP, "gnap"))
        self.process = subprocess.Popen([*under, program, command, self.config, listen, str(workers), str(quota), *paired], **options)

    def file(self, name, text):
        path = os.path.join(self.folder.name, name)
        with open(path, "w") as file:
            file.write(text)
        return path

    def connect(self):
        conn = socket.create_connection(self.address, timeout=30)
        conn.setsockopt(socket.IPPROTO_TCP, socket.TCP_NODELAY, 1)
        return conn

    def first_connection(self):
        """A connection as soon as the program listens. One that is refused doesn't count for its quota."""
        while self.process.poll() is None:
            try:
                return self.connect()
            except ConnectionRefusedError:
                time.sleep(0.05)
        raise SystemExit("gnap doesn't listen")

    def first_exchange(self, request):
        """The status and the body of the reply to one request on the first connection."""
        with self.first_connection() as conn:
            conn.sendall(request)
            held = bytearray()
            while (reply := first_reply(held)) is None:
                piece = conn.recv(65536)
                if not piece:
                    raise SystemExit("no reply")
                held += piece
            return reply[0], reply[2]

    def stop(self):
        self.process.terminate()
        self.process.wait()
        self.folder.cleanup()
