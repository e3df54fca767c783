"""Sends requests to https URIs, each over a connection of its own."""

import http.client
import json
import socket
import ssl
from dataclasses import dataclass
from email.message import Message
from urllib.parse import urlsplit

TIMEOUT = 20


@dataclass(frozen=True)
class Reply:
    """A reply: its status, its fields, and the bytes of its body."""

    status: int
    fields: Message
    content: bytes

    @property
    def body(self) -> object:
        """What a JSON body says; None where it is none, as an error page of a terminator."""
        try:
            return json.loads(self.content)
        except ValueError:
            return None

    def error(self) -> str | None:
        """The code of the error that the reply tells (RFC 9635, section 3.6), None where it tells none."""
        said = self.body
        error = said.get("error") if isinstance(said, dict) else None
        return error.get("code") if isinstance(error, dict) else error


class _ToAddress(http.client.HTTPSConnection):
    """A connection that goes to a given address, whatever its name resolves to. TLS still asks for the name."""

    def __init__(self, name: str, address: tuple[str, int], context: ssl.SSLContext):
        super().__init__(name, timeout=TIMEOUT, context=context)
        self._address = address
        self._tls = context

    def connect(self) -> None:
        plain = socket.create_connection(self._address, TIMEOUT)
        self.sock = self._tls.wrap_socket(plain, server_hostname=self.host)


class Connections:
    """Opens connections to the names of URIs, or all of them to one address, as names that no resolver knows need it."""

    def __init__(self, trusted: str | None = None, address: tuple[str, int] | None = None):
        self._tls = ssl.create_default_context(cafile=trusted)
        self._address = address

    def send(self, method: str, uri: str, fields: dict[str, str], body: bytes | None = None) -> Reply:
        """Sends one request and reads its reply. The target is sent as the URI has it, since it is signed."""
        parts = urlsplit(uri)
        if parts.scheme != "https" or not parts.hostname:
            raise ValueError("only https is asked")
        address = self._address or (parts.hostname, parts.port or 443)
        connection = _ToAddress(parts.netloc, address, self._tls)
        try:
            target = (parts.path or "/") + (f"?{parts.query}" if parts.query else "")
            connection.request(method, target, body=body, headers=fields)
            reply = connection.getresponse()
            return Reply(reply.status, reply.headers, reply.read())
        finally:
            connection.close()
