"""A GNAP client (RFC 9635) whose key is a shared secret: begins a grant, continues it, uses, rotates and revokes its tokens, and moves them to another key."""

import base64
import hashlib
import hmac
import json
import secrets
import time
from dataclasses import dataclass, field

from client.connections import Connections, Reply
from http_signatures import Signer


class Refused(Exception):
    """The server refused a call. `code` is its error code, or its status where it told none."""

    def __init__(self, reply: Reply):
        self.code = reply.error() or str(reply.status)
        super().__init__(f"refused: {self.code}")


class WrongHash(Exception):
    """Somebody came back from the interaction without knowing its hash (RFC 9635, section 4.2.3)."""


@dataclass
class Token:
    """An access token: its value is a secret, and so is that of its management."""

    value: str = field(repr=False)
    access: list
    label: str | None
    bearer: bool
    seconds: int
    manage_uri: str
    manage_value: str = field(repr=False)


@dataclass
class Grant:
    """A grant as the client knows it. `interact` says how the user comes to decide, None where nobody is asked."""

    uri: str
    value: str = field(repr=False)
    wait: int
    interact: dict | None = None
    nonce: str | None = field(default=None, repr=False)
    tokens: list[Token] = field(default_factory=list)
    user: str | None = None


def interaction_hash(client_nonce: str, server_nonce: str, reference: str, endpoint: str) -> str:
    """The hash by which a client knows that the one who comes back comes from its server (RFC 9635, section 4.2.3)."""
    text = "\n".join([client_nonce, server_nonce, reference, endpoint])
    digest = hashlib.sha256(text.encode()).digest()
    return base64.urlsafe_b64encode(digest).rstrip(b"=").decode()


def _read_token(item: dict) -> Token:
    manage = item["manage"]
    return Token(
        value=item["value"],
        access=item["access"],
        label=item.get("label"),
        bearer="bearer" in item.get("flags", []),
        seconds=item["expires_in"],
        manage_uri=manage["uri"],
        manage_value=manage["access_token"]["value"],
    )


class GnapClient:
    """The calls of one client at one authorization server."""

    def __init__(self, server: str, signer: Signer, connections: Connections):
        self.endpoint = f"{server}/gnap"
        self._signer = signer
        self._connections = connections

    def _call(self, method: str, uri: str, body: dict | None, value: str | None = None, new_key: Signer | None = None) -> Reply:
        data = None if body is None else json.dumps(body).encode()
        credential = None if value is None else f"GNAP {value}"
        fields = self._signer.fields(method, uri, data, credential, new_key)
        reply = self._connections.send(method, uri, fields, data)
        if reply.status not in (200, 204):
            raise Refused(reply)
        return reply

    def begin(
        self,
        wanted: object,
        start: list[str],
        finish: tuple[str, str] | None = None,
        subject: bool = False,
        user: str | None = None,
    ) -> Grant:
        """Asks for tokens, or for one. `finish` is how the client is told of the end: `redirect` or `push`, and a URI.

        With `subject` it asks who the user is; `user` is the identifier of the one whom it means.
        """
        nonce = None
        interact: dict = {"start": start}
        if finish:
            nonce = secrets.token_urlsafe(24)
            interact["finish"] = {"method": finish[0], "uri": finish[1], "nonce": nonce}
        body = {"access_token": wanted, "client": self._signer.key_id, "interact": interact}
        if subject:
            body["subject"] = {"sub_id_formats": ["opaque"]}
        if user is not None:
            body["user"] = user
        said = self._call("POST", self.endpoint, body).body
        grant = Grant(uri="", value="", wait=0, nonce=nonce)
        self._take(grant, said)
        return grant

    def derive(self, wanted: object, parent: Token) -> Grant:
        """Asks for tokens as a resource server to which a token was shown, to call another one with them (RFC 9767, section 4)."""
        body = {"access_token": wanted, "client": self._signer.key_id, "existing_access_token": parent.value}
        grant = Grant(uri="", value="", wait=0)
        self._take(grant, self._call("POST", self.endpoint, body).body)
        return grant

    def _take(self, grant: Grant, said: dict) -> None:
        """Takes over what a reply says of a grant."""
        onward = said["continue"]
        grant.uri, grant.value = onward["uri"], onward["access_token"]["value"]
        grant.wait = onward["wait"]
        grant.interact = said.get("interact", grant.interact)
        if "access_token" in said:
            tokens = said["access_token"]
            grant.tokens = [_read_token(item) for item in (tokens if isinstance(tokens, list) else [tokens])]
        for identifier in said.get("subject", {}).get("sub_ids", []):
            grant.user = identifier["id"]

    def finish(self, grant: Grant, shown_hash: str, reference: str) -> None:
        """Continues a grant whose user came back, after the hash was checked."""
        meant = interaction_hash(grant.nonce, grant.interact["finish"], reference, self.endpoint)
        if not hmac.compare_digest(meant.encode(), shown_hash.encode()):
            raise WrongHash
        self._take(grant, self._call("POST", grant.uri, {"interact_ref": reference}, grant.value).body)

    def poll(self, grant: Grant) -> None:
        """Waits as the server asked for it, and looks whether the user has decided."""
        time.sleep(grant.wait)
        self._take(grant, self._call("POST", grant.uri, None, grant.value).body)

    def cancel(self, grant: Grant) -> None:
        """Gives the grant and its tokens back."""
        self._call("DELETE", grant.uri, None, grant.value)

    def use(self, token: Token, method: str, uri: str) -> Reply:
        """Shows a token to a resource server. A token that is bound to the key needs the signature; a bearer token has none."""
        if token.bearer:
            return self._connections.send(method, uri, {"Authorization": f"Bearer {token.value}"})
        fields = self._signer.fields(method, uri, None, f"GNAP {token.value}")
        return self._connections.send(method, uri, fields)

    def rotate(self, token: Token) -> Token:
        """Exchanges a token for one with the same rights. The old one is worth nothing afterwards."""
        reply = self._call("POST", token.manage_uri, None, token.manage_value)
        return _read_token(reply.body["access_token"])

    def move(self, token: Token, to: "GnapClient") -> Token:
        """Exchanges a token for one that is bound to the key of another client, which signs too (RFC 9635, section 6.1.1).

        The new token is that client's to use, rotate and revoke. The grant stays with this one.
        """
        new_key = to._signer
        reply = self._call("POST", token.manage_uri, {"key": new_key.key_id}, token.manage_value, new_key)
        return _read_token(reply.body["access_token"])

    def revoke(self, token: Token) -> None:
        """Gives a token back."""
        self._call("DELETE", token.manage_uri, None, token.manage_value)
