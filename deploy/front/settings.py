"""What a front is told by its setup."""

import base64
import hashlib
import hmac
import json
import re
from dataclasses import dataclass
from pathlib import Path

# What begins a URI that can be read in one way only: no user, no backslash, no port that isn't one.
ORIGIN = re.compile(r"(https?://[a-z0-9.-]+)(:[0-9]{1,5})?(?=[/?]|$)")
HOST = re.compile(r"https?://([a-z0-9.-]+)")


@dataclass(frozen=True)
class User:
    """Somebody who can sign in. The subject is the opaque identifier that clients are told."""

    id: str
    name: str
    subject: str


@dataclass(frozen=True)
class Client:
    """A client as people know it, and the origins to which it may be told of the end, a port `*` meaning any."""

    name: str
    about: str
    finish: tuple[str, ...]
    described: bool = True

    def may_be_told_at(self, uri: str) -> bool:
        """Whether the URI has one of the client's origins."""
        origin = ORIGIN.match(uri)
        return origin is not None and not {origin[0], f"{origin[1]}:*"}.isdisjoint(self.finish)

    def hosts(self) -> list[str]:
        """The hosts to which the client may have a user sent, each once."""
        found = (HOST.match(origin) for origin in self.finish)
        return list(dict.fromkeys(origin[1] for origin in found if origin))


@dataclass(frozen=True)
class Elsewhere:
    """A sign-in before this front, as nginx's `auth_request` does it: a field of each request, `header`, names the account.

    The field is trusted, so whatever stands before the front has to set it in each request, or take it out, and nobody may
    reach the front past that. `sign_out` is the address where people sign out, empty where there is none. It takes the place
    of the page on which one chooses a user.
    """

    header: str
    secret: bytes
    sign_out: str

    def user(self, account: str) -> User:
        """The user of an account. The subject is made from the account by the secret, and stays the same as long as that does."""
        made = hmac.new(self.secret, account.encode(), hashlib.sha256).digest()
        return User(account, account, base64.urlsafe_b64encode(made[:16]).rstrip(b"=").decode())


@dataclass(frozen=True)
class Settings:
    """The whole setup of a front."""

    listen: tuple[str, int]
    server: str
    connect: tuple[str, int]
    key_id: str
    secret: bytes
    users: dict[str, User]
    clients: dict[str, Client]
    rights: dict[str, dict[str, str]]
    elsewhere: Elsewhere | None

    def client(self, key_id: str) -> Client:
        """The client with this key. One that nobody described has its id for a name, and is told nowhere."""
        return self.clients.get(key_id) or Client(key_id, "", (), described=False)


def _address(text: str) -> tuple[str, int]:
    host, port = text.rsplit(":", 1)
    return host, int(port)


def _elsewhere(said: dict | None) -> Elsewhere | None:
    if said is None:
        return None
    return Elsewhere(said["header"], base64.b64decode(said["secret"]), said.get("sign_out", ""))


def read_settings(path: Path) -> Settings:
    """The setup that stands in a file."""
    said = json.loads(path.read_text())
    return Settings(
        listen=_address(said["listen"]),
        server=said["server"],
        connect=_address(said["connect"]),
        key_id=said["id"],
        secret=base64.b64decode(said["secret"]),
        users={user["id"]: User(**user) for user in said["users"]},
        clients={
            key_id: Client(client["name"], client["about"], tuple(client["finish"]))
            for key_id, client in said["clients"].items()
        },
        rights=said["rights"],
        elsewhere=_elsewhere(said.get("sign_in_elsewhere")),
    )
