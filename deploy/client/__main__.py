"""Shows a whole grant: asks, sends the user to the page, and uses, rotates and revokes what the user granted.

    python3 -m client CONFIG [--no-browser] [--new-key]

With --new-key, tokens that are bound to the key are rotated to the new key of the configuration, which both sign.
"""

import argparse
import base64
import json
import queue
import sys
import webbrowser
from pathlib import Path

from client.coming_back import ComingBack
from client.connections import Connections
from client.gnap_client import GnapClient, Grant, Refused, Token, WrongHash
from http_signatures import Signer


def connections_of(config: dict) -> Connections:
    """Connections to the terminator, whose certificate is trusted."""
    host, port = config["connect"].rsplit(":", 1)
    return Connections(config["trusted"], (host, int(port)))


def client_of(config: dict, key: dict | None = None) -> GnapClient:
    """The client of a configuration, with its key or with this one."""
    key = key or config
    signer = Signer(key["id"], base64.b64decode(key["secret"]))
    return GnapClient(config["server"], signer, connections_of(config))


def _names(access: list) -> str:
    return ", ".join(right if isinstance(right, str) else right["type"] for right in access)


def ask_user(client: GnapClient, wanted: object, browser: bool) -> Grant:
    """Begins a grant, sends the user to the page and waits until the user comes back."""
    with ComingBack() as back:
        grant = client.begin(wanted, ["redirect"], ("redirect", back.uri), subject=True)
        print(f"Open this page and decide there:\n\n    {grant.interact['redirect']}\n", flush=True)
        if browser:
            webbrowser.open(grant.interact["redirect"])
        shown, reference = back.wait(grant.interact["expires_in"])
    client.finish(grant, shown, reference)
    return grant


def use(client: GnapClient, resource: str, token: Token) -> None:
    """Shows the token at each place of the resource server, and prints what that says."""
    for path in ("/photos", "/calendar", "/mail"):
        reply = client.use(token, "GET", resource + path)
        text = reply.body["text"] if reply.status == 200 else "refused"
        print(f"  GET {path}: {reply.status} {text}")


def rotate(client: GnapClient, successor: GnapClient | None, token: Token) -> tuple[GnapClient, Token]:
    """The token for which this one is exchanged, and the client whose it is: the successor, where there is one and the token is bound to a key."""
    if successor is None or token.bearer:
        rotated = client.rotate(token)
        print("  rotated. The old one:")
        return client, rotated
    rotated = client.move(token, successor)
    print("  rotated to the new key. The old one:")
    return successor, rotated


def walk(client: GnapClient, config: dict, browser: bool, successor: GnapClient | None) -> None:
    """The whole grant."""
    resource = config["resource"]
    grant = ask_user(client, config["wanted"], browser)
    print("The user came back, and the hash is right.")
    print(f"The user: {grant.user or 'not told'}")
    if not grant.tokens:
        print("The user granted nothing.")
    for token in grant.tokens:
        print(f"Token {token.label!r} for {_names(token.access)}, {token.seconds} seconds{', bearer' if token.bearer else ''}:")
        use(client, resource, token)
        owner, rotated = rotate(client, successor, token)
        use(client, resource, token)
        print("  The new one:")
        use(owner, resource, rotated)
        owner.revoke(rotated)
        print("  revoked:")
        use(owner, resource, rotated)
    client.cancel(grant)
    print("The grant is given back.")


def main() -> int:
    """Reads the words of the command."""
    parser = argparse.ArgumentParser(prog="client", description="Shows a whole grant.")
    parser.add_argument("config", type=Path)
    parser.add_argument("--no-browser", action="store_true", help="only print the link")
    parser.add_argument("--new-key", action="store_true", help="rotate bound tokens to the new key of the configuration")
    words = parser.parse_args()
    config = json.loads(words.config.read_text())
    successor = client_of(config, config["new_key"]) if words.new_key else None
    try:
        walk(client_of(config), config, not words.no_browser, successor)
    except Refused as refused:
        print(f"The server refused: {refused.code}")
        return 1
    except WrongHash:
        print("Somebody came back with a wrong hash, so the client stops.")
        return 1
    except queue.Empty:
        print("Nobody came back in time.")
        return 1
    return 0


if __name__ == "__main__":
    sys.exit(main())
