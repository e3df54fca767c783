"""What a resource server does to call another one: it has a token of its own derived from the one that it was shown (RFC 9767, section 4)."""

import json

from client.__main__ import client_of
from client.gnap_client import Token
from resource_set import asked
from tour.checks import Tour
from tour.visits import ALLOW_ALL

ORIGINALS = {"access": ["originals"]}


def derived_token(tour: Tour) -> None:
    """A resource server calls another one, by a token that is derived from the client's:"""
    keys = {key["id"]: key for key in json.loads((tour.work / "as.json").read_text())["keys"]}
    inner = int(json.loads((tour.work / "front.json").read_text())["connect"].rpartition(":")[2])
    shelf = client_of(tour.config, keys["shelf-at-store"])

    def is_live(token: Token, server: str) -> bool:
        question = {"access_token": token.value, "resource_server": server}
        return asked(inner, tour.config["server"], keys[server], "/introspect", question)["active"]

    grant = tour.begin({"access": ["photos"]}, ["redirect"])
    tour.browser.go(grant.interact["redirect"])
    tour.browser.click(ALLOW_ALL)
    tour.shows("the user allows the client to see the photos", "You allowed it")
    tour.client.poll(grant)
    tour.remember(grant)
    parent = grant.tokens[0]
    derived = shelf.derive(ORIGINALS, parent)
    tour.remember(derived)
    token = derived.tokens[0]
    tour.check("the server to which the token was shown gets one of its own", token.access == ["originals"] and token.value != parent.value)
    tour.check("which lasts no longer", token.seconds <= parent.seconds)
    tour.check("the other server is told that it is live", is_live(token, "store"))
    tour.check("and isn't told so of the client's", not is_live(parent, "store"))
    tour.is_refused("without a token it gets none", "invalid_request", lambda: shelf.begin(ORIGINALS, []))
    tour.client.revoke(parent)
    tour.is_refused("nor by one that was revoked", "request_denied", lambda: shelf.derive(ORIGINALS, parent))
    tour.check("what was derived before that is still live", is_live(token, "store"))
    shelf.cancel(derived)
    tour.check("until its grant is given back", not is_live(token, "store"))
    tour.client.cancel(grant)
