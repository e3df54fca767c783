"""What a tour has at hand, and how it says what it saw."""

import json
import re
import time
from collections.abc import Callable
from dataclasses import dataclass, field
from pathlib import Path

from client.__main__ import client_of, connections_of
from client.connections import Connections, Reply
from client.gnap_client import GnapClient, Grant, Refused
from tour.browser import Browser

# How long a page may take to come, in seconds.
PATIENCE = 20


class Failed(Exception):
    """Something wasn't as it has to be."""


@dataclass
class Tour:
    """The folder of the deployment, the browser, the client, and all secret values that were seen."""

    work: Path
    pictures: Path
    browser: Browser
    config: dict
    client: GnapClient
    connections: Connections
    front: str
    secrets: set[str] = field(default_factory=set)
    passed: int = 0

    def check(self, what: str, holds: bool) -> None:
        """Says that something holds, or stops the tour."""
        if not holds:
            raise Failed(f"{what}\n\nThe window is at {self.browser.uri()} and shows:\n{self.browser.text()}")
        self.passed += 1
        print(f"  ok: {what}", flush=True)

    def shows(self, what: str, *texts: str) -> None:
        """Checks that the page has these texts, once it is there."""
        end = time.monotonic() + PATIENCE
        while not (holds := self._has(texts)) and time.monotonic() < end:
            time.sleep(0.1)
        self.check(what, holds)

    def _has(self, texts: tuple[str, ...]) -> bool:
        page = self.browser.text()
        return all(text in page for text in texts)

    def picture(self, name: str) -> None:
        """Takes pictures of the page."""
        self.check(f"the page fits a phone (picture {name})", self.browser.picture(self.pictures / name))
        self.browser.dark_picture(self.pictures / name)

    def begin(self, *words: object, **more: object) -> Grant:
        """Begins a grant, and remembers what of it is secret."""
        grant = self.client.begin(*words, **more)
        self.remember(grant)
        return grant

    def remember(self, grant: Grant) -> None:
        """Remembers what of a grant is secret."""
        self.secrets.add(grant.value)
        for token in grant.tokens:
            self.secrets |= {token.value, token.manage_value}
        if grant.interact and "redirect" in grant.interact:
            self.secrets.add(handle_of(grant))

    def fetch(self, path: str, form: str | None = None, cookie: str = "") -> Reply:
        """A page of the front, got without a browser; with a form it is sent there."""
        fields = {"Cookie": cookie, "Content-Type": "application/x-www-form-urlencoded"}
        method = "GET" if form is None else "POST"
        return self.connections.send(method, self.front + path, fields, form and form.encode())

    def is_refused(self, what: str, code: str, call: Callable[[], object]) -> None:
        """Checks that the server refuses a call by this code."""
        try:
            call()
        except Refused as refused:
            self.check(f"{what}: {code}", refused.code == code)
        else:
            self.check(f"{what}: {code}", False)


def handle_of(grant: Grant) -> str:
    """The handle in the address to which the user is sent."""
    return grant.interact["redirect"].rsplit("/", 1)[1]


def form_token(page: Reply) -> str:
    """The token that the forms of a page carry."""
    return re.search(r'name="form_token" value="([0-9a-f]{64})"', page.content.decode())[1]


def start_tour(work: Path, pictures: Path, browser: Browser) -> Tour:
    """A tour of the deployment in this folder."""
    config = json.loads((work / "client.json").read_text())
    front = json.loads((work / "as.json").read_text())["front"]
    return Tour(work, pictures, browser, config, client_of(config), connections_of(config), front)
