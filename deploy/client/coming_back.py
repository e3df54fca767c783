"""Waits on the loopback address for the end of an interaction: for the user's browser, or for the server's message."""

import json
import queue
import secrets
from http.server import BaseHTTPRequestHandler, ThreadingHTTPServer
from threading import Thread
from urllib.parse import parse_qs, urlsplit

LONGEST_BODY = 4096

PAGE = """<!doctype html>
<html lang="en">
<meta charset="utf-8">
<meta name="viewport" content="width=device-width, initial-scale=1">
<title>Back at the application</title>
<style>
body { font: 1rem/1.5 system-ui, "DejaVu Sans", sans-serif; margin: 3rem auto; max-width: 34rem; padding: 0 1rem; color: #1c2430; }
h1 { font-size: 1.5rem; }
</style>
<h1>You are back at the application</h1>
<p>It asks the server now what you decided. You can close this page and go on where you began.</p>
"""


class _Handler(BaseHTTPRequestHandler):
    """Takes the hash and the reference from whoever comes to the one path that the client told to the server."""

    server: "ComingBack"

    def do_GET(self) -> None:
        target = urlsplit(self.path)
        pairs = {name: values[-1] for name, values in parse_qs(target.query).items()}
        self._take(target.path, pairs, PAGE)

    def do_POST(self) -> None:
        length = self.headers.get("Content-Length", "")
        if not length.isdecimal() or int(length) > LONGEST_BODY:
            self.send_error(413)
            return
        try:
            said = json.loads(self.rfile.read(int(length)))
        except ValueError:
            said = None
        self._take(self.path, said if isinstance(said, dict) else {}, "")

    def _take(self, path: str, said: dict, page: str) -> None:
        shown, reference = said.get("hash"), said.get("interact_ref")
        if path != self.server.path or not isinstance(shown, str) or not isinstance(reference, str):
            self.send_error(404)
            return
        body = page.encode()
        self.send_response(200)
        self.send_header("Content-Type", "text/html; charset=utf-8")
        self.send_header("Content-Security-Policy", "default-src 'none'; style-src 'unsafe-inline'")
        self.send_header("Referrer-Policy", "no-referrer")
        self.send_header("Cache-Control", "no-store")
        self.send_header("Content-Length", str(len(body)))
        self.end_headers()
        self.wfile.write(body)
        self.server.came.put((shown, reference))

    def log_message(self, *_: object) -> None:
        """Logs nothing: the target has the interaction reference."""


class ComingBack(ThreadingHTTPServer):
    """A listener on a free port, with a path that can't be guessed, so that each grant has an address of its own."""

    daemon_threads = True

    def __init__(self) -> None:
        super().__init__(("127.0.0.1", 0), _Handler)
        self.path = f"/back/{secrets.token_urlsafe(16)}"
        self.uri = f"http://127.0.0.1:{self.server_address[1]}{self.path}"
        self.came: queue.Queue[tuple[str, str]] = queue.Queue()

    def __enter__(self) -> "ComingBack":
        Thread(target=self.serve_forever, daemon=True).start()
        return self

    def __exit__(self, *_: object) -> None:
        self.shutdown()
        self.server_close()

    def wait(self, seconds: float) -> tuple[str, str]:
        """The hash and the reference of the next one who comes. `queue.Empty` is raised where nobody does in time."""
        return self.came.get(timeout=seconds)
