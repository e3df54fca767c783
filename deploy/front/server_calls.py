"""The three calls of a consent front: look at an interaction, find one by its code, decide it."""

import http.client
import json

from front.settings import Settings
from http_signatures import Signer

TIMEOUT = 10


class Refused(Exception):
    """The server refused a call. `code` is its error code, empty where it told none."""

    def __init__(self, code: str):
        self.code = code
        super().__init__(code)


class Unreachable(Exception):
    """The server gave no reply that can be read."""


class ServerCalls:
    """Calls the authorization server at its own address, behind the terminator, and signs for its public name."""

    def __init__(self, settings: Settings):
        self._server = settings.server
        self._connect = settings.connect
        self._signer = Signer(settings.key_id, settings.secret)

    def _call(self, path: str, body: dict) -> dict:
        data = json.dumps(body).encode()
        fields = self._signer.fields("POST", self._server + path, data)
        fields["Host"] = self._server.split("://", 1)[1]
        fields["Connection"] = "close"
        connection = http.client.HTTPConnection(*self._connect, timeout=TIMEOUT)
        try:
            connection.request("POST", path, body=data, headers=fields)
            reply = connection.getresponse()
            said = json.loads(reply.read() or b"{}")
        except (OSError, http.client.HTTPException, ValueError) as fault:
            raise Unreachable from fault
        finally:
            connection.close()
        if reply.status == 200:
            return said
        if reply.status >= 500:
            raise Unreachable
        raise Refused(said.get("error", {}).get("code", ""))

    def look(self, handle: str) -> dict:
        """What is asked for under this handle."""
        return self._call("/front/look", {"handle": handle})

    def find_code(self, code: str) -> str:
        """The handle of the interaction with this user code."""
        return self._call("/front/code", {"code": code})["handle"]

    def decide(self, handle: str, verdict: str, access: list | None = None, subject: str | None = None) -> dict:
        """Decides, and says how the client is to be told. Without `access` all that was asked for is meant."""
        body: dict = {"handle": handle, "verdict": verdict}
        if access is not None:
            body["access"] = access
        if subject is not None:
            body["subject"] = subject
        return self._call("/front/decide", body)
