"""Checks docs/openapi.yaml: starts `gnap as` and `gnap sets`, sends them signed requests of every operation, and compares replies with the description.

    python3 deploy/check_openapi.py

A reply has to have a status of its operation, and the fields and the body that are described for it. A body that a call takes has to fit the schema of its
requests, and one that is refused for its form must not. Each operation, status and error code that is described has to be seen, but for those of UNSEEN.
GNAP names another program than ./gnap. Only Python's standard library is needed. It takes about eight seconds, most of which the polls wait.
"""

import base64
import http.client
import json
import os
import random
import subprocess
import sys
import tempfile
import time
from pathlib import Path
from urllib.parse import parse_qs, urlsplit

from http_signatures import Signer
from json_schemas import Schemas

TOP = Path(__file__).resolve().parent.parent
BASE, FRONT = "https://as.example", "https://front.example"
SECRETS = {name: f"secret-key-of-{name}".encode() for name in ("c1", "c2", "d1", "r1", "f1")}
FULL = {"type": "calendar", "actions": ["read", "write"], "locations": ["https://rs.example/calendar"], "privileges": ["owner"], "since": 2024}
RIGHTS = {"client": {"auto": ["photos"], "ask": ["mail", FULL]}, "server": {"serves": ["photos", "calendar"]}, "front": {}}
ROLES = {"c1": "client", "c2": "client", "d1": "client", "r1": "server", "f1": "front"}
SETUP = {
    "base": BASE,
    "front": FRONT,
    "keys": [{"id": name, "role": role, "secret": base64.b64encode(SECRETS[name]).decode(), **RIGHTS[role]} for name, role in ROLES.items()],
}
# The client key of a resource server that derives tokens.
PAIRS = {"pairs": [{"client": "d1", "server": "r1"}]}
PHOTOS, MAIL = {"access": ["photos"]}, {"access": ["mail"]}
AT_ONCE = {"access_token": PHOTOS, "client": "c1"}
NOTHING = "A" * 32
# The paths of `gnap sets`.
SET_PATHS = ("/resource", "/resolve")
# Only at a full table of tokens, or of sets.
UNSEEN = {("continue", "400", "request_denied"), ("register", "400", "request_denied")}


class Wrong(Exception):
    """The server and the description differ."""


class Reply:
    """A reply as it came."""

    def __init__(self, reply: http.client.HTTPResponse):
        self.status = reply.status
        self.fields = reply.headers
        content = reply.read()
        self.body = json.loads(content) if content else None

    @property
    def onward(self) -> str:
        """The continuation value that it hands out."""
        return self.body["continue"]["access_token"]["value"]

    @property
    def handle(self) -> str:
        """The handle of the interaction that it begins."""
        return self.body["interact"]["redirect"].rsplit("/", 1)[1]


class Servers:
    """`gnap as` and `gnap sets` as child processes, each at a port of 127.0.0.1."""

    def __init__(self, folder: str):
        setup, pairs = Path(folder, "setup.json"), Path(folder, "pairs.json")
        setup.write_text(json.dumps(SETUP))
        pairs.write_text(json.dumps(PAIRS))
        program = os.environ.get("GNAP", str(TOP / "gnap"))
        subprocess.run([program, "replay", str(TOP / "examples" / "first.jsonl")], stdout=subprocess.DEVNULL, check=True)
        self._processes: list[subprocess.Popen] = []
        more = {"as": [str(pairs)], "sets": []}
        self._ports = {command: self._start(program, command, str(setup), words) for command, words in more.items()}

    def _start(self, program: str, command: str, setup: str, more: list[str]) -> int:
        for _ in range(10):
            port = random.randrange(20000, 32000)
            process = subprocess.Popen([program, command, setup, f"127.0.0.1:{port}", "2", "1000", *more], stderr=subprocess.DEVNULL)
            time.sleep(0.3)
            if process.poll() is None:
                self._processes.append(process)
                return port
        self.stop()
        raise Wrong(f"gnap {command} doesn't start")

    def send(self, method: str, path: str, fields: dict[str, str], body: bytes | None) -> Reply:
        """Sends one request and reads its reply."""
        port = self._ports["sets" if path in SET_PATHS else "as"]
        connection = http.client.HTTPConnection("127.0.0.1", port, timeout=20)
        try:
            connection.request(method, path, body=body, headers={"Host": "as.example", **fields})
            return Reply(connection.getresponse())
        finally:
            connection.close()

    def stop(self) -> None:
        """Ends the processes."""
        for process in self._processes:
            process.terminate()
            process.wait()


class Checked:
    """The servers and their description, and what was seen of them."""

    def __init__(self, servers: Servers, description: dict):
        self.servers = servers
        self.description = description
        self.schemas = Schemas(description)
        self.seen: set[tuple[str, str, str]] = set()
        self.exchanges = 0

    def operations(self) -> dict[tuple[str, str], dict]:
        """Each operation, by its method and path."""
        paths = self.description["paths"].items()
        return {(method.upper(), path): operation for path, methods in paths for method, operation in methods.items()}

    def call(
        self, method: str, path: str, body: object = None, value: str | None = None, key: str | None = "c1", expect: object = 200, again: str = ""
    ) -> Reply:
        """Makes a call, which is answered by the status or the error code that is expected, and checks all that is described of it.

        `again` is a key that signs too.
        """
        operation = self.operations()[method, path]
        data = None if body is None else body if isinstance(body, bytes) else json.dumps(body).encode()
        credential = None if value is None else f"GNAP {value}"
        new_key = Signer(again, SECRETS[again]) if again else None
        fields = Signer(key, SECRETS[key]).fields(method, BASE + path, data, credential, new_key) if key else {}
        reply = self.servers.send(method, path, fields, data)
        what = f"{operation['operationId']} {body}: {reply.status} {reply.body}"
        code = reply.body["error"]["code"] if reply.body and "error" in reply.body else ""
        if expect not in (reply.status, code):
            raise Wrong(f"{what}, and not {expect}")
        self._check_reply(what, operation, reply)
        if isinstance(body, dict) and code != "invalid_request":
            self._check_request(what, operation, body, code != "invalid_flag")
        self.seen.add((operation["operationId"], str(reply.status), code))
        self.exchanges += 1
        return reply

    def refuse(self, method: str, path: str, bodies: list[object], value: str | None = None, key: str = "c1") -> None:
        """Bodies that the server and the schema refuse for their form."""
        for body in bodies:
            reply = self.call(method, path, body, value, key, "invalid_request")
            self._check_request(f"{path} {body}: {reply.body}", self.operations()[method, path], body, False)

    def _check_reply(self, what: str, operation: dict, reply: Reply) -> None:
        described = operation["responses"].get(str(reply.status))
        if described is None:
            raise Wrong(f"{what}: the status isn't described")
        described = self.schemas.resolve(described)
        for name, header in described.get("headers", {}).items():
            if not self.schemas.fits(self.schemas.resolve(header)["schema"], reply.fields[name]):
                raise Wrong(f"{what}: {name} is {reply.fields[name]}")
        if ("WWW-Authenticate" in reply.fields) != (reply.status == 401) or reply.fields["Cache-Control"] != "no-store":
            raise Wrong(f"{what}: the fields are {reply.fields.items()}")
        content = described.get("content")
        if (content is None) != (reply.body is None):
            raise Wrong(f"{what}: one of the two has a body")
        if content:
            schema = content[reply.fields["Content-Type"]]["schema"]
            if faults := list(self.schemas.faults(schema, reply.body)):
                raise Wrong(f"{what}: {faults}")

    def _check_request(self, what: str, operation: dict, body: object, fits: bool) -> None:
        schema = operation["requestBody"]["content"]["application/json"]["schema"]
        faults = list(self.schemas.faults(schema, body))
        if fits == bool(faults):
            raise Wrong(f"{what}: of the request {faults or 'nothing'} is wrong by its schema")

    def unseen(self) -> set[tuple[str, str, str]]:
        """What is described and didn't come: operation, status and error code."""
        described = set()
        for operation in self.operations().values():
            for status, response in operation["responses"].items():
                for code in self._codes(self.schemas.resolve(response)):
                    described.add((operation["operationId"], status, code))
        return {item for item in described if item[1] != "default"} - self.seen - UNSEEN

    def _codes(self, response: dict) -> list[str]:
        schema = response.get("content", {}).get("application/json", {}).get("schema", {})
        error = schema.get("properties", {}).get("error", {})
        return error["properties"]["code"]["enum"] if error else [""]


def asking(start: list[str], finish: str | None = None, **more: object) -> dict:
    """A grant request about which the user is asked."""
    interact: dict = {"start": start}
    if finish:
        interact["finish"] = {"method": finish, "uri": "https://client.example/back?shop=7", "nonce": "VJLO6A4CATR0KRO"}
    return {"access_token": MAIL, "client": "c1", "interact": interact, **more}


def discoveries(checked: Checked) -> None:
    """What the server says of itself; other methods and paths; the examples of the description."""
    checked.call("OPTIONS", "/gnap", key=None)
    checked.call("GET", "/.well-known/gnap-as-rs", key=None)
    for path, methods in checked.description["paths"].items():
        allowed = {method.upper() for method in methods}
        for method in {"GET", "PUT", "OPTIONS", "POST", "PATCH", "DELETE"} - allowed:
            reply = checked.servers.send(method, path, {}, None)
            if reply.status != 405 or set(reply.fields["Allow"].split(", ")) != allowed or reply.body is not None:
                raise Wrong(f"{method} {path}: {reply.status} {reply.fields['Allow']}, and {allowed} is described")
    many = {f"X-{n}": "" for n in range(64)}
    for path, fields, status in (("/nowhere", {}, 404), ("/gnap", {"Content-Encoding": "gzip"}, 501), ("/gnap", many, 413)):
        reply = checked.servers.send("POST", path, fields, None)
        if reply.status != status or reply.body is not None:
            raise Wrong(f"{status} without a body is described: {reply.status} {reply.body}")
    for (_, path), operation in checked.operations().items():
        for content in operation.get("requestBody", {}).get("content", {}).values():
            for name, example in content.get("examples", {}).items():
                if faults := list(checked.schemas.faults(content["schema"], example["value"])):
                    raise Wrong(f"the example {name!r} of {path}: {faults}")


def requests_and_tokens(checked: Checked) -> None:
    """Grants that are made at once, and what is done with their tokens."""
    begun = checked.call("POST", "/gnap", AT_ONCE)
    both = [{"label": "one", **PHOTOS}, {"label": "two", "flags": ["bearer", "other"], **PHOTOS}]
    several = checked.call("POST", "/gnap", {"access_token": both, "client": {"key": "c1"}})
    checked.call("POST", "/gnap", AT_ONCE, key=None, expect="invalid_client")
    checked.call("POST", "/gnap", AT_ONCE, key="r1", expect="invalid_client")
    checked.call("POST", "/gnap", AT_ONCE, key="c2", expect="invalid_client")
    checked.call("POST", "/gnap", {**AT_ONCE, "access_token": MAIL}, expect="request_denied")
    checked.call("POST", "/gnap", {**AT_ONCE, "access_token": {"flags": ["bearer", "bearer"], **PHOTOS}}, expect="invalid_flag")
    checked.refuse("POST", "/gnap", malformed_requests())
    value, manage = begun.body["access_token"]["value"], begun.body["access_token"]["manage"]["access_token"]["value"]
    introspections(checked, value, several.body["access_token"][1]["value"])
    derivations(checked, value)
    checked.call("POST", "/token", {"key": "c2"}, manage, expect="invalid_client")
    checked.call("POST", "/token", {"key": "c2"}, manage, expect="invalid_client", again="r1")
    checked.call("POST", "/token", {"key": "r1"}, manage, expect="invalid_rotation", again="r1")
    checked.call("POST", "/token", {}, NOTHING, expect="invalid_rotation")
    checked.call("POST", "/token", None, manage, "c2", "invalid_client")
    checked.refuse("POST", "/token", [{"key": 7}, {"key": ""}, [], b"{"], manage)
    rotated = checked.call("POST", "/token", None, manage)
    manage = rotated.body["access_token"]["manage"]["access_token"]["value"]
    checked.call("DELETE", "/token", None, manage, "c2", "invalid_client")
    moved = checked.call("POST", "/token", {"key": "c2"}, manage, again="c2")
    manage = moved.body["access_token"]["manage"]["access_token"]["value"]
    checked.call("DELETE", "/token", None, manage, "c1", "invalid_client")
    checked.call("DELETE", "/token", None, manage, "c2", expect=204)
    checked.call("DELETE", "/token", None, NOTHING, expect="invalid_request")
    modifications(checked, begun.onward)


def malformed_requests() -> list[object]:
    """Grant requests of which the schema and the server say that they are none."""
    tokens: list[object] = [
        [], 7, {}, {"access": []}, {"access": [""]}, {"access": ["x" * 257]}, {"access": [{}]}, {"access": [{"type": "t", "actions": []}]},
        {"access": ["photos"] * 17}, [PHOTOS], [{"label": "", **PHOTOS}], {"label": "l" * 65, **PHOTOS}, {"flags": "bearer", **PHOTOS},
        {"access": [{"type": "t", "identifier": 1}]}, [{"label": str(n), **PHOTOS} for n in range(9)],
    ]
    interact: list[object] = [
        {}, {"start": "redirect"}, {"start": [], "finish": {}}, {"start": [], "finish": {"method": "fax", "uri": "https://c.example/", "nonce": "n"}},
        {"start": [], "finish": {"method": "push", "uri": "https://c.example/", "nonce": ""}},
        {"start": [], "finish": {"method": "push", "uri": "https://c.example/", "nonce": "n", "hash_method": "md5"}},
    ]
    return [
        b"", b"[]", b"{", {}, {"client": "c1"}, {"access_token": PHOTOS}, {**AT_ONCE, "client": {}}, {**AT_ONCE, "client": "c 1"},
        {**AT_ONCE, "user": ""}, {**AT_ONCE, "user": {"sub_ids": [{"format": "email", "email": "a@b.example"}]}},
        {"subject": {"sub_id_formats": ["email"]}, "client": "c1"}, {**AT_ONCE, "subject": {}},
        *({**AT_ONCE, "access_token": item} for item in tokens),
        *({**AT_ONCE, "interact": item} for item in interact),
    ]


def introspections(checked: Checked, bound: str, bearer: str) -> None:
    """What tokens are worth to the resource server."""
    asked = {"access_token": bound, "resource_server": "r1"}
    for more, active in (({}, True), ({"proof": "httpsig", "access": ["photos"]}, True), ({"proof": "bearer"}, False), ({"access": [FULL]}, False)):
        if checked.call("POST", "/introspect", {**asked, **more}, key="r1").body["active"] is not active:
            raise Wrong(f"active isn't {active} with {more}")
    checked.call("POST", "/introspect", {"access_token": bearer, "resource_server": {"key": "r1"}, "proof": "bearer"}, key="r1")
    checked.call("POST", "/introspect", {**asked, "access": ["mail"]}, key="r1", expect="invalid_access")
    checked.call("POST", "/introspect", asked, key="c1", expect="invalid_resource_server")
    malformed = [{}, b"", {"access_token": bound}, {**asked, "proof": "mtls"}, {**asked, "access": []}, {**asked, "access_token": 1}]
    checked.refuse("POST", "/introspect", malformed, key="r1")


def derivations(checked: Checked, parent: str) -> None:
    """A resource server asks for a token of its own for one that was presented to it."""
    body = {"access_token": PHOTOS, "client": "d1"}
    checked.call("POST", "/gnap", body, key="d1", expect="invalid_request")
    checked.refuse("POST", "/gnap", [{**body, "existing_access_token": item} for item in (1, None, "x" * 65)], key="d1")
    checked.call("POST", "/gnap", {**body, "existing_access_token": NOTHING}, key="d1", expect="request_denied")
    derived = checked.call("POST", "/gnap", {**body, "existing_access_token": parent}, key="d1")
    token = derived.body["access_token"]["value"]
    ends = [checked.call("POST", "/introspect", {"access_token": asked, "resource_server": "r1"}, key="r1").body["exp"] for asked in (token, parent)]
    if ends[0] != ends[1]:
        raise Wrong(f"a derived token ends at {ends[0]}, and its parent at {ends[1]}")


def resource_sets(checked: Checked) -> None:
    """Sets are registered, and references resolved."""
    body = {**PHOTOS, "resource_server": "r1"}
    first, again, other = [
        checked.call("POST", "/resource", asked, key="r1").body["resource_reference"]
        for asked in (body, {**PHOTOS, "resource_server": {"key": "r1"}}, {**body, "access": ["photos", FULL]})
    ]
    if first != again or first == other:
        raise Wrong(f"two sets have the references {first}, {again} and {other}")
    checked.call("POST", "/resource", {**body, "access": ["mail"]}, key="r1", expect="invalid_access")
    checked.call("POST", "/resource", {**body, "resource_server": "r2"}, key="r1", expect="invalid_resource_server")
    for key in ("c1", "f1", None):
        checked.call("POST", "/resource", body, key=key, expect="invalid_resource_server")
    malformed = [{}, b"", b"[]", PHOTOS, {**body, "access": []}, {**body, "access": ["photos"] * 17}, {**body, "resource_server": 1}]
    checked.refuse("POST", "/resource", malformed, key="r1")
    for key in ("r1", "f1"):
        if checked.call("POST", "/resolve", {"resource_reference": other}, key=key).body["access"] != ["photos", FULL]:
            raise Wrong(f"{other} means something else")
    checked.call("POST", "/resolve", {"resource_reference": NOTHING}, key="f1", expect="invalid_request")
    checked.call("POST", "/resolve", {"resource_reference": first}, key="c1", expect="invalid_resource_server")
    checked.refuse("POST", "/resolve", [{}, b"", {"resource_reference": 1}], key="f1")


def modifications(checked: Checked, value: str) -> None:
    """A grant is changed, and cancelled."""
    body = {"access_token": PHOTOS}
    checked.refuse("PATCH", "/continue", [{}, b"", {"access_token": []}, {**body, "interact": {}}], value)
    checked.call("PATCH", "/continue", {"access_token": {"flags": ["a", "a"], **PHOTOS}}, value, expect="invalid_flag")
    checked.call("PATCH", "/continue", {"access_token": MAIL}, value, expect="request_denied")
    checked.call("PATCH", "/continue", body, value, "c2", "invalid_client")
    changed = checked.call("PATCH", "/continue", body, value)
    checked.call("PATCH", "/continue", body, value, expect="invalid_continuation")
    pending = checked.call("PATCH", "/continue", {"access_token": MAIL, "interact": {"start": ["user_code_uri"]}}, changed.onward)
    checked.call("DELETE", "/continue", None, pending.onward, "c2", "invalid_client")
    checked.call("DELETE", "/continue", None, pending.onward, expect=204)
    checked.call("DELETE", "/continue", None, pending.onward, expect="invalid_continuation")


def interactions(checked: Checked) -> None:
    """The user decides, and the client learns of it by redirect, by push and by polls."""
    full = asking(["redirect", "user_code", "user_code_uri"], "redirect", access_token=[{"label": "all", "access": [FULL, "mail"]}],
                  subject={"sub_id_formats": ["opaque"]}, user="u-17", client={"key": "c1"})
    begun = checked.call("POST", "/gnap", full)
    checked.call("POST", "/front/look", {"handle": begun.handle}, key="f1")
    code = begun.body["interact"]["user_code"]
    checked.call("POST", "/front/code", {"code": f"{code[:4]}-{code[4:]}".lower()}, key="f1")
    decision = {"handle": begun.handle, "verdict": "grant"}
    for path, body in (("look", {"handle": begun.handle}), ("code", {"code": code}), ("decide", decision)):
        checked.call("POST", f"/front/{path}", body, key="c1", expect="invalid_client")
    checked.call("POST", "/front/look", {"handle": NOTHING}, key="f1", expect="unknown_interaction")
    checked.call("POST", "/front/code", {"code": "BCDFGHJK"}, key="f1", expect="unknown_interaction")
    checked.call("POST", "/front/decide", {**decision, "handle": NOTHING}, key="f1", expect="unknown_interaction")
    checked.refuse("POST", "/front/look", [{}, b"", {"handle": 1}], key="f1")
    checked.refuse("POST", "/front/code", [{}, {"code": "BCDFGHJ"}, {"code": "BCDFGHJA"}, {"code": "BCDFGHJKL"}], key="f1")
    checked.refuse("POST", "/front/decide", [{}, {**decision, "verdict": "yes"}, {**decision, "access": [{}]}, {**decision, "subject": ""}], key="f1")
    checked.call("POST", "/front/decide", {**decision, "access": ["photos"]}, key="f1", expect="invalid_request")
    decided = checked.call("POST", "/front/decide", {**decision, "access": ["mail"], "subject": "u-17"}, key="f1")
    reference = parse_qs(urlsplit(decided.body["uri"]).query)["interact_ref"][0]
    checked.refuse("POST", "/continue", [{"interact_ref": 1}, b"[]"], begun.onward)
    checked.call("POST", "/continue", {"interact_ref": reference}, begun.onward, "c2", "invalid_client")
    taken = checked.call("POST", "/continue", {"interact_ref": reference}, begun.onward)
    if taken.body["subject"]["sub_ids"][0]["id"] != "u-17" or taken.body["access_token"][0]["access"] != ["mail"]:
        raise Wrong(f"collected: {taken.body}")
    checked.call("POST", "/continue", {"interact_ref": reference}, begun.onward, expect="invalid_continuation")
    checked.call("POST", "/continue", {"interact_ref": reference}, taken.onward, expect="too_many_attempts")
    for verdict, answer in (("deny", "user_denied"), ("unknown", "unknown_user")):
        begun = checked.call("POST", "/gnap", asking(["redirect"], "push"))
        checked.call("POST", "/continue", {"interact_ref": NOTHING}, begun.onward, expect="invalid_interaction")
        decided = checked.call("POST", "/front/decide", {"handle": begun.handle, "verdict": verdict}, key="f1")
        checked.call("POST", "/continue", json.loads(decided.body["body"]), begun.onward, expect=answer)


def polls(checked: Checked) -> None:
    """Polls that come too early, and in time: of a grant that nobody decided, and of two that were."""
    waiting, some, none = [checked.call("POST", "/gnap", asking(["redirect"], access_token=MAIL)) for _ in range(3)]
    for begun, access in ((some, ["mail"]), (none, [])):
        checked.call("POST", "/front/decide", {"handle": begun.handle, "verdict": "grant", "access": access}, key="f1")
    checked.call("POST", "/continue", None, waiting.onward, expect="too_fast")
    time.sleep(waiting.body["continue"]["wait"] + 1)
    for begun, members in ((waiting, {"continue"}), (some, {"access_token", "continue"}), (none, {"continue"})):
        reply = checked.call("POST", "/continue", {}, begun.onward)
        if reply.body.keys() != members:
            raise Wrong(f"a poll: {reply.body}")


def main() -> int:
    """Checks all, and says what came of it."""
    description = json.loads((TOP / "docs" / "openapi.yaml").read_text())
    with tempfile.TemporaryDirectory() as folder:
        servers = Servers(folder)
        checked = Checked(servers, description)
        try:
            for visit in (discoveries, requests_and_tokens, resource_sets, interactions, polls):
                visit(checked)
            if unseen := checked.unseen():
                raise Wrong(f"described and not seen: {sorted(unseen)}")
        except Wrong as wrong:
            print(f"check_openapi: {wrong}", file=sys.stderr)
            return 1
        finally:
            servers.stop()
    print(f"{len(checked.operations())} operations as described, in {checked.exchanges} exchanges")
    return 0


if __name__ == "__main__":
    sys.exit(main())
