"""The server of resource sets over HTTP, written from docs/HTTP.md and docs/FORMATS.md alone. It serves connections as the authorization server does."""

import json_forms
from as_server import words_of
from calls import error_form
from http_forms import reply_bytes
from json_forms import Fault, NotJson, read_json
from machine import value_text
from rights import compact, serves
from signatures import Fault as Unsigned
from signatures import verified

SETS_MOST = 65_536
ASKERS = {"/resource": ("server",), "/resolve": ("server", "front")}


class Refused(Exception):
    """A request that doesn't reach the machine: the code that answers it."""

    def __init__(self, code):
        super().__init__(code)
        self.code = code


def read_registration(body):
    rights = json_forms.some_rights(body)
    json_forms.bound_text(rights, "access")
    server, _ = json_forms.instance_at(body, "resource_server")
    return server, rights


def body_object(text):
    try:
        value = read_json(text)
    except NotJson:
        raise Refused("invalid_request") from None
    if not isinstance(value, dict) or json_forms.has_bad_number(value):
        raise Refused("invalid_request")
    return value


class SetServer:
    """The sets that were registered, in order, each with its server, its rights and its reference."""

    def __init__(self, setup):
        self.setup = setup
        self.secrets = {name: key.secret for name, key in setup.keys.items()}
        self.sets = []

    def reply(self, request, moment, draws):
        """The reply to a request, and how many entries the machine made for it."""
        path = request.target.partition(b"?")[0].decode("latin-1")
        if path not in ASKERS:
            return reply_bytes(404, last=request.last), 0
        if request.method != b"POST":
            return reply_bytes(405, last=request.last, allow="POST"), 0
        try:
            key, asked = self.asked(path, request, moment)
        except Refused as refused:
            status, form = error_form(refused.code)
            return reply_bytes(status, compact(form).encode(), request.last), 0
        status, form = self.registered(key, asked, words_of(draws, 0)) if path == "/resource" else self.resolved(asked)
        return reply_bytes(status, compact(form).encode(), request.last), 1

    def asked(self, path, request, moment):
        """Who asks, and for which rights or which reference."""
        try:
            key = verified(request, self.setup.base, self.secrets, moment)
        except Unsigned:
            raise Refused("invalid_resource_server") from None
        if self.setup.role(key) not in ASKERS[path]:
            raise Refused("invalid_resource_server")
        body = body_object(request.body)
        try:
            if path == "/resolve":
                return key, json_forms.text_at(body, "resource_reference")
            server, rights = read_registration(body)
        except Fault:
            raise Refused("invalid_request") from None
        if server != key:
            raise Refused("invalid_resource_server")
        return key, rights

    def registered(self, server, rights, words):
        if not all(serves(self.setup.keys[server].serves, right) for right in rights):
            return error_form("invalid_access")
        for known, reference in self.sets:
            if known == (server, compact(rights)):
                return 200, {"resource_reference": reference}
        if len(self.sets) >= SETS_MOST:
            return error_form("request_denied")
        first, second, *_ = [*words, 0, 0]
        reference = value_text(len(self.sets) + 1, first, second)
        self.sets.append(((server, compact(rights)), reference))
        return 200, {"resource_reference": reference}

    def resolved(self, wanted):
        for (server, rights), reference in self.sets:
            if reference == wanted:
                return 200, {"access": json_forms.read_json(rights.encode()), "resource_server": server}
        return error_form("invalid_request")
