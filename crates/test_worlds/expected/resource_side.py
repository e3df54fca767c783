"""The resource server, written from docs/FORMATS.md (sections 7 and 13), docs/HTTP.md and docs/SIGNATURES.md alone: its setup, what it asks about a token,
and its replies.
"""

import re
from dataclasses import dataclass

import client_side
import json_forms
from client_side import number_at, read_reply
from http_forms import reply_bytes
from json_forms import Fault, KeyFault, NotJson, has_bad_number, is_id, member, only_members, read_base, read_json, read_rights, read_secret, text_at
from rights import compact, covers
from signatures import Fault as Unsigned
from signatures import verified


class SaysNothing(Exception):
    """The reply says nothing of a token."""


@dataclass
class Route:
    method: str
    path: str
    right: object
    text: str


@dataclass
class ResourceSetup:
    base: str
    server: str
    id: str
    secret: bytes
    secrets: dict
    routes: list


# the setup

def id_at(value):
    if not is_id(member(value, "id")):
        raise Fault("Wrong", "id")
    return value["id"]


def items_at(value, name):
    if not isinstance(member(value, name), list):
        raise Fault("Wrong", name)
    return value[name]


def read_client_key(value, others):
    value = value if isinstance(value, dict) else {}
    if id_at(value) in others:
        raise Fault("Wrong", "id")
    secret = read_secret(value)
    only_members(value, {"id", "secret"})
    return value["id"], secret


def read_route(value, before):
    value = value if isinstance(value, dict) else {}
    method = text_at(value, "method")
    if not re.fullmatch("[A-Z]{1,15}", method):
        raise Fault("Wrong", "method")
    path = text_at(value, "path")
    if not path.startswith("/") or any((method, path) == (route.method, route.path) for route in before):
        raise Fault("Wrong", "path")
    try:
        right, = read_rights([member(value, "right")])
    except Fault as fault:
        raise Fault(fault.kind, "right") from None
    text = text_at(value, "text")
    only_members(value, {"method", "path", "right", "text"})
    return Route(method, path, right, text)


def read_resource_setup(text):
    """The setup of a text; NotJson or Fault where it is none."""
    value = read_json(text)
    if not isinstance(value, dict) or has_bad_number(value):
        raise NotJson
    base, server = read_base(value, "base"), read_base(value, "server")
    name, secret = id_at(value), read_secret(value)
    secrets, routes = {}, []
    for place, key in enumerate(items_at(value, "keys")):
        try:
            client, client_secret = read_client_key(key, secrets)
        except Fault as fault:
            raise KeyFault(place, fault.kind, fault.member) from None
        secrets[client] = client_secret
    if len(secrets) > 4_096:
        raise Fault("TooMany", "keys")
    listed = items_at(value, "routes")
    if not 1 <= len(listed) <= 1_024:
        raise Fault("TooMany" if listed else "Wrong", "routes")
    for route in listed:
        routes.append(read_route(route, routes))
    only_members(value, {"base", "server", "id", "secret", "keys", "routes"})
    return ResourceSetup(base, server, name, secret, secrets, routes)


# requests

def presented_token(request):
    """The scheme and the value, where the one Authorization field presents a token."""
    values = request.values(b"authorization")
    found = len(values) == 1 and re.fullmatch(rb"(?i:(gnap)|bearer) ([!-~]+)", values[0])
    return found and ("httpsig" if found[1] else "bearer", found[2].decode())


def judgement(text):
    """What a reply says of a token: its rights, its key and its end, or None where it isn't active; of a bearer token the key is None."""
    try:
        status, body = read_reply(text)
        form = read_json(body)
        if status != 200 or not isinstance(form, dict) or has_bad_number(form) or not isinstance(member(form, "active"), bool):
            raise SaysNothing
        if not form["active"]:
            return None
        rights = read_rights(member(form, "access"))
        end = number_at(form, "exp")
        number_at(form, "iat")
        text_at(form, "iss")
        key = text_at(form, "key") if "key" in form else None
        if form.get("flags", ["bearer"]) != ["bearer"] or ("flags" in form) == ("key" in form) or key not in (None, text_at(form, "instance_id")):
            raise SaysNothing
        return rights, key, end
    except (client_side.Unfit, NotJson, Fault):
        raise SaysNothing from None


class Cache:
    """The replies by which requests were let through, at most `size` of them: the question of each, its reply, its moment and its token's end. The one that
    was used last comes first.
    """

    def __init__(self, size):
        self.size = size
        self.kept = []

    def fresh(self, question, moment):
        """The fresh reply to the question, which then comes first. One that isn't fresh goes out."""
        found = [entry for entry in self.kept if entry[0] == question]
        self.kept = [entry for entry in self.kept if entry[0] != question]
        for entry in found:
            if entry[2] <= moment <= entry[2] + 30 and moment < entry[3]:
                self.kept.insert(0, entry)
                return entry[1]
        return None

    def keep(self, question, reply, moment, end):
        if len(question) + len(reply) <= 13_500:
            self.kept = [(question, reply, moment, end), *self.kept][:self.size]


class ResourceServer:
    """A resource server over HTTP. `exchange` gives the reply to a request to the authorization server, or None. With a cache it asks only where that has no
    fresh reply.
    """

    def __init__(self, setup, exchange, cache=None):
        self.setup = setup
        self.exchange = exchange
        self.cache = cache
        # It signs its requests as a client does.
        self.signer = client_side.Client(client_side.Config(setup.server, setup.base, setup.id, setup.secret))

    def question(self, right, proof, value):
        return compact({"access": [right], "access_token": value, "proof": proof, "resource_server": self.setup.id}).encode()

    def ask(self, question, moment):
        return self.exchange(self.signer.request(moment, None, self.setup.server, "POST", "/introspect", body=question))

    def has_signed(self, key, request, moment):
        try:
            return verified(request, self.setup.base, self.setup.secrets, moment) == key
        except Unsigned:
            return False

    def judged(self, request, moment, route):
        """The status of what comes of a request to this route."""
        token = presented_token(request)
        if not token:
            return 401
        question = self.question(route.right, *token)
        kept = self.cache and self.cache.fresh(question, moment)
        reply = kept or self.ask(question, moment)
        try:
            if reply is None:
                raise SaysNothing
            says = judgement(reply)
        except SaysNothing:
            return 502
        if says is None:
            return 401
        rights, key, end = says
        if not covers(rights, [route.right]):
            return 403
        if key is not None and not self.has_signed(key, request, moment):
            return 401
        if self.cache and not kept:
            self.cache.keep(question, reply, moment, end)
        return 200

    def reply(self, request, moment, _):
        """The reply to a request, and how many words are drawn for it: none."""
        here = [route for route in self.setup.routes if route.path.encode() == request.target.partition(b"?")[0]]
        if not here:
            return reply_bytes(404, last=request.last), 0
        route = next((route for route in here if route.method.encode() == request.method), None)
        if route is None:
            return reply_bytes(405, last=request.last, allow=", ".join(route.method for route in here)), 0
        status = self.judged(request, moment, route)
        body = compact({"text": route.text}).encode() if status == 200 else b""
        return reply_bytes(status, body, request.last), 0
