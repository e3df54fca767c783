"""The client, written from docs/FORMATS.md (sections 7 and 12), docs/HTTP.md and docs/SIGNATURES.md alone: its requests, what it makes of replies, and
what is printed for the lines of a script.
"""

import re
from dataclasses import dataclass

import json_forms
from calls import UNAUTHORIZED, interaction_hash
from http_forms import sent
from json_forms import Fault, NotJson, member, read_json, text_at
from rights import compact
from signatures import Request, signed

LAST_MOMENT = 253_402_300_799
NONCE = "[A-Za-z0-9._-]{1,64}"
# What each word sends, and to which of these requests replies come: a grant request, a continuation, a rotation, an ending.
DEEDS = {
    "begin": ("POST", "/gnap", "grant"), "poll": ("POST", "/continue", "continuation"), "finish": ("POST", "/continue", "continuation"),
    "patch": ("PATCH", "/continue", "grant"), "cancel": ("DELETE", "/continue", "ending"), "rotate": ("POST", "/token", "rotation"),
    "revoke": ("DELETE", "/token", "ending"),
}
CODES = (
    "invalid_client", "invalid_resource_server", "invalid_continuation", "invalid_request", "invalid_interaction", "invalid_flag", "invalid_rotation",
    "key_rotation_not_supported", "user_denied", "request_denied", "unknown_user", "unknown_interaction", "too_fast", "too_many_attempts", "invalid_access",
)
ENDS = ("invalid_continuation", "user_denied", "unknown_user", "too_many_attempts")


class BadLine(Exception):
    """The line isn't one of a script."""


class Unfit(Exception):
    """What is printed where the line isn't ok."""


@dataclass
class Config:
    server: str
    resource: str
    id: str
    secret: bytes


def read_config(text):
    """The configuration of a text; NotJson or Fault where it is none."""
    value = read_json(text)
    if not isinstance(value, dict) or json_forms.has_bad_number(value):
        raise NotJson
    server, resource = json_forms.read_base(value, "server"), json_forms.read_base(value, "resource")
    if not json_forms.is_id(member(value, "id")):
        raise Fault("Wrong", "id")
    secret = json_forms.read_secret(value)
    json_forms.only_members(value, {"server", "resource", "id", "secret"})
    return Config(server, resource, value["id"], secret)


# replies

def read_reply(text):
    """Status and body of one reply, as this server and those of the cases write them; lines end with CR LF."""
    head, blank, body = text.partition(b"\r\n\r\n")
    first, *fields = head.split(b"\r\n")
    line = re.fullmatch(rb"HTTP/1\.[01] ([1-9][0-9]{2})( [ -~]*)?", first)
    lengths = [field.partition(b":")[2].strip() for field in fields if field.lower().startswith(b"content-length:")]
    coded = any(field.lower().startswith((b"transfer-encoding:", b"content-encoding:")) for field in fields)
    if not (blank and line) or coded or len(head) + 4 > 16_384 or len(lengths) > 1 or any(int(length) != len(body) for length in lengths):
        raise Unfit("NotInGrammar")
    status = int(line[1])
    if status == 204 and body:
        raise Unfit("NotInGrammar")
    return status, body


def number_at(form, name):
    if type(member(form, name)) is not int or form[name] < 0:
        raise Fault("Wrong", name)
    return form[name]


def object_at(form, name):
    member(form, name)
    return json_forms.object_at(form, name)


def presentable(value, length=None):
    if not re.fullmatch(r"[!-~]+", value) or (length and len(value) != length):
        raise Fault("Wrong", "value")
    return value


def door_in(form):
    """The continuation value."""
    going_on = object_at(form, "continue")
    text_at(going_on, "uri"), number_at(going_on, "wait")
    return presentable(text_at(object_at(going_on, "access_token"), "value"))


def token_in(form):
    if not isinstance(form, dict):
        raise Fault("Wrong", "access_token")
    json_forms.read_rights(member(form, "access"))
    number_at(form, "expires_in")
    if form.get("flags", ["bearer"]) != ["bearer"]:
        raise Fault("Wrong", "flags")
    manage = object_at(form, "manage")
    text_at(manage, "uri")
    management = presentable(text_at(object_at(manage, "access_token"), "value"), 32)
    return {"value": presentable(text_at(form, "value"), 32), "manage": management, "bearer": "flags" in form}


def tokens_in(form):
    tokens = form.get("access_token", {})
    tokens = tokens if isinstance(tokens, list) else [tokens]
    if not tokens:
        raise Fault("Wrong", "access_token")
    return [token_in(token) for token in tokens]


# lines

def whole_number(line, name, most):
    number = line.get(name)
    if type(number) is not int or not 0 <= number <= most:
        raise BadLine
    return number


def text_in(line, name, form=r"(?s).*"):
    if not isinstance(line.get(name), str) or not re.fullmatch(form, line[name]):
        raise BadLine
    return line[name]


def read_line(text, number):
    """The moment, the nonce, the word and what it takes, of the line of this number."""
    try:
        line = read_json(text)
    except NotJson:
        raise BadLine from None
    if not isinstance(line, dict):
        raise BadLine
    at, word = whole_number(line, "at", LAST_MOMENT), text_in(line, "do")
    nonce = text_in(line, "nonce", NONCE) if "nonce" in line else f"{at}-{number}"
    return at, nonce, word, taken(line, word)


def taken(line, word):
    """What the word takes of the line."""
    if word in ("begin", "patch"):
        body = line.get("body")
        if not isinstance(body, dict) or json_forms.has_bad_number(body):
            raise BadLine
        try:
            return (json_forms.read_grant(body, word == "patch"),)
        except Fault:
            raise BadLine from None
    if word == "finish":
        return text_in(line, "hash"), text_in(line, "reference")
    if word in ("rotate", "revoke"):
        return (whole_number(line, "token", 2 ** 64 - 1),)
    if word == "use":
        token = whole_number(line, "token", 2 ** 64 - 1)
        return token, text_in(line, "method", "[A-Z]{1,15}"), text_in(line, "path", "/[!-~]{0,2047}")
    if word not in DEEDS:
        raise BadLine
    return ()


def grant_body(request):
    """The body of a grant request or a modification."""
    def ask_form(ask):
        named = {} if ask.label is None else {"label": ask.label}
        return {"access": ask.rights, **({"flags": ["bearer"]} if ask.bearer else {}), **named}
    form = {}
    if request.asks:
        forms = [ask_form(ask) for ask in request.asks]
        form["access_token"] = forms[0] if request.single else forms
    if request.client is not None:
        form["client"] = {"key": request.client} if request.by_object else request.client
    if request.modes:
        form["interact"] = {"start": [name for name in ("redirect", "user_code", "user_code_uri") if getattr(request.modes, name)]}
        finish = request.modes.finish
        if finish:
            method = "push" if finish.push else "redirect"
            form["interact"]["finish"] = {"method": method, "nonce": finish.nonce, "uri": finish.uri}
            if finish.long:
                form["interact"]["finish"]["hash_method"] = "sha-512"
    if request.subject:
        form["subject"] = {"sub_id_formats": ["opaque"]}
    if request.user is not None:
        form["user"] = request.user
    return compact(form).encode()


class Client:
    """A client, and what it holds by the replies that it took."""

    def __init__(self, config):
        self.config = config
        self.state = "Fresh"
        self.door = None
        self.tokens = []
        self.finish = None  # as the client asked for it, and the server's nonce, while both are known

    def request(self, at, nonce, base, method, target, presented=None, body=b""):
        fields = [(b"host", base.partition("://")[2].encode()), (b"connection", b"close")]
        if presented:
            fields.append((b"authorization", " ".join(presented).encode()))
        if body:
            fields.append((b"content-type", b"application/json"))
        return sent(signed(Request(method.encode(), target.encode(), fields, body), base, self.config.id, self.config.secret, at, nonce))

    def in_state(self, *states):
        if self.state not in states:
            raise Unfit("WrongState")

    def token_at(self, place):
        self.in_state("Approved")
        if place >= len(self.tokens):
            raise Unfit("NoToken")
        return self.tokens[place]

    def due(self, at, nonce, word, arguments):
        """The bytes of the request that is due."""
        server = self.config.server
        if word == "use":
            place, method, path = arguments
            token = self.token_at(place)
            return self.request(at, nonce, self.config.resource, method, path, ("Bearer" if token["bearer"] else "GNAP", token["value"]))
        method, target, _ = DEEDS[word]
        if word == "begin":
            self.in_state("Fresh")
            return self.request(at, nonce, server, method, target, body=grant_body(*arguments))
        if word in ("rotate", "revoke"):
            return self.request(at, nonce, server, method, target, ("GNAP", self.token_at(*arguments)["manage"]))
        body = grant_body(*arguments) if word == "patch" else b""
        if word == "finish":
            body = self.finish_body(*arguments)
        else:
            self.in_state("Pending", "Approved")
        return self.request(at, nonce, server, method, target, ("GNAP", self.door), body)

    def finish_body(self, told, reference):
        if self.state != "Pending" or self.finish is None:
            raise Unfit("WrongState")
        asked, nonce = self.finish
        if told != interaction_hash(asked.long, asked.nonce, nonce, reference, self.config.server + "/gnap"):
            raise Unfit("HashDiffers")
        return compact({"interact_ref": reference}).encode()

    def take(self, word, arguments, text):
        """What is printed behind ` ok ` for a reply."""
        status, body = read_reply(text)
        if word == "use":
            return str(status)
        try:
            self.take_form(word, arguments, status, body)
        except (NotJson, Fault):
            raise Unfit("NotInGrammar") from None
        return self.state

    def take_form(self, word, arguments, status, body):
        kind = DEEDS[word][2]
        if status == 204:
            if kind != "ending":
                raise NotJson
            self.state = "Ended" if word == "cancel" else self.state
            return
        form = read_json(body)
        if not isinstance(form, dict) or json_forms.has_bad_number(form):
            raise NotJson
        if status != 200:
            self.refuse(status, text_at(object_at(form, "error"), "code"))
        if kind == "ending":
            raise NotJson
        if kind == "rotation":
            self.tokens[arguments[0]] = token_in(member(form, "access_token"))
        elif kind == "grant" and "interact" in form:
            self.wait(arguments[0], form)
        elif kind == "grant" or "access_token" in form or "subject" in form:
            if kind == "grant":
                member(form, "access_token")
            tokens = tokens_in(form) if "access_token" in form else []
            self.state, self.door, self.tokens, self.finish = "Approved", door_in(form), tokens, None
        else:
            self.door = door_in(form)

    def refuse(self, status, code):
        if code not in CODES or status != (401 if code in UNAUTHORIZED else 400):
            raise NotJson
        if code in ENDS:
            self.state = "Ended"
        raise Unfit("refused " + code)

    def wait(self, request, form):
        interact = object_at(form, "interact")
        number_at(interact, "expires_in")
        for name in ("finish", "redirect", "user_code"):
            if name in interact:
                text_at(interact, name)
        door = door_in(form)
        asked = request.modes.finish if request.modes else None
        self.state, self.door, self.tokens = "Pending", door, []
        self.finish = (asked, interact["finish"]) if asked and "finish" in interact else None


def carried_out(client, line, number, exchange):
    """What is printed for the line of this number, and whether it is ok. `exchange` gives the reply to a request, or None."""
    try:
        at, nonce, word, arguments = read_line(line, number)
    except BadLine:
        return "bad line\n", False
    try:
        reply = exchange(client.due(at, nonce, word, arguments))
        if reply is None:
            raise Unfit("LinkFault")
        return f"{word} ok {client.take(word, arguments, reply)}\n", True
    except Unfit as unfit:
        return f"{word} {unfit}\n", False
