"""Calls and their answers, written from docs/FORMATS.md alone: a call is read from the key's role on, and each
answer is printed. Lines of a replay and messages over HTTP share this part.
"""

import base64
import hashlib
from urllib.parse import urlsplit

import json_forms
from json_forms import Fault
from machine import Machine
from rights import compact

ROLES = {
    "begin": "client", "continue": "client", "modify": "client", "cancel": "client", "rotate": "client",
    "revoke": "client", "introspect": "server", "look": "front", "find_code": "front", "decide": "front",
}
UNAUTHORIZED = ("invalid_client", "invalid_resource_server", "invalid_continuation")


class Refused(Exception):
    """A call that doesn't reach the machine: the code that answers it."""

    def __init__(self, code):
        super().__init__(code)
        self.code = code


def stranger(call):
    return "invalid_resource_server" if call == "introspect" else "invalid_client"


def read_call(call, key, value, body):
    """The arguments of the machine's call. `body` is a JSON object, or None where there is none."""
    if call in ("cancel", "revoke"):
        return key, value
    if body is None and call not in ("continue", "rotate"):
        raise Refused("invalid_request")
    if json_forms.has_bad_number(body):
        raise Refused("invalid_request")
    try:
        return read_body(call, key, value, body or {})
    except Fault:
        raise Refused("invalid_request") from None


def read_body(call, key, value, body):
    if call in ("begin", "modify"):
        request = json_forms.read_grant(body, call == "modify")
        if call == "begin" and request.client != key:
            raise Refused("invalid_client")
        if request.repeats_flag:
            raise Refused("invalid_flag")
        return (key, request) if call == "begin" else (key, value, request)
    if call == "continue":
        return key, value, json_forms.read_continue(body)
    if call == "rotate":
        return key, value, json_forms.read_rotate(body)
    if call == "introspect":
        presented, binding, server, wanted = json_forms.read_introspect(body)
        if server != key:
            raise Refused("invalid_resource_server")
        return key, presented, binding, wanted
    if call == "look":
        return (json_forms.text_at(body, "handle"),)
    if call == "find_code":
        return (json_forms.read_code(body),)
    return json_forms.read_decide(body)


class Server:
    """An authorization server: a setup and its machine."""

    def __init__(self, setup):
        self.setup = setup
        self.machine = Machine(setup)

    def answer(self, moment, words, call, key, value, body, mark=None, signs_too=None):
        """Status and body of the answer to a call, and whether the machine was reached. The mark of an introspection isn't looked at.

        `signs_too` tells whether the key that a rotation names signed too; a line of a replay has no signatures, so there it isn't asked.
        """
        try:
            if self.setup.role(key) != ROLES[call]:
                raise Refused(stranger(call))
            arguments = read_call(call, key, value, body)
            if call == "rotate" and arguments[2] is not None and signs_too is not None and not signs_too(arguments[2]):
                raise Refused("invalid_client")
        except Refused as refused:
            return (*error_form(refused.code), False)
        if mark is None or call == "introspect":
            reply = self.machine.take(moment, words, call, *arguments)
        else:
            reply = self.machine.take_signed(moment, words, key, mark, call, *arguments)
        return (*print_reply(reply, self.setup), True)


# answers

def error_form(code):
    return (401 if code in UNAUTHORIZED else 400), {"error": {"code": code}}


def door_form(door, setup):
    return {"access_token": {"value": door}, "uri": setup.base + "/continue", "wait": 5}


def token_form(token, now, setup):
    form = {
        "access": token.ask.rights,
        "expires_in": token.until - now,
        "manage": {"access_token": {"value": token.manage}, "uri": setup.base + "/token"},
        "value": token.value,
    }
    if token.ask.bearer:
        form["flags"] = ["bearer"]
    if token.ask.label is not None:
        form["label"] = token.ask.label
    return form


def granted_form(reply, setup):
    form = {"continue": door_form(reply.door, setup)}
    if reply.tokens:
        tokens = [token_form(token, reply.now, setup) for token in reply.tokens]
        form["access_token"] = tokens[0] if reply.single else tokens
    if reply.instance is not None:
        form["instance_id"] = reply.instance
    if reply.subject is not None:
        form["subject"] = {"sub_ids": [{"format": "opaque", "id": reply.subject}]}
    return form


def pending_form(reply, setup):
    current = reply.round
    interact = {"expires_in": current.until - reply.now}
    if current.modes.finish:
        interact["finish"] = current.nonce
    if current.modes.redirect:
        interact["redirect"] = setup.front + "/i/" + current.handle
    if current.modes.user_code:
        interact["user_code"] = current.code
    if current.modes.user_code_uri:
        interact["user_code_uri"] = {"code": current.code, "uri": setup.front + "/code"}
    form = {"continue": door_form(reply.door, setup), "interact": interact}
    if reply.instance is not None:
        form["instance_id"] = reply.instance
    return form


def active_form(reply, setup):
    token = reply.token
    form = {
        "access": reply.access, "active": True, "exp": token.until, "iat": token.issued,
        "instance_id": token.key, "iss": setup.base + "/gnap",
    }
    if token.ask.bearer:
        form["flags"] = ["bearer"]
    else:
        form["key"] = token.key
    return form


def shown_form(reply):
    asks = []
    for ask in reply.grant.terms.asks:
        form = {"access": ask.rights}
        if ask.bearer:
            form["flags"] = ["bearer"]
        if ask.label is not None:
            form["label"] = ask.label
        asks.append(form)
    form = {"access_token": asks, "client": reply.grant.key, "expires_in": reply.expires_in,
            "subject": reply.grant.terms.subject}
    if reply.grant.user is not None:
        form["user"] = reply.grant.user
    return form


def interaction_hash(long, client_nonce, server_nonce, reference, endpoint):
    """RFC 9635, section 4.2.3."""
    digest = hashlib.sha512 if long else hashlib.sha256
    text = "\n".join((client_nonce, server_nonce, reference, endpoint))
    return base64.urlsafe_b64encode(digest(text.encode()).digest()).decode().rstrip("=")


def finish_uri(uri, told, reference):
    parts = urlsplit(uri)
    default = {"http": ":80", "https": ":443"}[parts.scheme]
    host = parts.netloc.lower().removesuffix(default)
    query = (parts.query + "&" if parts.query else "") + "hash=" + told + "&interact_ref=" + reference
    return parts.scheme + "://" + host + (parts.path or "/") + "?" + query


def decided_form(reply, setup):
    finish = reply.finish
    if finish is None:
        return {"finish": "none"}
    told = interaction_hash(finish.long, finish.nonce, reply.nonce, reply.reference, setup.base + "/gnap")
    if finish.push:
        body = compact({"hash": told, "interact_ref": reply.reference})
        return {"body": body, "finish": "push", "uri": finish.uri}
    return {"finish": "redirect", "uri": finish_uri(finish.uri, told, reply.reference)}


def print_reply(reply, setup):
    """Status and body of the machine's reply."""
    if reply.kind == "Error":
        return error_form(reply.code)
    if reply.kind == "Done":
        return 204, None
    forms = {
        "Granted": lambda: granted_form(reply, setup),
        "Pending": lambda: pending_form(reply, setup),
        "Continuing": lambda: {"continue": door_form(reply.door, setup)},
        "Rotated": lambda: {"access_token": token_form(reply.token, reply.now, setup)},
        "Active": lambda: active_form(reply, setup),
        "Inactive": lambda: {"active": False},
        "Shown": lambda: shown_form(reply),
        "Handle": lambda: {"handle": reply.handle},
        "Decided": lambda: decided_form(reply, setup),
    }
    return 200, forms[reply.kind]()
