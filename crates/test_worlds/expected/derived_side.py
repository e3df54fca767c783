"""The authorization server to which pairs are known, written from docs/FORMATS.md, sections 3 and 5, and docs/HTTP.md alone."""

from as_server import Service, words_of
from calls import ROLES, Refused, error_form, print_reply, read_call
from json_forms import Fault, NotJson, has_bad_number, member, only_members, read_json, text_at

PAIRS_MOST = 256
PARENT_BYTES = 64


def key_at(pair, name, setup, role):
    """The id of a key of the setup in this role."""
    key = text_at(pair, name)
    if setup.role(key) != role:
        raise Fault("Wrong", name)
    return key


def pairs_reader(setup):
    """How PAIRS is read: the resource server of each client key."""
    def read(text):
        value = read_json(text)
        if not isinstance(value, dict) or has_bad_number(value):
            raise NotJson
        rows = member(value, "pairs")
        if not isinstance(rows, list):
            raise Fault("Wrong", "pairs")
        servers = {}
        for row in rows:
            pair = row if isinstance(row, dict) else {}
            client = key_at(pair, "client", setup, "client")
            if client in servers:
                raise Fault("Wrong", "client")
            servers[client] = key_at(pair, "server", setup, "server")
            only_members(pair, {"client", "server"})
        if not rows:
            raise Fault("Wrong", "pairs")
        if len(rows) > PAIRS_MOST:
            raise Fault("TooMany", "pairs")
        only_members(value, {"pairs"})
        return servers
    return read


class DerivingService(Service):
    """An authorization server to which pairs are known."""

    def __init__(self, setup, servers):
        super().__init__(setup)
        self.servers = servers

    def entered(self, moment, draws, call, key, value, body, mark, signs_too):
        if call != "begin" or key not in self.servers:
            return super().entered(moment, draws, call, key, value, body, mark, signs_too)
        assert self.setup.role(key) == ROLES[call]
        try:
            arguments = read_call(call, key, value, body)
        except Refused as refused:
            return (*error_form(refused.code), 0)
        parent = body.get("existing_access_token")
        if not isinstance(parent, str) or len(parent.encode()) > PARENT_BYTES:
            return (*error_form("invalid_request"), 0)
        told = self.machine.take(moment, words_of(draws, 0), "introspect", self.servers[key], parent, None, None)
        if told.kind == "Inactive":
            return (*error_form("request_denied"), 1)
        reply = self.machine.take_signed(moment, words_of(draws, 1), key, mark, call, *arguments, told.token.until)
        return (*print_reply(reply, self.setup), 2)
