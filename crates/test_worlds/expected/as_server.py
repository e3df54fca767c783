"""The authorization server over HTTP, written from docs/HTTP.md alone: what is written to the connections of one worker."""

from calls import ROLES, Server
from http_forms import Refused, Unfinished, next_request, reply_bytes
from json_forms import NotJson, NoWholeNumber, read_json
from rights import compact
from signatures import Fault, mark_of, rotated, verified

MESSAGES_MOST = 1_000
GATHERED = 4_096
ROOM = 262_144
ROUTES = {
    "/gnap": {"POST": "begin", "OPTIONS": "discovery"},
    "/continue": {"POST": "continue", "PATCH": "modify", "DELETE": "cancel"},
    "/token": {"POST": "rotate", "DELETE": "revoke"},
    "/introspect": {"POST": "introspect"},
    "/front/look": {"POST": "look"},
    "/front/code": {"POST": "find_code"},
    "/front/decide": {"POST": "decide"},
    "/.well-known/gnap-as-rs": {"GET": "rs_discovery"},
}
NOT_OF_FORM = NoWholeNumber()


def discovery(base):
    return {
        "grant_request_endpoint": base + "/gnap",
        "interaction_finish_methods_supported": ["redirect", "push"],
        "interaction_start_modes_supported": ["redirect", "user_code", "user_code_uri"],
        "key_proofs_supported": ["httpsig"],
        "key_rotation_supported": True,
        "sub_id_formats_supported": ["opaque"],
    }


def rs_discovery(base):
    return {
        "grant_request_endpoint": base + "/gnap", "introspection_endpoint": base + "/introspect", "key_proofs_supported": ["httpsig"],
        "resource_registration_endpoint": base + "/resource",
    }


def presented_value(request):
    """What stands behind the scheme GNAP and one SP, in the one field; a text of one character for each byte."""
    values = request.values(b"authorization")
    if len(values) == 1 and values[0][:5].lower() == b"gnap ":
        return values[0][5:].decode("latin-1")
    return ""


def body_value(call, text):
    """The body's object; None where there is none; NOT_OF_FORM where it is something else."""
    if not text and call in ("continue", "rotate"):
        return None
    try:
        value = read_json(text)
    except NotJson:
        return NOT_OF_FORM
    return value if isinstance(value, dict) else NOT_OF_FORM


def words_of(draws, place):
    """The words of the entry at this place among the next ones, as far as the case has them."""
    return draws[place] if place < len(draws) else []


class Service(Server):
    """A server over HTTP."""

    def __init__(self, setup):
        super().__init__(setup)
        self.secrets = {name: key.secret for name, key in setup.keys.items()}

    def entered(self, moment, draws, call, key, value, body, mark, signs_too):
        """Status and body of the answer to a call, and how many entries the machine made for it. The next entries have these words."""
        status, form, reached = self.answer(moment, words_of(draws, 0), call, key, value, body, mark, signs_too)
        return status, form, int(reached)

    def reply(self, request, moment, draws):
        """The reply to a request, and how many entries the machine made for it."""
        methods = ROUTES.get(request.target.partition(b"?")[0].decode("latin-1"))
        if methods is None:
            return reply_bytes(404, last=request.last), 0
        call = methods.get(request.method.decode("ascii"))
        if call is None:
            return reply_bytes(405, last=request.last, allow=", ".join(methods)), 0
        if call in ("discovery", "rs_discovery"):
            form = {"discovery": discovery, "rs_discovery": rs_discovery}[call](self.setup.base)
            return reply_bytes(200, compact(form).encode(), request.last), 0
        mark = mark_of(request)
        try:
            key = verified(request, self.setup.base, self.secrets, moment)
        except Fault:
            key = None
        if ROLES[call] != "server" and mark is None:
            key = None
        value = presented_value(request)

        def signs_too(named):
            """Whether the key that a rotation names signed the request too."""
            try:
                return rotated(request, self.setup.base, self.secrets, moment)[1] == named
            except Fault:
                return False

        body = body_value(call, request.body)
        status, form, entries = self.entered(moment, draws, call, key, value, body, mark, signs_too)
        return reply_bytes(status, b"" if form is None else compact(form).encode(), request.last), entries


class Connection:
    """Bytes to read, and what is written, by the faults that the case asks for."""

    def __init__(self, world, gear, place):
        def listed(name, default):
            return gear[name][place] if place < len(gear.get(name, [])) else default
        self.text = world.connection(gear["connections"][place])
        self.room = listed("rooms", ROOM)
        self.bad_writes = listed("bad_writes", [])
        bad_reads = listed("bad_reads", [])
        self.unread = 1 in bad_reads
        assert not any(bad_reads) or len(self.text) <= GATHERED, "a first read brings it all, and a second one would bring the end"
        self.writes = 0
        self.written = b""

    def write(self, text):
        """Writes the pieces of a reply; whether all of it was taken."""
        head, mark, body = text.partition(b"\r\n\r\n")
        pieces = [text] if len(text) <= GATHERED else [head + mark, body]
        return all(self.write_piece(piece) for piece in pieces)

    def write_piece(self, piece):
        while piece:
            self.writes += 1
            if self.writes in self.bad_writes or self.room == 0:
                return False
            taken = min(len(piece), self.room)
            self.written += piece[:taken]
            self.room -= taken
            piece = piece[taken:]
        return True


class Worker:
    """One worker: its service, its clock and its words."""

    def __init__(self, service, gear):
        self.service = service
        self.moments = list(gear.get("moments", [])) or [0]
        self.draws = list(gear.get("draws", []))

    def moment(self):
        return self.moments.pop(0) if len(self.moments) > 1 else self.moments[0]

    def serve(self, connection):
        text = connection.text
        for count in range(1, MESSAGES_MOST + 1):
            if connection.unread or not text:
                return
            try:
                request, text = next_request(text)
            except Unfinished:
                return
            except Refused as refused:
                connection.write(reply_bytes(refused.status, last=True))
                return
            request.last = request.last or count == MESSAGES_MOST
            reply, entries = self.service.reply(request, self.moment(), self.draws)
            self.draws = self.draws[entries:]
            if not connection.write(reply) or request.last:
                return


def served(world, service, gear):
    """What is written to each connection that one worker takes, and whether the door failed."""
    worker = Worker(service, gear)
    connections = []
    for place in range(len(gear["connections"])):
        if place + 1 in gear.get("bad_accepts", []):
            return connections, True
        connection = Connection(world, gear, place)
        worker.serve(connection)
        connections.append(connection.written)
    return connections, len(gear["connections"]) + 1 in gear.get("bad_accepts", [])


def served_in_order(world, service, gears):
    """What is written to each connection that each of several workers takes, where the first ones of all come first, then the second ones, and so on."""
    workers = [Worker(service, gear) for gear in gears]
    written = [[] for _ in gears]
    for place in range(max(len(gear["connections"]) for gear in gears)):
        for worker, gear, texts in zip(workers, gears, written):
            if place < len(gear["connections"]):
                connection = Connection(world, gear, place)
                worker.serve(connection)
                texts.append(connection.written)
    return written
