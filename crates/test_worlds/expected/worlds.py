"""What comes of a case: status, standard output, and what was written to connections. Written from docs/FORMATS.md, section 9.

A case is the object of a line of ../stdin; src/case.rt has its members.
"""

import hashlib
import re

import as_server
import client_side
import derived_side
import http_forms
import replays
import resource_side
import sets_server
import written_cases
from calls import interaction_hash
from client_side import NONCE
from json_forms import Fault, NotJson, read_setup
from signatures import Fault as Refusal
from signatures import signed, verified

CONFIG_BYTES = 1_048_576
LAST_MOMENT = 253_402_300_799
SHOWN_BYTES = 8_192


class Stop(Exception):
    """The command ends with this status."""

    def __init__(self, status):
        super().__init__(status)
        self.status = status


class World:
    """The world of a case, and what was printed and served in it."""

    def __init__(self, case, most=None):
        self.case = case
        self.most = most
        self.opened = 0
        self.out = b""
        self.written = 0
        self.served = []
        self.asked = []

    def bytes_of(self, text):
        runs = self.case.get("runs", [])
        parts = (runs[ord(char) - 256][0] * runs[ord(char) - 256][1] if ord(char) > 255 else char for char in text)
        return "".join(parts).encode("latin-1")

    def connection(self, text):
        return self.bytes_of(text)[:self.most]

    def open(self):
        self.opened += 1
        if self.opened in self.case.get("bad_opens", []):
            raise Stop(4)

    def file(self, name):
        """The bytes of a file; reads that fail are taken to fail at its beginning."""
        self.open()
        for place, (of_file, text) in enumerate(self.case.get("files", [])):
            if of_file == name:
                if place < len(self.case.get("bad_reads", [])) and self.case["bad_reads"][place]:
                    raise Stop(4)
                return self.bytes_of(text)
        raise Stop(4)

    def config(self, name, read=read_setup):
        text = self.file(name)
        try:
            if len(text) > CONFIG_BYTES:
                raise NotJson
            return read(text)
        except (NotJson, Fault):
            raise Stop(3) from None

    def exchange(self, request):
        """The reply to a request over the link, where one comes."""
        self.asked.append(request)
        replies = self.case.get("replies", [])
        bad = self.case.get("bad_exchanges", [])
        place = len(self.asked) - 1 - sum(number < len(self.asked) for number in bad)
        if len(self.asked) in bad or place >= len(replies):
            return None
        return self.bytes_of(replies[place])

    def print(self, text):
        self.written += 1
        if self.written in self.case.get("bad_writes", []):
            raise Stop(5)
        self.out += text


def run(world):
    """The status of a case's words."""
    name, *words = world.case["words"] or [""]
    command, *arguments = COMMANDS.get(name, (None,))
    if len(words) not in arguments:
        return 2
    try:
        return command(world, *words)
    except Stop as stop:
        return stop.status


def argument(word):
    if not word or word.startswith("-"):
        raise Stop(2)
    return word


def nonce_word(word):
    if not re.fullmatch(NONCE, argument(word)):
        raise Stop(2)
    return word


def number(word, least, most):
    plain = word.isascii() and word.isdigit() and (word == "0" or not word.startswith("0"))
    if not plain or not least <= int(word) <= most:
        raise Stop(2)
    return int(word)


def replay(world, name):
    status, out = replays.replay(world.file(argument(name)))
    for line in out.encode().splitlines(keepends=True):
        world.print(line)
    return status


def one_request(text):
    """The one request that a file is."""
    try:
        if not text:
            raise Refusal("Truncated")
        request, rest = http_forms.next_request(text)
    except http_forms.Refused as refused:
        raise Refusal(refused.fault) from None
    except http_forms.Unfinished:
        raise Refusal("Truncated") from None
    if rest:
        raise Refusal("BadHead")
    return request


def print_answer(world, name, answer):
    """Prints what the function answers to the one request of the file, or why it doesn't."""
    text = world.file(name)
    try:
        world.print(answer(one_request(text)))
        return 0
    except Refusal as refusal:
        world.print(f"refused {refusal}\n".encode())
        return 7


def sign(world, config, key, created, name, nonce=None):
    argument(config), argument(key), argument(name)
    created = number(created, 0, LAST_MOMENT)
    nonce = None if nonce is None else nonce_word(nonce)
    setup = world.config(config)

    def answer(request):
        if key not in setup.keys:
            raise Refusal("UnknownKey")
        if request.values(b"signature-input") or request.values(b"signature"):
            raise Refusal("HasSignature")
        message = signed(request, setup.base, key, setup.keys[key].secret, created, nonce)
        lines = [message.method + b" " + message.target + b" HTTP/1.1"]
        lines += [of_field + b": " + value for of_field, value in message.fields]
        return b"\r\n".join(lines + [b"", b""]) + message.body
    return print_answer(world, name, answer)


def verify(world, config, now, name):
    argument(config), argument(name)
    now = number(now, 0, LAST_MOMENT)
    setup = world.config(config)
    secrets = {key: entry.secret for key, entry in setup.keys.items()}
    return print_answer(world, name, lambda request: b"key " + verified(request, setup.base, secrets, now).encode() + b"\n")


def serve(world, config, listen, workers, quota, pairs=None, service=as_server.Service):
    """One worker after another: where there are several, the order in which their calls come makes no difference to any reply."""
    argument(config), argument(listen)
    workers, quota = number(workers, 1, 64), number(quota, 0, 1_000_000)
    pairs = None if pairs is None else argument(pairs)
    setup = world.config(config)
    servers = None if pairs is None else world.config(pairs, derived_side.pairs_reader(setup))
    world.open()
    gears = world.case.get("gears", [])
    if listen != "a" or len(gears) != workers or any(len(gear["connections"]) > quota for gear in gears):
        raise Stop(4)
    served_by = service(setup) if servers is None else derived_side.DerivingService(setup, servers)
    if world.case.get("in_order"):
        world.served = as_server.served_in_order(world, served_by, gears)
        return 0
    answers = [as_server.served(world, served_by, gear) for gear in gears]
    world.served = [connections for connections, _ in answers]
    return 4 if any(failed for _, failed in answers) else 0


def serve_sets(world, *words):
    return serve(world, *words, service=sets_server.SetServer)


def serve_resources(world, config, listen, server, quota, *cache):
    argument(config), argument(listen), argument(server)
    quota = number(quota, 0, 1_000_000)
    cache = [resource_side.Cache(number(size, 1, 16_384)) for size in cache]
    setup = world.config(config, resource_side.read_resource_setup)
    world.open()
    if server != "a":
        raise Stop(4)
    world.open()
    gears = world.case.get("gears", [])
    if listen != "a" or len(gears) != 1 or len(gears[0]["connections"]) > quota:
        raise Stop(4)
    connections, failed = as_server.served(world, resource_side.ResourceServer(setup, world.exchange, *cache), gears[0])
    world.served = [connections]
    return 4 if failed else 0


def client(world, config, address, script):
    argument(config), argument(address), argument(script)
    scripted = client_side.Client(world.config(config, client_side.read_config))
    world.open()
    if address != "a":
        raise Stop(4)
    *lines, last = world.file(script).split(b"\n")
    fine = True
    for number, line in enumerate(lines + [last] * bool(last), 1):
        printed, ok = client_side.carried_out(scripted, line, number, world.exchange)
        world.print(printed.encode())
        fine = fine and ok
    return 0 if fine else 7


def field(world, kind, name):
    if kind not in ("item", "list", "dictionary"):
        raise Stop(2)
    printed = written_cases.canonical(kind, world.file(argument(name)).decode())
    world.print((written_cases.NO_FIELD if printed is None else printed + "\n").encode())
    return 7 if printed is None else 0


def print_hash(world, method, *texts):
    if method not in ("sha-256", "sha-512"):
        raise Stop(2)
    printed = interaction_hash(method == "sha-512", *map(argument, texts))
    world.print(printed.encode() + b"\n")
    return 0


def load(world, grants, start, workers):
    """Of each grant two questions find a live token and one finds none; each second one is ended, and a question more finds none."""
    grants = number(grants, 1, 100_000)
    number(start, 0, 2 ** 64 - 1), number(workers, 1, 64)
    ended = (grants + 1) // 2
    world.print(b"grants %d active %d inactive %d cancelled %d\n" % (grants, 2 * grants, grants + ended, ended))
    return 0


COMMANDS = {
    "replay": (replay, 1), "field": (field, 2), "sign": (sign, 4, 5), "verify": (verify, 3), "as": (serve, 4, 5), "sets": (serve_sets, 4), "rs": (serve_resources, 4, 5), "client": (client, 3), "hash": (print_hash, 5), "load": (load, 3),
}


def shown(text):
    if len(text) > SHOWN_BYTES:
        return f"{len(text)} bytes, SHA-256 {hashlib.sha256(text).hexdigest()}"
    return text.decode("latin-1")


def outcome(case):
    """The object of a case's line of ../stdout."""
    if case.get("cut"):
        return cut_outcome(case)
    world = World(case)
    status = run(world)
    served = [[shown(text) for text in connections] for connections in world.served]
    told = written_cases.HINTS.get(case["name"], "")
    asked = [shown(request) for request in world.asked]
    return {"name": case["name"], "status": status, "out": shown(world.out), "served": served, "told": told, "asked": asked}


def cut_outcome(case):
    whole = World(case)
    longest = max(len(whole.bytes_of(text)) for gear in case["gears"] for text in gear["connections"])
    cut = []
    for count in range(longest + 1):
        world = World(case, count)
        status = run(world)
        text = shown(world.served[0][0]) if world.served else ""
        if cut and cut[-1][2:] == [status, text]:
            cut[-1][1] = count
        else:
            cut.append([count, count, status, text])
    return {"name": case["name"], "cut": cut}
