"""A replay: a file of a setup line and call lines, and what is printed of it (docs/FORMATS.md, sections 2 to 4).

Run as a program it prints the lines of the replay file that its argument names, and ends with its status.
"""

import sys

from calls import ROLES, Server
from json_forms import Fault, NotJson, read_json, read_setup
from records import Mark
from rights import compact

SETUP_BYTES = 1_048_576
LINE_BYTES = 131_072
LAST_MOMENT = 253_402_300_799
NONCE_BYTES = 64
NO_FORM = (400, {"error": {"code": "invalid_request"}})


class NoLine(Exception):
    """A line is no object of the form of a call line."""


def whole_number(value, most):
    return type(value) is int and 0 <= value <= most


def is_nonce(value):
    return isinstance(value, str) and 0 < len(value.encode()) <= NONCE_BYTES


def read_line(line, number):
    """The members of the call line of this number: moment, words, call, key, presented value, body, and what its signature says of itself."""
    try:
        value = read_json(line)
    except NotJson:
        raise NoLine from None
    if not isinstance(value, dict):
        raise NoLine
    texts = [value.get(name, "" if name == "value" else None) for name in ("call", "key", "value")]
    words = value.get("draw", [])
    fits = (
        whole_number(value.get("at"), LAST_MOMENT)
        and all(isinstance(text, str) for text in texts)
        and ("body" not in value or isinstance(value["body"], dict))
        and isinstance(words, list) and len(words) <= 48
        and all(whole_number(word, 2 ** 64 - 1) for word in words)
        and ("nonce" not in value or is_nonce(value["nonce"]))
        and ("created" not in value or whole_number(value["created"], LAST_MOMENT))
    )
    if not fits:
        raise NoLine
    nonce = value.get("nonce", f"{value['at']}-{number}").encode()
    return (value["at"], words, *texts, value.get("body"), Mark(nonce, value.get("created", value["at"])))


def answer_line(server, line, number):
    """Status and body of the answer to the line of this number, which isn't empty."""
    if len(line) > LINE_BYTES:
        return 413, None
    try:
        moment, words, call, key, value, body, mark = read_line(line, number)
    except NoLine:
        return NO_FORM
    if call not in ROLES:
        return 404, None
    return server.answer(moment, words, call, key, value, body, mark)[:2]


def printed(status, body):
    return str(status) + ("" if body is None else " " + compact(body)) + "\n"


def replay(text):
    """Status of the program and what it prints, for the bytes of the file."""
    first, *lines = text.split(b"\n")
    try:
        if len(first) > SETUP_BYTES:
            raise NotJson
        server = Server(read_setup(first))
    except (NotJson, Fault):
        return 3, ""
    # The first line has the number 1, and empty lines have numbers too.
    return 0, "".join(printed(*answer_line(server, line, number)) for number, line in enumerate(lines, 2) if line)


if __name__ == "__main__":
    with open(sys.argv[1], "rb") as file:
        status, out = replay(file.read())
    sys.stdout.write(out)
    sys.exit(status)
