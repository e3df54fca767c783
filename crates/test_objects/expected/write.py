"""Writes ../stdin, a table of JSON texts, and ../stdout, what each reader gives of them, told here by docs/FORMATS.md, without the program.

Run it anew where a rule or a case changes: python3 crates/test_objects/expected/write.py
"""

import re
import sys
from pathlib import Path

HERE = Path(__file__).resolve().parent
sys.path.insert(0, str(HERE.parent.parent / "test_worlds" / "expected"))

import json_forms
import object_cases
from json_forms import Fault, KeyFault, NotJson


def written_out(text):
    """`<N|piece>` is N times the piece, in each of which `#` is its place."""

    def run(found):
        return "".join(found[2].replace("#", str(place)) for place in range(int(found[1])))

    return re.sub(r"<(\d+)\|([^>]*)>", run, text)


def quoted(text):
    return "none" if text is None else f'"{text}"'


def counted(rights):
    return "none" if rights is None else str(len(rights))


def shown_modes(modes):
    if modes is None:
        return "none"
    shown = "ways" + "".join(f" {way}" for way in ("redirect", "user_code", "user_code_uri") if getattr(modes, way))
    if modes.finish:
        method, hash_method = "push" if modes.finish.push else "redirect", "sha-512" if modes.finish.long else "sha-256"
        shown += f" then {method} {quoted(modes.finish.uri)} {quoted(modes.finish.nonce)} {hash_method}"
    return shown


def of_grant(body, modify=False):
    request = json_forms.read_grant(body, modify)
    if request.repeats_flag:
        raise Fault("Flag", "flags")
    named = "by object" if request.by_object else "by id"
    subject = "opaque" if request.subject else "none"
    asks = (f": {len(ask.rights)} {quoted(ask.label)} {'bearer' if ask.bearer else 'bound'}" for ask in request.asks)
    return (f"client {quoted(request.client)} {named}; subject {subject}; user {quoted(request.user)}; interact {shown_modes(request.modes)}; "
            f"{'one' if request.single else 'array'}" + "".join(asks))


def of_introspection(body):
    value, binding, server, wanted = json_forms.read_introspect(body)
    return f"{quoted(value)} {binding or 'none'} {quoted(server)} {counted(wanted)}"


def of_decision(body):
    handle, verdict, rights, subject = json_forms.read_decide(body)
    return f"{quoted(handle)} {verdict} {counted(rights)} {quoted(subject)}"


READERS = {
    "grant": of_grant,
    "modify": lambda body: of_grant(body, True),
    "introspect": of_introspection,
    "continue": lambda body: quoted(json_forms.read_continue(body)),
    "rotate": lambda body: quoted(json_forms.read_rotate(body)),
    "look": lambda body: quoted(json_forms.text_at(body, "handle")),
    "find_code": lambda body: quoted(json_forms.read_code(body)),
    "decide": of_decision,
}


def of_setup(text):
    setup = json_forms.read_setup(text)
    return f"{quoted(setup.base)} {quoted(setup.front)} {len(setup.keys)}"


def of_body(reader, text):
    body = json_forms.read_json(text)
    if not isinstance(body, dict) or json_forms.has_bad_number(body):
        raise NotJson
    return READERS[reader](body)


def of_text(reader, text):
    return of_setup(text) if reader == "setup" else of_body(reader, text)


def of_nothing(reader):
    if reader not in ("continue", "rotate"):
        raise NotJson
    return READERS[reader]({})


def answer(line):
    reader, space, text = line.partition(" ")
    try:
        return of_text(reader, written_out(text).encode()) if space else of_nothing(reader)
    except NotJson:
        return "no object"
    except KeyFault as fault:
        return f"key {fault.place}: {fault}"
    except Fault as fault:
        return str(fault)


def main():
    lines = list(object_cases.lines())
    assert len(set(lines)) == len(lines)
    for name, written in (("stdin", lines), ("stdout", [answer(line) for line in lines])):
        (HERE.parent / name).write_text("".join(line + "\n" for line in written), encoding="utf-8")


if __name__ == "__main__":
    main()
