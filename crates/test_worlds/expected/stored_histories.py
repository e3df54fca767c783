"""The random histories that are stored in test_machine/proofs, each as a replay with its stored replies.

Another implementation of the grant machine gave these replies, and the check of test_machine evaluates the definitions of gnap_model on them. Here the files
are read, each history becomes a replay file, its replies are printed, and the model of this folder has to answer the file with just that.

A call that no line tells is left out: a lapse, a call whose key is unknown or of another role, a grant request with an end of the grant,
and one that no body is read as. Where nothing is noted of it, only its moment counts, so no later line has an earlier one; else the history
ends before it. Of the 290 calls in 40 histories 170 in 30 are kept, of all ten kinds.
"""

import base64
import json
import re
from dataclasses import dataclass, replace
from pathlib import Path
from typing import Optional

from calls import ROLES, Refused, print_reply, read_call
from json_forms import read_setup
from machine import Reply
from records import Ask, Finish, Grant, GrantRequest, Modes, Round, Token
from replays import printed, replay
from rights import DIMENSIONS, compact
from scripts import Run, Step

PROOFS = Path(__file__).resolve().parents[2] / "test_machine" / "proofs"
FILES = ("GeneratedSetups", "GeneratedHistories1", "GeneratedHistories2", "GeneratedHistories3")
DEFINITION = re.compile(r"^((?:text|rules|lines)_\d+) = (.*?)\n\n", re.MULTILINE | re.DOTALL)
HISTORY = re.compile(r"^pub history_(\d+) : outcomes (\w+) \[\] (\w+) ≡\n(.*?)\nunfolding ", re.MULTILINE | re.DOTALL)
TOKEN = re.compile(r'"(?:[^"\\]|\\.)*"|[()∷]|\[\]|\w+')


def text(value):
    """A text without symbols is written as an empty list."""
    return "" if value == [] else value


# setups, rights and words

def object_right(kind, *parts):
    *dimensions, identifier, further = parts
    form = {"type": kind, "identifier": identifier, **dict(zip(DIMENSIONS, dimensions))}
    return {name: part for name, part in form.items() if part is not None} | json.loads(further)


def key_form(key, role, secret, auto, ask, names):
    members = {"client": {"auto": auto, "ask": ask}, "server": {"serves": list(map(text, names))}, "front": {}}
    return {"id": key, "role": role, "secret": base64.b64encode(secret.encode()).decode(), **members[role]}


def drawn_words(first, last):
    """The words of a draw, but for the zeros at its end."""
    drawn = (first + [0] * 47)[:47] + [last]
    while drawn and drawn[-1] == 0:
        drawn.pop()
    return drawn


# requests

def is_lone(asks):
    """Whether it is one token request without a label. No array of a body has that, so it is read as one outside an array, and so is its token."""
    return len(asks) == 1 and asks[0].label is None


def request_of(asks, single, *further):
    return GrantRequest(asks, single or is_lone(asks), *further)


def without_absent(**members):
    return {name: value for name, value in members.items() if value is not None}


def ask_form(ask):
    return without_absent(access=ask.rights, label=ask.label, flags=["bearer"] if ask.bearer else None)


def finish_form(finish):
    return {"method": "push" if finish.push else "redirect", "uri": finish.uri, "nonce": finish.nonce,
            "hash_method": "sha-512" if finish.long else "sha-256"}


def modes_form(modes):
    start = [name for name in ("redirect", "user_code", "user_code_uri") if getattr(modes, name)]
    return without_absent(start=start, finish=finish_form(modes.finish) if modes.finish else None)


def request_form(request):
    asks = list(map(ask_form, request.asks))
    return without_absent(
        access_token=(asks[0] if request.single else asks) if asks else None,
        subject={"sub_id_formats": ["opaque"]} if request.subject else None,
        client={"key": request.client} if request.by_object else request.client,
        user=request.user,
        interact=modes_form(request.modes) if request.modes else None,
    )


# calls

@dataclass
class Call:
    """A call as its line tells it, and the arguments with which the machine takes it; None where no line tells them all."""
    name: str
    key: str
    value: Optional[str]
    body: Optional[dict]
    arguments: Optional[tuple]

    def is_told(self, setup):
        """Whether its line is read as this very call."""
        if setup.role(self.key) != ROLES[self.name]:
            return False
        try:
            return read_call(self.name, self.key, self.value, self.body) == self.arguments
        except Refused:
            return False


def begin(key, request, not_after):
    return Call("begin", key, None, request_form(request), (key, request) if not_after is None else None)


def modification(key, value, request):
    """The line names client and user, which a modification doesn't look at."""
    arguments = (key, text(value), replace(request, client=None, by_object=False, user=None))
    return Call("modify", key, text(value), request_form(request), arguments)


def continuation(key, value, reference):
    body = None if reference is None else {"interact_ref": text(reference)}
    return Call("continue", key, text(value), body, (key, text(value), text(reference)))


def rotation(key, value, new_key):
    body = None if new_key is None else {"key": new_key}
    return Call("rotate", key, text(value), body, (key, text(value), new_key))


def introspection(server, value, binding, wanted):
    body = without_absent(access_token=text(value), proof=binding, resource_server=server, access=wanted)
    return Call("introspect", server, None, body, (server, text(value), binding, wanted))


def decision(front, request):
    handle, verdict, rights, subject = request
    body = without_absent(handle=handle, verdict=verdict, access=rights, subject=subject)
    return Call("decide", front, None, body, request)


CALLS = {
    "Begin": begin,
    "Continue": continuation,
    "Modify": modification,
    "Cancel": lambda key, value: Call("cancel", key, text(value), None, (key, text(value))),
    "Rotate": rotation,
    "Revoke": lambda key, value: Call("revoke", key, text(value), None, (key, text(value))),
    "Introspect": introspection,
    "Look": lambda front, handle: Call("look", front, None, {"handle": text(handle)}, (text(handle),)),
    "FindCode": lambda front, code: Call("find_code", front, None, {"code": code}, (code,)),
    "Decide": decision,
    "Lapse": None,
}


# replies, which tell seconds and no moment: they are taken to be given at 0

def granted(door, tokens, single, subject, instance):
    single = single or is_lone([token.ask for token in tokens])
    return Reply("Granted", now=0, door=door, tokens=tokens, single=single, subject=subject, instance=instance)


def pending(door, modes, handle, code, nonce, expires_in, instance):
    return Reply("Pending", now=0, door=door, round=Round(modes, handle, code, nonce, expires_in, 0), instance=instance)


def active(access, issued, until, instance, bearer):
    return Reply("Active", access=access, token=Token(None, instance, Ask(access, None, bearer), issued, until, "", ""))


def shown(asks, client, expires_in, subject, user):
    return Reply("Shown", grant=Grant(client, user, 0, GrantRequest(asks, subject=subject)), expires_in=expires_in)


REPLIES = {
    "Granted": granted,
    "Pending": pending,
    "Continuing": lambda door: Reply("Continuing", door=door),
    "Rotated": lambda token: Reply("Rotated", now=0, token=token),
    "Done": Reply("Done"),
    "Active": active,
    "Inactive": Reply("Inactive"),
    "Shown": shown,
    "Handle": lambda handle: Reply("Handle", handle=handle),
    "Decided": lambda told: Reply("Decided", **told or {"finish": None, "nonce": None, "reference": None}),
    "Error": lambda code: Reply("Error", code=code),
}


# reading the files

WORDS = {
    "None": None, "true": True, "false": False,
    "Some": lambda value: value,
    "codes": lambda literal: literal,
    "replicate": lambda count, symbol: chr(symbol) * count,
    "words": drawn_words,
    "Reference": text,
    "object": object_right,
    "key_with": key_form,
    "rules_with": lambda base, front, keys: {"base": base, "front": front, "keys": keys},
    "ask_of": lambda label, rights, bearer: Ask(rights, label, bearer),
    "finish_by": Finish,
    "modes_of": Modes,
    "request_of": request_of,
    "decide_of": lambda handle, verdict, rights, subject: (text(handle), verdict, rights, subject),
    "token_out": lambda value, manage, label, rights, expires_in, bearer: Token(None, None, Ask(rights, label, bearer), 0, expires_in, value, manage),
    "finish_out": lambda finish, nonce, reference: {"finish": finish, "nonce": nonce, "reference": reference},
    "line": lambda moment, drawn, call: (moment, drawn, call),
    "out": lambda reply, notes: (reply, notes),
    **CALLS, **REPLIES,
}


def snake(word):
    return re.sub("(?<=.)(?=[A-Z])", "_", word).lower()


def read_term(tokens, known):
    """The value of the term at the end of the reversed tokens, an application or a list `a ∷ b ∷ []`; its tokens are taken away."""
    items = [read_application(tokens, known)]
    while tokens and tokens[-1] == "∷":
        tokens.pop()
        items.append(read_application(tokens, known))
    return items[0] if len(items) == 1 else items[:-1]


def read_application(tokens, known):
    head = read_atom(tokens, known)
    arguments = []
    while tokens and tokens[-1] not in (")", "∷"):
        arguments.append(read_atom(tokens, known))
    if callable(head):
        return head(*arguments)
    return (head, *arguments) if arguments else head


def read_atom(tokens, known):
    token = tokens.pop()
    if token == "(":
        value = read_term(tokens, known)
        tokens.pop()
        return value
    if token == "[]":
        return []
    if token.isdigit() or token[0] == '"':
        return json.loads(token)
    return known.get(token, snake(token))  # any other word names a choice or a note


def value_of(term, known):
    return read_term(TOKEN.findall(term)[::-1], known)


def run_of(name, setup_form, lines, outcomes):
    """The run of those calls that lines tell."""
    setup = read_setup(compact(setup_form).encode())
    steps, latest_left_out = [], 0
    for (moment, words, call), (reply, notes) in zip(lines, outcomes, strict=True):
        if call and call.is_told(setup):
            at, answer = max(moment, latest_left_out), printed(*print_reply(reply, setup))[:-1]
            steps.append(Step(at, call.key, call.name, call.value, call.body, answer, words or None))
        elif notes:
            break
        else:
            latest_left_out = max(moment, latest_left_out)
    return Run(name, setup_form, steps)


def runs():
    """The runs that have calls left."""
    source = "\n".join((PROOFS / (name + ".antt")).read_text(encoding="utf-8") for name in FILES)
    known = dict(WORDS)
    for name, term in DEFINITION.findall(source):
        known[name] = value_of(term, known)
    stored = [run_of("stored history " + number, known[rules], known[lines], value_of(outcomes, known))
              for number, rules, lines, outcomes in HISTORY.findall(source)]
    kept = [run for run in stored if run.steps]
    names = [step.call for run in kept for step in run.steps]
    assert len(kept) >= 30 and len(names) >= 170 and set(names) == set(ROLES)
    for run in kept:
        assert replay(run.file().encode()) == (0, run.answers()), run.name
    return kept
