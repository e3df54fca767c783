"""The cases of the table that come from runs: each run once as a replay, and once signed over one connection."""

from calls import Server
from http_forms import request_bytes
from json_forms import read_setup
from rights import compact
from signatures import Request, signed, signed_again

ROUTES = {
    "begin": ("POST", "/gnap"), "introspect": ("POST", "/introspect"),
    "continue": ("POST", "/continue"), "modify": ("PATCH", "/continue"), "cancel": ("DELETE", "/continue"),
    "rotate": ("POST", "/token"), "revoke": ("DELETE", "/token"),
    "look": ("POST", "/front/look"), "find_code": ("POST", "/front/code"), "decide": ("POST", "/front/decide"),
}


def latin(text):
    """The bytes of a text, with a character for each, as the table has them."""
    return text.encode().decode("latin-1")


def replay_case(run):
    return {"name": run.name + ", replayed", "words": ["replay", "f"], "files": [["f", latin(run.file())]]}


def secret_of(setup, key):
    return setup.keys[key].secret if key in setup.keys else b"of nobody"


def signed_request(step, setup, created, nonce, signs_too=True):
    """The bytes of a step's call as its key signs it. Introspections have no nonce. A key that a rotation names signs too, where it is to."""
    method, path = ROUTES[step.call]
    body = b"" if step.body is None else compact(step.body).encode()
    fields = [(b"authorization", b"GNAP " + step.value.encode())] if step.value else []
    request = Request(method.encode(), path.encode(), fields, body)
    request = signed(request, setup.base, step.key, secret_of(setup, step.key), created, None if step.call == "introspect" else nonce)
    if signs_too and step.call == "rotate" and step.body and "key" in step.body:
        named = step.body["key"]
        request = signed_again(request, setup.base, named, secret_of(setup, named), created)
    return request_bytes(request)


def signed_case(run):
    setup_text = compact(run.setup)
    setup = read_setup(setup_text.encode())
    server = Server(setup)
    sent, draws = [], []
    moments = list(run.signed_at())
    for place, (step, moment) in enumerate(zip(run.steps, moments), 1):
        words = step.draw or []
        if server.answer(step.at, words, step.call, step.key, step.value or "", step.body)[2]:
            draws.append(words)
        sent.append(signed_request(step, setup, moment, f"n{place}").decode("latin-1"))
    while draws and not draws[-1]:
        draws.pop()
    gear = {"connections": ["".join(sent)], "moments": moments, "draws": draws}
    return {"name": run.name + ", signed", "words": ["as", "s", "a", "1", "1"], "files": [["s", latin(setup_text)]], "gears": [gear]}


def cases(runs):
    return [case_of(run) for run in runs for case_of in (replay_case, signed_case)]
