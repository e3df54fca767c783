"""JSON forms, written from docs/FORMATS.md alone: JSON texts, setups and the bodies of calls. Faults are named by their member."""

import base64
import binascii
import json
import re
from dataclasses import dataclass

from records import Ask, Finish, GrantRequest, Modes
from rights import DIMENSIONS, compact

LETTERS = "BCDFGHJKLMNPQRSTVWXZ"
LEVELS = 127


class NotJson(Exception):
    """The text is no JSON text that is read."""


class Fault(Exception):
    """A body or a setup isn't of its form: the fault and the member in which it stands."""

    def __init__(self, kind, member):
        super().__init__(kind + " " + member)
        self.kind = kind
        self.member = member


class KeyFault(Fault):
    """A fault of a member of the key at a place of a setup."""

    def __init__(self, place, kind, member):
        super().__init__(kind, member)
        self.place = place


class NoWholeNumber:
    """A number that is no whole one from -2^63 to 2^64 - 1."""


# JSON texts

def depth_of(text):
    depth = deepest = 0
    in_string = escaped = False
    for char in text:
        if in_string:
            in_string = escaped or char != '"'
            escaped = char == "\\" and not escaped
        elif char == '"':
            in_string = True
        elif char in "[{":
            depth += 1
            deepest = max(deepest, depth)
        elif char in "]}":
            depth -= 1
    return deepest


def read_int(digits):
    number = int(digits)
    in_range = -2 ** 63 <= number <= 2 ** 64 - 1 and digits != "-0"
    return number if in_range else NoWholeNumber()


def read_float(digits):
    if float(digits) in (float("inf"), float("-inf")):
        raise NotJson
    return NoWholeNumber()


def refuse_constant(_):
    raise NotJson


def read_json(text):
    """The value of a JSON text, given as bytes."""
    try:
        text = text.decode("utf-8")
        if depth_of(text) > LEVELS:
            raise NotJson
        value = json.loads(text, parse_int=read_int, parse_float=read_float, parse_constant=refuse_constant)
        json.dumps(value, ensure_ascii=False, default=str).encode("utf-8")  # no half of a surrogate pair
        return value
    except ValueError:
        raise NotJson from None


def has_bad_number(value):
    if isinstance(value, dict):
        return any(has_bad_number(item) for item in value.values())
    if isinstance(value, list):
        return any(has_bad_number(item) for item in value)
    return isinstance(value, NoWholeNumber)


# parts of bodies

def is_id(value):
    return isinstance(value, str) and re.fullmatch(r"[A-Za-z0-9._-]{1,64}", value) is not None


def member(value, name):
    if name not in value:
        raise Fault("Missing", name)
    return value[name]


def text_at(value, name, most=None):
    text = member(value, name)
    if not isinstance(text, str) or (most and not text):
        raise Fault("Wrong", name)
    if most and len(text.encode()) > most:
        raise Fault("TooMany", name)
    return text


def texts_at(value, name):
    texts = member(value, name)
    if not isinstance(texts, list) or not all(isinstance(text, str) for text in texts):
        raise Fault("Wrong", name)
    return texts


def object_at(value, name):
    if not isinstance(value[name], dict):
        raise Fault("Wrong", name)
    return value[name]


def choice_at(value, name, choices):
    if member(value, name) not in choices:
        raise Fault("Wrong", name)
    return value[name]


def instance_at(value, name):
    """A key, named by its id or by an object: the id, and whether it was an object."""
    named = member(value, name)
    by_object = isinstance(named, dict)
    instance = member(named, "key") if by_object else named
    if not is_id(instance):
        raise Fault("Wrong", "key" if by_object else name)
    return instance, by_object


def read_right(value):
    wrong = Fault("Wrong", "access")
    if isinstance(value, str):
        kind = value
    elif isinstance(value, dict) and isinstance(value.get("type"), str):
        kind = value["type"]
    else:
        raise wrong
    if not kind:
        raise wrong
    if len(kind.encode()) > 256:
        raise Fault("TooMany", "access")
    if isinstance(value, dict):
        read_dimensions(value)
    return value


def read_dimensions(right):
    count = 1
    for name in DIMENSIONS:
        if name in right:
            texts = right[name]
            if not isinstance(texts, list) or not all(isinstance(text, str) for text in texts) or not texts:
                raise Fault("Wrong", "access")
            if len(texts) > 16:
                raise Fault("TooMany", "access")
            count *= len(texts)
    if not isinstance(right.get("identifier", ""), str):
        raise Fault("Wrong", "access")
    if count > 1_024:
        raise Fault("TooMany", "access")


def read_rights(value):
    if not isinstance(value, list):
        raise Fault("Wrong", "access")
    return [read_right(right) for right in value]


def some_rights(value):
    rights = read_rights(member(value, "access"))
    if not rights:
        raise Fault("Wrong", "access")
    if len(rights) > 16:
        raise Fault("TooMany", "access")
    return rights


def bound_text(rights, name):
    if len(compact(rights).encode()) > 4_096:
        raise Fault("TooMany", name)


# grant requests and modifications

def read_ask(value, in_array, labels):
    """One token request, and whether a flag stands twice in it."""
    if not isinstance(value, dict):
        raise Fault("Wrong", "access_token")
    rights = some_rights(value)
    label = text_at(value, "label", 64) if in_array or "label" in value else None
    if in_array and label in labels:
        raise Fault("Wrong", "label")
    labels.append(label)
    flags = texts_at(value, "flags") if "flags" in value else []
    return Ask(rights, label, "bearer" in flags), len(set(flags)) < len(flags)


def read_asks(value):
    asked = value["access_token"]
    single = isinstance(asked, dict)
    if not single and (not isinstance(asked, list) or not asked):
        raise Fault("Wrong", "access_token")
    labels = []
    asks = [read_ask(one, not single, labels) for one in ([asked] if single else asked)]
    if len(asks) > 8:
        raise Fault("TooMany", "access_token")
    return [ask for ask, _ in asks], single, any(repeated for _, repeated in asks)


def read_user(value):
    if isinstance(value["user"], str):
        return text_at(value, "user", 256)
    sub_ids = member(object_at(value, "user"), "sub_ids")
    if not isinstance(sub_ids, list):
        raise Fault("Wrong", "sub_ids")
    for sub_id in sub_ids:
        if isinstance(sub_id, dict) and sub_id.get("format") == "opaque":
            return text_at(sub_id, "id", 256)
    raise Fault("Wrong", "sub_ids")


# the URIs that this model reads; it gives up where the URL Standard would say more
PLAIN_URI = re.compile(
    r"https?://([a-z][a-z0-9-]*\.)*[a-z][a-z0-9-]*(:[1-9][0-9]{0,3})?(/[a-z0-9_~/-]*)?(\?[a-z0-9._~=&-]*)?", re.IGNORECASE)
NO_FINISH_URI = re.compile(r"(?!https?:)[!-~]*|[!-~]*#[!-~]*|https?:/*", re.IGNORECASE)


def is_finish_uri(uri):
    if PLAIN_URI.fullmatch(uri):
        return True
    if NO_FINISH_URI.fullmatch(uri):
        return False
    raise NotImplementedError(uri)


def read_modes(value):
    interact = object_at(value, "interact")
    start = texts_at(interact, "start")
    finish = None
    if "finish" in interact:
        told = object_at(interact, "finish")
        method = choice_at(told, "method", ("redirect", "push"))
        uri = text_at(told, "uri", 2_048)
        if not is_finish_uri(uri):
            raise Fault("Wrong", "uri")
        nonce = text_at(told, "nonce", 256)
        long = "hash_method" in told and choice_at(told, "hash_method", ("sha-256", "sha-512")) == "sha-512"
        finish = Finish(method == "push", uri, nonce, long)
    return Modes("redirect" in start, "user_code" in start, "user_code_uri" in start, finish)


def read_grant(value, modify):
    request = GrantRequest([])
    if "access_token" in value:
        request.asks, request.single, request.repeats_flag = read_asks(value)
    if "subject" in value:
        request.subject = "opaque" in texts_at(object_at(value, "subject"), "sub_id_formats")
    if not request.asks and not request.subject:
        raise Fault("Missing", "access_token")
    if not modify:
        request.client, request.by_object = instance_at(value, "client")
        request.user = read_user(value) if "user" in value else None
    if "interact" in value:
        request.modes = read_modes(value)
    bound_text([right for ask in request.asks for right in ask.rights], "access_token")
    return request


# the other bodies

def read_continue(value):
    return text_at(value, "interact_ref") if "interact_ref" in value else None


def read_rotate(value):
    if "key" in value and not is_id(value["key"]):
        raise Fault("Wrong", "key")
    return value.get("key")


def read_introspect(value):
    presented = text_at(value, "access_token")
    binding = choice_at(value, "proof", ("httpsig", "bearer")) if "proof" in value else None
    server, _ = instance_at(value, "resource_server")
    wanted = some_rights(value) if "access" in value else None
    return presented, binding, server, wanted


def read_code(value):
    code = text_at(value, "code")
    letters = re.sub("[a-z]", lambda letter: letter.group().upper(), code).replace("-", "").replace(" ", "")
    if len(letters) != 8 or any(letter not in LETTERS for letter in letters):
        raise Fault("Wrong", "code")
    return letters


def read_decide(value):
    handle = text_at(value, "handle")
    verdict = choice_at(value, "verdict", ("grant", "deny", "unknown"))
    rights = read_rights(value["access"]) if "access" in value else None
    subject = text_at(value, "subject", 256) if "subject" in value else None
    bound_text(rights or [], "access")
    return handle, verdict, rights, subject


# setups

@dataclass
class Key:
    role: str
    secret: bytes
    auto: list
    ask: list
    serves: list


@dataclass
class Setup:
    base: str
    front: str
    keys: dict

    def role(self, key):
        return self.keys[key].role if key in self.keys else None

    def client(self, key):
        return self.keys[key] if self.role(key) == "client" else None

    def served_by(self, key):
        return self.keys[key].serves if self.role(key) == "server" else []


ROLE_MEMBERS = {"client": {"auto", "ask"}, "server": {"serves"}, "front": set()}


def read_base(value, name):
    text = text_at(value, name)
    fits = re.fullmatch(r"(http|https)://[a-z0-9.-]{1,253}(:[0-9]{1,5})?", text)
    if not fits or fits.group(2) == {"http": ":80", "https": ":443"}[fits.group(1)]:
        raise Fault("Wrong", name)
    return text


def only_members(value, names):
    for name in sorted(value):
        if name not in names:
            raise Fault("Unknown", name)


def read_secret(value):
    text = text_at(value, "secret")
    try:
        secret = base64.b64decode(text, validate=True)
    except (binascii.Error, ValueError):
        raise Fault("Wrong", "secret") from None
    if base64.b64encode(secret).decode() != text or not 16 <= len(secret) <= 64:
        raise Fault("Wrong", "secret")
    return secret


def rights_at(value, name):
    try:
        return read_rights(member(value, name))
    except Fault as fault:
        raise Fault(fault.kind, name) from None


def read_key(value, others):
    """A key's id and what is kept of it, beside the keys before it."""
    value = value if isinstance(value, dict) else {}
    if not is_id(member(value, "id")) or value["id"] in others:
        raise Fault("Wrong", "id")
    role = choice_at(value, "role", tuple(ROLE_MEMBERS))
    secret = read_secret(value)
    auto = rights_at(value, "auto") if role == "client" else []
    ask = rights_at(value, "ask") if role == "client" else []
    names = texts_at(value, "serves") if role == "server" else []
    if len(names) > 256:
        raise Fault("TooMany", "serves")
    only_members(value, {"id", "role", "secret"} | ROLE_MEMBERS[role])
    return value["id"], Key(role, secret, auto, ask, names)


def read_setup(text):
    """The setup of a text; NotJson or Fault where it is none."""
    value = read_json(text)
    if not isinstance(value, dict) or has_bad_number(value):
        raise NotJson
    base, front = read_base(value, "base"), read_base(value, "front")
    rows = member(value, "keys")
    if not isinstance(rows, list):
        raise Fault("Wrong", "keys")
    keys = {}
    for place, row in enumerate(rows):
        try:
            key, entry = read_key(row, keys)
        except Fault as fault:
            raise KeyFault(place, fault.kind, fault.member) from None
        keys[key] = entry
    if len(rows) > 4_096:
        raise Fault("TooMany", "keys")
    only_members(value, {"base", "front", "keys"})
    return Setup(base, front, keys)
