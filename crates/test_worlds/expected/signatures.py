"""Message signatures, written from RFC 9421, RFC 9530 and docs/SIGNATURES.md alone.

A message is a `Request`; names of fields are in lower case, and values have no blanks at their ends. All are bytes.
"""

import base64
import hashlib
import hmac
from dataclasses import dataclass, field

from records import Mark
from structured import NotAField, print_bare, print_inner_list, print_member, print_parameters, read_dictionary

NONCE_BYTES = 64
LATEST_CREATED = 253_402_301_099
FIRST_TAG, SECOND_TAG = "gnap", "gnap-rotate"
DIGESTS = {"sha-256": hashlib.sha256, "sha-512": hashlib.sha512}


@dataclass
class Request:
    method: bytes
    target: bytes
    fields: list = field(default_factory=list)
    body: bytes = b""
    last: bool = False

    def values(self, name):
        return [value for of_field, value in self.fields if of_field == name]

    def joined(self, name):
        """The values of a field's lines in order with `, ` between them; nothing where there is no line."""
        values = self.values(name)
        return b", ".join(values) if values else None


class Fault(Exception):
    """Why a message isn't accepted."""


def digest_field(body):
    return b"sha-256=:" + base64.b64encode(hashlib.sha256(body).digest()) + b":"


def digest_fits(text, body):
    """RFC 9530: each known digest is that of the body, and one at least is there."""
    try:
        digests = read_dictionary(text)
    except NotAField:
        return False
    known = {name: member[0] for name, member in digests.items() if name in DIGESTS}
    return bool(known) and all(bare == ("Binary", DIGESTS[name](body).digest()) for name, bare in known.items())


def component_value(name, message, base):
    scheme, _, authority = base.partition("://")
    path, mark, query = message.target.partition(b"?")
    derived = {
        "@method": message.method,
        "@target-uri": base.encode() + message.target,
        "@authority": authority.encode(),
        "@scheme": scheme.encode(),
        "@path": path or b"/",
        "@query": (mark + query) or b"?",
    }
    if name.startswith("@"):
        return derived.get(name)
    return message.joined(name.encode()) if name == name.lower() else None


def label_of(item):
    """The label of the signature of which a covered component is a part (RFC 9421, section 2.1.2); None where it is none."""
    (_, name), parameters = item
    kind, label = parameters.get("key", (None, None))
    return label if name in ("signature", "signature-input") and len(parameters) == 1 and kind == "String" else None


def member_value(name, label, message):
    """The member under a label of one of the two fields of signatures, as its canonical text."""
    try:
        member = read_dictionary(message.joined(name.encode()) or b"").get(label)
    except NotAField:
        return None
    return None if member is None else print_member(member).encode()


def signature_base(message, base, items, parameters, again=False):
    """The text that is signed. A signature that comes again may cover parts of another one."""
    lines = []
    found = set()
    for item in items:
        (_, name), of_item = item
        label = label_of(item) if again else None
        value = component_value(name, message, base) if label is None else member_value(name, label, message)
        if value is None or (of_item and label is None) or (name, label) in found:
            raise Fault("Unsupported")
        found.add((name, label))
        lines.append((print_bare(("String", name)) + print_parameters(of_item)).encode() + b": " + value)
    lines.append(b'"@signature-params": ' + print_inner_list(items, parameters).encode())
    return b"\n".join(lines)


def mac(secret, text):
    return hmac.new(secret, text, hashlib.sha256).digest()


def must_cover(message):
    names = ["@method", "@target-uri"]
    if message.body:
        names.append("content-digest")
    if message.joined(b"authorization") is not None:
        names.append("authorization")
    return names


def signed(message, base, key, secret, created, nonce=None, tag=FIRST_TAG, names=None, label="sig1", more=(), with_digest=True):
    """The message with a signature; `names` are the covered components where they aren't those that are asked for, `more` further parameters."""
    fields = list(message.fields)
    if message.body and with_digest and message.joined(b"content-digest") is None:
        fields.append((b"content-digest", digest_field(message.body)))
    message = Request(message.method, message.target, fields, message.body, message.last)
    items = [(("String", name), {}) for name in (names or must_cover(message))]
    told = {} if nonce is None else {"nonce": ("String", nonce)}
    parameters = {"created": ("Integer", created), "keyid": ("String", key), **told, "tag": ("String", tag), **dict(more)}
    return with_signature(message, base, secret, label, items, {name: value for name, value in parameters.items() if value is not None})


def with_signature(message, base, secret, label, items, parameters, again=False):
    """The message with a signature under a label. What is signed may have its own list, and not its own bytes."""
    listed = [*message.fields, (b"signature-input", f"{label}={print_inner_list(items, parameters)}".encode())]
    message = Request(message.method, message.target, listed, message.body, message.last)
    code = mac(secret, signature_base(message, base, items, parameters, again))
    message.fields.append((b"signature", f"{label}=".encode() + print_bare(("Binary", code)).encode()))
    return message


def signed_again(message, base, key, secret, created, covers=(("signature", "sig1"), ("signature-input", "sig1")), label="sig2"):
    """The signed message with a signature of a new key over the first one; `covers` is what it covers of signatures, by field and label, or a whole field."""
    items = [(("String", name), {}) for name in must_cover(message)]
    items += [(("String", name), {} if member is None else {"key": ("String", member)}) for name, member in covers]
    parameters = {"created": ("Integer", created), "keyid": ("String", key), "tag": ("String", SECOND_TAG)}
    return with_signature(message, base, secret, label, items, parameters, True)


def lists_tagged(inputs, tag):
    """Those lists of covered components that have this tag, with their labels."""
    return [(label, member) for label, member in inputs.items() if member[0][0] == "list" and member[1].get("tag") == ("String", tag)]


def mark_of(message, tag="gnap"):
    """What the one signature with this tag says of itself, where it does; a nonce has any characters of a String."""
    inputs = message.joined(b"signature-input")
    try:
        found = lists_tagged(read_dictionary(inputs), tag) if inputs is not None else []
    except NotAField:
        return None
    parameters = found[0][1][1] if len(found) == 1 else {}
    (kind, nonce), (moment_kind, created) = (parameters.get(name, (None, None)) for name in ("nonce", "created"))
    fits = (kind == "String" and 0 < len(nonce) <= NONCE_BYTES and moment_kind == "Integer" and 0 <= created <= LATEST_CREATED)
    return Mark(nonce.encode(), created) if fits else None


def tagged_list(message, tag):
    """The one list of covered components with this tag, its parameters, the signature under its label, and the label."""
    inputs, signatures = message.joined(b"signature-input"), message.joined(b"signature")
    if inputs is None or signatures is None:
        raise Fault("NoField")
    try:
        inputs, signatures = read_dictionary(inputs), read_dictionary(signatures)
    except NotAField:
        raise Fault("NotAField") from None
    found = lists_tagged(inputs, tag)
    if len(found) != 1:
        raise Fault("SeveralTags" if found else "NoTag")
    label, ((_, items), parameters) = found[0]
    code = signatures.get(label, (("", None), {}))[0]
    kinds = {"created": "Integer", "expires": "Integer", "keyid": "String", "alg": "String"}
    if (any(bare[0] != "String" for bare, _ in items) or code[0] != "Binary"
            or any(parameters[name][0] != kind for name, kind in kinds.items() if name in parameters)):
        raise Fault("Malformed")
    return items, parameters, code[1], label


def verified(message, base, secrets, now, tag=FIRST_TAG):
    """The id of the key that signed the message; a Fault where there is none."""
    items, parameters, code, _ = tagged_list(message, tag)
    text = signature_base(message, base, items, parameters, tag == SECOND_TAG)
    if not set(must_cover(message)) <= {bare[1] for bare, _ in items}:
        raise Fault("Uncovered")
    value = {name: bare[1] for name, bare in parameters.items()}
    if "created" not in value or abs(value["created"] - now) > 300:
        raise Fault("Created")
    if "expires" in value and now > value["expires"]:
        raise Fault("Expired")
    if value.get("alg", "hmac-sha256") != "hmac-sha256":
        raise Fault("Alg")
    if value.get("keyid") not in secrets:
        raise Fault("UnknownKey")
    if code != mac(secrets[value["keyid"]], text):
        raise Fault("Differs")
    digest = message.joined(b"content-digest")
    if (message.body or digest is not None) and not (digest is not None and digest_fits(digest, message.body)):
        raise Fault("Digest")
    return value["keyid"]


def rotated(message, base, secrets, now):
    """The ids of the old and the new key of a message that both signed, the new one over the old one's signature (RFC 9635, section 6.1.1)."""
    old, new = (verified(message, base, secrets, now, tag) for tag in (FIRST_TAG, SECOND_TAG))
    label, second = tagged_list(message, FIRST_TAG)[3], tagged_list(message, SECOND_TAG)[0]
    covered = {(item[0][1], label_of(item)) for item in second}
    if not {("signature", label), ("signature-input", label)} <= covered:
        raise Fault("NotChained")
    return old, new
