"""Cases whose answers are written by hand: structured fields by RFC 9651, section 4; hashes; and what a person is told on standard error."""

from client_cases import CONFIG_TEXT
from resource_cases import RS_TEXT
from outside_cases import SETUP_TEXT, UNSIGNED
from http_cases import latin
from rights import compact

NO_FIELD = "not in the grammar\n"

# A kind and a text, and the canonical text; None where the text is none of that kind. One LF at the end of a file is no part of the text.
FIELDS = {
    ("dictionary", "a=1, b;x=?0, a=2"): "a=2, b;x=?0",
    ("dictionary", "a, b"): "a, b",
    ("dictionary", "a, (b)"): None,
    ("list", "a, (b)"): "a, (b)",
    ("list", "(  a  :YQ: );x=?1 ,b"): "(a :YQ==:);x, b",
    ("list", "a, b,"): None,
    ("list", ""): "",
    ("list", "\n"): "",
    ("item", ""): None,
    ("item", "a, b"): None,
    ("item", "999999999999999"): "999999999999999",
    ("item", "1000000000000000"): None,
    ("item", "1.50"): "1.5",
    ("item", "1."): None,
    ("item", "-0"): "0",
    ("item", ":YQ:"): ":YQ==:",
    ("item", ":YR==:"): None,
    ("item", "a\n"): "a",
    ("item", "a\n\n"): None,
    ("item", "a\r\n"): None,
}

# The four texts of RFC 9635, section 4.2.3.
NONCES = ["VJLO6A4CATR0KRO", "MBDOFXG4Y5CVJCX821LH", "4IFWWIKYB2PQ6U56NL1", "https://server.example.com/tx"]

FRONT_ALONE = '{"base":"https://a","front":"https://b","keys":[{"id":"f1","role":"front","secret":"x"}]}'
NO_JSON = "it is no JSON at line 1, column 1\n"

NO_NONCE = "gnap: line 2: member `nonce` isn't 1 to 64 letters, digits, `.`, `_` or `-`\n"
NO_MOMENT = "gnap: line 1: member `at` isn't a moment (0 to 253402300799, in seconds since 1970)\n"
NONCE_FORM = "nonce (1 to 64 letters, digits, `.`, `_` or `-`, the first of them no `-`)\n"
SIGN_USAGE = """usage:
  gnap sign CONFIG KEY CREATED FILE  prints the request in FILE, signed by KEY of CONFIG at CREATED (0 to 253402300799, seconds since 1970)
  gnap sign CONFIG KEY CREATED FILE NONCE  the same, with NONCE in the signature (1 to 64 letters, digits, `.`, `_` or `-`)
"""
VERIFY_USAGE = """usage:
  gnap verify CONFIG NOW FILE  prints which key of the setup signed the request in FILE, at the moment NOW (0 to 253402300799, seconds since 1970)
"""
AS_USAGE = """usage:
  gnap as CONFIG LISTEN WORKERS QUOTA  serves the setup in CONFIG over HTTP, by WORKERS (1 to 64), each for QUOTA connections (0 to 1000000)
  gnap as CONFIG LISTEN WORKERS QUOTA PAIRS  the same, and derives tokens for the servers in PAIRS from those presented to them
"""
SETS_USAGE = """usage:
  gnap sets CONFIG LISTEN WORKERS QUOTA  has the servers in CONFIG register sets of rights over HTTP, by WORKERS (1 to 64), each for QUOTA connections
"""
REPLAY_USAGE = """usage:
  gnap replay FILE            answers the calls in FILE, whose first line is a setup
"""

NO_PAIRS = "gnap: f has no pairs of the setup: "
CLIENT_FORM = "the id of a key of the setup in the role `client`, which no other pair has"
SERVER_FORM = "the id of a key of the setup in the role `server`"


def pair(client, server, **more):
    return compact({"pairs": [{"client": client, "server": server, **more}]})


# The words, the text of the file f, and what a person is told.
TOLD = [
    (["replay", "f"], "{}", "gnap: the first line of f is no setup: member `base` is missing\n"),
    (["replay", "f"], FRONT_ALONE, "gnap: the first line of f is no setup: member `secret` isn't of its form: base64 with padding, of 16 to 64 bytes, in the key `f1` at place 0 of `keys`, counted from 0\n"),
    (["replay", "f"], "[", "gnap: the first line of f is no setup: " + NO_JSON),
    (["replay", "g"], "", "gnap: g can't be opened or read\n"),
    (["verify", "f", "0", "s"], "x", "gnap: f is no setup: " + NO_JSON),
    (["verify", "s", "253402300799", "f"], "x", "gnap: the message in f is refused for what was printed\n"),
    (["sign", "g", "k", "0", "f"], "x", "gnap: g or f can't be opened or read\n"),
    (["sign", "s", "k", "0", "g"], "x", "gnap: s or g can't be opened or read\n"),
    (["field", "item", "f"], "1.", "gnap: f isn't a valid field\n"),
    (["as", "s", "b", "1", "1"], "x", "gnap: s or b can't be opened or read\n"),
    (["as", "s", "b", "1", "1", "f"], pair("c1", "r1"), "gnap: s, f or b can't be opened or read\n"),
    (["as", "f", "a", "1", "1", "s"], "{}", "gnap: f is no setup: member `base` is missing\n"),
    (["as", "s", "a", "1", "1", "f"], "{}", NO_PAIRS + "member `pairs` is missing\n"),
    (["as", "s", "a", "1", "1", "f"], "[", NO_PAIRS + NO_JSON),
    (["as", "s", "a", "1", "1", "f"], "[]", NO_PAIRS + "it is JSON, but no object\n"),
    (["as", "s", "a", "1", "2", "f"], '{"pairs":[]}', NO_PAIRS + "member `pairs` isn't of its form: an array of 1 to 256 objects\n"),
    (["as", "s", "a", "1", "3", "f"], pair("r1", "r1"), NO_PAIRS + f"member `client` isn't of its form: {CLIENT_FORM}\n"),
    (["as", "s", "a", "1", "4", "f"], pair("c1", "c1"), NO_PAIRS + f"member `server` isn't of its form: {SERVER_FORM}\n"),
    (["as", "s", "a", "1", "5", "f"], pair("c1", "r1", x=1), NO_PAIRS + "member `x` isn't known here\n"),
    (["as", "s", "a", "0", "1", "f"], "x", "gnap: `0` is no number of workers (1 to 64)\n" + AS_USAGE),
    (["as", "s", "a", "1", "1", "-f"], "x", "gnap: `-f` is no argument: an argument isn't empty, and doesn't begin with `-`\n" + AS_USAGE),
    (["as", "s", "a", "1"], "x", "gnap: `as` takes 4 or 5 words after it, and there are 3\n" + AS_USAGE),
    (["sets", "s", "a", "1", "1", "f"], "x", "gnap: `sets` takes 4 words after it, and there are 5\n" + SETS_USAGE),
    (["client", "f", "a", "s"], "{}", "gnap: f is no configuration: member `server` is missing\n"),
    (["client", "f", "a", "s"], CONFIG_TEXT, "gnap: line 1: member `at` is missing\ngnap: a line of s wasn't ok\n"),
    (["client", "g", "a", "f"], "x", "gnap: g, a or f can't be opened or read\n"),
    (["client", "c", "a", "f"], '\n{"at":1,"nonce":"a b","do":"poll"}', "gnap: line 1: it is no JSON\n" + NO_NONCE + "gnap: a line of f wasn't ok\n"),
    (["client", "c", "a", "f"], '{"at":-1,"nonce":"","do":"poll"}', NO_MOMENT + "gnap: a line of f wasn't ok\n"),
    (["sign", "f", "k", "0", "f", "a b"], "x", f"gnap: `a b` is no {NONCE_FORM}" + SIGN_USAGE),
    (["sign", "f", "k", "0", "f", "-a"], "x", f"gnap: `-a` is no {NONCE_FORM}" + SIGN_USAGE),
    (["sign", "f", "k", "-0", "f", "a b"], "x", "gnap: `-0` is no moment (0 to 253402300799, in seconds since 1970)\n" + SIGN_USAGE),
    (["sign", "f", "k", "0"], "x", "gnap: `sign` takes 4 or 5 words after it, and there are 3\n" + SIGN_USAGE),
    (["sign", "f", "k", "0", "f", "n", "m"], "x", "gnap: `sign` takes 4 or 5 words after it, and there are 6\n" + SIGN_USAGE),
    (["verify", "f", "0"], "x", "gnap: `verify` takes 3 words after it, and there are 2\n" + VERIFY_USAGE),
    (["replay"], "x", "gnap: `replay` takes 1 word after it, and there are 0\n" + REPLAY_USAGE),
    (["rs", "s", "a", "a", "1"], "x", "gnap: s is no setup: member `server` is missing\n"),
    (["rs", "f", "a", "b", "1"], latin(RS_TEXT.encode()), "gnap: f, b or a can't be opened or read\n"),
    (["hash", "sha-256", *NONCES], "x", ""),
]

HINTS = {f"told: {' '.join(words)}, {text[:9].strip()}": hint for words, text, hint in TOLD}


def is_token(text):
    return text.isascii() and text.isalpha()


def canonical(kind, text):
    """The canonical text of a field; None where the text is none."""
    return text if is_token(text) else FIELDS[kind, text]


def fields():
    for kind, text in FIELDS:
        yield {"name": f"field: {kind} {text!r}", "words": ["field", kind, "f"], "files": [["f", text]]}
    # A file is read in pieces of 16,384 bytes.
    for count in (1, 16_383, 16_384, 16_385, 32_767):
        yield {"name": f"field: a token of {count} bytes", "words": ["field", "item", "f"], "files": [["f", chr(256)]], "runs": [["a", count]]}
    long = {"words": ["field", "item", "f"], "files": [["f", chr(256)]], "runs": [["a", 20_000]]}
    for read in (1, 2, 3):
        yield {"name": f"field: read {read} fails", **long, "bad_reads": [[read]]}
    yield {"name": "field: the output fails", **long, "bad_writes": [1]}
    for words in (["item"], ["items", "f"], ["", "f"], ["item", "-f"], ["item", ""], ["item", "f", "f"], ["item", "g"]):
        yield {"name": f"field: the words {words}", "words": ["field", *words], "files": [["f", "a"]]}


def hashes():
    for words in [["sha-256", *NONCES], ["sha-512", *NONCES], ["sha-384", *NONCES], ["SHA-256", *NONCES], ["", *NONCES], ["sha-256", *NONCES[:3]],
                  ["sha-256", *NONCES, "x"], ["sha-256", "-n", *NONCES[1:]], ["sha-256", *NONCES[:2], "", NONCES[3]]]:
        yield {"name": f"hash: {words}", "words": ["hash", *words]}
    yield {"name": "hash: the output fails", "words": ["hash", "sha-256", *NONCES], "bad_writes": [1]}


def told():
    for name, (words, text, _) in zip(HINTS, TOLD):
        yield {"name": name, "words": words, "files": [["f", text], ["s", SETUP_TEXT], ["c", CONFIG_TEXT]], "tells": True}


def cut_answers():
    """Commands over a request whose one write fails."""
    for words in (["sign", "s", "c1", "1000", "f"], ["sign", "s", "c9", "1000", "f"], ["verify", "s", "9999", "f"]):
        yield {"name": f"no output for {' '.join(words)}", "words": words, "files": [["f", latin(UNSIGNED)], ["s", SETUP_TEXT]], "bad_writes": [1]}


def cases():
    for part in (fields, hashes, told, cut_answers):
        yield from part()
