"""The table of marks: what `signature-input` tells, written by hand beside each text, and messages that are signed with a nonce.

The signature bases are written out by RFC 9421, section 2.5, and their HMACs are those of Python's `hmac`.
"""

import base64
import hashlib
import hmac

BASE = "https://as.example"
SECRETS = {"c1": b"secret-key-of-c1", "c2": b"secret-key-of-c2"}
BODY = '{"hello": "world"}'
LATEST = 253402301099
NO_MARK = "no mark"


def base64_of(octets):
    return base64.b64encode(octets).decode()


DIGEST = f"sha-256=:{base64_of(hashlib.sha256(BODY.encode()).digest())}:"


def shown(nonce, created):
    return f'"{nonce}" {created}'


# ---- the mark of a message

def a_list(parameters, label="sig1"):
    return f'{label}=("@method" "@target-uri"){parameters}'


def with_nonce(nonce):
    return a_list(f';created=1000;keyid="c1";nonce={nonce};tag="gnap"')


def with_created(created):
    return a_list(f';created={created};keyid="c1";nonce="n1";tag="gnap"')


N1 = a_list(';created=1000;keyid="c1";nonce="n1";tag="gnap"')
OTHER = a_list(';created=7;keyid="c2";nonce="n2";tag="other"', "sig2")
UNMARKED = a_list(';created=1000;keyid="c1";tag="gnap"')

# What the lines of `signature-input` have, and the mark with the tag `gnap`.
NONCES = [
    ('"n1"', shown("n1", 1000)),
    ("n1", NO_MARK),                        # a Token
    (":bjE=:", NO_MARK),                    # a byte sequence
    ("::", NO_MARK),
    ("7", NO_MARK),
    ("1.5", NO_MARK),
    ("?1", NO_MARK),
    ("@1000", NO_MARK),                     # a Date
    ('%"n1"', NO_MARK),                     # a Display String
    ('""', NO_MARK),                        # of no byte
    ('"n"', shown("n", 1000)),              # of 1
    (f'"{64 * "n"}"', shown(64 * "n", 1000)),
    (f'"{65 * "n"}"', NO_MARK),
    (f'"{64 * chr(92) + 64 * chr(92)}"', shown(64 * chr(92), 1000)),   # 64 backslashes, each written as two
    (f'"{65 * chr(92) + 65 * chr(92)}"', NO_MARK),
    ('"a b"', shown("a b", 1000)),
    ('" "', shown(" ", 1000)),
    ('"~!"', shown("~!", 1000)),
    (r'"a\"b\\c"', shown(r'a"b\c', 1000)),
    (r'"a\b"', NO_MARK),                    # no escape, so no field
    ('"a', NO_MARK),
    ("'n1'", NO_MARK),
]
CREATED = [
    ("0", shown("n1", 0)),
    ("-0", shown("n1", 0)),
    ("-1", NO_MARK),
    ("1", shown("n1", 1)),
    ("0001000", shown("n1", 1000)),
    ("1000.0", NO_MARK),
    ('"1000"', NO_MARK),
    ("@1000", NO_MARK),                     # a Date
    ("?1", NO_MARK),
    (str(LATEST), shown("n1", LATEST)),
    (str(LATEST + 1), NO_MARK),
    ("999999999999999", NO_MARK),
    ("-999999999999999", NO_MARK),
    ("1000000000000000", NO_MARK),          # 16 digits, so no field
]
LISTS = [
    ([UNMARKED], NO_MARK),
    ([a_list(';keyid="c1";nonce="n1";tag="gnap"')], NO_MARK),
    ([a_list(';created;keyid="c1";nonce="n1";tag="gnap"')], NO_MARK),
    ([a_list(';created=1000;keyid="c1";nonce;tag="gnap"')], NO_MARK),
    ([a_list(';created=1000;nonce="n1";tag="gnap"')], shown("n1", 1000)),
    ([a_list(';tag="gnap";nonce="n1";created=1000')], shown("n1", 1000)),
    ([a_list(';x=1;created=1000;alg="no";expires=1;nonce="n1";y=@1;z=%"%c3%bc";keyid=7;tag="gnap";w')], shown("n1", 1000)),
    ([a_list(';created=1000;nonce="n1";nonce="n2";tag="gnap"')], shown("n2", 1000)),   # the last of one name counts
    ([a_list(';created=1000;nonce="n1";nonce=n2;tag="gnap"')], NO_MARK),
    ([a_list(';created=1000;created=-1;nonce="n1";tag="gnap"')], NO_MARK),
    ([a_list(';created=-1;created=1000;nonce="n1";tag="gnap"')], shown("n1", 1000)),
    ([a_list(';created=1000;nonce="n1";tag="gnap";tag="other"')], NO_MARK),
    ([a_list(';created=1000;nonce="n1";tag="other";tag="gnap"')], shown("n1", 1000)),
    ([a_list(';created=1000;Nonce="n1";tag="gnap"')], NO_MARK),
    ([a_list(';created=1000;nonce2="n1";tag="gnap"')], NO_MARK),
    (['sig1=("@method";nonce="n1" "@target-uri");created=1000;tag="gnap"'], NO_MARK),
    (['sig1=();created=1000;nonce="n1";tag="gnap"'], shown("n1", 1000)),
    (['sig1=(a 1 :YQ==:);created=1000;nonce="n1";tag="gnap"'], shown("n1", 1000)),
    (['sig1="a";created=1000;nonce="n1";tag="gnap"'], NO_MARK),                   # an item and no list
    (['sig1="a";created=1000;nonce="n1";tag="gnap", ' + a_list(';created=7;nonce="n2";tag="gnap"', "sig2")], shown("n2", 7)),
    ([a_list(';created=1000;nonce="n1";tag=gnap')], NO_MARK),                       # its tag is a Token
    ([a_list(';created=1000;nonce="n1"')], NO_MARK),
    ([OTHER], NO_MARK),
    ([f"{N1}, {OTHER}"], shown("n1", 1000)),
    ([f"{OTHER}, {N1}"], shown("n1", 1000)),
    ([f"{UNMARKED}, {OTHER}"], NO_MARK),
    ([OTHER, N1], shown("n1", 1000)),                                              # two lines of the field
    ([N1, a_list(';created=7;nonce="n2";tag="gnap"', "sig2")], NO_MARK),            # two lists of one tag
    ([f"{N1}, " + a_list(';created=7;nonce="n2";tag="gnap"', "sig2")], NO_MARK),
    ([f"{N1}, " + a_list(';tag="gnap"', "sig2")], NO_MARK),
    ([f"{N1}, " + a_list(';created=7;nonce="n2";tag="gnap"')], shown("n2", 7)),      # two of one label: the last counts
    ([f"{N1}, " + a_list(';created=7;nonce="n2";tag="other"')], NO_MARK),
    ([f"{N1},"], NO_MARK),
    ([""], NO_MARK),
    ([], NO_MARK),
]


def told():
    lists = [([with_nonce(nonce)], mark) for nonce, mark in NONCES] + [([with_created(created)], mark) for created, mark in CREATED] + LISTS
    for tag, rows in (("gnap", lists), ("other", [([f"{N1}, {OTHER}"], shown("n2", 7)), ([N1], NO_MARK)]), ("", [([N1], NO_MARK)])):
        for lines, mark in rows:
            yield "|".join([f"of|{tag}|{BASE}|POST|/gnap|{BODY}"] + [f"signature-input: {line}" for line in lines]), [mark]


# ---- messages that are signed with a nonce

def mac(key, text):
    return base64_of(hmac.new(SECRETS[key], text.encode(), hashlib.sha256).digest())


def plain_base(params):
    """The signature base of `POST /gnap` with the body, with these parameters behind the covered components."""
    return (f'"@method": POST\n"@target-uri": {BASE}/gnap\n"content-digest": {DIGEST}\n'
            f'"@signature-params": ("@method" "@target-uri" "content-digest"){params}')


def signature(key, params, label="sig1"):
    """The member of `signature-input` and that of `signature`."""
    return f'{label}=("@method" "@target-uri" "content-digest"){params}', f"{label}=:{mac(key, plain_base(params))}:"


def message(*signatures):
    inputs, codes = (", ".join(members) for members in zip(*signatures))
    return f"{BASE}|POST|/gnap|{BODY}|host: as.example|content-digest: {DIGEST}|signature-input: {inputs}|signature: {codes}"


def marked(nonce, created=1000, key="c1", tag="gnap"):
    return f';created={created};keyid="{key}";nonce={nonce};tag="{tag}"'


def verified():
    of_c1 = signature("c1", marked('"n1"'))
    of_c2 = signature("c2", marked('"n2"', 900, "c2", "other"), "sig2")
    rows = [
        (1000, "gnap", message(of_c1), f'c1: {shown("n1", 1000)}'),
        (1300, "gnap", message(of_c1), f'c1: {shown("n1", 1000)}'),
        (700, "gnap", message(of_c1), f'c1: {shown("n1", 1000)}'),
        (1301, "gnap", message(of_c1), "Created"),
        (699, "gnap", message(of_c1), "Created"),
        (1000, "other", message(of_c1), "NoTag"),
        (1000, "gnap", message(of_c1, of_c2), f'c1: {shown("n1", 1000)}'),
        (1000, "other", message(of_c1, of_c2), f'c2: {shown("n2", 900)}'),
        (1000, "gnap", message(of_c2, of_c1), f'c1: {shown("n1", 1000)}'),
        (1000, "gnap", message(of_c1, signature("c1", marked('"n2"'), "sig2")), "SeveralTags"),
        (1000, "gnap", message(signature("c1", ';created=1000;keyid="c1";tag="gnap"')), f"c1: {NO_MARK}"),
        (1000, "gnap", message(signature("c1", ';nonce="n1";tag="gnap";x;keyid="c1";created=1000')), f'c1: {shown("n1", 1000)}'),
        (1000, "gnap", message(signature("c1", marked('"n1"') + ";expires=999")), "Expired"),
        (1000, "gnap", message(signature("c1", marked('"n1"') + ';alg="hmac-sha512"')), "Alg"),
        (1000, "gnap", message(signature("c1", marked('"n1"', key="c9"))), "UnknownKey"),
        (1000, "gnap", message((of_c1[0].replace("n1", "n2"), of_c1[1])), "Differs"),
        (1000, "gnap", message((of_c1[0].replace(';nonce="n1"', ""), of_c1[1])), "Differs"),
        (1000, "gnap", message((of_c1[0], of_c2[1].replace("sig2", "sig1"))), "Differs"),
        (1000, "gnap", message(of_c1).replace("world", "World"), "Digest"),
        (1000, "gnap", f"{BASE}|POST|/gnap|{BODY}|content-digest: {DIGEST}|signature-input: {of_c1[0]}", "NoField"),
        (1000, "gnap", message(("sig1=(", of_c1[1])), "NotAField"),
        (1000, "gnap", message(signature("c1", marked('"n1"', "@1000"))), "Malformed"),
        (100, "gnap", message(signature("c1", marked('"n1"', 0))), f'c1: {shown("n1", 0)}'),
        (0, "gnap", message(signature("c1", marked('"n1"', 300))), f'c1: {shown("n1", 300)}'),
        (295, "gnap", message(signature("c1", marked('"n1"', -5))), f"c1: {NO_MARK}"),
        (LATEST - 300, "gnap", message(signature("c1", marked('"n1"', LATEST))), f'c1: {shown("n1", LATEST)}'),
        (LATEST - 299, "gnap", message(signature("c1", marked('"n1"', LATEST + 1))), f"c1: {NO_MARK}"),
    ]
    rows += [(1000, "gnap", message(signature("c1", marked(nonce))), f"c1: {mark}") for nonce, mark in (
        ("n1", NO_MARK), (":bjE=:", NO_MARK), ('""', NO_MARK), ('"n"', shown("n", 1000)),
        (f'"{64 * "n"}"', shown(64 * "n", 1000)), (f'"{65 * "n"}"', NO_MARK))]
    for now, tag, text, answer in rows:
        yield f"verify|{now}|{tag}|{text}", [answer]


# ---- signing

def fields_of(nonce, created):
    params = f';created={created};keyid="c1";nonce="{nonce}";tag="gnap"'
    inputs, codes = signature("c1", params)
    return [f"content-digest: {DIGEST}", f"signature-input: {inputs}", f"signature: {codes}"]


def signed():
    plain = f"{BASE}|POST|/gnap|{BODY}|host: as.example"
    for nonce, created in (("n1", 1000), ("n", 1000), (64 * "n", 1000), ("aZ09._-", 1000), ("n1", 0), ("n1", LATEST), ("n1", LATEST + 1),
                           ("n1", 999999999999999)):
        yield f"sign|{created}|{nonce}|{plain}", fields_of(nonce, created)
    for nonce in ("", 65 * "n", "a b", 'a"b', "a+b", "a\\b", "a/b", "é"):
        yield f"sign|1000|{nonce}|{plain}", ["not a mark to write"]
    yield f"sign|1000000000000000|n1|{plain}", ["not a mark to write"]
    params = ';created=1000;keyid="c1";nonce="n1";tag="gnap"'
    covered = '("@method" "@target-uri" "authorization")'
    text = (f'"@method": DELETE\n"@target-uri": {BASE}/continue\n"authorization": GNAP AAAA\n'
            f'"@signature-params": {covered}{params}')
    yield (f"sign|1000|n1|{BASE}|DELETE|/continue||authorization: GNAP AAAA",
           [f"signature-input: sig1={covered}{params}", f'signature: sig1=:{mac("c1", text)}:'])
    inputs, codes = signature("c1", params)
    yield f"sign|1000|n1|{plain}|content-digest: {DIGEST}", [f"signature-input: {inputs}", f"signature: {codes}"]
    for there in ("signature: sig1=:YQ==:", "signature-input: "):
        yield f"sign|1000|n1|{plain}|{there}", ["HasSignature"]


def rows():
    yield from told()
    yield from verified()
    yield from signed()
