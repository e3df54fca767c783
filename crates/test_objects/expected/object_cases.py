"""The lines of the table: a reader's name and a JSON text. `<N|piece>` is N times the piece, in each of which `#` is its place."""

TOKEN = '"access_token":{"access":["p"]}'

# Members of a grant request up to its first fault.
GRANTS = [
    TOKEN + ',"client":"c1","x":{}',
    '"client":"c1"',
    '"access_token":1,"client":"c1"',
    '"access_token":[],"client":"c1"',
    '"access_token":{},"client":"c1"',
    '"access_token":{"access":[]},"client":"c1"',
    '"access_token":{"access":["p",{"type":"t"}]},"client":{"key":"c1"}',
    '"access_token":{"access":["p",{"type":1}]},"client":"c1"',
    '"access_token":{"access":["p"],"flags":1,"label":1}',
    '"access_token":{"access":["p"],"flags":[1]}',
    '"access_token":[{"access":["p"],"label":"a"},{"access":["p"]}]',
    '"access_token":[{"access":["p"],"label":"a"},{"access":["p"],"label":"a"}]',
    '"access_token":[{"access":["p"],"label":"a"},{"access":["p","q"],"flags":["bearer"],"label":"b"}],"client":"c1"',
    '"access_token":{"access":["p"],"flags":["x","bearer","x"]},"client":"c1"',
    '"access_token":{"access":["p"],"flags":["x","bearer"]},"client":"c1"',
    '"subject":1',
    TOKEN,
    TOKEN + ',"client":{"id":"c1"}',
    TOKEN + ',"client":{"key":"c 1"}',
    TOKEN + ',"client":1',
    TOKEN + ',"client":""',
    TOKEN + ',"client":"c 1"',
    TOKEN + ',"client":"c1","interact":1,"user":""',
    TOKEN + ',"client":"c1","interact":1',
    TOKEN + ',"client":"c1","x":1.5',
    '"subject":{"assertion_formats":[1],"sub_id_formats":["email","opaque"]},"client":"c1"',
    '"subject":{"sub_id_formats":["email"]},"client":"c1"',
    '"subject":{"sub_id_formats":[]},"client":"c1"',
    '"subject":[],"client":"c1"',
    '"subject":{},"client":"c1"',
    '"subject":{"sub_id_formats":"opaque"},"client":"c1"',
    '"subject":{"sub_id_formats":["opaque",1]},"client":"c1"',
    TOKEN + ',"user":"u","client":"c1"',
    TOKEN + ',"user":{"sub_ids":[1,{"format":"email"},{"format":["opaque"]},{"format":"opaque","id":"J2G8G8O4AZ"},{"format":"opaque","id":"second"}]},"client":"c1"',
    TOKEN + ',"user":{"sub_ids":[{"format":"email","email":"a@b"}]},"client":"c1"',
    TOKEN + ',"interact":1,"user":{},"client":"c1"',
    TOKEN + ',"user":{"sub_ids":{}},"client":"c1"',
    TOKEN + ',"user":{"sub_ids":[{"format":"opaque"}]},"client":"c1"',
    TOKEN + ',"user":{"sub_ids":[{"format":"opaque","id":""}]},"client":"c1"',
    TOKEN + ',"user":1,"client":"c1"',
]

# Members `interact` of a modification.
OFFERS = [
    '{"start":[]}',
    '{"hints":1,"start":["app","redirect"]}',
    '{"start":["user_code_uri","user_code"]}',
    '{"finish":{"hash_method":"sha-512","method":"push","nonce":"VJLO","uri":"http://c.example"},"start":["user_code_uri"]}',
    '{"finish":{"hash_method":"sha-256","method":"push","nonce":"VJLO","uri":"http://c.example"},"start":["user_code_uri"]}',
    '[]',
    '{"finish":1}',
    '{"finish":1,"start":{}}',
    '{"finish":1,"start":["redirect",{"mode":"x"}]}',
    '{"finish":1,"start":[]}',
    '{"finish":{"uri":1},"start":[]}',
    '{"finish":{"method":"post","uri":1},"start":[]}',
    '{"finish":{"method":"push","nonce":1},"start":[]}',
    '{"finish":{"method":"push","nonce":1,"uri":""},"start":[]}',
    '{"finish":{"method":"push","nonce":1,"uri":"ftp://c.example"},"start":[]}',
    '{"finish":{"method":"push","nonce":1,"uri":"https://c.example/#f"},"start":[]}',
    '{"finish":{"hash_method":1,"method":"push","uri":"https://c.example"},"start":[]}',
    '{"finish":{"hash_method":"sha-384","method":"push","nonce":"n","uri":"https://c.example"},"start":[]}',
]

INTROSPECTIONS = [
    '"access_token":"","resource_server":"r1","x":1',
    '"resource_server":"r1"',
    '"access_token":{},"resource_server":"r1"',
    '"access_token":"v","proof":"bearer","resource_server":{"key":"r1"}',
    '"access_token":"v","proof":"httpsig","resource_server":"r1"',
    '"access_token":"v","proof":"mtls"',
    '"access":[],"access_token":"v"',
    '"access_token":"v","resource_server":{"key":1}',
    '"access_token":"v","resource_server":{}',
    '"access":[],"access_token":"v","resource_server":"r1"',
]

# The bodies of the other calls. The first two lines have none.
BODIES = [
    "continue",
    "rotate",
    'continue {"x":1}',
    'continue {"interact_ref":"4IFWWIKY"}',
    'continue {"interact_ref":""}',
    'continue {"interact_ref":null}',
    'rotate {"x":1}',
    'rotate {"key":"c-1.a_B"}',
    'rotate {"key":""}',
    'rotate {"key":{"key":"c1"}}',
    'look {"handle":"h","x":1}',
    "look {}",
    'look {"handle":["h"]}',
    'find_code {"code":"BCDFGHJK"}',
    'find_code {"code":"lmnp-qrst"}',
    'find_code {"code":"- vW x--Z b C D f "}',
    "find_code {}",
    'find_code {"code":12345678}',
    'find_code {"code":""}',
    'find_code {"code":"BCDFGHJ"}',
    'find_code {"code":"BCDFGHJKL"}',
    'find_code {"code":"BCDFGHJA"}',
    'find_code {"code":"YBCDFGHJ"}',
    'find_code {"code":"BCDF_GHJK"}',
    'decide {"handle":"h","verdict":"grant"}',
    'decide {"access":[],"handle":"","subject":"u","verdict":"deny"}',
    'decide {"access":["p",{"type":"t"}],"handle":"h","verdict":"unknown"}',
    'decide {"access":[<16|"p",>"p"],"handle":"h","verdict":"grant"}',
    'decide {"verdict":"x"}',
    'decide {"access":1,"handle":"h"}',
    'decide {"access":1,"handle":"h","verdict":"Grant"}',
    'decide {"access":"p","handle":"h","subject":"","verdict":"deny"}',
    'decide {"handle":"h","subject":"","verdict":"deny"}',
]

# A length of a text, the text before it and the text behind it: each with the most bytes that it may have, and one more.
LENGTHS = [
    ('{"access_token":{"access":["', 256, '"]},"client":"c1"}'),
    ('{"access_token":{"access":[{"type":"', 256, '"}]},"client":"c1"}'),
    ('{"access_token":{"access":["p"],"label":"', 64, '"},"client":"c1"}'),
    ('{' + TOKEN + ',"client":"', 64, '"}'),
    ('{' + TOKEN + ',"client":"c1","user":"', 256, '"}'),
    ('{' + TOKEN + ',"client":"c1","user":{"sub_ids":[{"format":"opaque","id":"', 256, '"}]}}'),
    ('{' + TOKEN + ',"client":"c1","interact":{"finish":{"method":"push","nonce":"', 256, '","uri":"http://c.example"},"start":[]}}'),
    ('{' + TOKEN + ',"client":"c1","interact":{"finish":{"method":"push","nonce":"n","uri":"http://c.example/', 2_048 - len("http://c.example/"),
     '"},"start":[]}}'),
]

SECRET = '"secret":"c2VjcmV0LWtleS1vZi1jMQ=="'

SETUPS = [
    '{"base":"http://a","front":"http://b","keys":[]}',
    "{}",
    "[]",
    '{"front":"http://b","keys":[]}',
    '{"base":"http://a","keys":[]}',
    '{"base":"http://a","front":"http://b"}',
    '{"base":"http://a","front":"http://b","keys":[],"x":1}',
    '{"base":1,"front":"http://b","keys":[]}',
    '{"base":"http://a","front":"http://b","keys":{}}',
    '{"base":"http://a","front":"http://b","keys":[1]}',
]

BASES = [
    "https://as.example-1:8443", "http://a:443", "http://a:080", "https://a:99999", "http://a:80", "https://a:443", "http://a:", "http://a:123456",
    "http://a:1x", "http://:1", "http://", "http://A", "http://a/", "ftp://a", "", "http://<253|a>", "http://<254|a>",
]

# What a key has beside its id and its secret.
ROLES = [
    '"role":"client","ask":["a"],"auto":[]',
    '"role":"client","auto":[]',
    '"role":"client","ask":["a"]',
    '"role":"client","ask":[{"type":"t"}],"auto":[]',
    '"role":"client","ask":[{"type":1}],"auto":[]',
    '"role":"client","ask":["a"],"auto":[],"serves":[]',
    '"role":"server","serves":["",""]',
    '"role":"server"',
    '"role":"server","serves":"a"',
    '"role":"server","serves":[1]',
    '"role":"front"',
    '"role":"front","x":1.5',
    '"role":"front","x":1',
    '"role":"front","ask":[]',
    '"role":"user"',
    '"role":1',
]

# An id and a secret.
FORMS = [
    ("aZ09._-", "c2VjcmV0LWtleS1vZi1jMQ=="),
    ("<64|z>", "c2VjcmV0LWtleS1vZi1jMQ=="),
    ("<65|z>", "c2VjcmV0LWtleS1vZi1jMQ=="),
    ("", "c2VjcmV0LWtleS1vZi1jMQ=="),
    ("a b", "c2VjcmV0LWtleS1vZi1jMQ=="),
    ("k", "AAAAAAAAAAAAAAAAAAAAAA=="),
    ("k", "AAAAAAAAAAAAAAAAAAAA"),
    ("k", "<21|AAAA>AA=="),
    ("k", "<22|AAAA>"),
    ("k", "c2VjcmV0LWtleS1vZi1jMQ"),
    ("k", "c2VjcmV0LWtleS1vZi1jMR=="),
    ("k", "c2VjcmV0LWtleS1vZi1jM_=="),
    ("k", ""),
]


def listed(text, count):
    """So many strings of this text, between commas."""
    return f'<{count - 1}|"{text}",>"{text}"'


def asked(rights):
    return f'grant {{"access_token":{{"access":[{rights}]}},"client":"c1"}}'


def dimensions():
    """Rights with so many values in each dimension. After 1,024 the next number of atoms that a right can come to is 1,029."""
    for actions, locations, datatypes, privileges in [
        (16, 1, 1, 1), (17, 1, 1, 1), (1, 16, 1, 1), (1, 17, 1, 1), (1, 1, 16, 1), (1, 1, 17, 1), (1, 1, 1, 16), (1, 1, 1, 17), (16, 16, 2, 2), (7, 7, 7, 3),
    ]:
        yield asked(f'{{"actions":[{listed("read", actions)}],"datatypes":[{listed("image", datatypes)}],"locations":[{listed("https://a", locations)}],'
                    f'"privileges":[{listed("own", privileges)}],"type":"t"}}')


def bounds():
    """Counts and sums of lengths, each as large as it may be and larger by one."""
    for count in (16, 17):
        yield asked(listed("p", count))
        yield f'introspect {{"access":[{listed("a" * (256 if count == 16 else 1), count)}],"access_token":"v","resource_server":"r1"}}'
    yield 'introspect {"access":["<257|a>"],"access_token":"v","resource_server":"r1"}'
    longest = listed("a" * 256, 15)
    # The array of the rights has two bytes, and each right its text, two quotes and, if it isn't the first, a comma.
    for length in (207, 208):
        yield asked(f'{longest},"<{length}|b>"')
        yield (f'grant {{"access_token":[{{"access":[{longest}],"label":"a"}},{{"access":["<{length}|b>"],"label":"b"}}],"client":"c1"}}')
    for length, subject in ((207, 256), (208, 256), (208, 257)):
        yield f'decide {{"access":[{longest},"<{length}|r>"],"handle":"h","subject":"<{subject}|u>","verdict":"grant"}}'
    for count in (8, 9):
        yield f'grant {{"access_token":[<{count - 1}|{{"access":["p"],"label":"#"}},>{{"access":["p"],"label":"last"}}],"client":"c1"}}'
    for length in (64, 65):
        yield f'rotate {{"key":"<{length}|k>"}}'


def with_keys(keys):
    return f'setup {{"base":"http://a","front":"http://b","keys":[{keys}]}}'


def setups():
    for text in SETUPS:
        yield f"setup {text}"
    for base in BASES:
        yield f'setup {{"base":"{base}","front":"http://b","keys":[]}}'
        yield f'setup {{"base":"http://b","front":"{base}","keys":[]}}'
    for members in ROLES:
        yield with_keys(f'{{"id":"k",{SECRET},{members}}}')
    for name, secret in FORMS:
        key = f'{{"id":"{name}","role":"front","secret":"{secret}"}}'
        yield with_keys(key)
        yield with_keys(f"{key},{key}")
    for count in (256, 257):
        yield with_keys(f'{{"id":"k","role":"server",{SECRET},"serves":[{listed("a", count)}]}}')
    for count in (4_096, 4_097):
        yield with_keys(f'<{count - 1}|{{"id":"k#","role":"front",{SECRET}}},>{{"id":"last","role":"front",{SECRET}}}')


def lines():
    for members in GRANTS:
        yield f"grant {{{members}}}"
    yield 'modify {"access_token":{"access":["p"]},"client":1,"user":1}'
    for interact in OFFERS:
        yield f'modify {{{TOKEN},"client":1,"interact":{interact}}}'
    yield f'grant {{{TOKEN},"client":"c","interact":{{"finish":{{"method":"redirect","nonce":"n","uri":"https://c.example/back?a=1"}},"start":["redirect"]}}}}'
    for members in INTROSPECTIONS:
        yield f"introspect {{{members}}}"
    yield from BODIES
    for before, most, after in LENGTHS:
        for length in (most, most + 1):
            yield f"grant {before}<{length}|a>{after}"
    yield from dimensions()
    yield from bounds()
    yield from setups()
