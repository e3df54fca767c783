"""The message of RFC 9421, appendix B.2, with the signature of appendix B.2.5 and the key of appendix B.1.5."""

import base64

from signatures import Request

BODY = b'{"hello": "world"}'
MESSAGE = Request(b"POST", b"/foo?param=Value&Pet=dog", [
    (b"host", b"example.com"), (b"date", b"Tue, 20 Apr 2021 02:07:55 GMT"), (b"content-type", b"application/json"),
], BODY)
SECRET_TEXT = "uzvJfB4u3N0Jy4T7NZ75MDVcr8zSTInedJtkgcu46YW4XByzNJjxBdtjUkdJPBtbmHhIDi6pcl8jsasjlTMtDQ=="
SECRET = base64.b64decode(SECRET_TEXT)
COMPONENTS = [(("String", name), {}) for name in ("date", "@authority", "content-type")]
PARAMETERS = {"created": ("Integer", 1618884473), "keyid": ("String", "test-shared-secret")}
SIGNATURE_TEXT = b"pxcQw6G3AjtMBQjwo8XzkZf/bws5LelbaMk5rGIGtE8="
SIGNATURE = base64.b64decode(SIGNATURE_TEXT)
SIGNATURE_FIELDS = [
    (b"signature-input", b'sig-b25=("date" "@authority" "content-type");created=1618884473;keyid="test-shared-secret"'),
    (b"signature", b"sig-b25=:" + SIGNATURE_TEXT + b":"),
]
