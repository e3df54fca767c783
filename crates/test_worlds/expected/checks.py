"""Values of the standards, and a few replies written out in full, which the rules here have to give before anything is written."""

from calls import interaction_hash
from http_cases import PHOTOS, call, case
from http_forms import reply_bytes
from scripts import V
from rfc_message import BODY, COMPONENTS, MESSAGE, PARAMETERS, SECRET, SIGNATURE
from signatures import digest_field, mac, signature_base
from worlds import outcome
from written_cases import NONCES
from written_answers import count_differences

GRANTED = (
    '{"access_token":{"access":["photos"],"expires_in":3600,"manage":{"access_token":{"value":"AAAAAAAAAAIAAAAAAAAAAAAAAAAAAAAA"},'
    '"uri":"https://as.example/token"},"value":"AAAAAAAAAAEAAAAAAAAAAAAAAAAAAAAA"},'
    '"continue":{"access_token":{"value":"AAAAAAAAAAMAAAAAAAAAAAAAAAAAAAAA"},"uri":"https://as.example/continue","wait":5}}'
)
UNSIGNED = """HTTP/1.1 401 Unauthorized
Content-Type: application/json
Cache-Control: no-store
WWW-Authenticate: GNAP
Content-Length: 35

{"error":{"code":"invalid_client"}}"""


def check_all():
    assert count_differences() == 0
    assert mac(SECRET, signature_base(MESSAGE, "https://example.com", COMPONENTS, PARAMETERS)) == SIGNATURE
    assert interaction_hash(False, *NONCES) == "x-gguKWTj8rQf7d7i3w3UhzvuJ5bpOlKyAlVpLxBffY"
    assert digest_field(BODY) == b"sha-256=:X48E9qOokqqrvdts8nOJRJN3OWDUoyWxBf7kbu9DBPE=:"
    assert V(1, 2 ** 64 - 1, 2 ** 64 - 1) == "AAAAAAAAAAH_____________________"
    assert outcome(case("", [[b"POST /gnap HTTP/1.1\r\nContent-Length: 2\r\n\r\n{}"]], [1_000]))["served"] == [[UNSIGNED.replace("\n", "\r\n")]]
    granted = outcome(case("", [[call("begin", "c1", 1_000, PHOTOS)]], [1_000]))
    assert granted["served"] == [[reply_bytes(200, GRANTED.encode()).decode()]]
