"""Signs HTTP requests by RFC 9421 with HMAC-SHA256, as GNAP asks it (RFC 9635, section 7.3.1).

A signature covers the method, the whole target URI, and, where they are there, the digest of the body (RFC 9530) and the
Authorization field. Each has a nonce of its own, so that a request that is caught and sent again is refused. Where a token moves to
a new key, that key signs too, over the first signature (RFC 9635, section 6.1.1). Only the standard library is needed.
"""

import base64
import hashlib
import hmac
import secrets
import time

LABEL, SECOND_LABEL = "sig1", "sig2"


def _byte_sequence(data: bytes) -> str:
    """A byte sequence as a structured field shows it (RFC 9651, section 3.3.5)."""
    return f":{base64.b64encode(data).decode()}:"


def content_digest(body: bytes) -> str:
    """The value of Content-Digest for a body (RFC 9530, section 2)."""
    return f"sha-256={_byte_sequence(hashlib.sha256(body).digest())}"


class Signer:
    """Signs with one key: its id, as the server knows it, and its secret."""

    def __init__(self, key_id: str, secret: bytes):
        self.key_id = key_id
        self._secret = secret

    def _sign(self, covered: dict[str, str], more: str) -> tuple[str, str]:
        """The list of what is covered, with its parameters, and the signature. `covered` has the value of each component."""
        params = f'({" ".join(covered)});created={int(time.time())};keyid="{self.key_id}";{more}'
        lines = [f"{name}: {value}" for name, value in covered.items()]
        base = "\n".join([*lines, f'"@signature-params": {params}'])
        return params, _byte_sequence(hmac.new(self._secret, base.encode(), hashlib.sha256).digest())

    def fields(
        self, method: str, uri: str, body: bytes | None = None, authorization: str | None = None, new_key: "Signer | None" = None
    ) -> dict[str, str]:
        """The fields of a signed request to this URI, those of its body and its credential included.

        `new_key` is the key to which a token is to move: it signs what is signed here, and the signature with its list.
        """
        fields: dict[str, str] = {}
        covered = {'"@method"': method, '"@target-uri"': uri}
        if body is not None:
            fields["Content-Type"] = "application/json"
            fields["Content-Digest"] = covered['"content-digest"'] = content_digest(body)
        if authorization is not None:
            fields["Authorization"] = covered['"authorization"'] = authorization
        params, signature = self._sign(covered, f'nonce="{secrets.token_urlsafe(16)}";tag="gnap"')
        inputs, signatures = [f"{LABEL}={params}"], [f"{LABEL}={signature}"]
        if new_key is not None:
            first = {f'"signature";key="{LABEL}"': signature, f'"signature-input";key="{LABEL}"': params}
            params, signature = new_key._sign(covered | first, 'tag="gnap-rotate"')
            inputs.append(f"{SECOND_LABEL}={params}")
            signatures.append(f"{SECOND_LABEL}={signature}")
        fields["Signature-Input"] = ", ".join(inputs)
        fields["Signature"] = ", ".join(signatures)
        return fields
