"""Tells a client that its user decided (RFC 9635, section 4.2)."""

import http.client
from urllib.parse import urlsplit

TIMEOUT = 5


def push(uri: str, body: str) -> bool:
    """Posts the message to the client, follows nothing, and says whether the client took it."""
    parts = urlsplit(uri)
    opened = http.client.HTTPSConnection if parts.scheme == "https" else http.client.HTTPConnection
    connection = opened(parts.hostname, parts.port, timeout=TIMEOUT)
    target = (parts.path or "/") + (f"?{parts.query}" if parts.query else "")
    try:
        connection.request("POST", target, body=body.encode(), headers={"Content-Type": "application/json"})
        return connection.getresponse().status < 300
    except (OSError, http.client.HTTPException):
        return False
    finally:
        connection.close()
