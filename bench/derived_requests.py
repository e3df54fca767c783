#!/usr/bin/env python3
"""What a request for a derived token costs at `gnap as` with PAIRS, and what pairs cost a client that is in none; in instructions.

    bench/derived_requests.py

`gnap as` with one worker under callgrind, without PAIRS and with a pair of 1 and of 256: grant requests of a client in no pair, and, with PAIRS, of the client
of a pair, which present a live token. They are counted as `bench/requests_over_nonces.py` counts. Printed are the instructions of one, and the ratios.

The program is crates/gnap/out/gnap, or the one that GNAP names.
"""

import base64
import json
import os
import subprocess
import sys
import tempfile

from requests_over_nonces import begin, cost_of, under_callgrind
from signed_http import SECRETS, SETUP, TOP, Served, fresh_nonce, signed_post

MOST_PAIRS = 256


def deriving(place):
    return f"p{place}"


def setup():
    known = json.loads(SETUP)
    for place in range(MOST_PAIRS):
        secret = SECRETS[deriving(place)] = b"secret-key-of-%s" % deriving(place).encode()
        known["keys"].append({"id": deriving(place), "role": "client", "secret": base64.b64encode(secret).decode(), "auto": ["photos"], "ask": []})
    return json.dumps(known)


def pairs(many):
    return json.dumps({"pairs": [{"client": deriving(place), "server": "r1"} for place in range(many)]})


def derived_request(client, parent):
    body = {"access_token": {"access": ["photos"]}, "client": client, "existing_access_token": parent}
    return signed_post("/gnap", client, json.dumps(body).encode(), nonce=fresh_nonce())


def costs(paired, client=None):
    """The instructions of a plain grant request and, where a client of a pair is named, of one for a derived token."""
    with tempfile.TemporaryDirectory() as folder:
        served = Served(1, 1_000_000, under=under_callgrind(folder), setup=setup(), pairs=paired, stderr=subprocess.DEVNULL)
        try:
            if client is None:
                return cost_of(folder, served)
            parent = json.loads(begin(served, 1))["access_token"]["value"]
            return cost_of(folder, served, lambda: derived_request(client, parent))
        finally:
            served.stop()


def main():
    os.environ.setdefault("GNAP", os.path.join(TOP, "crates/gnap/out/gnap"))
    plain = costs(None)
    print(f"without PAIRS: {plain:,.0f} instructions for a grant request", flush=True)
    for many in (1, MOST_PAIRS):
        beside, derived = costs(pairs(many)), costs(pairs(many), deriving(many - 1))
        print(f"{many} pairs: {beside:,.0f} of a client in none, {plain / beside:.3f} of the speed without; {derived:,.0f} for a derived token, {derived / beside:.2f} times", flush=True)


if __name__ == "__main__":
    sys.exit(main())
