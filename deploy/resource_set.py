"""Registers a set of rights at `gnap sets` by the resource server's key, and has the front's key ask what its reference means (RFC 9767, section 3.4).

    python3 resource_set.py FOLDER PORT

FOLDER has the setups that make_files.py wrote, and PORT is that of the terminator's plain listener.
"""

import base64
import http.client
import json
import sys
from pathlib import Path

from http_signatures import Signer


def asked(port: int, base: str, setup: dict, path: str, body: dict) -> dict:
    """What is answered to a body that the key of a setup signed."""
    text = json.dumps(body).encode()
    signer = Signer(setup["id"], base64.b64decode(setup["secret"]))
    connection = http.client.HTTPConnection("127.0.0.1", port, timeout=20)
    connection.request("POST", path, text, signer.fields("POST", base + path, text))
    reply = connection.getresponse()
    said = reply.read()
    connection.close()
    if reply.status != 200:
        raise SystemExit(f"POST {path}: {reply.status} {said.decode()}")
    return json.loads(said)


def main() -> None:
    """Registers and resolves."""
    folder, port = Path(sys.argv[1]), int(sys.argv[2])
    server = json.loads((folder / "rs.json").read_text())
    front = json.loads((folder / "front.json").read_text())
    access = [route["right"] for route in server["routes"]]
    registered = asked(port, server["server"], server, "/resource", {"access": access, "resource_server": server["id"]})
    reference = registered["resource_reference"]
    print(f"The resource server registered {len(access)} rights. Their reference is {reference}.")
    meaning = asked(port, front["server"], front, "/resolve", {"resource_reference": reference})
    if meaning != {"access": access, "resource_server": server["id"]}:
        raise SystemExit(f"The reference means something else: {meaning}")
    print(f"The front asked what it means: those rights of the resource server {meaning['resource_server']}.")


if __name__ == "__main__":
    main()
