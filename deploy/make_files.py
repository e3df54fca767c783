"""Writes what a deployment for one machine needs into a folder: secrets, the setups of all parts, nginx's configuration, units of systemd.

    python3 make_files.py FOLDER
    python3 make_files.py FOLDER --names as.example.org rs.example.org front.example.org [--ports AS=8401 ..] [--address 0.0.0.0] [--logs FOLDER]

Without names it is for a try on this machine: names that end in .localhost, and free ports. All files can be read by their owner alone, and
none that is there is overwritten. It prints the ports and the numbers of `gnap as` and `gnap sets` as words of a shell:
AS=.. INNER=.. FRONT=.. SETS=.. RS1=.. RS2=.. TLS=.. WORKERS=.. SET_WORKERS=.. QUOTA=..
"""

import argparse
import base64
import contextlib
import json
import os
import random
import re
import secrets
import socket
import sys
from pathlib import Path

HERE = Path(__file__).resolve().parent
# The ports that are taken under names of one's own. INNER is the way of `gnap rs` and the front to `gnap as` and `gnap sets`, TLS that of everybody else.
USUAL_PORTS = {"AS": 8401, "INNER": 8402, "FRONT": 8403, "SETS": 8404, "RS1": 8411, "RS2": 8412, "TLS": 443}
# Ports below those that the system gives to connections that go out.
PORTS = range(20000, 32000)
# More workers than connections that nginx opens (deploy/nginx/gnap.conf), and the largest quota that there is.
NUMBERS = {"WORKERS": 64, "SET_WORKERS": 8, "QUOTA": 1000000}
PROGRAM = "/usr/local/bin/gnap"
UNITS = ("gnap-as.service", "gnap-sets.service", "gnap-rs@.service", "gnap-front.service")


def free_ports(names: list[str]) -> dict[str, int]:
    """A port of 127.0.0.1 for each name, at which nobody listened a moment ago."""
    ports: dict[str, int] = {}
    with contextlib.ExitStack() as held:
        while len(ports) < len(names):
            place = held.enter_context(socket.socket())
            port = random.choice(PORTS)
            try:
                place.bind(("127.0.0.1", port))
            except OSError:
                continue
            ports[names[len(ports)]] = port
    return ports


def new_secret() -> str:
    """A secret of 32 random bytes in base64."""
    return base64.b64encode(secrets.token_bytes(32)).decode()


def write(path: Path, text: str) -> None:
    """Writes a file that its owner alone may read."""
    with os.fdopen(os.open(path, os.O_WRONLY | os.O_CREAT | os.O_EXCL, 0o600), "w") as out:
        out.write(text)


class Setups:
    """The setups of all parts of one deployment, which share names, secrets and rights."""

    def __init__(self, folder: Path, names: list[str], ports: dict[str, int], demo: dict):
        self.folder = folder
        self.ports = ports
        self.demo = demo
        port = "" if ports["TLS"] == 443 else f":{ports['TLS']}"
        self.base = {part: f"https://{name}{port}" for part, name in zip(("as", "rs", "front"), names)}
        self.client = {"id": "print-shop", "secret": new_secret()}
        self.new_key = {"id": "print-shop-2", "secret": new_secret()}
        self.server = {"id": "shelf", "secret": new_secret()}
        self.consent = {"id": "consent", "secret": new_secret()}
        # Another resource server, and the key by which the first one is a client of it.
        self.store = {"id": "store", "secret": new_secret()}
        self.at_store = {"id": "shelf-at-store", "secret": new_secret()}
        self.read = {"type": "calendar", "actions": ["read"], "locations": [f"{self.base['rs']}/calendar"]}
        self.change = {**self.read, "actions": ["read", "write"]}

    def authorization_server(self) -> dict:
        """That of `gnap as` and `gnap sets`."""
        keys = [
            {**self.client, "role": "client", "auto": [], "ask": ["photos", "mail", self.change]},
            {**self.new_key, "role": "client", "auto": [], "ask": []},
            {**self.server, "role": "server", "serves": ["photos", "mail", "calendar"]},
            {**self.at_store, "role": "client", "auto": ["originals"], "ask": []},
            {**self.store, "role": "server", "serves": ["originals"]},
            {**self.consent, "role": "front"},
        ]
        return {"base": self.base["as"], "front": self.base["front"], "keys": keys}

    def pairs(self) -> dict:
        """Which client key belongs to which resource server, that of `gnap as`."""
        return {"pairs": [{"client": self.at_store["id"], "server": self.server["id"]}]}

    def resource_server(self) -> dict:
        """That of `gnap rs`."""
        shown = {"/photos": ("photos", "12 pictures"), "/calendar": (self.read, "3 entries"), "/mail": ("mail", "2 letters")}
        routes = [{"method": "GET", "path": path, "right": right, "text": text} for path, (right, text) in shown.items()]
        return {"base": self.base["rs"], "server": self.base["as"], **self.server, "keys": [self.client, self.new_key], "routes": routes}

    def front(self) -> dict:
        """That of the consent front. The identifiers of its users are drawn, so that they tell nothing."""
        return {
            "listen": f"127.0.0.1:{self.ports['FRONT']}",
            "server": self.base["as"],
            "connect": f"127.0.0.1:{self.ports['INNER']}",
            **self.consent,
            "users": [{**user, "subject": secrets.token_urlsafe(12)} for user in self.demo["users"]],
            "clients": self.demo["clients"],
            "rights": self.demo["rights"],
        }

    def client_of_both(self) -> dict:
        """That of the client in Python."""
        return {
            "server": self.base["as"],
            "resource": self.base["rs"],
            "connect": f"127.0.0.1:{self.ports['TLS']}",
            "trusted": str(self.folder / "certificate.pem"),
            **self.client,
            "new_key": self.new_key,
            "wanted": [
                {"label": "pictures", "access": ["photos", self.change]},
                {"label": "letters", "access": ["mail"], "flags": ["bearer"]},
            ],
        }

    def files(self) -> dict[str, dict]:
        """Each setup, by the name of its file."""
        return {
            "as.json": self.authorization_server(),
            "pairs.json": self.pairs(),
            "rs.json": self.resource_server(),
            "front.json": self.front(),
            "client.json": self.client_of_both(),
        }


def filled(template: str, values: dict[str, object]) -> str:
    """A file of this folder with the values in the place of its @NAMES@."""
    text = (HERE / template).read_text()
    for key, value in values.items():
        text = text.replace(f"@{key}@", str(value))
    return text


def texts(folder: Path, words: argparse.Namespace, ports: dict[str, int]) -> dict[str, str]:
    """The text of each file, by its name."""
    demo = json.loads((HERE / "demo.json").read_text())
    values = {
        **ports,
        **NUMBERS,
        **dict(zip(("AS_NAME", "RS_NAME", "FRONT_NAME"), words.names)),
        "ADDRESS": words.address,
        "LOGS": words.logs or folder / "logs",
        "FOLDER": folder,
        "DEPLOY": HERE,
        "PROGRAM": PROGRAM,
        "SANDBOX": (HERE / "systemd" / "sandbox.conf").read_text(),
    }
    setups = Setups(folder, words.names, ports, demo).files()
    made = {name: json.dumps(said, indent=2) + "\n" for name, said in setups.items()}
    made |= {name: filled(f"nginx/{name}", values) for name in ("nginx.conf", "gnap.conf", "common.conf")}
    return made | {name: filled(f"systemd/{name}", values) for name in UNITS}


def host(text: str) -> str:
    """A name of a host as a base has it (docs/FORMATS.md, section 1)."""
    if not re.fullmatch("[a-z0-9.-]{1,253}", text):
        raise argparse.ArgumentTypeError(f"{text!r} isn't of lower-case letters, digits, dots and hyphens")
    return text


def port_of_part(text: str) -> tuple[str, int]:
    """A part and its port."""
    part, _, port = text.partition("=")
    if part not in USUAL_PORTS or not re.fullmatch("[1-9][0-9]{0,4}", port):
        raise argparse.ArgumentTypeError(f"{text!r} isn't one of {', '.join(USUAL_PORTS)} with = and a port")
    return part, int(port)


def read_words() -> argparse.Namespace:
    """The words of the command."""
    parser = argparse.ArgumentParser(description="Writes what a deployment for one machine needs.")
    parser.add_argument("folder", type=Path, help="where the files are written, and looked for by what they set up")
    parser.add_argument("--names", type=host, nargs=3, metavar=("AS", "RS", "FRONT"), help="names of your own")
    parser.add_argument("--ports", type=port_of_part, nargs="+", default=[], metavar="PART=PORT", help=f"parts: {', '.join(USUAL_PORTS)}")
    parser.add_argument("--address", default="127.0.0.1", help="where nginx takes TLS; all else is on 127.0.0.1")
    parser.add_argument("--logs", type=Path, help="the folder of nginx's logs; `logs` in the folder where it isn't named")
    return parser.parse_args()


def main() -> int:
    """Writes all files, or none where one is there."""
    words = read_words()
    folder = words.folder.resolve()
    ports = dict(USUAL_PORTS) if words.names else free_ports(list(USUAL_PORTS))
    ports.update(words.ports)
    words.names = words.names or ["as.localhost", "rs.localhost", "front.localhost"]
    made = texts(folder, words, ports)
    there = [name for name in made if (folder / name).exists()]
    if there:
        print(f"Nothing is written, since these are there: {', '.join(there)}", file=sys.stderr)
        return 1
    folder.mkdir(mode=0o700, parents=True, exist_ok=True)
    for name, text in made.items():
        write(folder / name, text)
    print(" ".join(f"{name}={value}" for name, value in {**ports, **NUMBERS}.items()))
    return 0


if __name__ == "__main__":
    sys.exit(main())
