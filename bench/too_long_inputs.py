#!/usr/bin/env python3
"""A file of `replay` or `field`, or a script of `client`, that has 1,073,741,824 bytes or more ends the program with status 8, and nothing is printed.

    bench/too_long_inputs.py

The files take no room on the disk: behind a beginning they have zero bytes that aren't stored. Printed are status, seconds and the memory at most, in
megabytes; `field` and `client` keep the text, or the line, whose end doesn't come: 1.1 GB. It ends with status 1 where a run ended otherwise.
One byte less is no longer too long: `replay` answers its line, which is none, with one line. The program is ./gnap, or the one that GNAP names.
"""

import json
import os
import subprocess
import sys
import tempfile
import time

from signed_http import BASE, SECRETS, SETUP, TOP, text_of

LIMIT = 1_073_741_824
CLIENT = json.dumps({"server": BASE, "resource": "https://rs.example", "id": "c1", "secret": text_of(SECRETS["c1"])})
PROGRAM = os.environ.get("GNAP", os.path.join(TOP, "gnap"))


def file_in(folder, name, front, size):
    path = os.path.join(folder, name)
    with open(path, "wb") as file:
        file.write(front)
        file.truncate(size)
    return path


def run(*words):
    """The status, what was printed, seconds, and the memory at most in megabytes."""
    start = time.monotonic()
    with subprocess.Popen([PROGRAM, *words], stdout=subprocess.PIPE, stderr=subprocess.DEVNULL) as child:
        printed = child.stdout.read()
        _, status, used = os.wait4(child.pid, 0)
        child.returncode = os.waitstatus_to_exitcode(status)
    return child.returncode, printed, time.monotonic() - start, used.ru_maxrss / 1000


def main():
    faults = 0
    setup = SETUP.encode() + b"\n"
    with tempfile.TemporaryDirectory() as folder:
        config = file_in(folder, "client.json", CLIENT.encode(), len(CLIENT))
        for name, want, lines, words in [
            ("replay, as long as the limit", 8, 0, ["replay", file_in(folder, "calls", setup, LIMIT)]),
            ("replay, one byte less", 0, 1, ["replay", file_in(folder, "fewer", setup, LIMIT - 1)]),
            ("field, as long as the limit", 8, 0, ["field", "item", file_in(folder, "field", b"", LIMIT)]),
            ("client, a script as long as the limit", 8, 0, ["client", config, "127.0.0.1:9", file_in(folder, "script", b"", LIMIT)]),
        ]:
            status, printed, seconds, megabytes = run(*words)
            well = status == want and printed.count(b"\n") == lines
            faults += not well
            print(f"{name:<40} status {status}, {printed.count(10)} lines, {seconds:.1f} s, {megabytes:.0f} MB{'' if well else '  NOT SO'}", flush=True)
    sys.exit(1 if faults else 0)


main()
