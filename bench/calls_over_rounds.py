#!/usr/bin/env python3
"""What a call of a replay costs, in instructions, while few and while many interactions are live.

    bench/calls_over_rounds.py [MANY]

For n of 1,000 and MANY, 65,500 where it isn't given: a file of n grant requests that ask for a user code and are live to its end, and behind them 32 calls of one kind: a further grant
request with a user code, a look at a handle that none has, a search for a code that one has, a decision. A call's instructions are what the whole file takes
more than its grant requests alone, by 32, counted by valgrind. Printed are both numbers and their ratio. The last line is a file of grant requests whose
random words are all equal. The files are counted side by side, on all processors. The program is crates/gnap/out/gnap, or the one that GNAP names; not
the script ./gnap, since valgrind doesn't follow that to the program.
"""

import base64
import json
import os
import random
import re
import subprocess
import sys
import tempfile
from concurrent.futures import ThreadPoolExecutor

SETUP = {
    "base": "https://as.example",
    "front": "https://front.example",
    "keys": [
        {"ask": ["mail"], "auto": [], "id": "c1", "role": "client", "secret": "c2VjcmV0LWtleS1vZi1jMQ=="},
        {"id": "f1", "role": "front", "secret": "c2VjcmV0LWtleS1vZi1mMQ=="},
    ],
}
CALLS = 32
LETTERS = "BCDFGHJKLMNPQRSTVWXZ"
# A request that asks the user draws two values: the continuation value, and the handle behind it.
VALUES = 2


def line(value):
    return json.dumps(value, separators=(",", ":"), sort_keys=True) + "\n"


def begin(word):
    body = {"access_token": {"access": ["mail"]}, "client": "c1", "interact": {"start": ["user_code"]}}
    return line({"at": 1000, "body": body, "call": "begin", "draw": [0] * 47 + [word], "key": "c1"})


def code_text(word):
    number, letters = word % 20**8, ""
    for _ in range(8):
        number, digit = divmod(number, 20)
        letters = LETTERS[digit] + letters
    return letters


def handle(serial):
    return base64.urlsafe_b64encode(serial.to_bytes(8, "big") + bytes(16)).decode()


def front(call, body):
    return line({"at": 1000, "body": body, "call": call, "key": "f1"})


def calls(kind, words):
    """So many calls of a kind, behind a grant request for each word. The calls spread over the rounds."""
    places = [i * 48_611 % len(words) for i in range(CALLS)]
    if kind == "begin":
        return [begin(random.getrandbits(64)) for _ in places]
    if kind == "look":
        return [front("look", {"handle": handle(10**9 + place)}) for place in places]
    if kind == "find_code":
        return [front("find_code", {"code": code_text(words[place])}) for place in places]
    return [front("decide", {"handle": handle(2 + VALUES * place), "verdict": "deny"}) for place in places]


def instructions(program, folder, lines, wanted):
    with tempfile.NamedTemporaryFile("w", dir=folder, suffix=".jsonl", delete=False) as out:
        out.write("".join([line(SETUP)] + lines))
    counted = ["valgrind", "--tool=cachegrind", "--cache-sim=no", "--cachegrind-out-file=/dev/null", program, "replay", out.name]
    done = subprocess.run(counted, capture_output=True, check=True, text=True)
    replies = done.stdout.splitlines()
    if len(replies) != len(lines) or not all(wanted in reply for reply in replies[-CALLS:]):
        raise SystemExit("not the replies: " + replies[-1])
    return int(re.search(r"I +refs: +([\d,]+)", done.stderr)[1].replace(",", ""))


# What the reply to a call of each kind has.
WANTED = {"begin": '"user_code":', "look": "unknown_interaction", "find_code": '"handle":', "decide": '"finish":"none"'}


def main():
    random.seed(1)
    program = os.environ.get("GNAP", "crates/gnap/out/gnap")
    many = int(sys.argv[1]) if len(sys.argv) > 1 else 65_500
    with tempfile.TemporaryDirectory() as folder, ThreadPoolExecutor(os.cpu_count()) as pool:

        def counted(lines, wanted):
            return pool.submit(instructions, program, folder, lines, wanted)

        runs = {kind: [] for kind in WANTED}
        for rounds in (many, 1_000):
            words = [random.getrandbits(64) for _ in range(rounds)]
            begun = [begin(word) for word in words]
            alone = counted(begun, WANTED["begin"])
            for kind, wanted in WANTED.items():
                runs[kind].append((counted(begun + calls(kind, words), wanted), alone))
        equal = [counted([begin(7)] * rounds, WANTED["begin"]) for rounds in (1_000, 2_000)]
        for kind, pairs in runs.items():
            more, few = ((whole.result() - alone.result()) / CALLS for whole, alone in pairs)
            print(f"{kind}: {few:,.0f} instructions over 1,000 live rounds, {more:,.0f} over {many:,}, {more / few:.2f} times", flush=True)
        few, more = (run.result() for run in equal)
        print(f"words that are all equal: {few:,} instructions for 1,000 grant requests, {more:,} for 2,000, {more / few:.2f} times", flush=True)


if __name__ == "__main__":
    sys.exit(main())
