#!/usr/bin/env python3
"""Lists the functions of the program whose checks are dear, with no proof, in two to five minutes.

usage: scripts/dear_functions.py [NUMBER]    how many are listed; 40, if left out

Most of what a check takes grows with the calls that Rattle makes of a function: those of its code, of each `?`, and of each value that is dropped at an exit.
The same calls stand in what LLVM gets, before it makes it smaller. So the program is built as ./gnap builds it, unproved, and the calls of each function are
counted: some 0.02 MB of what `rt check` keeps as `.Lts` for each. Functions that the program never reaches are not there.
"""

import collections
import os
import re
import subprocess
import sys
import tempfile

TOP = os.path.dirname(os.path.dirname(os.path.abspath(__file__)))
DEFINED = re.compile(r'@("(?:[^"\\]|\\.)*"|[\w.$]+)\(')
# A clang that keeps the module that it is given, and then does what it was asked.
KEEPING_CLANG = """#!/bin/sh
for word do case "$word" in *.bc) cp "$word" "{room}/module.bc";; esac; done
exec "{kit}/toolchain/bin/clang" "$@"
"""


def own_crates():
    """The crates that the program stands on, and its own."""
    script = f'top={TOP}; . "{TOP}/scripts/sources.sh"; crate_names'
    return set(subprocess.run(["sh", "-c", script], capture_output=True, text=True, check=True).stdout.split())


def kit_that_keeps(kit, room):
    """A kit of links, whose clang keeps the module. rt finds its kit by where its own files are, so these are copied."""
    for folder in ("bin", "toolchain/bin"):
        os.makedirs(f"{room}/kit/{folder}")
    for folder in ("", "toolchain", "bin", "toolchain/bin"):
        for name in os.listdir(f"{kit}/{folder}"):
            made = f"{room}/kit/{folder}/{name}"
            if not os.path.lexists(made) and not (folder == "bin" and name in ("rt", "rtlib.py")):
                os.symlink(f"{kit}/{folder}/{name}", made)
    for name in ("rt", "rtlib.py"):
        subprocess.run(["cp", f"{kit}/bin/{name}", f"{room}/kit/bin/{name}"], check=True)
    clang = f"{room}/kit/toolchain/bin/clang"
    os.remove(clang)
    with open(clang, "w", encoding="utf-8") as file:
        file.write(KEEPING_CLANG.format(room=room, kit=kit))
    os.chmod(clang, 0o755)


def module_of_program(room):
    """The text of the module that LLVM gets for the program."""
    page = subprocess.run(["rt", "doc"], capture_output=True, text=True, check=True).stdout
    kit = os.path.dirname(page.strip())
    kit_that_keeps(kit, room)
    with open(f"{room}/log", "w", encoding="utf-8") as log:
        subprocess.run([f"{room}/kit/bin/rt", "try"], cwd=f"{TOP}/crates/gnap", stdin=subprocess.DEVNULL, stdout=log, stderr=log)
    if not os.path.isfile(f"{room}/module.bc"):
        with open(f"{room}/log", encoding="utf-8") as log:
            sys.exit(f"dear_functions: the program was not built; what rt said last:\n{log.read()[-2000:]}")
    words = ["-S", "-emit-llvm", "-Xclang", "-disable-llvm-passes", "-x", "ir", f"{room}/module.bc", "-o", f"{room}/module.ll"]
    subprocess.run([f"{kit}/toolchain/bin/clang", "--target=x86_64-unknown-linux-gnu", *words], check=True)
    return f"{room}/module.ll"


def calls_in(file):
    """How many calls each function has; of a generic one the most that one of its forms has."""
    forms, name = collections.Counter(), None
    with open(file, encoding="utf-8") as lines:
        for line in lines:
            if line.startswith("define"):
                name = DEFINED.search(line).group(1).strip('"')
            elif line.startswith("}"):
                name = None
            elif name and " call " in line:
                forms[name] += 1
    calls = {}
    for form, count in forms.items():
        name = re.sub(r"::<[^>]*>", "", form)
        calls[name] = max(calls.get(name, 0), count)
    return calls


def main():
    if len(sys.argv) > 2 or sys.argv[1:] and not sys.argv[1].isdigit():
        sys.exit(__doc__)
    most = int(sys.argv[1]) if sys.argv[1:] else 40
    own = own_crates()
    with tempfile.TemporaryDirectory() as room:
        calls = {name: count for name, count in calls_in(module_of_program(room)).items() if name.split("::")[0] in own}
    everything = sum(calls.values())
    print(f"{len(calls)} functions of {len(own)} crates, {everything} calls")
    for name in sorted(calls, key=lambda it: (-calls[it], it))[:most]:
        print(f"{calls[name]:6} {100 * calls[name] / everything:5.1f} %  {name}")


main()
