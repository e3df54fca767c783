"""Access rights (RFC 9635, section 8): which atoms a list of rights has, and covering.

A right is kept as the JSON value that was read: a string, or an object with its members.
"""

import itertools
import json

DIMENSIONS = ("actions", "locations", "datatypes", "privileges")
NAMED = ("type", "identifier") + DIMENSIONS


def compact(value):
    """The compact JSON text of a value, members in ascending order of their names."""
    return json.dumps(value, ensure_ascii=False, separators=(",", ":"), sort_keys=True)


def atoms(rights):
    """The set of atoms: a reference is one, an object gives one for each choice of its values."""
    found = set()
    for right in rights:
        if isinstance(right, str):
            found.add(right)
            continue
        # an absent dimension has one value of its own, which no text is
        choices = [[(text,) for text in right[name]] if name in right else [()] for name in DIMENSIONS]
        identifier = (right["identifier"],) if "identifier" in right else ()
        further = compact({name: value for name, value in right.items() if name not in NAMED})
        for choice in itertools.product(*choices):
            found.add((right["type"], choice, identifier, further))
    return found


def covers(granted, wanted):
    return atoms(wanted) <= atoms(granted)


def serves(names, right):
    return (right if isinstance(right, str) else right["type"]) in names


def served_part(rights, names):
    return [right for right in rights if serves(names, right)]
